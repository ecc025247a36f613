"""Frames and captures for the examples, made from the standards alone: Ethernet II, ARP (RFC 826), IPv4
(RFC 791), UDP (RFC 768), DNS (RFC 1035), and the libpcap file format 2.4 with times in nanoseconds.
"""
import struct

LAN = bytes.fromhex("020000000001")
GATEWAY = bytes.fromhex("020000000002")


def ones_sum(data):
    """The 16-bit ones' complement sum of RFC 1071."""
    if len(data) % 2:
        data += b"\0"
    total = sum(struct.unpack(">%dH" % (len(data) // 2), data))
    while total > 0xFFFF:
        total = (total & 0xFFFF) + (total >> 16)
    return total


def ipv4(protocol, source, target, body, number=1, ttl=64):
    """An IPv4 packet without options."""
    head = struct.pack(">BBHHHBBH", 0x45, 0, 20 + len(body), number % 65536, 0, ttl, protocol, 0) + source + target
    return head[:10] + struct.pack(">H", 0xFFFF - ones_sum(head)) + head[12:] + body


def udp(source, source_port, target, target_port, data):
    """A UDP datagram with its checksum."""
    length = 8 + len(data)
    pseudo = source + target + struct.pack(">BBH", 0, 17, length)
    head = struct.pack(">HHH", source_port, target_port, length)
    checksum = 0xFFFF - ones_sum(pseudo + head + b"\0\0" + data)
    return head + struct.pack(">H", checksum or 0xFFFF) + data


def ethernet(target, source, ether_type, data):
    return target + source + struct.pack(">H", ether_type) + data


def arp_request(mac, address, asked):
    body = bytes.fromhex("0001080006040001") + mac + address + bytes(6) + asked
    return ethernet(b"\xff" * 6, mac, 0x0806, body)


def dns_question(number, name, kind):
    labels = b"".join(bytes([len(label)]) + label.encode() for label in name.split(".")) + b"\0"
    return struct.pack(">HHHHHH", number, 0x0100, 1, 0, 0, 0) + labels + struct.pack(">HH", kind, 1)


def routed(frame, source, target):
    """What a router with one line does with a frame: None where it is dropped, else the frame with one hop
    less to live behind a new Ethernet header."""
    packet = frame[14:]
    if len(packet) < 20 or packet[0] != 0x45 or ones_sum(packet[:20]) != 0xFFFF or packet[8] < 2:
        return None
    packet = packet[:int.from_bytes(packet[2:4], "big")]
    head = packet[:8] + bytes([packet[8] - 1]) + packet[9:10] + b"\0\0" + packet[12:20]
    head = head[:10] + struct.pack(">H", 0xFFFF - ones_sum(head)) + head[12:]
    return ethernet(target, source, 0x0800, head + packet[20:])


def is_ipv4(frame):
    return frame[12:14] == b"\x08\x00"


def write_capture(name, records):
    """Writes (seconds, nanoseconds, frame) as a little-endian capture with times in nanoseconds."""
    with open(name, "wb") as out:
        out.write(struct.pack("<IHHiIII", 0xA1B23C4D, 2, 4, 0, 0, 262144, 1))
        for seconds, nanoseconds, frame in records:
            out.write(struct.pack("<IIII", seconds, nanoseconds, len(frame), len(frame)) + frame)
