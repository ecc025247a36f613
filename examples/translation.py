#!/usr/bin/env python3
"""Writes the captures of examples/gateway.click and examples/balancer.click beside this file: what arrives, as
gateway-lan.pcap, gateway-wan.pcap, balancer-wan.pcap and balancer-rack.pcap, and what is sent, as gateway-to-wan.pcap,
gateway-to-lan.pcap, balancer-to-rack.pcap and balancer-to-wan.pcap. The latter are worked out here, from the standards
and the words of the chains: packets are built anew, with new checksums, and not rewritten.
"""
import os
import struct

import frames

NOON = 1767268800  # 2026-01-01 12:00:00 UTC
PUBLIC, DNS, VIRTUAL = bytes([203, 0, 113, 1]), bytes([198, 51, 100, 9]), bytes([198, 51, 100, 80])
HOSTS = [bytes([10, 0, 0, 5]), bytes([10, 0, 0, 6])]
CLIENTS = [bytes([203, 0, 113, 50 + n]) for n in range(4)]
SERVERS = [bytes([192, 0, 2, 1 + n]) for n in range(3)]
SYN, SYN_ACK, ACK = 0x02, 0x12, 0x10


def datagram(source, source_port, target, target_port, data, ttl=64):
    return frames.ipv4(17, source, target, frames.udp(source, source_port, target, target_port, data), 1, ttl)


def segment(source, source_port, target, target_port, flags, ttl=64):
    """A TCP segment without data (RFC 9293)."""
    head = struct.pack(">HHIIBBHHH", source_port, target_port, 1000, 2000 if flags & 0x10 else 0, 0x50, flags, 8192, 0, 0)
    checksum = 0xFFFF - frames.ones_sum(source + target + struct.pack(">BBH", 0, 6, len(head)) + head)
    return frames.ipv4(6, source, target, head[:16] + struct.pack(">H", checksum) + head[18:], 1, ttl)


def arrived(packet):
    return frames.ethernet(frames.GATEWAY, frames.LAN, 0x0800, packet)


def sent(device, packet):
    return frames.ethernet(bytes([2, 0, 0, 0, 0, device + 0x10]), bytes([2, 0, 0, 0, 0, device]), 0x0800, packet)


def write(here, name, records):
    frames.write_capture(os.path.join(here, name + ".pcap"), [(NOON, 1000 * time, frame) for time, frame in records])


def gateway(here):
    question, other = frames.dns_question(1, "example.com", 1), frames.dns_question(2, "example.org", 1)
    lan = [
        (1, arrived(datagram(HOSTS[0], 50000, DNS, 53, question))),
        (2, arrived(datagram(HOSTS[1], 50000, DNS, 53, question))),
        (3, frames.arp_request(frames.LAN, HOSTS[0], bytes([10, 0, 0, 1]))),
        (4, arrived(datagram(HOSTS[0], 50000, DNS, 53, other))),
    ]
    wan = [
        (5, arrived(datagram(DNS, 53, PUBLIC, 1024, question))),
        (6, arrived(datagram(DNS, 53, PUBLIC, 1025, question))),
        (7, arrived(datagram(DNS, 53, PUBLIC, 1026, question))),
    ]
    to_wan = [
        (1, sent(0x0A, datagram(PUBLIC, 1024, DNS, 53, question, 63))),
        (2, sent(0x0A, datagram(PUBLIC, 1025, DNS, 53, question, 63))),
        (4, sent(0x0A, datagram(PUBLIC, 1024, DNS, 53, other, 63))),
    ]
    to_lan = [
        (5, sent(0x0B, datagram(DNS, 53, HOSTS[0], 50000, question, 63))),
        (6, sent(0x0B, datagram(DNS, 53, HOSTS[1], 50000, question, 63))),
    ]
    for name, records in (("lan", lan), ("wan", wan), ("to-wan", to_wan), ("to-lan", to_lan)):
        write(here, "gateway-" + name, records)


def balancer(here):
    wan = [(1 + n, arrived(segment(client, 40000, VIRTUAL, 80, SYN))) for n, client in enumerate(CLIENTS)]
    wan += [(8, arrived(segment(CLIENTS[1], 40000, VIRTUAL, 80, ACK))), (9, arrived(segment(CLIENTS[1], 40000, VIRTUAL, 22, SYN)))]
    rack = [
        (6, arrived(segment(SERVERS[1], 80, CLIENTS[1], 40000, SYN_ACK))),
        (7, arrived(segment(SERVERS[2], 80, CLIENTS[1], 40000, SYN_ACK))),
    ]
    to_rack = [(1 + n, sent(0x0A, segment(client, 40000, SERVERS[n % 3], 80, SYN, 63))) for n, client in enumerate(CLIENTS)]
    to_rack += [(8, sent(0x0A, segment(CLIENTS[1], 40000, SERVERS[1], 80, ACK, 63)))]
    to_wan = [(6, sent(0x0B, segment(VIRTUAL, 80, CLIENTS[1], 40000, SYN_ACK, 63)))]
    for name, records in (("wan", wan), ("rack", rack), ("to-rack", to_rack), ("to-wan", to_wan)):
        write(here, "balancer-" + name, records)


def main():
    here = os.path.dirname(os.path.abspath(__file__))
    gateway(here)
    balancer(here)


if __name__ == "__main__":
    main()
