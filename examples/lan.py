#!/usr/bin/env python3
"""Writes the captures of the examples beside this file: lan.pcap, and what the two chains make of it.

lan.pcap is in microseconds, as most captures are; what Metron writes is in nanoseconds.
"""
import os
import struct

import frames

HOST = bytes([10, 0, 0, 5])
SERVER = bytes([198, 51, 100, 9])
NOON = 1767268800  # 2026-01-01 12:00:00 UTC


def question(number, kind):
    data = frames.dns_question(number, "example.com", kind)
    packet = frames.ipv4(17, HOST, SERVER, frames.udp(HOST, 50000, SERVER, 53, data), number)
    return frames.ethernet(frames.GATEWAY, frames.LAN, 0x0800, packet)


def main():
    here = os.path.dirname(os.path.abspath(__file__))
    request = frames.arp_request(frames.LAN, HOST, bytes([10, 0, 0, 1]))
    arrived = [(NOON, 1, request), (NOON, 250, question(1, 1)), (NOON + 1, 0, request), (NOON + 1, 999999, question(2, 28))]
    with open(os.path.join(here, "lan.pcap"), "wb") as out:
        out.write(struct.pack("<IHHiIII", 0xA1B2C3D4, 2, 4, 0, 0, 262144, 1))
        for seconds, micro, frame in arrived:
            out.write(struct.pack("<IIII", seconds, micro, len(frame), len(frame)) + frame)
    stamped = [(seconds, micro * 1000, frame) for seconds, micro, frame in arrived]
    frames.write_capture(os.path.join(here, "ipv4-only.pcap"), [r for r in stamped if frames.is_ipv4(r[2])])
    source, target = bytes.fromhex("02000000000a"), bytes.fromhex("02000000000b")
    sent = [(seconds, nano, frames.routed(frame, source, target)) for seconds, nano, frame in stamped]
    frames.write_capture(os.path.join(here, "router.pcap"), [r for r in sent if r[2] is not None])


if __name__ == "__main__":
    main()
