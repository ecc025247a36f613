#!/usr/bin/env python3
"""Writes a capture of many frames, and what the chains of the examples make of it.

    python3 examples/many.py COUNT FILE [--ipv4-only FILE] [--router FILE]

Frame n, from 0, arrives n microseconds after 2026-01-01: UDP from 10.0.0.0/18 to 198.51.100.0/24 port 53 with
time to live 64, every fifth an ARP request, and every seventh of the rest with time to live 1. All captures are
little-endian with times in nanoseconds. The expected outputs are worked out here, from the standards.
"""
import argparse

import frames

START = 1767225600  # 2026-01-01 00:00:00 UTC


def frame_of(number):
    if number % 5 == 0:
        return frames.arp_request(frames.LAN, bytes([10, 0, 0, 5]), bytes([10, 0, 0, number % 256]))
    source = bytes([10, 0, number // 256 % 64, number % 256])
    target = bytes([198, 51, 100, number % 251])
    body = frames.udp(source, 1024 + number % 50000, target, 53, bytes(32))
    packet = frames.ipv4(17, source, target, body, number, 1 if number % 7 == 0 else 64)
    return frames.ethernet(frames.GATEWAY, frames.LAN, 0x0800, packet)


def main():
    words = argparse.ArgumentParser(description="Writes a capture of many frames.")
    words.add_argument("count", type=int, help="how many frames")
    words.add_argument("file", help="the capture")
    words.add_argument("--ipv4-only", metavar="FILE", help="what examples/ipv4-only.click sends")
    words.add_argument("--router", metavar="FILE", help="what examples/router.click sends")
    given = words.parse_args()
    records = [(START + n // 1000000, n % 1000000 * 1000, frame_of(n)) for n in range(given.count)]
    frames.write_capture(given.file, records)
    if given.ipv4_only:
        frames.write_capture(given.ipv4_only, [r for r in records if frames.is_ipv4(r[2])])
    if given.router:
        source, target = bytes.fromhex("02000000000a"), bytes.fromhex("02000000000b")
        sent = ((seconds, nano, frames.routed(frame, source, target)) for seconds, nano, frame in records)
        frames.write_capture(given.router, [r for r in sent if r[2] is not None])


if __name__ == "__main__":
    main()
