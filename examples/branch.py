#!/usr/bin/env python3
"""Writes the captures of examples/branch.click beside this file: what arrives on two devices, branch-office.pcap and
branch-lab.pcap, and what is sent on three, branch-to-office.pcap, branch-to-lab.pcap and branch-to-uplink.pcap. The
latter are worked out here, from the standards and the words of the chain.
"""
import os

import frames

NOON = 1767268800  # 2026-01-01 12:00:00 UTC
OFFICE, LAB, SERVER = bytes([10, 0, 0, 5]), bytes([10, 0, 1, 7]), bytes([198, 51, 100, 9])
DEVICES = {"office": 0x0A, "lab": 0x0B, "uplink": 0x0C}


def question(source, target, port, ttl=64):
    body = frames.udp(source, 50000, target, port, frames.dns_question(1, "example.com", 1))
    return frames.ethernet(frames.GATEWAY, frames.LAN, 0x0800, frames.ipv4(17, source, target, body, 1, ttl))


def address(frame):
    return frame[30:34]


def port(frame):
    return int.from_bytes(frame[36:38], "big")


def way(device, frame):
    """The device on which a frame is sent, None where it is dropped."""
    if not frames.is_ipv4(frame) or port(frame) == 22:
        return None
    if address(frame)[:3] == bytes([10, 0, 1]):
        return None if device == "office" else "lab"
    return "office" if address(frame)[:3] == bytes([10, 0, 0]) else "uplink"


def main():
    here = os.path.dirname(os.path.abspath(__file__))
    arrived = {
        "office": [
            (NOON, 1000, frames.arp_request(frames.LAN, OFFICE, bytes([10, 0, 0, 1]))),
            (NOON, 3000, question(OFFICE, SERVER, 53)),
            (NOON, 5000, question(OFFICE, LAB, 53)),
            (NOON + 1, 0, question(OFFICE, SERVER, 22)),
            (NOON + 1, 4000, question(OFFICE, SERVER, 53, 1)),
        ],
        "lab": [
            (NOON, 2000, question(LAB, OFFICE, 53)),
            (NOON, 3000, question(LAB, SERVER, 53)),
            (NOON + 1, 0, question(LAB, bytes([10, 0, 1, 8]), 53)),
        ],
    }
    for device, records in arrived.items():
        frames.write_capture(os.path.join(here, "branch-%s.pcap" % device), records)
    # By time, and at one time the office, device 1, first.
    merged = sorted((r[0], r[1], number, device, r[2]) for number, device in enumerate(("office", "lab")) for r in arrived[device])
    for name, mac in DEVICES.items():
        source, target = bytes([2, 0, 0, 0, 0, mac]), bytes([2, 0, 0, 0, 0, mac + 0x10])
        sent = [(s, n, frames.routed(f, source, target)) for s, n, _, device, f in merged if way(device, f) == name]
        frames.write_capture(os.path.join(here, "branch-to-%s.pcap" % name), [r for r in sent if r[2] is not None])


if __name__ == "__main__":
    main()
