#!/usr/bin/env python3
"""Packs the requests and answers that crates/service_line/src/tests.rt expects, by Python's struct.

    python3 tools/service_lines.py
"""
import struct


def line(body):
    return (body + bytes([-sum(body) % 256])).hex().upper()


LOW, HIGH = -(2**63), 2**63 - 1
BODIES = {
    "post 0, 1000, 300": b"\x01" + struct.pack(">Hhh", 0, 1000, 300),
    "post 65535, -32768, 32767": b"\x01" + struct.pack(">Hhh", 65535, -32768, 32767),
    "amend 8783, -1, 0": b"\x02" + struct.pack(">Hhh", 8783, -1, 0),
    "amend 65535, 32767, -32768": b"\x02" + struct.pack(">Hhh", 65535, 32767, -32768),
    "choose 0, 0, 0, 0": b"\x03" + struct.pack(">BHHH", 0, 0, 0, 0),
    "choose 2, 1000, 150, 7": b"\x03" + struct.pack(">BHHH", 2, 1000, 150, 7),
    "choose 255, 65535, 65535, 65535": b"\x03" + struct.pack(">BHHH", 255, 65535, 65535, 65535),
    "open 2022, 3, 2": b"\x04" + struct.pack(">HBB", 2022, 3, 2),
    "open 65535, 255, 255": b"\x04" + struct.pack(">HBB", 65535, 255, 255),
    "advise": b"\x05",
    "invoice 0": b"\x06\x00",
    "invoice 255": b"\x06\xff",
    "accepted": b"\x10",
    "refused 3, 27, 0": b"\x11" + struct.pack(">BBI", 3, 27, 0),
    "refused 4, 34, 1": b"\x11" + struct.pack(">BBI", 4, 34, 1),
    "refused 1, 12, 3": b"\x11" + struct.pack(">BBI", 1, 12, 3),
    "refused 3, 25, 65535": b"\x11" + struct.pack(">BBI", 3, 25, 65535),
    "advice 2, 1000, 7507360000": b"\x12" + struct.pack(">BHq", 2, 1000, 7507360000),
    "advice 0, 0, -1": b"\x12" + struct.pack(">BHq", 0, 0, -1),
    "advice 255, 65535, lowest": b"\x12" + struct.pack(">BHq", 255, 65535, LOW),
    "advice 255, 65535, highest": b"\x12" + struct.pack(">BHq", 255, 65535, HIGH),
    "invoice 13, nine amounts": b"\x13" + struct.pack(">B9q", 13, 1, -1, 0, HIGH, LOW, 256, -256, 0, 9),
}

for name, body in BODIES.items():
    print(f"{line(body)}  {name}")
