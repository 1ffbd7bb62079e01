#!/usr/bin/env python3
"""Draws a call list for measuring: seven lines in ten are cycles, the rest presses, authorities, texts, level orders and signs.

usage: python3 tests/draw_list.py LINES >LIST     the same list for the same number
"""
import random
import sys


def line(draw):
    if draw.random() < 0.7:
        p = draw.choice([0, 0, 1, 5, 40, 100, 300])
        kmh = -(-27 * p // 25)
        return f"cycle {0x8000 + kmh:04x} {p:04x}{p:04x}"
    return draw.choice(
        [
            f"press {draw.randrange(1, 10)}",
            "order authority " + draw.choice(["FS", "OS", "LS"]),
            f"order text {draw.randrange(256)} wanted",
            f"order text {draw.randrange(256)} shown",
            f"order level {draw.randrange(3)}",
            "order sign",
            "record 12345678 400 120 160",
        ]
    )


draw = random.Random(1)
for _ in range(int(sys.argv[1])):
    print(line(draw))
