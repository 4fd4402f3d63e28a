#!/usr/bin/env python3
"""What the program speed has to count, worked out without it: one sender of the longest frames, from a new table on.

usage: python3 tools/expected_speed.py [CONTROLLERS BIT_TIMES]
"""

import sys

IDLE_WAIT, TX_WAIT = 10, 20


def crc(message):
    register = 0xFFFF
    for byte in message:
        register ^= byte
        for _ in range(8):
            register = (register >> 1) ^ (0xA001 if register & 1 else 0)
    return register


def levels(message):
    for byte in [*message, crc(message) % 256, crc(message) // 256]:
        yield from [0, *((byte >> i) & 1 for i in range(8)), 1]


def main(controllers=16, bit_times=20_000):
    frame = list(levels([0x0C, 0xFF, 253] + [0x55] * 253))
    left, ones, frames, high = [], 0, 0, 0
    for _ in range(bit_times):
        if not left and ones >= IDLE_WAIT + TX_WAIT:
            left = frame[::-1]
        sends = bool(left)
        level = left.pop() if left else 1
        frames += sends and not left
        high += level
        ones = min(ones + 1, 510) if level else 0
    print(f"{controllers} controllers, {bit_times} bit times")
    print(f"frames sent {frames}\npages made ready {frames * controllers}\nlevels 1 {high}")


if __name__ == "__main__":
    main(*map(int, sys.argv[1:]))
