#!/usr/bin/env python3
"""Runs the patch program on damaged frames and compares what it prints with reference.py.

    damaged.py SEED COUNT PROGRAM [ARGUMENT...]

First every place of the longest line of each kind with each byte that lies beside a digit in the character set; then COUNT inputs with
up to three random damages. The first difference is printed with its input, and ends it with status 1.
"""
import random
import subprocess
import sys

import reference

BESIDE = b"\n/:@G`g"  # a line feed, and what lies beside 0 to 9, A to F and a to f
OTHERS = b"\r \x00\x7f\x80\xff"
DIGITS = b"0123456789abcdefABCDEF"


def good(rng, sizes):
    """Frames with section lines of these sizes, rows and records, in digits of either case."""
    section = [rng.randbytes(n) for n in sizes]
    lines = [bytes([1]) + (0x1000).to_bytes(8, "big") + bytes(8)]
    lines += [bytes([2]) + part for part in section]
    lines += [bytes([3, 63]) + bytes(7) + rng.randbytes(48) for _ in range(3)]
    lines += [bytes([4]) + bytes(24) for _ in range(3)]
    return [line.hex().encode() if rng.random() < 0.5 else line.hex().upper().encode() for line in lines]


def beside_digits(rng):
    """Each line damaged at each of its places."""
    lines = good(rng, [64])
    for i in (0, 1, 2, len(lines) - 1):
        for at in range(len(lines[i])):
            for b in BESIDE:
                bad = lines[i][:at] + bytes([b]) + lines[i][at + 1 :]
                yield b"\n".join(lines[:i] + [bad] + lines[i + 1 :]) + b"\n"


def damage(rng, data):
    at = rng.randrange(len(data) + 1)
    lines = data.split(b"\n")
    i, j = rng.randrange(len(lines)), rng.randrange(len(lines))
    kind = rng.randrange(7)
    if kind == 0:
        return data[:at] + bytes([rng.choice(BESIDE + OTHERS + DIGITS)]) + data[at + 1 :]
    if kind == 1:
        return data[:at] + data[at + rng.choice((1, 1, 2, 16)) :]
    if kind == 2:
        return data[:at] + rng.choice((b"0", b"00", b"\n", b"\r\n", b" ", b"f" * 16)) + data[at:]
    if kind == 3:
        return data[:at]
    if kind == 4:
        lines[i], lines[j] = lines[j], lines[i]
    elif kind == 5:
        lines.insert(i, lines[j])
    else:
        del lines[i]
    return b"\n".join(lines)


def at_random(rng, count):
    for _ in range(count):
        data = b"\n".join(good(rng, [rng.choice((1, 2, 7, 8, 9, 15, 16, 17, 63, 64)) for _ in range(rng.randrange(6))]))
        data += rng.choice((b"", b"\n"))
        for _ in range(rng.randrange(4)):
            data = damage(rng, data)
        yield data


if __name__ == "__main__":
    seed, count, program = int(sys.argv[1]), int(sys.argv[2]), sys.argv[3:]
    rng = random.Random(seed)
    refused = accepted = 0
    for data in [*beside_digits(rng), *at_random(rng, count)]:
        try:
            expected = reference.expected(data).encode()
        except AssertionError:  # a record's type that the reference does not know
            continue
        got = subprocess.run(program, input=data, stdout=subprocess.PIPE, check=True).stdout
        if got != expected:
            sys.exit(f"frames: seed {seed}: expected {expected!r}, got {got!r}, for the input\n{data!r}")
        if got.startswith(b"00"):
            accepted += 1
        else:
            refused += 1
    if not refused or not accepted:
        sys.exit(f"frames: seed {seed}: {refused} refused, {accepted} accepted: both are to be seen")
    print(f"frames: seed {seed}, {refused} damaged inputs refused and {accepted} accepted: as expected")
