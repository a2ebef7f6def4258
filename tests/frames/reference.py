#!/usr/bin/env python3
"""What the patch program must print, worked out from document 01's "Frames" and document 02's A1 and A2, and not from the code or its
definitions.

    reference.py < INPUT > OUTPUT      the expected output
    reference.py large NAME            the input of a large case, on standard output
    reference.py large                 the names of the large cases
    reference.py stored NAME.in...     fails where the NAME.out beside it is not the expected output

Of the relocation types it knows type 0, which does nothing, type 66, of the paper's example, and types 71 and 72, of a pair: the tests of
the frames need no other.
"""
import sys

SECTION, RECORDS, ROWS = 65536, 2048, 1024
DIGITS = b"0123456789abcdefABCDEF"


class Refusal(Exception):
    """A number, its place and its offset."""

    def __init__(self, number, place, offset=0):
        super().__init__(number, place, offset)


def frames(data):
    """The two numbers, the section, the rows and the records, each as bytes; or a refusal."""
    lines = data.split(b"\n")
    if lines[-1] == b"":  # a last line that is ended, or no input at all
        lines.pop()
    if not lines:
        raise Refusal(17, 0)
    address = gp = None
    section, rows, records = bytearray(), [], []
    last = None
    for number, line in enumerate(lines):
        bad = Refusal(17, number)
        if len(line) % 2 or line.strip(DIGITS):
            raise bad
        frame = bytes.fromhex(line.decode("ascii"))
        if not frame:
            raise bad
        kind, body = frame[0], frame[1:]
        sizes = {1: (16, 16), 2: (1, 64), 3: (56, 56), 4: (24, 24)}
        if kind not in sizes or not sizes[kind][0] <= len(body) <= sizes[kind][1]:
            raise bad
        if (last is None) != (kind == 1):  # one 01, first
            raise bad
        if last is not None and kind < last:
            raise bad
        last = kind
        if kind == 1:
            address, gp = int.from_bytes(body[:8], "big"), int.from_bytes(body[8:], "big")
        elif kind == 2:
            if len(section) + len(body) > SECTION:
                raise Refusal(1, 0)
            section += body
        elif kind == 3:
            if len(rows) + 1 > ROWS:
                raise Refusal(1, 2)
            rows.append(body)
        else:
            if len(records) + 1 > RECORDS:
                raise Refusal(1, 1)
            records.append(body)
    return address, gp, section, rows, records


def word(b, at):
    return int.from_bytes(b[at : at + 8], "little")


def with_field(kind, old, x, pc, refuse):
    """The word with its field of S+A, at this PC."""
    if kind == 71:  # the upper part, after adding 800h, less PC's: bits [31..12] go to [24..5]
        upper = (x + 0x800) % 2**64 // 4096 - pc // 4096
        return old & ~(0xFFFFF << 5) | (upper & 0xFFFFF) << 5
    if kind == 72:  # bits [11..0] go to [21..10]
        return old & ~(0xFFF << 10) | (x & 0xFFF) << 10
    value = (x - pc) % 2**64
    if value >= 2**63:
        value -= 2**64
    if value >= 2**27:
        raise refuse(14)
    if value < -(2**27):
        raise refuse(18)
    if value % 4:
        raise refuse(15)
    # bits [27..18] go to [9..0], bits [17..2] to [25..10]
    return old & 0xFC000000 | (value >> 2 & 0xFFFF) << 10 | value >> 18 & 0x3FF


def patch(address, gp, section, rows, records):
    """The section after the records, or a refusal."""
    for number, row in enumerate(rows):
        if word(row, 0) > 63:
            raise Refusal(3, number)
    out = bytearray(section)
    for number, record in enumerate(records):
        offset, info, addend = word(record, 0), word(record, 8), word(record, 16)
        kind, symbol = info % 2**32, info // 2**32
        if kind == 0:
            continue
        assert kind in (66, 71, 72), "a type that this reference does not know"

        def refuse(refusal):
            return Refusal(refusal, number, offset)

        if symbol > len(rows):
            raise refuse(6)
        if symbol and not word(rows[symbol - 1], 0) & 1:
            raise refuse(7)
        s = word(rows[symbol - 1], 8) if symbol else 0
        if offset + 4 > len(section):
            raise refuse(8)
        pc = (address + offset) % 2**64
        if pc % 4:
            raise refuse(9)
        old = int.from_bytes(out[offset : offset + 4], "little")
        new = with_field(kind, old, (s + addend) % 2**64, pc, refuse)
        out[offset : offset + 4] = new.to_bytes(4, "little")
    return bytes(out)


def expected(data):
    try:
        address, gp, section, rows, records = frames(data)
        after = patch(address, gp, section, rows, records)
    except Refusal as refusal:
        return "ff%02x%08x%016x\n" % refusal.args
    lines = ["00%08x%016x" % (len(records), 0)]
    lines += ["02" + after[at : at + 64].hex() for at in range(0, len(after), 64)]
    return "\n".join(lines) + "\n"


# ---- the large cases

FIRST = "01" + "0" * 32 + "\n"
ROW = "03" + "00" * 56 + "\n"
RECORD = "04" + "00" * 24 + "\n"
FULL = ("02" + "ab" * 64 + "\n") * 1024  # 65,536 bytes


def one_byte_frames():
    return FIRST + "".join("02%02x\n" % (i % 251) for i in range(65536))


def longest_good():
    return one_byte_frames() + ROW * 1024 + RECORD * 2048


LARGE = {
    "section_full": lambda: FIRST + FULL,
    "section_one_byte_past": lambda: FIRST + FULL + "0200\n",
    "section_past_within_a_frame": lambda: FIRST + FULL[:-131] + "02" + "ab" * 63 + "\n02abcd\n",
    "section_past_then_bad_line": lambda: FIRST + FULL + "0200\nzz\n",
    "bad_line_then_section_past": lambda: FIRST + "zz\n" + FULL + "0200\n",
    "rows_full": lambda: FIRST + ROW * 1024,
    "rows_one_past": lambda: FIRST + ROW * 1025,
    "records_full": lambda: FIRST + RECORD * 2048,
    "records_one_past": lambda: FIRST + RECORD * 2049,
    "records_past_then_kind_falls": lambda: FIRST + RECORD * 2049 + ROW,
    "kind_falls_then_records_past": lambda: FIRST + RECORD * 2000 + ROW + RECORD * 49,
    "one_byte_frames": one_byte_frames,
    "longest_good": longest_good,
    "longest_good_and_bad_lines": lambda: longest_good() + "zz\n" * 100000,
    "longest_good_and_a_record": lambda: longest_good() + RECORD,
    "longest_good_and_a_long_line": lambda: longest_good() + "0" * 1000000,
    "longest_good_and_an_empty_line": lambda: longest_good() + "\n",
    "two_million_digits": lambda: "0" * 2000000,
    "two_million_digits_after_01": lambda: FIRST + "02" + "0" * 2000000 + "\n",
    "many_empty_lines": lambda: "\n" * 1000000,
}

if __name__ == "__main__":
    if sys.argv[1:] == ["large"]:
        print("\n".join(LARGE))
    elif sys.argv[1:2] == ["large"]:
        sys.stdout.write(LARGE[sys.argv[2]]())
    elif sys.argv[1:2] == ["stored"]:
        for name in sys.argv[2:]:
            with open(name, "rb") as given, open(name[:-2] + "out") as stored:
                if stored.read() != expected(given.read()):
                    sys.exit(f"frames: the output stored for {name} is not what reference.py says")
    else:
        sys.stdout.write(expected(sys.stdin.buffer.read()))
