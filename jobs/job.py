#!/usr/bin/env python3
"""Job files from readable text, and back.

    job.py encode < x.txt > x.job
    job.py decode < x.job > x.txt

The text has one item to a line; `#` starts a comment. Lengths are whole centimetres.

    mode constraints        # simple, steiners or constraints
    multiplier 1.0          # with constraints; any number, inf, nan, or its 64 bits as 0x3ff0000000000000
    source 0 0              # x y
    terminal 10 2           # x y, once for each
    keepout 2 3 0 2         # lower x, upper x, lower y, upper y, once for each

What fits the fields is written, also a job that the router refuses: testing it is the router's task.
"""
import struct
import sys

HEADER = struct.Struct("<HHIIB3sQii")  # 32 bytes: T, K, two offsets, mode, three spare bytes, multiplier's bits, source
TERMINAL = struct.Struct("<ii")
KEEPOUT = struct.Struct("<iiii")
MODES = ["simple", "steiners", "constraints"]


def to_bits(word):
    """The 64 bits of a multiplier that is written as a number, or as its bits."""
    if word.lower().startswith("0x"):
        return int(word, 16)
    return struct.unpack("<Q", struct.pack("<d", float(word)))[0]


def from_bits(bits):
    """The shortest number with these bits; the bits themselves of a NaN, of which there are many."""
    value = struct.unpack("<d", struct.pack("<Q", bits))[0]
    return repr(value) if value == value else f"{bits:#018x}"


def encode(lines):
    mode, bits, source, terminals, keepouts = 2, None, (0, 0), [], []
    for number, line in enumerate(lines, 1):
        words = line.split("#")[0].split()
        if not words:
            continue
        item, values = words[0], words[1:]
        try:
            if item == "mode":
                (name,) = values
                mode = MODES.index(name)
            elif item == "multiplier":
                (word,) = values
                bits = to_bits(word)
            elif item == "source":
                x, y = map(int, values)
                source = (x, y)
            elif item == "terminal":
                x, y = map(int, values)
                terminals.append(TERMINAL.pack(x, y))
            elif item == "keepout":
                lx, ux, ly, uy = map(int, values)
                keepouts.append(KEEPOUT.pack(lx, ux, ly, uy))
            else:
                raise ValueError(f"no item is called {item}")
        except (ValueError, struct.error) as error:
            sys.exit(f"line {number}: {error}")
    if bits is None:
        bits = to_bits("1") if mode == 2 else 0
    try:
        at = HEADER.size + TERMINAL.size * len(terminals)
        header = HEADER.pack(len(terminals), len(keepouts), HEADER.size, at, mode, bytes(3), bits, *source)
    except struct.error as error:
        sys.exit(f"header: {error}")
    return header + b"".join(terminals) + b"".join(keepouts)


def decode(job):
    if len(job) < HEADER.size:
        sys.exit("no job: under 32 bytes")
    t, k, t_at, k_at, mode, spare, bits, x, y = HEADER.unpack_from(job)
    end = HEADER.size + TERMINAL.size * t
    if len(job) != end + KEEPOUT.size * k or (t_at, k_at) != (HEADER.size, end) or mode >= len(MODES) or any(spare):
        sys.exit("no job: its length, offsets, mode or spare bytes are wrong")
    lines = [f"mode {MODES[mode]}"]
    if mode == 2 or bits:
        lines.append(f"multiplier {from_bits(bits)}")
    lines.append(f"source {x} {y}")
    lines += [f"terminal {x} {y}" for x, y in TERMINAL.iter_unpack(job[HEADER.size:end])]
    lines += [f"keepout {lx} {ux} {ly} {uy}" for lx, ux, ly, uy in KEEPOUT.iter_unpack(job[end:])]
    return "\n".join(lines) + "\n"


if __name__ == "__main__":
    if sys.argv[1:] == ["encode"]:
        sys.stdout.buffer.write(encode(sys.stdin))
    elif sys.argv[1:] == ["decode"]:
        sys.stdout.write(decode(sys.stdin.buffer.read()))
    else:
        sys.exit(__doc__)
