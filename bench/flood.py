#!/usr/bin/env python3
"""Times merges, verifies and rehearsals of paths that somebody chose to make them slow, beside as many paths at random.

    bench/flood.py [PROGRAM [PATHS [NAMES]]]

PROGRAM is the one that `make program` built unless it is given; PATHS is a million unless it is given. Anybody who may make a file
chooses its path. Each kind of paths is merged as one host by words, verified against the same paths in another order, and rehearsed
with a plan that has them all, and so is a set of as many random paths of the same lengths; the ratio of the two is printed, of
processor seconds, since other work on the machine changes these least.

    one digest      all end in the eight bytes that bring the hash of std, whose seed is fixed, to zero, whatever stands before
                    them: a table of such hashes looks through all of them for each. The hash is followed over `folded` below,
                    and the script ends with a fault if one of a thousand of these paths has another
    one place       the names that the file NAMES has, a line for each, as `colliding` prints them (colliding.c): they stand in one
                    place of a table of hashes of slices. Only where NAMES is given
    long prefix     names in one directory that have their first 200 bytes in common, so that comparing two takes longest
    rising, falling in the order of the bytes, and against it

What grows in step with the paths is merged once more with half of them, and the exponent told. It shows that these paths cost
no more, and not that none do. Sites are made below bench/work, which git does not see, and removed after.
"""
import math
import os
import random
import shutil
import sys

from measure import HERE, UNIFY, spent

LETTERS = b"0123456789ABCDEFGHIJKLMNOPQRSTUVWXYZabcdefghijklmnopqrstuvwxyz"
MULTIPLIER = 0x9E37_79B9_7F4A_7C15
ZERO = MULTIPLIER.to_bytes(8, "little")
WORD = 2**64 - 1
PREFIX = 200
TABLES = "host/passwd", "host/group"
OWNER, NEW_OWNER = b"1001 100", b"2001 100"
# The words of each command, in the folder that is laid out.
COMMANDS = {
    "merge": ["merge", "out", "host=host"],
    "verify": ["verify", "--was", *TABLES, "--now", *TABLES, "host/mtree", "host/after"],
    "rehearse": ["rehearse", "plan", "host/mtree"],
}


def folded(path):
    """The hash of 9 to 16 bytes, as core/src/hash/fold.rt of the toolchain computes it."""
    state = (0x243F_6A88_85A3_08D3 + len(path)) & WORD
    front, back = int.from_bytes(path[:8], "little"), int.from_bytes(path[-8:], "little")
    product = (front ^ state) * (back ^ MULTIPLIER)
    return (product & WORD) ^ (product >> 64)


def at_random(rng, count, length):
    """So many different names of one length."""
    names = set()
    while len(names) < count:
        names.add(bytes(rng.choices(LETTERS, k=length)))
    return list(names)


def escaped(name):
    """The name as mtree(5) writes it."""
    return b"".join(bytes([byte]) if byte in LETTERS else b"\\%03o" % byte for byte in name)


def numbered(count):
    return [b"%08d" % number for number in range(count)]


def kinds(rng, count, listed):
    """For each kind its names and as many random ones of the same lengths."""
    zero = [number + ZERO for number in numbered(count)]
    rng.shuffle(zero)
    if {folded(name) for name in zero[:1000]} != {0}:
        sys.exit("these paths do not have one hash")
    yield "one digest", zero, [name + ZERO[::-1] for name in at_random(rng, count, 8)]
    if listed:
        yield "one place", listed, at_random(rng, len(listed), len(listed[0]))
    few = count // 10
    yield "long prefix", [b"a" * PREFIX + number for number in numbered(few)], at_random(rng, few, PREFIX + 8)
    plain = at_random(rng, count, 8)
    yield "rising", numbered(count), plain
    yield "falling", numbered(count)[::-1], plain


def lay_out(folder, names):
    """Makes a host with these files, a second inventory that has them in another order, and a plan that has each of them."""
    shutil.rmtree(folder, ignore_errors=True)
    os.makedirs(os.path.join(folder, "out"))
    host = os.path.join(folder, "host")
    os.makedirs(host)
    for file, text in (("passwd", b"m:x:1001:100::/:/bin/sh\n"), ("group", b"users:x:100:\n")):
        with open(os.path.join(host, file), "wb") as written:
            written.write(text)
    for file, order in (("mtree", 1), ("after", -1)):
        with open(os.path.join(host, file), "wb") as written:
            written.write(b"/set uid=1001 gid=100\n")
            written.writelines(escaped(name) + b" type=file\n" for name in names[::order])
    with open(os.path.join(folder, "plan"), "wb") as written:
        written.write(b"unify plan 1 host\n")
        written.writelines(b"%s %s %d %s\n" % (OWNER, NEW_OWNER, len(name), name) for name in names)
        written.write(b"end\n")


def seconds(program, folder, command, names):
    """The processor seconds of a command on one host with these files, and its peak memory in MiB."""
    lay_out(folder, names)
    taken = spent([program, *COMMANDS[command]], cwd=folder)
    shutil.rmtree(folder)
    return taken


def main():
    program = os.path.abspath(sys.argv[1] if len(sys.argv) > 1 else UNIFY)
    count = int(sys.argv[2]) if len(sys.argv) > 2 else 1_000_000
    listed = open(sys.argv[3], "rb").read().split() if len(sys.argv) > 3 else []
    folder = os.path.join(HERE, "work", "flood")
    rng = random.Random(count)
    print("command  kind          paths      chosen    random  ratio  exponent  peak MiB")
    for kind, chosen, plain in kinds(rng, count, listed):
        for command in COMMANDS:
            half, _ = seconds(program, folder, command, chosen[: len(chosen) // 2])
            whole, peak = seconds(program, folder, command, chosen)
            other, _ = seconds(program, folder, command, plain)
            times = f"{whole:8.2f} s {other:7.2f} s {whole / other:6.2f} {math.log2(whole / half):9.2f} {peak:9.0f}"
            print(f"{command:8} {kind:12} {len(chosen):9,} {times}", flush=True)


if __name__ == "__main__":
    main()
