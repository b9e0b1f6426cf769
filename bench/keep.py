#!/usr/bin/env python3
"""Times `unify merge` with large keep texts, beside the same site without one.

    bench/keep.py [PROGRAM [HOSTS [USERS_A_HOST [FILES_A_HOST]]]]

PROGRAM is the one that `make program` built unless it is given. The plain site is that of site_of.py. There are three kinds of
sites with a keep text, each at several sizes, and each is the plain site with this besides, of users and of groups:

    names     SIZE names, which the text lists one by one, and of which each host has each, with a number of its own
    ranges    SIZE ranges, which the text lists, and on each host a number without an account in each of them
    unowned   `unowned users` and `unowned groups`, and on each host SIZE numbers without an account that no other host has

Each such name and number owns a file on each host. So the plain site has neither the kept rows nor these files.

Printed are the processor seconds and the peak memory of a merge, and both as ratios to those of the plain site; the least of
some runs each, between which the plain site has its turn, since other work on the machine changes the times. The growth is the
exponent of the power of SIZE that fits best by how much a ratio is more than that at size 0, where the text has no name, range or
number; at the sizes at which that is at least a tenth, since less is lost in other work. Sites are made below bench/work, which
git does not see, and removed after.
"""
import os
import random
import shutil
import sys

from contested import growth
from measure import HERE, UNIFY, spent
from site_of import write_site

SIZES = [0, 1000, 4000, 16000]
# How often each site is merged.
RUNS = 3
# By how much a ratio has to be more than that at size 0 to be seen.
SEEN = 0.1
# The first number of kept names, of ranges, and of numbers that nothing lists.
NAMES, RANGES, UNOWNED = 100_000, 1_000_000, 2_000_000
# How far one range begins behind the one before; it has two numbers.
APART = 3


def keep_text(kind, size):
    """The keep text of a site."""
    lines = ["# what stays"]
    for what in ("user", "group"):
        if kind == "names":
            lines += [f"{what} kept{index}" for index in range(size)]
        if kind == "ranges":
            lines += [f"{what}s {low} {low + 1}" for low in range(RANGES, RANGES + APART * size, APART)]
        if kind == "unowned":
            lines.append(f"unowned {what}s")
    return "".join(f"{line}\n" for line in lines)


def kept_numbers(kind, size, host, rng):
    """The number of each kept name of a host, and the owners and groups of its files that no account has."""
    names = list(range(NAMES, NAMES + size)) if kind == "names" else []
    rng.shuffle(names)
    owners = []
    if kind == "ranges":
        owners += [(low, low + 1) for low in range(RANGES, RANGES + APART * size, APART)]
    if kind == "unowned":
        first = UNOWNED + host * size
        owners += [(number, number) for number in range(first, first + size)]
    return names, owners


def write_kept(plain, to, names, owners):
    """A host of the plain site with kept names and files of theirs, and with files of other owners. Answers how many files these
    are."""
    shutil.copytree(plain, to)
    with open(f"{to}/passwd", "a") as passwd, open(f"{to}/group", "a") as group, open(f"{to}/mtree", "a") as mtree:
        for index, number in enumerate(names):
            passwd.write(f"kept{index}:x:{number}:{number}::/:/bin/sh\n")
            group.write(f"kept{index}:x:{number}:\n")
        for index, (uid, gid) in enumerate([(number, number) for number in names] + owners):
            mtree.write(f"./kept/file{index} gid={gid} uid={uid} type=file\n")
    return len(names) + len(owners)


def write_keeping(folder, plain_words, kind, size):
    """A site with a keep text. Answers its words, and how many files it has that the plain site has not."""
    rng = random.Random(size)
    words, files = [], 0
    for host, word in enumerate(plain_words):
        name, plain = word.split("=")
        files += write_kept(plain, f"{folder}/{name}", *kept_numbers(kind, size, host, rng))
        words.append(f"{name}={folder}/{name}")
    with open(f"{folder}/keep", "w") as text:
        text.write(keep_text(kind, size))
    return ["--keep", f"{folder}/keep", *words], files


def merged(program, out, words):
    """The processor seconds and the peak memory in MiB of a merge."""
    shutil.rmtree(out, ignore_errors=True)
    os.makedirs(out)
    return spent([program, "merge", "--quiet", "--output", out, *words])


def least_of_both(program, folder, plain, keeping):
    """The least processor seconds and the least peak memory of some merges of two sites, each in its turn."""
    runs = [[merged(program, f"{folder}/out", words) for words in (plain, keeping)] for _ in range(RUNS)]
    return [[min(of) for of in zip(*site)] for site in zip(*runs)]


def growth_told(ratios):
    """The growth of ratios, of which there is one for each size, as a text."""
    more = [(size, ratio - ratios[0]) for size, ratio in zip(SIZES, ratios)]
    seen = [point for point in more if point[1] >= SEEN]
    return f"{growth(seen):.2f}" if len(seen) > 1 else "not seen"


def print_kind(program, folder, plain_words, kind):
    """Merges the sites of a kind, and prints what each takes, and the growth."""
    times, peaks = [], []
    for size in SIZES:
        site = f"{folder}/{kind}-{size}"
        words, files = write_keeping(site, plain_words, kind, size)
        (plain, plain_peak), (seconds, peak) = least_of_both(program, folder, plain_words, words)
        shutil.rmtree(site)
        times.append(seconds / plain)
        peaks.append(peak / plain_peak)
        ratios = f"ratios {times[-1]:.2f} and {peaks[-1]:.2f}"
        print(f"{kind}: {size:6,}, {files:8,} files more: {seconds:6.2f} s, peak {peak:4.0f} MiB, {ratios}", flush=True)
    print(f"{kind}: growth of time {growth_told(times)}, of memory {growth_told(peaks)}", flush=True)


def main():
    program = sys.argv[1] if len(sys.argv) > 1 else UNIFY
    sizes = [int(word) for word in sys.argv[2:]]
    hosts, users, files = (sizes + [8, 5000, 50000][len(sizes):])[:3]
    folder = os.path.join(HERE, "work", f"keep-{hosts}-{users}-{files}")
    shutil.rmtree(folder, ignore_errors=True)
    words = write_site(f"{folder}/plain", hosts, users, files)
    seconds, peak = min(merged(program, f"{folder}/out", words) for _ in range(RUNS))
    site = f"{hosts} hosts, {users:,} users and {files:,} files a host"
    print(f"{site}, without a keep text: {seconds:.2f} s, peak {peak:.0f} MiB", flush=True)
    for kind in ("names", "ranges", "unowned"):
        print_kind(program, folder, words, kind)
    shutil.rmtree(folder)


if __name__ == "__main__":
    main()
