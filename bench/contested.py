#!/usr/bin/env python3
"""Times solving beside scipy's sparse matching: where every number is wanted by many names, and where few are.

    bench/contested.py [FAMILY..]

A family is a kind of site, at four sizes. On a contested one all hosts have all names, each host with numbers of its own
order: a name of a site of H hosts has H candidates, and each number is wanted by H names. A row owns no file (`equal`: all
candidates weigh the same), up to 2 or 3 (`few-files`) or up to 20 (`random`); `tight` has a fifth more names than numbers.
`sparse` is the site of solve.py: two candidates a name, 62 names a number. The largest site of `random-64` has 41,600,000 files:
with what a merge writes it takes 2.6 GB of disk, and a merge of it takes a minute.

Solving is what `unify merge` takes less what `unify count` takes, which reads and counts: so it has the join, the merged
files, the certificate and the plans in it too, and the second reading of the inventories. What it takes without that is told
beside it: less once more what the count takes with the inventories and does not take without them. The floor of a contested
site is what floor.c takes, which only joins the accounts and writes the hosts' passwd files, and checks nothing. Of scipy it is
the call alone. The weights that both find have to be equal. All are processor seconds, the least of some runs, since other work on
the machine changes these least. The growth is the exponent that fits the family's times best. Where scipy would take too
long it is left out. It wants a Python that has scipy, `cc`, and `make program` before it. Sites are made below bench/work, which
git does not see and which may be a link to a directory in memory, and removed after: where many files were removed of late
some file systems take longer to make new ones.
"""
import collections
import math
import os
import random
import shutil
import subprocess
import sys

import solve
from measure import HERE, UNIFY, least_processor_seconds
from solve import FIRST, scipy_answer, weight_of_map, weights_of, write_hosts

# The hosts, the files that a row owns at most, how many names there are for each number, and the names at each size.
Contested = collections.namedtuple("Contested", "hosts files crowding sizes")
SIZES = [8000, 16000, 32000, 65000]
FAMILIES = {
    "equal-8": Contested(8, 0, 1, SIZES),
    "few-files-8": Contested(8, 2, 1, SIZES),
    "random-8": Contested(8, 20, 1, SIZES),
    "tight-8": Contested(8, 2, 1.2, SIZES),
    "equal-64": Contested(64, 0, 1, SIZES),
    "few-files-64": Contested(64, 3, 1, SIZES),
    "random-64": Contested(64, 20, 1, SIZES),
    # names, rows and numbers of solve.py
    "sparse": [(100_000, 160_000, 8_000), (250_000, 500_000, 8_000), (800_000, 1_600_000, 25_500), (2_600_000, 4_190_000, 65_500)],
}
FLOOR = os.path.join(HERE, "work", "floor")
# Above so many names of a sparse site scipy would take hours.
MOST_FOR_SCIPY = 250_000
# Below so many candidates commands are run nine times, above it three times.
MOST_FOR_NINE = 1_000_000


def contested_rows(family, names):
    """The rows (host, name, number, files): each host has as many of the names as there are numbers, in an order of its own."""
    rng = random.Random(names)
    numbers = int(names / family.crowding)
    made = []
    for host in range(family.hosts):
        here = rng.sample(range(names), numbers)
        order = rng.sample(range(numbers), numbers)
        made += [(host, name, FIRST + number, rng.randint(0, family.files)) for name, number in zip(here, order)]
    return family.hosts, made


def sites(name):
    """For each size of a family its names, a function that makes its hosts and rows, and whether scipy is run."""
    family = FAMILIES[name]
    if isinstance(family, Contested):
        return [(names, lambda names=names: contested_rows(family, names), True) for names in family.sizes]
    return [(size[0], lambda size=size: solve.make_rows(*size, 1), size[0] <= MOST_FOR_SCIPY) for size in family]


def without_files(folder, words):
    """The words for the same hosts with empty inventories."""
    bare = []
    for word in words:
        name, directory = word.split("=")
        to = f"{folder}/bare/{name}"
        os.makedirs(to)
        for file in ("passwd", "group", "login.defs"):
            os.symlink(os.path.abspath(f"{directory}/{file}"), f"{to}/{file}")
        open(f"{to}/mtree", "w").close()
        bare.append(f"{name}={to}")
    return bare


def least_of_scipy(weights):
    """The processor seconds of scipy's call, the least of three where it takes less than one, and the weight that it finds."""
    seconds, best = scipy_answer(weights)
    for _ in range(2 if seconds < 1 else 0):
        seconds = min(seconds, scipy_answer(weights)[0])
    return seconds, best


def least_of_floor(folder, words):
    """The least of three times of floor.c on the hosts."""
    to = f"{folder}/floor"
    os.mkdir(to)
    command = [FLOOR, to, *(word.split("=")[1] for word in words)]
    return min(float(subprocess.run(command, check=True, capture_output=True).stdout) for _ in range(3))


# How many candidates a site has, and the seconds of solving it, also without the second reading, of its floor, and of scipy.
Solved = collections.namedtuple("Solved", "candidates seconds unread floor scipy")


def solving(name, names, make, with_scipy):
    """What solving a site takes. It has no floor where it is sparse, and no time of scipy where that would take too long."""
    hosts, rows = make()
    folder = os.path.join(HERE, "work", f"contested-{name}-{names}")
    words = write_hosts(folder, hosts, names, rows)
    out = f"{folder}/out"
    os.mkdir(out)
    weights = weights_of(rows)
    count = [UNIFY, "count", "--quiet", f"{out}/map"]
    commands = {"merge": [UNIFY, "merge", "--quiet", out, *words], "count": [*count, *words], "bare": [*count, *without_files(folder, words)]}
    least, _ = least_processor_seconds(commands, rounds=9 if len(weights) < MOST_FOR_NINE else 3)
    seconds = least["merge"] - least["count"]
    unread = seconds - (least["count"] - least["bare"])
    weight = weight_of_map(f"{out}/map", weights)
    floor = least_of_floor(folder, words) if name != "sparse" else None
    shutil.rmtree(folder)
    if not with_scipy:
        return Solved(len(weights), seconds, unread, floor, None)
    scipys, best = least_of_scipy(weights)
    if weight != best:
        sys.exit(f"{name}, {names} names: weights differ, {weight} and {best}")
    return Solved(len(weights), seconds, unread, floor, scipys)


def told(solved):
    """The times, and beside those of scipy the ratios to it."""
    parts = [f"{solved.candidates:,} candidates: {solved.seconds:.2f} s", f"{solved.unread:.2f} s without the second reading"]
    if solved.floor:
        parts.append(f"floor {solved.floor:.3f} s")
    if solved.scipy:
        ratios = " and ".join(f"{seconds / solved.scipy:.3f}" for seconds in (solved.seconds, solved.unread))
        parts.append(f"scipy {solved.scipy:.2f} s, ratios {ratios}")
    return ", ".join(parts)


def growth(points):
    """The exponent of the power of the candidates that fits the seconds best."""
    logs = [(math.log(size), math.log(max(seconds, 0.001))) for size, seconds in points]
    mean_x, mean_y = (sum(it) / len(logs) for it in zip(*logs))
    return sum((x - mean_x) * (y - mean_y) for x, y in logs) / sum((x - mean_x) ** 2 for x, _ in logs)


def main():
    os.makedirs(os.path.dirname(FLOOR), exist_ok=True)
    subprocess.run(["cc", "-O2", "-o", FLOOR, os.path.join(HERE, "floor.c")], check=True)
    for name in sys.argv[1:] or FAMILIES:
        points = []
        for names, make, with_scipy in sites(name):
            solved = solving(name, names, make, with_scipy)
            points.append((solved.candidates, solved.seconds))
            print(f"{name}: {names:,} names, {told(solved)}", flush=True)
        print(f"{name}: growth {growth(points):.2f}", flush=True)


if __name__ == "__main__":
    main()
