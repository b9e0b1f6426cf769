#!/usr/bin/env python3
"""How the times of the commands grow: four sizes, and the exponent of the power that fits the seconds best.

    bench/growth.py [files|rows]

`files` is a site of two hosts with 1,000 users each and more and more files; `rows` one of eight hosts with more and more users, of
whom each owns one file. Of each size `count`, `merge`, `check` and the rehearsal of the first host's plan are run once: processor
seconds, since other work on the machine changes these least, and peak memory. Run `make program` first. Sites are made below
bench/work, which git does not see, and removed after.
"""
import os
import shutil
import sys

from contested import growth
from measure import HERE, UNIFY, ran
from site_of import write_site

# For each kind of growth the hosts, users and files a host at each size.
SIZES = {
    "files": [(2, 1000, files) for files in (100_000, 200_000, 400_000, 800_000)],
    "rows": [(8, users, users) for users in (5_000, 10_000, 20_000, 40_000)],
}


def commands(folder, words):
    """The words of each command, by its name, in an order in which each has what it reads."""
    name, directory = words[0].split("=")
    out = f"{folder}/out"
    return {
        "count": ["count", "--quiet", f"{folder}/map", *words],
        "merge": ["merge", "--quiet", out, *words],
        "check": ["check", "--quiet", f"{out}/certificate", *words],
        "rehearse": ["rehearse", f"{out}/plan.{name}", f"{directory}/mtree"],
    }


def spent(hosts, users, files):
    """The processor seconds and the peak memory in MiB of each command on a site of this size."""
    folder = os.path.join(HERE, "work", f"growth-{hosts}-{users}-{files}")
    shutil.rmtree(folder, ignore_errors=True)
    words = write_site(folder, hosts, users, files)
    os.mkdir(f"{folder}/out")
    used = {}
    for name, command in commands(folder, words).items():
        usage, _ = ran([UNIFY, *command])
        used[name] = usage.ru_utime + usage.ru_stime, usage.ru_maxrss / 1024
    shutil.rmtree(folder)
    return used


def main():
    for kind in sys.argv[1:] or SIZES:
        points = {}
        for size in SIZES[kind]:
            for name, (seconds, peak) in spent(*size).items():
                points.setdefault(name, []).append((size[2], seconds))
                print(f"{kind}: {size[2]:,} a host: {name} {seconds:.2f} s of a processor, {peak:,.0f} MiB", flush=True)
        for name, seconds in points.items():
            print(f"{kind}: {name}: growth {growth(seconds):.2f}", flush=True)


if __name__ == "__main__":
    main()
