#!/usr/bin/env python3
"""Times `unify merge` on a generated site, the commands that do a part of it, and its parts.

    bench/merge.py [HOSTS [USERS_A_HOST [FILES_A_HOST]]]

`count` reads the accounts, and reads and counts the files; it makes no join. `check` joins the accounts too, and checks the
certificate. `merge` reads the inventories twice, and also joins, solves and writes. What these two take is also told as a ratio to
`count`, of the seconds that go by, in which a merge waits for the disk, and of those of a processor: the median of fifteen rounds,
in each of which all three run. The parts are differences between single runs, on the site and on the same hosts with one file of
fifty, where joining and solving are as hard and the inventories take a fiftieth. Run `make program` first. The site is made below
bench/work, which git does not see.
"""
import os
import shutil
import sys

from measure import HERE, UNIFY, median_ratios, timed
from site_of import write_site


# one file of so many is kept where the parts of the time are told apart
THINNED = 50


def thinned(folder, words):
    """The words for the same hosts with one file of fifty."""
    thin = []
    for word in words:
        name, directory = word.split("=")
        to = f"{folder}/thin/{name}"
        os.makedirs(to)
        for file in ("passwd", "group"):
            os.symlink(os.path.abspath(f"{directory}/{file}"), f"{to}/{file}")
        with open(f"{directory}/mtree") as whole, open(f"{to}/mtree", "w") as mtree:
            mtree.writelines(line for index, line in enumerate(whole) if index % THINNED == 0)
        thin.append(f"{name}={to}")
    return thin


def commands_of(folder, words):
    """The three commands by name; a check reads the certificate of the merge before it."""
    out = f"{folder}/out"
    commands = {"count": ["count", f"{folder}/map"], "merge": ["merge", out], "check": ["check", f"{out}/certificate"]}
    return {name: [UNIFY, *command, *words] for name, command in commands.items()}


def run(folder, words, files):
    """Runs the three commands, and tells and answers their times by name."""
    shutil.rmtree(f"{folder}/out", ignore_errors=True)
    os.mkdir(f"{folder}/out")
    times = {}
    for name, command in commands_of(folder, words).items():
        seconds, peak, printed = timed(command)
        times[name] = seconds
        print(f"unify {name}: {seconds:6.2f} s, {files / seconds:9,.0f} files/s, peak {peak:6,.0f} MiB; {' '.join(printed.split())}", flush=True)
    return times


def print_ratios(ratios, what):
    """How many times as long as a count, which reads once, the other two take."""
    for name in ("merge", "check"):
        print(f"unify {name} / count, {what}: {ratios[name]:.2f}")


def print_parts(whole, thin):
    """The parts of a merge, from the times of the commands on the site and on the same hosts with one file of fifty."""
    solving = thin["merge"] - thin["count"]
    for what, seconds in [
        ("accounts read", thin["count"]),
        ("inventories read, files counted", whole["count"] - thin["count"]),
        ("join, solving, merged files, certificate", solving),
        ("inventories read again, plans", whole["merge"] - whole["count"] - solving),
    ]:
        print(f"  {what:42}{seconds:6.2f} s")


def main():
    sizes = [int(word) for word in sys.argv[1:]]
    hosts, users, files = (sizes + [8, 5000, 200000][len(sizes):])[:3]
    folder = os.path.join(HERE, "work", f"merge-{hosts}-{users}-{files}")
    shutil.rmtree(folder, ignore_errors=True)
    words = write_site(folder, hosts, users, files)
    size = sum(os.path.getsize(f"{word.split('=')[1]}/mtree") for word in words)
    print(f"{hosts} hosts, {users} users and {files} files a host: {size / 1e6:.1f} MB of inventories", flush=True)
    whole = run(folder, words, hosts * files)
    print_ratios({name: seconds / whole["count"] for name, seconds in whole.items()}, "seconds")
    print_ratios(median_ratios(commands_of(folder, words), "count"), "seconds of a processor")
    name, directory = words[0].split("=")
    seconds, peak, printed = timed([UNIFY, "rehearse", f"{folder}/out/plan.{name}", f"{directory}/mtree"])
    print(f"unify rehearse {name}: {seconds:.2f} s, peak {peak:,.0f} MiB; {' '.join(printed.split())}")
    print("the same hosts with one file of fifty:")
    thin = run(folder, thinned(folder, words), hosts * files // THINNED)
    print("the parts of the merge:")
    print_parts(whole, thin)


if __name__ == "__main__":
    main()
