#!/usr/bin/env python3
"""Times `unify count` on a generated site, beside `wc -l` and NetBSD's `mtree -C` reading the same inventories.

    bench/count.py [HOSTS [USERS_A_HOST [FILES_A_HOST]]]

Then it compares the processor times of `unify count` and of fastcount.cpp, a plain reader in C++ that does the
same work, for inventories of full paths and for such as NetBSD's mtree writes, and that of `mtree -C` over the same
inventories, one after the other. Of the seconds the least of five runs in turn is told, of mtree of three; each
ratio is the median of those of single rounds, fifteen of them and three with mtree.

Run `make program` first; it wants g++. The sites are made below bench/work, which git does not see.
"""
import os
import shutil
import subprocess
import sys

from measure import HERE, UNIFY, least_processor_seconds, median_ratios, timed
from site_of import write_full, write_netbsd, write_site


def netbsd_mtree():
    """The command of NetBSD's mtree, or none where it is not installed."""
    return shutil.which("mtree") or shutil.which("netbsd-mtree")


def mtree_words(inventories):
    """The words by which NetBSD's mtree reads the inventories, one after the other; none where it is not there."""
    mtree = netbsd_mtree()
    return mtree and ["sh", "-c", 'for file; do "$0" -C < "$file" > /dev/null || exit; done', mtree, *inventories]


def inventories_of(words):
    """The inventories of the hosts that words name."""
    return [f"{word.split('=')[1]}/mtree" for word in words]


def compare_with_plain_reader(hosts, users, files):
    """Prints what the program takes of the time of the plain reader, which has to count the same, and of that of mtree."""
    reader = os.path.join(HERE, "work", "fastcount")
    subprocess.run(["g++", "-O2", "-std=c++17", "-o", reader, os.path.join(HERE, "fastcount.cpp")], check=True)
    for style, write_inventory in (("full paths", write_full), ("NetBSD's mtree", write_netbsd)):
        folder = os.path.join(HERE, "work", f"count-{write_inventory.__name__}-{hosts}-{users}-{files}")
        shutil.rmtree(folder, ignore_errors=True)
        words = write_site(folder, hosts, users, files, write_inventory)
        commands = {
            "unify": [UNIFY, "count", f"{folder}/map", *words],
            "fastcount": [reader, f"{folder}/map", *words],
        }
        least, printed = least_processor_seconds(commands)
        if printed["unify"] != printed["fastcount"]:
            sys.exit(f"{style}: the two count otherwise:\n{printed['unify']}{printed['fastcount']}")
        print(f"{style}: unify count {least['unify']:.2f} s, fastcount {least['fastcount']:.2f} s of a processor, "
              f"ratio {median_ratios(commands, 'fastcount')['unify']:.2f}", flush=True)
        if mtree := mtree_words(inventories_of(words)):
            beside = {"unify": commands["unify"], "mtree": mtree}
            seconds = least_processor_seconds({"mtree": mtree}, rounds=3)[0]["mtree"]
            print(f"{style}: mtree -C {seconds:.2f} s of a processor, "
                  f"ratio 1/{median_ratios(beside, 'unify', rounds=3)['mtree']:.1f}", flush=True)


def main():
    sizes = [int(word) for word in sys.argv[1:]]
    hosts, users, files = (sizes + [8, 5000, 200000][len(sizes):])[:3]
    folder = os.path.join(HERE, "work", f"count-{hosts}-{users}-{files}")
    shutil.rmtree(folder, ignore_errors=True)
    words = write_site(folder, hosts, users, files)
    inventories = inventories_of(words)
    size = sum(os.path.getsize(path) for path in inventories)
    total = hosts * files
    print(f"{hosts} hosts, {users} users and {files} files a host: {size / 1e6:.1f} MB of inventories")
    seconds, peak, printed = timed([UNIFY, "count", f"{folder}/map", *words])
    print(printed, end="")
    print(f"unify count: {seconds:.2f} s, {total / seconds:,.0f} files/s, peak {peak:.0f} MiB")
    seconds, peak, _ = timed(["wc", "-l", *inventories])
    print(f"wc -l:       {seconds:.2f} s, {total / seconds:,.0f} files/s, peak {peak:.0f} MiB")
    compare_with_plain_reader(hosts, users, files)
    mtree = netbsd_mtree()
    if mtree is None:
        print("mtree -C:    not installed")
        return
    runs = []
    for path in inventories:
        with open(path) as inventory:
            runs.append(timed([mtree, "-C"], stdin=inventory))
    seconds, peak = sum(run[0] for run in runs), max(run[1] for run in runs)
    print(f"mtree -C:    {seconds:.2f} s, {total / seconds:,.0f} files/s, peak {peak:.0f} MiB (one host at a time)")


if __name__ == "__main__":
    main()
