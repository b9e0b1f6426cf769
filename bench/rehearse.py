#!/usr/bin/env python3
"""Times `unify rehearse` with a plan that has a record for each file of an inventory, beside reading the two alone.

    bench/rehearse.py [FILES...]

The plan alone is rehearsed on an inventory without files, which is refused as soon as the plan is read; the inventory
alone is counted, as that of a host with one user and one group. Of the ratio each time is the least processor time of
three runs in turn.

Run `make program` first. The texts are made below bench/work, which git does not see.
"""
import os
import sys

from measure import HERE, UNIFY, least_processor_seconds, timed


def write_texts(folder, files):
    """A plan, an inventory of so many files and one of none, and the other files of a host with this inventory."""
    os.makedirs(f"{folder}/a", exist_ok=True)
    with open(f"{folder}/a/mtree", "w") as mtree, open(f"{folder}/plan", "w") as plan:
        plan.write("unify plan 1 a\n")
        for index in range(files):
            path = f"home/d{index % 997}/file{index}"
            mtree.write(f"./{path} uid=1001 gid=100\n")
            plan.write(f"1001 100 1002 100 {len(path)} {path}\n")
        plan.write("end\n")
    for name, text in (
        ("none", ""),
        ("a/passwd", "ann:x:1001:100::/home/ann:/bin/sh\n"),
        ("a/group", "users:x:100:\n"),
        ("map", "user ann 1002\ngroup users 100\n"),
    ):
        with open(f"{folder}/{name}", "w") as file:
            file.write(text)


def compare_with_reading(folder):
    """Prints what a rehearsal takes of the time of reading its plan and its inventory."""
    commands = {
        "rehearse": [UNIFY, "rehearse", f"{folder}/plan", f"{folder}/a/mtree"],
        "plan": [UNIFY, "rehearse", f"{folder}/plan", f"{folder}/none"],
        "inventory": [UNIFY, "count", f"{folder}/map", f"{folder}/a"],
    }
    least, _ = least_processor_seconds(commands, rounds=3, wanted={"plan": 1})
    reading = least["plan"] + least["inventory"]
    print(f"          {least['rehearse']:.2f} s of a processor; the plan alone {least['plan']:.2f} s, "
          f"the inventory alone {least['inventory']:.2f} s: ratio {least['rehearse'] / reading:.2f}", flush=True)


def main():
    for files in [int(word) for word in sys.argv[1:]] or [250000, 500000, 1000000]:
        folder = os.path.join(HERE, "work", f"rehearse-{files}")
        write_texts(folder, files)
        seconds, peak, printed = timed([UNIFY, "rehearse", f"{folder}/plan", f"{folder}/a/mtree"])
        print(f"{files:9,} records: {seconds:6.2f} s, {files / seconds:9,.0f} records/s, peak {peak:6,.0f} MiB; "
              f"{' '.join(printed.split())}", flush=True)
        compare_with_reading(folder)


if __name__ == "__main__":
    main()
