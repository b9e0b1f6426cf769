#!/usr/bin/env python3
"""Times `unify apply`, `inventory` and `verify` on real files, beside find and chown. It needs root.

    bench/apply_time.py [FILES [FOLDER]]

Makes FILES files (200,000) below a new folder in FOLDER, a thousand in a directory, all of one owner, and a plan that gives them
another. Prints the seconds, those of a processor and the peak memory of each command: an inventory, find with chown there and
back, the plan, a second inventory, the two verified, the first verified with the tree that is there, the plan once more, its files
counted, and the plan taken back.
"""
import multiprocessing
import os
import pathlib
import shutil
import subprocess
import sys
import tempfile
import time

from measure import UNIFY

OLD, NEW = (41001, 41001), (41002, 41002)
ACCOUNTS = {"was": (OLD, "passwd.was", "group.was"), "now": (NEW, "passwd.now", "group.now")}


def make_tree(root, count):
    """Makes the files, and hands out their paths in the order of an inventory."""
    paths = []
    for first in range(0, count, 1000):
        folder = f"d{first // 1000}"
        names = [folder, *(f"{folder}/f{at}" for at in range(min(1000, count - first)))]
        (root / folder).mkdir(parents=True)
        for name in names[1:]:
            os.close(os.open(root / name, os.O_CREAT | os.O_WRONLY))
        for name in names:
            os.chown(root / name, *OLD)
        paths += names
    return paths


def timed(what, words, folder, out=subprocess.DEVNULL):
    """Runs a command, and prints its seconds, how many of them a processor worked for it, and its peak memory."""
    os.sync()
    began = time.monotonic()
    command = subprocess.Popen(words, cwd=folder, stdin=subprocess.DEVNULL, stdout=out)
    _, status, used = os.wait4(command.pid, 0)
    seconds = time.monotonic() - began
    worked = used.ru_utime + used.ru_stime
    print(f"{what:20} {seconds:8.2f} s {worked:8.2f} s {used.ru_maxrss / 1024:6.0f} MiB{'  FAILED' if status else ''}", flush=True)


def make(folder, count):
    """Makes the tree and its plan."""
    numbers = " ".join(map(str, (*OLD, *NEW)))
    with open(folder / "plan", "w") as plan:
        plan.write("unify plan 1 timed\n")
        plan.writelines(f"{numbers} {len(path)} {path}\n" for path in make_tree(folder / "tree", count))
        plan.write("end\n")


def run(folder, count):
    """Makes the tree and times each command."""
    root = folder / "tree"
    # In a process of its own: the peak memory of a command is not told lower than that of the one that started it.
    maker = multiprocessing.Process(target=make, args=(folder, count))
    maker.start()
    maker.join()
    for (uid, gid), passwd, group in ACCOUNTS.values():
        (folder / passwd).write_text(f"root:x:0:0::/:/bin/sh\nalice:x:{uid}:{gid}::/:/bin/sh\n")
        (folder / group).write_text(f"root:x:0:\nalice:x:{gid}:\n")
    apply = [UNIFY, "apply", "-q", "--host", "timed"]
    chown = ["find", "tree", "-uid", str(OLD[0]), "-exec", "chown", "-h", f"{NEW[0]}:{NEW[1]}", "{}", "+"]
    back = ["find", "tree", "-uid", str(NEW[0]), "-exec", "chown", "-h", f"{OLD[0]}:{OLD[1]}", "{}", "+"]
    with open(folder / "before", "wb") as out:
        timed("inventory", [UNIFY, "inventory", "-x", "."], root, out)
    timed("find and chown", chown, folder)
    timed("find and chown, back", back, folder)
    timed("apply", [*apply, "plan", "tree"], folder)
    with open(folder / "after", "wb") as out:
        timed("inventory, once more", [UNIFY, "inventory", "-x", "."], root, out)
    files = [f"{file}.{when}" for when in ("was", "now") for file in ("passwd", "group")]
    timed("verify", [UNIFY, "verify", "--was", *files[:2], "--now", *files[2:], "before", "after"], folder)
    above = [f"../{file}" for file in files]
    timed("verify, the tree", [UNIFY, "verify", "--was", *above[:2], "--now", *above[2:], "../before", "."], root)
    timed("apply, once more", [*apply, "plan", "tree"], folder)
    timed("apply --check", [*apply, "--check", "plan", "tree"], folder)
    timed("apply --reverse", [*apply, "--reverse", "plan", "tree"], folder)


def main():
    if os.geteuid():
        sys.exit("only root may give files other owners")
    count = int(sys.argv[1]) if len(sys.argv) > 1 else 200_000
    folder = pathlib.Path(tempfile.mkdtemp(prefix="unify-time-", dir=sys.argv[2] if len(sys.argv) > 2 else None))
    try:
        run(folder, count)
    finally:
        shutil.rmtree(folder)


if __name__ == "__main__":
    main()
