#!/usr/bin/env python3
"""Exchanges folders and files of a plan for links while `unify apply` carries it out, and looks at what lies outside. It needs root.

    bench/apply_race.py [--program FILE] [--seconds N] [--folder DIR]

Makes a tree of files of one owner and, beside it, a folder like /etc whose files have the same names, half of them the old owner of
the plan and half the new one. A process
exchanges a folder of the tree for a link to that one, a file for a link into it, and a pipe's name for a link into it, again and
again, while the plan is carried out, and taken back, over and over. No file outside the tree may get another owner or mode,
whatever a run says. At the end, with nobody else at work, the plan is carried out whole. Status 1 where anything was otherwise.
"""
import argparse
import collections
import os
import pathlib
import subprocess
import sys
import tempfile
import time

TOP = pathlib.Path(__file__).resolve().parent.parent
OLD, NEW = (43001, 43101), (43002, 43102)
HOST = "race-host"
FOLDERS = [f"home/user{number}" for number in range(4)]
NAMES = [f"file{number}" for number in range(60)]

# What the other process does until it is ended: it prints how often it exchanged something.
EXCHANGES = r"""
import os, signal, sys
tree, outside, count, ended = sys.argv[1], sys.argv[2], 0, []
signal.signal(signal.SIGTERM, lambda *_: ended.append(1))
def exchange(path, aim):
    os.rename(path, path + ".aside")
    os.symlink(aim, path)
    os.unlink(path)
    os.rename(path + ".aside", path)
while not ended:
    for number in range(60):
        exchange(f"{tree}/home/user1", f"{outside}")
        exchange(f"{tree}/home/user2/file{number}", f"{outside}/file{number}")
        exchange(f"{tree}/home/user3", f"{outside}")
        exchange(f"{tree}/home/user0/pipe", f"{outside}/file1")
        count += 4
print(count)
"""


def owners_outside(outside):
    """What lies outside, half of it at the old owner of the plan and half at the new one."""
    return {outside: OLD} | {outside / name: (OLD, NEW)[at % 2] for at, name in enumerate(NAMES)}


def make_tree(tree, outside):
    """Makes the tree and what lies outside, and hands out the paths of the plan."""
    outside.mkdir(parents=True)
    paths = ["home"]
    for name in NAMES:
        (outside / name).write_bytes(b"")
    for folder in FOLDERS:
        (tree / folder).mkdir(parents=True)
        paths += [folder, *(f"{folder}/{name}" for name in NAMES)]
        for name in NAMES:
            (tree / folder / name).write_bytes(b"")
    os.mkfifo(tree / "home/user0/pipe")
    paths.append("home/user0/pipe")
    for path in (tree / path for path in paths):
        os.lchown(path, *OLD)
    for path, owner in owners_outside(outside).items():
        os.lchown(path, *owner)
    return paths


def plan_text(paths):
    lines = [b"%d %d %d %d %d %s\n" % (*OLD, *NEW, len(path), path.encode()) for path in paths]
    return b"".join([f"unify plan 1 {HOST}\n".encode(), *lines, b"end\n"])


def outside_as_before(outside):
    """Whether everything outside has the owner and the mode that it had."""
    found = {path: os.lstat(path) for path in [outside, *outside.iterdir()]}
    owners = {path: (it.st_uid, it.st_gid) for path, it in found.items()}
    return owners == owners_outside(outside) and not any(it.st_mode & 0o7000 for it in found.values())


def told(came):
    """A run's status, and what its line says without its path."""
    line = came.stderr.strip().removeprefix("unify: ")
    return f"{came.returncode} {line.split()[1] if line[:1].isdigit() else line.rsplit(': ', 1)[-1]}"


def race(words, tree, outside, seconds):
    """Carries the plan out and back while the other process is at work; counts what the runs said."""
    said, harmed, flags = collections.Counter(), 0, []
    until = time.monotonic() + seconds
    other = subprocess.Popen([sys.executable, "-c", EXCHANGES, tree, outside], stdout=subprocess.PIPE, text=True)
    while time.monotonic() < until:
        try:
            came = subprocess.run([*words, *flags], capture_output=True, text=True, timeout=60)
            said[told(came)] += 1
            if came.returncode == 0:
                flags = [] if flags else ["--reverse"]
        except subprocess.TimeoutExpired:
            said["waited for a minute, and was killed"] += 1
        harmed += not outside_as_before(outside)
    other.terminate()
    return int(other.communicate()[0]), said, harmed, flags


def main():
    parser = argparse.ArgumentParser(description=__doc__, formatter_class=argparse.RawDescriptionHelpFormatter)
    parser.add_argument("--program", default=str(TOP / "crates/unify_cli/out/unify_cli"))
    parser.add_argument("--seconds", type=float, default=60)
    parser.add_argument("--folder", default=None)
    args = parser.parse_args()
    if os.geteuid() != 0:
        sys.exit("bench/apply_race.py needs root")
    with tempfile.TemporaryDirectory(prefix="unify-race-", dir=args.folder) as name:
        room = pathlib.Path(name)
        tree, outside = room / "tree", room / "outside/etc"
        paths = make_tree(tree, outside)
        (room / "plan").write_bytes(plan_text(paths))
        words = [str(pathlib.Path(args.program).resolve()), "apply", "--host", HOST, "-q", str(room / "plan"), str(tree)]
        count, said, harmed, flags = race(words, tree, outside, args.seconds)
        print(f"{count} exchanges while {sum(said.values())} runs were at work; runs behind which a file outside was otherwise: {harmed}")
        for line, times in said.most_common():
            print(f"  {times} times: {line}")
        if flags:
            subprocess.run([*words, *flags], check=True)
        came = subprocess.run(words, capture_output=True, text=True)
        owners = {(os.lstat(tree / path).st_uid, os.lstat(tree / path).st_gid) for path in paths}
        print(f"then alone: status {came.returncode}, owners {owners} {came.stderr.strip()}")
        sys.exit(1 if harmed or came.returncode or owners != {NEW} else 0)


if __name__ == "__main__":
    main()
