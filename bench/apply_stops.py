#!/usr/bin/env python3
"""Stops `unify apply` at each call that writes, by count, and takes it up again. It needs root and strace.

    bench/apply_stops.py [--program FILE] [--files N] [--seed N] [--folder DIR] [--most N]

Makes small trees below a new folder in DIR, on its file system and on a tmpfs: regular files, read-only ones, links, pipes, sockets,
devices, directories, files with the set-user-ID and set-group-ID bit, hard links, and a name with each byte that is a text by
itself and with letters of two, three and four bytes. Three plans: an exchange of two owners, a chain of four, and a ring in
which now the user changes, now the group. For each call that writes and each number N the program is killed as it is to make that
call for the Nth time; the run that goes on is killed at a call by chance; and a third runs to its end. So there, and so back with
--reverse. After each stop every file has to be at its old or its new owner, what no plan has as it was, and one file at most without
its bit; at the end all at the new owner with their modes, and no file of modes left. Then what stops a run from outside: files that
may not be changed, a file system that may only be read, and another one mounted below. Status 1 where anything was otherwise.
"""
import argparse
import collections
import os
import pathlib
import random
import shutil
import socket
import stat
import subprocess
import sys
import tempfile

TOP = pathlib.Path(__file__).resolve().parent.parent
# The calls that change anything, of those that the program makes.
WRITES = ("fchown", "lchown", "fchmod", "write", "fsync", "rename", "unlink")
THIRD = (42009, 42109)
HOST = "stopped-host"
A, B, C, D = ((42001 + i, 42101 + i) for i in range(4))
# Each plan as the new owner of each old one.
PLANS = {
    "exchange": {A: B, B: A},
    "chain": {A: B, B: C, C: D},
    "ring": {(42001, 42101): (42001, 42102), (42001, 42102): (42002, 42102), (42002, 42102): (42002, 42101), (42002, 42101): (42001, 42101)},
}
KINDS = ["regular"] * 6 + ["read-only", "link", "dangling", "pipe", "socket", "char", "block", "set-uid", "set-gid", "hard", "set-hard", "folder"]
MODES = {"read-only": 0o444, "set-uid": 0o4755, "set-gid": 0o2711, "set-hard": 0o6755}
NAMES = [chr(byte) for byte in range(1, 128) if chr(byte) != "/"] + ["ß", "水", "🌊"]
faults = []


def say(what, good=True):
    """Prints what was seen, and notes it where it is not what it has to be."""
    print(what if good else f"{what}  <- NOT AS IT HAS TO BE", flush=True)
    if not good:
        faults.append(what)


def make_file(path, kind, aim):
    """Makes one file of a kind."""
    if kind == "folder":
        path.mkdir()
    elif kind in ("link", "dangling"):
        path.symlink_to(aim if kind == "link" else "nowhere")
    elif kind == "pipe":
        os.mkfifo(path)
    elif kind == "socket":
        os.chdir(path.parent)
        with socket.socket(socket.AF_UNIX) as made:
            made.bind(path.name)
        os.chdir("/")
    elif kind in ("char", "block"):
        device = (stat.S_IFCHR, 1, 3) if kind == "char" else (stat.S_IFBLK, 7, 200)
        os.mknod(path, 0o600 | device[0], os.makedev(*device[1:]))
    else:
        path.write_bytes(b"some bytes\n")


def make_tree(root, count, owners):
    """Makes a tree whose files have these owners in turn; hands out the planned paths with their owners, and those of no plan."""
    aim = root / "not planned"
    aim.write_bytes(b"")
    planned, folder = {}, root
    for number in range(count):
        if number % 40 == 0:
            folder = (root if number % 80 else folder) / f"d{number}"
            folder.mkdir()
            planned[folder] = owners[number % len(owners)]
        kind = KINDS[number % len(KINDS)]
        path = folder / f"{kind}-{number}-{NAMES[number % len(NAMES)]}"
        make_file(path, kind, aim)
        names = [path]
        if "hard" in kind:
            names.append(root / f"{kind}-{number}-too")
            os.link(path, names[1])
        for name in names:
            planned[name] = owners[number * 7 // 3 % len(owners)]
        if kind in MODES:
            planned[path] = planned[names[-1]] = planned[path]
    for path, owner in planned.items():
        os.lchown(path, *owner)
        kind = path.name.rsplit("-", 2)[0]
        if kind in MODES:
            os.chmod(path, MODES[kind])
    os.lchown(aim, *THIRD)
    return planned, [aim]


class Stops:
    """A tree with its plan, and the program that carries it out."""

    def __init__(self, program, room, root, count, changes):
        self.program, self.root, self.plan = program, root, room / "plan"
        planned, self.others = make_tree(root, count, list(changes))
        self.sides = {path: (owner, changes[owner]) for path, owner in planned.items()}
        lines = [f"unify plan 1 {HOST}\n".encode()]
        for path, (before, after) in self.sides.items():
            name = str(path.relative_to(root)).encode()
            lines.append(b"%d %d %d %d %d %s\n" % (*before, *after, len(name), name))
        self.plan.write_bytes(b"".join(lines) + b"end\n")
        self.modes = {path: os.lstat(path).st_mode for path in self.sides}
        self.seen = collections.Counter()

    def words(self, *flags):
        return [self.program, "apply", "--host", HOST, "-q", *flags, str(self.plan), str(self.root)]

    def run(self, *flags):
        return subprocess.run(self.words(*flags), capture_output=True, text=True)

    def stop(self, call, number, *flags):
        """Runs the program, and kills it as it is to make this call for this time; tells whether it was killed."""
        inject = ["-e", f"trace={call}", "-e", f"inject={call}:signal=KILL:when={number}"]
        words = ["strace", "-f", "-o", "/dev/null", *inject, *self.words(*flags)]
        return subprocess.run(words, capture_output=True).returncode in (-9, 137)

    def look(self, what):
        """Looks at all files behind a stop, and counts what was found."""
        counts, lost = collections.Counter(), set()
        for path, (before, after) in self.sides.items():
            found = os.lstat(path)
            owner = found.st_uid, found.st_gid
            counts["old" if owner == before else "new" if owner == after else "third"] += 1
            if found.st_mode != self.modes[path]:
                lost.add(found.st_ino)
        counts["without its bit"] = len(lost)
        counts["not planned, changed"] = sum((os.lstat(path).st_uid, os.lstat(path).st_gid) != THIRD for path in self.others)
        self.seen["stops"] += 1
        self.seen["on both sides"] += 0 < counts["old"] < len(self.sides)
        self.seen["one without its bit"] += len(lost)
        if counts["third"] or counts["not planned, changed"] or len(lost) > 1:
            say(f"{what}: {dict(counts)}", False)

    def at_end(self, what, came, side):
        """Whether a run that went to its end left all as it has to be."""
        owners = {path: os.lstat(path) for path in self.sides}
        wrong = [path for path, found in owners.items() if (found.st_uid, found.st_gid) != self.sides[path][side]]
        bits = [path for path, found in owners.items() if found.st_mode != self.modes[path]]
        left = pathlib.Path(f"{self.plan}.done.modes").exists()
        if came.returncode or wrong or bits or left:
            say(f"{what}: status {came.returncode}, {came.stderr!r}, wrong {wrong[:3]}, bits {bits[:3]}, modes left {left}", False)
        self.seen["whole"] += 1

    def stopped_once(self, call, number, side):
        """A stop, a stop by chance of the run that goes on, and a run to the end; tells whether the first was one."""
        flags = () if side else ("--reverse",)
        what = f"{call} {number} {' '.join(flags)}"
        is_stopped = self.stop(call, number, *flags)
        if is_stopped:
            self.look(what)
            again, at = random.choice(WRITES[:4]), random.randint(1, 40)
            if self.stop(again, at, *flags):
                self.look(f"{what}, then {again} {at}")
        self.at_end(what, self.run(*flags), side)
        return is_stopped

    def each_call(self, most):
        """Stops at each call that writes, there and back."""
        for call in WRITES:
            for number in range(1, most + 1):
                there = self.stopped_once(call, number, 1)
                if not self.stopped_once(call, number, 0) and not there:
                    break


def immutable(stops):
    """A file that may not be changed: the run ends with a refusal, and goes on once it may."""
    path = [path for path in stops.sides if path.name.startswith("regular")][9]
    if subprocess.run(["chattr", "+i", path], capture_output=True).returncode:
        return say("  immutable files are not to be had here")
    try:
        came = stops.run()
        good = came.returncode == 3 and "Operation not permitted; mend that, and the same command goes on from there" in came.stderr
        say(f"  an immutable file: status {came.returncode}, {came.stderr.strip()}", good)
        stops.look("an immutable file")
    finally:
        subprocess.run(["chattr", "-i", path], check=True)
    stops.at_end("behind an immutable file", stops.run(), 1)
    return stops.at_end("back", stops.run("--reverse"), 0)


def read_only(stops, mount):
    """A file system that may only be read: a refusal, with nothing changed, and a run once it may be written."""
    subprocess.run(["mount", "-o", "remount,ro", mount], check=True)
    try:
        came = stops.run()
        say(f"  a file system that may only be read: status {came.returncode}, {came.stderr.strip()}", came.returncode == 3)
        stops.look("read only")
    finally:
        subprocess.run(["mount", "-o", "remount,rw", mount], check=True)
    stops.at_end("behind a file system that may only be read", stops.run(), 1)
    stops.at_end("back", stops.run("--reverse"), 0)


def mounted_below(stops, what, words):
    """Another file system on a folder of the plan is refused, and one on a folder that no plan has is not looked at."""
    folder = next(path for path in stops.sides if path.name == "d40")
    subprocess.run([*words, folder], check=True)
    try:
        for path in stops.sides:
            if path.is_relative_to(folder) and path != folder:
                if stat.S_ISDIR(stops.modes[path]):
                    path.mkdir()
                else:
                    path.write_bytes(b"")
                os.lchown(path, *stops.sides[path][0])
        os.lchown(folder, *stops.sides[folder][0])
        came = stops.run()
        inside = {(os.lstat(path).st_uid, os.lstat(path).st_gid) for path in folder.iterdir() if path in stops.sides}
        good = came.returncode == 1 and "on another file system than the root" in came.stderr
        good = good and inside <= {before for before, _ in stops.sides.values()}
        say(f"  {what} on a folder of the plan: status {came.returncode}, {came.stderr.strip()}", good)
    finally:
        subprocess.run(["umount", folder], check=True)
    aside = stops.root / "aside"
    aside.mkdir()
    subprocess.run([*words, aside], check=True)
    try:
        stops.at_end(f"{what} aside", stops.run(), 1)
        stops.at_end("back", stops.run("--reverse"), 0)
    finally:
        subprocess.run(["umount", aside], check=True)
        aside.rmdir()


def other_systems(room):
    """What mounts another file system on a folder."""
    yield "a tmpfs", ["mount", "-t", "tmpfs", "none"]
    if shutil.which("mkfs.ext4"):
        image = room / "image"
        with open(image, "wb") as made:
            made.truncate(8 << 20)
        if not subprocess.run(["mkfs.ext4", "-q", image], capture_output=True).returncode:
            yield "an ext4 of a loop device", ["mount", "-o", "loop", image]


def run_on(program, room, system, args):
    """All plans on the file system of a folder."""
    total = collections.Counter()
    for name, changes in PLANS.items():
        folder = room / system / name
        folder.mkdir(parents=True)
        (folder / "tree").mkdir()
        stops = Stops(program, folder, folder / "tree", args.files, changes)
        stops.each_call(args.most)
        say(f"{system}, {name}: {len(stops.sides)} planned files, {dict(stops.seen)}")
        immutable(stops)
        total += stops.seen
    for what, words in other_systems(folder):
        mounted_below(stops, what, words)
    if system == "tmpfs":
        with tempfile.TemporaryDirectory(prefix="unify-marks-") as aside:
            stops.plan = pathlib.Path(shutil.copy(stops.plan, aside))
            read_only(stops, room / system)
    return total


def main():
    parser = argparse.ArgumentParser(description=__doc__, formatter_class=argparse.RawDescriptionHelpFormatter)
    parser.add_argument("--program", default=str(TOP / "crates/unify_cli/out/unify_cli"))
    parser.add_argument("--files", type=int, default=160)
    parser.add_argument("--most", type=int, default=sys.maxsize - 1, help="the most stops at one kind of call")
    parser.add_argument("--seed", type=int, default=1)
    parser.add_argument("--folder", default=None)
    args = parser.parse_args()
    if os.geteuid() != 0 or not shutil.which("strace"):
        sys.exit("bench/apply_stops.py needs root and strace")
    random.seed(args.seed)
    program, total = str(pathlib.Path(args.program).resolve()), collections.Counter()
    with tempfile.TemporaryDirectory(prefix="unify-stops-", dir=args.folder) as name:
        room = pathlib.Path(name)
        total += run_on(program, room, "here", args)
        (room / "tmpfs").mkdir()
        subprocess.run(["mount", "-t", "tmpfs", "none", room / "tmpfs"], check=True)
        try:
            total += run_on(program, room, "tmpfs", args)
        finally:
            os.chdir("/")
            subprocess.run(["umount", room / "tmpfs"], check=True)
    say(f"all: {dict(total)}, otherwise: {len(faults)}")
    sys.exit(1 if faults else 0)


if __name__ == "__main__":
    main()
