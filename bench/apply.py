#!/usr/bin/env python3
"""Carries plans out on real files with `unify apply`, kills it on the way, and counts owners. It needs root.

    bench/apply.py [--program FILE] [--files N] [--kills N] [--seed N] [--folder DIR]

Makes a tree in a new folder below DIR: regular files, links, pipes, sockets, directories, files with the set-user-ID and
set-group-ID bit, hard links, and names with spaces, newlines and letters beyond ASCII. The plan exchanges two owners. The program
is killed with SIGKILL after random times and started again until it ends; after each kill every file has to be at its old or its
new owner. Then the same with --reverse, and what has to be refused, a name that is not UTF-8 and a pipe as the mark too. With
strace it is also killed between the change of an owner, which clears the set-user-ID and set-group-ID bit, and the call that sets
the mode back, and these bits are counted, and its syncs on an ext4 with a journal and on one without; and behind a kill no other
plan may be begun, nor the reverse, and one whose file of modes is gone goes on with --begun alone. It is run where standard error is a terminal, too, in a root that is a plain directory, and,
with mkfs.btrfs, where another subvolume of its btrfs is mounted below.
Ends with status 1 where anything was otherwise.
"""
import argparse
import collections
import fcntl
import os
import pathlib
import random
import re
import shutil
import socket
import stat
import subprocess
import sys
import tempfile
import time

TOP = pathlib.Path(__file__).resolve().parent.parent
ONE, OTHER, THIRD = (41001, 41101), (41002, 41102), (41003, 41103)
# What is told of a step on a terminal.
STEP = re.compile(r"\r\x1b\[Kunify: (looked at|changed|synced) (\d+) of (\d+)")
# The calls by which a mode is set, and that by which a file is given an owner.
SETS_MODE, GIVES = "chmod,fchmod,fchmodat", "fchown"
# A process whose second thread alone takes the user that it is given, by the bare call: the C library has all threads take it.
THREAD = """
import ctypes, os, sys, threading, time
setresuid = {"x86_64": 117, "aarch64": 147}[os.uname().machine]
def serve():
    print(ctypes.CDLL(None).syscall(setresuid, -1, int(sys.argv[1]), -1), flush=True)
    time.sleep(60)
threading.Thread(target=serve).start()
"""
# What is told where another plan was begun.
OTHER_PLAN = "another plan was started and is not finished; finish that one first"
faults = []


def say(what, good=True):
    """Prints what was seen, and notes it where it is not what it has to be."""
    print(what if good else f"{what}  <- NOT AS IT HAS TO BE", flush=True)
    if not good:
        faults.append(what)


def make_file(path, kind):
    """Makes one file of a kind, in the current folder if it is a socket."""
    if kind == "link":
        os.symlink("/etc/passwd", path)
    elif kind == "dangling":
        os.symlink("nowhere", path)
    elif kind == "pipe":
        os.mkfifo(path)
    elif kind == "socket":
        # A path of a socket is short: it is bound by a name in the folder.
        with socket.socket(socket.AF_UNIX) as made:
            made.bind(path.name)
    else:
        path.write_bytes(b"some bytes\n")


KINDS = ["regular"] * 12 + ["link", "dangling", "pipe", "socket", "set-uid", "set-gid", "hard", "spaced", "letters", "lines"]
NAMES = {"spaced": "a name {} ", "letters": "größe-{}-名", "lines": "two\nlines {}"}


def make_tree(root, count):
    """Makes a tree, and hands out the planned paths in an order that an inventory may have, each with its old and new owner."""
    planned, made = ["."], 0
    while made < count:
        folder = pathlib.Path(f"d{made // 500}", f"e{made // 100 % 5}")
        (root / folder).mkdir(parents=True, exist_ok=True)
        os.chdir(root / folder)
        planned += [str(part) for part in (folder.parent, folder) if str(part) not in planned[-700:]]
        for number in range(100):
            kind = KINDS[number % len(KINDS)]
            path = folder / NAMES.get(kind, kind + "-{}").format(made)
            make_file(root / path, kind)
            planned.append(str(path))
            if kind == "hard":
                for more in ("more", "most"):
                    os.link(root / path, root / f"{path}-{more}")
                    planned.append(f"{path}-{more}")
            made += 1
        (root / folder / "not planned").write_bytes(b"")
        os.lchown(root / folder / "not planned", *THIRD)
    os.chdir("/")
    planned = list(dict.fromkeys(planned))
    owners = {}
    for number, path in enumerate(planned):
        of_one = path.rsplit("-mo", 1)[0] if "hard" in path else path
        before = ONE if hash_of(of_one) % 2 else OTHER
        owners[path] = before, OTHER if before == ONE else ONE
    for path, (before, _) in owners.items():
        os.lchown(root / path, *before)
    for path in planned:
        name = path.rsplit("/", 1)[-1]
        if name.startswith("set-uid"):
            os.chmod(root / path, 0o4755)
        if name.startswith("set-gid"):
            os.chmod(root / path, 0o2755)
        if name.startswith("e3"):
            os.chmod(root / path, 0o2775)
        if name.startswith(("pipe", "socket")):
            os.chmod(root / path, 0o6755)
    return owners


def read_all(screen):
    """What is written to a terminal until nobody has its other side open any more."""
    told = b""
    with open(screen, "rb", buffering=0) as file:
        try:
            while part := file.read(65536):
                told += part
        except OSError:  # Linux answers EIO once the last writer has closed it.
            pass
    return told.decode()


def hash_of(path):
    return sum(path.encode())


def plan_text(host, owners):
    lines = [f"unify plan 1 {host}\n".encode()]
    for path, (before, after) in owners.items():
        name = path.encode()
        lines.append(b"%d %d %d %d %d %s\n" % (*before, *after, len(name), name))
    return b"".join(lines) + b"end\n"


def seen(root, owners):
    """How many planned files are at which owner, and the paths whose owner is none of the two."""
    counts, third = collections.Counter(), []
    for path, (before, after) in owners.items():
        found = os.lstat(root / path)
        owner = found.st_uid, found.st_gid
        counts["old" if owner == before else "new" if owner == after else "third"] += 1
        if owner not in (before, after):
            third.append(path)
    return counts, third


def modes(root, owners):
    """The modes of the planned files, of pipes and sockets without the bits that mean nothing there."""
    found = {path: os.lstat(root / path).st_mode for path in owners}
    return {path: stat.S_IMODE(mode) & (0o1777 if stat.S_ISFIFO(mode) or stat.S_ISSOCK(mode) else 0o7777) for path, mode in found.items()}


def others(root):
    """The owners of what no plan has: the files that are not planned, and what links lead to."""
    paths = [*sorted(root.glob("*/*/not planned")), pathlib.Path("/etc/passwd")]
    return [(path, os.lstat(path).st_uid, os.lstat(path).st_gid) for path in paths]


class Bench:
    def __init__(self, program, room, owners, host):
        self.program, self.room, self.root, self.owners, self.host = program, room, room / "tree", owners, host
        self.plan = room / "plan"
        self.plan.write_bytes(plan_text(host, owners))
        self.modes, self.others = modes(self.root, owners), others(self.root)

    def words(self, *flags):
        return [self.program, "apply", "--host", self.host, "-q", *flags, str(self.plan), str(self.root)]

    def ran(self, *flags):
        return subprocess.run(self.words(*flags), capture_output=True, text=True)

    def seconds(self):
        """Carries the plan out without a stop, and back, and tells the time of the first."""
        start = time.monotonic()
        came = self.ran()
        took = time.monotonic() - start
        say(f"whole run: status {came.returncode}, {came.stdout!r}, {took:.1f} s {came.stderr}", came.returncode == 0)
        self.at_end("whole run", "new")
        start = time.monotonic()
        came = self.ran()
        say(f"once more: status {came.returncode}, {came.stdout!r}, {time.monotonic() - start:.1f} s", came.returncode == 0)
        came = self.ran("--reverse")
        say(f"reverse: status {came.returncode}, {came.stdout!r} {came.stderr}", came.returncode == 0)
        self.at_end("reverse", "old")
        return took

    def on_terminal(self):
        """Carries the plan out and back where standard error is a terminal: how far it is stands on one line there, which is
        cleared before anything else is told and at the end."""
        for flags in (), ("--reverse",):
            ours, theirs = os.openpty()
            words = [word for word in self.words(*flags) if word != "-q"]
            running = subprocess.Popen(words, stdin=subprocess.DEVNULL, stdout=subprocess.DEVNULL, stderr=theirs)
            os.close(theirs)
            told = read_all(ours).replace("\r\n", "\n")
            steps = STEP.findall(told)
            count = len(self.owners)
            last = [("looked at", count), ("changed", count), ("synced", count)]
            rest = STEP.sub("", told).replace("\r\x1b[K", "").splitlines()
            good = running.wait() == 0 and [step for step in last if step in [(word, int(done)) for word, done, _ in steps]] == last
            good = good and all(line.startswith("unify: warning: ") for line in rest) and told.endswith("\r\x1b[K")
            say(f"on a terminal {' '.join(flags)}: status {running.wait()}, {', '.join(' '.join(step[:2]) for step in steps)}, warnings {len(rest)}", good)
        self.at_end("then back", "old")

    def at_end(self, what, side):
        counts, third = seen(self.root, self.owners)
        same_modes, same_others = modes(self.root, self.owners) == self.modes, others(self.root) == self.others
        good = counts[side] == len(self.owners) and same_modes and same_others
        say(f"  {what}: {dict(counts)}, modes as before: {same_modes}, what is not planned as before: {same_others}", good)

    def killed(self, most, kills, *flags):
        """Kills the program after random times, so often at most, and then has it end."""
        stops = lost = thirds = 0
        middle = []
        for _ in range(kills):
            running = subprocess.Popen(self.words(*flags), stdout=subprocess.PIPE, stderr=subprocess.PIPE)
            try:
                running.wait(random.uniform(0, most))
                running.communicate()
                break
            except subprocess.TimeoutExpired:
                running.kill()
                running.communicate()
            stops += 1
            counts, third = seen(self.root, self.owners)
            if 0 < counts["old"] < len(self.owners):
                middle.append(counts["new"])
            thirds += len(third)
            lost += len(self.lost())
        say(f"kills {' '.join(flags)}: {stops}, of which {len(middle)} left files on both sides (at new owners: {middle})")
        say(f"  files at a third owner after any of them: {thirds}; files without a bit of their modes at a kill: {lost}", thirds == 0)
        came = self.ran(*flags)
        say(f"  then run to its end: status {came.returncode}, {came.stdout!r} {came.stderr}", came.returncode == 0)
        self.at_end("then", "old" if "--reverse" in flags else "new")

    def lost(self):
        """The planned files whose mode is not as it was."""
        now = modes(self.root, self.owners)
        return [path for path in self.owners if now[path] != self.modes[path]]

    def stopped(self, number, *flags, calls=SETS_MODE):
        """Runs the program, and kills it where it is to make such a call for this time; tells whether it was killed."""
        inject = f"inject={calls}:signal=KILL:when={number}"
        words = ["strace", "-f", "-o", "/dev/null", "-e", f"trace={calls}", "-e", inject, *self.words(*flags)]
        return subprocess.run(words, capture_output=True, text=True).returncode != 0

    def between(self, *flags):
        """Kills the program between the change of an owner and the call that sets the mode back, as often as there is such a
        call: first twice before the first, the second time where it is set back anew, and then each time before the next."""
        modes_file = pathlib.Path(f"{self.plan}.done.modes")
        stops, left = 0, collections.Counter()
        while stops < len(self.owners) and self.stopped(2 if stops > 1 else 1, *flags):
            stops += 1
            left[len(self.lost())] += 1
        lost, is_left = len(self.lost()), modes_file.exists()
        good = stops > 2 and left == {1: stops} and not lost and not is_left
        say(f"kills between owner and mode {' '.join(flags)}: {stops}; files without a bit after each: {dict(left)}", good)
        say(f"  once run to its end: files that had lost a bit of their modes: {lost}, modes file left: {is_left}", good)
        self.at_end("then", "old" if "--reverse" in flags else "new")

    def foreign_modes(self):
        """Modes files that are cut, no such file, no file at all, or another plan's; all files are at their old owners before and
        behind. The plan is run to its end before its reverse is begun, and a modes file that an ended plan has left is replaced."""
        modes_file = pathlib.Path(f"{self.plan}.done.modes")
        self.stopped(1)
        whole = modes_file.read_bytes()
        for what, text in (("cut", whole[:-4]), ("empty", b""), ("no mode", whole.replace(b"\n4755 ", b"\n4795 ", 1)), ("no such file", b"end\n")):
            modes_file.write_bytes(text)
            self.refused(f"a modes file, {what}", (), 1, f"file {modes_file}: truncated, or not the modes of a plan")
        modes_file.write_bytes(whole.replace(b" bench-host ", b" bench-hose "))
        self.refused("a modes file of another plan", (), 1, f"file {modes_file}: {OTHER_PLAN}")
        modes_file.write_bytes(whole)
        self.refused("the reverse of a plan that was begun", ("--reverse",), 1, f"file {modes_file}: {OTHER_PLAN}")
        path = self.lost()[0]
        say(f"left without a bit by all of them: {self.lost() == [path]}", self.lost() == [path])
        self.ran()
        self.at_end("then run to its end", "new")
        modes_file.write_bytes(whole)
        came = self.ran("--reverse")
        say(f"a modes file that the ended plan has left: status {came.returncode}, {came.stderr!r}, left: {modes_file.exists()}", came.returncode == 0 and not modes_file.exists())
        self.at_end("then back", "old")

    def without_modes(self):
        """A plan that was stopped and has lost its modes file: it is refused, and so is its reverse, whose mark is there still, with
        nothing changed; with --begun it goes on. All files are at their old owners before and behind."""
        mark, modes_file = pathlib.Path(f"{self.plan}.done"), pathlib.Path(f"{self.plan}.done.modes")
        for flags, side in ((), "new"), (("--reverse",), "old"):
            is_stopped = self.stopped(9, *flags, calls=GIVES)
            counts = seen(self.root, self.owners)[0]
            modes_file.unlink()
            say(f"stopped, and without a modes file {' '.join(flags)}: {dict(counts)}", is_stopped and counts["old"] > 0 and counts["new"] > 0)
            for words in (), ("--reverse",):
                told = "48 AlreadyChanged " if words == flags else "44 Unfinished "
                self.refused(f"  then {' '.join(words)}", words, 1, told)
            came = self.ran(*flags, "--begun")
            say(f"  then --begun: status {came.returncode}, {came.stderr!r}", came.returncode == 0 and not modes_file.exists())
            self.at_end("then", side)
        self.stopped(9, calls=GIVES)
        modes_file.unlink()
        mark.unlink()
        self.refused("  then its reverse, without a mark", ("--reverse",), 1, "48 AlreadyChanged ")
        came = self.ran("--reverse", "--begun")
        say(f"a plan that was stopped, taken back: status {came.returncode}, {came.stderr!r}", came.returncode == 0)
        self.at_end("then", "old")

    def no_files(self):
        """What is no regular file in place of the mark and of the modes: it is refused, and nobody waits for it."""
        for name, told in (("done", "not the mark of a plan"), ("done.modes", "truncated, or not the modes of a plan")):
            path = pathlib.Path(f"{self.plan}.{name}")
            for kind in ("pipe", "socket", "folder", "device"):
                if kind == "folder":
                    path.mkdir()
                elif kind == "device":
                    os.mknod(path, 0o600 | stat.S_IFCHR, os.makedev(1, 5))
                else:
                    os.chdir(path.parent)
                    make_file(path, kind)
                    os.chdir("/")
                is_directory = (kind, name) == ("folder", "done")
                status, why = (2, "the path of a directory, and no file's") if is_directory else (1, told)
                self.refused(f"a {kind} as {path.name}", (), status, f"file {path}: {why}")
                path.rmdir() if kind == "folder" else path.unlink()

    def refused(self, what, flags, status, told):
        """What a run refuses, with nothing changed and nothing told on standard output; and so does --check, behind its counts."""
        before = seen(self.root, self.owners)[0]
        came = subprocess.run(self.words(*flags), capture_output=True, text=True, stdin=subprocess.DEVNULL, timeout=60)
        good = came.returncode == status and told in came.stderr and came.stdout == "" and seen(self.root, self.owners)[0] == before
        say(f"{what}: status {came.returncode}, {came.stderr.strip()}", good)
        if "--check" not in flags:
            again = subprocess.run(self.words("--check", *flags), capture_output=True, text=True, stdin=subprocess.DEVNULL, timeout=60)
            good = (again.returncode, again.stderr) == (came.returncode, came.stderr) and seen(self.root, self.owners)[0] == before
            say(f"  --check: status {again.returncode}, {again.stderr.strip()}", good)

    def warned(self, what, is_warned, *flags):
        """Whether --check warns that the file of the mark marks another plan."""
        words = [word for word in self.words("--check", *flags) if word != "-q"]
        came = subprocess.run(words, capture_output=True, text=True)
        told = f"unify: warning: file {self.plan}.done marks another plan as done; "
        say(f"{what}: status {came.returncode}, {came.stderr.splitlines()[:1]}", came.returncode == 0 and came.stderr.startswith(told) == is_warned)

    def no_text(self):
        """Plans with a name that is not UTF-8, as the last name of a path and on the way: they are refused before anything is
        written, and so they are by --check and --reverse, which is told that it was begun. The file is there, at its old owner."""
        whole, folder = self.plan.read_bytes(), os.fsencode(self.root) + b"/d\xff"
        os.mkdir(folder)
        for path, told in ((b"d\xff/file", r"d\377/file"), (b"d0/o\xffd d", r"d0/o\377d\040d")):
            file = os.fsencode(self.root) + b"/" + path
            open(file, "w").close()
            os.lchown(file, *ONE)
            record = b"%d %d %d %d %d %s\n" % (*ONE, *OTHER, len(path), path)
            self.plan.write_bytes(whole.removesuffix(b"end\n") + record + b"end\n")
            for flags in ((), ("--check",), ("--reverse", "--begun")):
                what = " ".join(["a name that is not UTF-8", *flags])
                self.refused(what, flags, 1, f"unify: file {told}: a name that is not UTF-8\n")
                found, marks = os.lstat(file), [mark.name for mark in self.room.glob("plan?*")]
                good = (found.st_uid, found.st_gid) == ONE and not marks
                say(f"  its owner as before: {(found.st_uid, found.st_gid) == ONE}, written beside the plan: {marks}", good)
            os.unlink(file)
        os.rmdir(folder)
        self.plan.write_bytes(whole)

    def refusals(self):
        """What is refused with nothing changed; all files are at their old owners before."""
        path = next(path for path in self.owners if "regular" in path)
        os.lchown(self.root / path, *THIRD)
        self.refused("a third owner", (), 1, f"38 Foreign {path}")
        came = self.ran("--check")
        say(f"  --check: status {came.returncode}, {came.stdout!r}, {came.stderr.strip()}", came.returncode == 1 and "foreign 1" in came.stdout)
        os.lchown(self.root / path, *self.owners[path][1])
        self.refused("a new owner before the first run", (), 1, f"48 AlreadyChanged {path}")
        os.lchown(self.root / path, *self.owners[path][0])
        self.refused("the reverse of a plan that was not begun", ("--reverse",), 1, f"48 AlreadyChanged {next(iter(self.owners))}")
        marks = [mark.name for mark in self.room.glob("plan?*")]
        say(f"  written beside the plan: {marks}", not marks)
        os.rename(self.root / path, self.root / "aside")
        left_out = self.owners.pop(path)
        self.refused("a missing file", (), 1, f"37 Missing {path}")
        self.owners[path] = left_out
        os.rename(self.root / "aside", self.root / path)
        came = subprocess.run([self.program, "apply", "--host", "x" + self.host, str(self.plan), str(self.root)], capture_output=True, text=True)
        say(f"another host named: status {came.returncode}, {came.stderr.strip()}", came.returncode == 1)
        held = os.open(self.root, os.O_RDONLY)
        fcntl.flock(held, fcntl.LOCK_EX)
        self.refused("another at work", (), 2, "another command is at work there")
        os.close(held)
        inside = self.root / "d0/e0"
        subprocess.run(["mount", "--bind", inside, inside], check=True)
        try:
            self.refused("a bind mount below", (), 2, "is also mounted below it")
        finally:
            subprocess.run(["umount", inside], check=True)
        os.link(self.root / path, self.root / "one name more")
        self.refused("a name that is not planned", (), 1, "a hard link to the file is not in the plan")
        os.unlink(self.root / "one name more")
        came = subprocess.run(["setpriv", "--reuid", "41009", "--clear-groups", *self.words()], capture_output=True, text=True)
        say(f"as another user: status {came.returncode}, {came.stderr.strip()}", came.returncode == 2 and "only root" in came.stderr)
        came = self.ran("--check")
        say(f"--check: status {came.returncode}, {came.stdout!r}", came.returncode == 0 and f"before {len(self.owners)}\n" in came.stdout)
        with subprocess.Popen(["sleep", "60"], extra_groups=[ONE[1]]) as other:
            words = [word for word in self.words("--check") if word != "-q"]
            came = subprocess.run(words, capture_output=True, text=True)
            other.kill()
        say(f"a process of another group: {came.stderr.splitlines()[:1]}", f"process {other.pid} is the first of 1 that run or may run under a number that the plan changes or gives\n" in came.stderr)
        with subprocess.Popen(["unshare", "--user", "sleep", "60"]) as other:
            while os.readlink(f"/proc/{other.pid}/ns/user") == os.readlink("/proc/self/ns/user"):
                time.sleep(0.01)
            pathlib.Path(f"/proc/{other.pid}/uid_map").write_text(f"0 {ONE[0]} 1\n")
            came = subprocess.run(words, capture_output=True, text=True)
            other.kill()
        say(f"a process that may become another user: {came.stderr.splitlines()[:1]}", f"process {other.pid} is the first of 1 that run or may run under a number that the plan changes or gives\n" in came.stderr)
        with subprocess.Popen([sys.executable, "-c", THREAD, str(ONE[0])], stdout=subprocess.PIPE, text=True) as other:
            is_set = other.stdout.readline() == "0\n"
            came = subprocess.run(words, capture_output=True, text=True)
            other.kill()
        say(f"a process with a thread of another user: {came.stderr.splitlines()[:1]}", is_set and f"process {other.pid} is the first of 1 that run or may run under a number that the plan changes or gives\n" in came.stderr)
        with subprocess.Popen(["sleep", "0"], extra_groups=[ONE[1]]) as other:
            os.waitid(os.P_PID, other.pid, os.WEXITED | os.WNOWAIT)
            came = subprocess.run(words, capture_output=True, text=True)
        say(f"a zombie of another group: {came.stderr.splitlines()[:1]}", came.returncode == 0 and "process" not in came.stderr)
        hidden = 'mount -t proc -o hidepid=1 proc /proc && exec setpriv --reuid 41009 --regid 41009 --clear-groups "$@"'
        came = subprocess.run(["unshare", "--mount", "sh", "-c", hidden, "sh", *words], capture_output=True, text=True)
        say(f"processes that may not be looked at: {came.stderr.splitlines()[:1]}", came.stderr.startswith("unify: warning: processes could not all be looked at; "))


def no_modes(program, room):
    """A plan of which no file may lose a mode: while it is begun it has a modes file all the same, and neither its reverse nor the
    plan of a later merge is carried out, which was made from the owners that the files have now; once it has ended that one is."""
    root, owners = room / "tree", {}
    root.mkdir(parents=True)
    for number in range(20):
        (root / f"f{number}").write_bytes(b"some bytes\n")
        os.lchown(root / f"f{number}", *ONE)
        owners[f"f{number}"] = ONE, OTHER
    bench = Bench(program, room, owners, "bench-host")
    modes_file, whole = pathlib.Path(f"{bench.plan}.done.modes"), bench.plan.read_bytes()
    is_stopped = bench.stopped(9, calls=GIVES)
    lines = modes_file.read_bytes().splitlines() if modes_file.exists() else []
    counts = seen(root, owners)[0]
    good = is_stopped and lines[0].startswith(b"unify modes 1 bench-host ") and lines[1:] == [b"end"] and 0 < counts["new"] < 20
    say(f"a plan without such files, begun: {dict(counts)}, its modes file {lines}", good)
    bench.refused("  its reverse", ("--reverse",), 1, f"file {modes_file}: {OTHER_PLAN}")
    now = {path: (os.lstat(root / path).st_uid, os.lstat(root / path).st_gid) for path in owners}
    later = plan_text("bench-host", {path: (owner, THIRD) for path, owner in now.items()})
    bench.plan.write_bytes(later)
    bench.refused("  a plan of a later merge", (), 1, f"file {modes_file}: {OTHER_PLAN}")
    bench.plan.write_bytes(whole)
    came = bench.ran()
    say(f"  then run to its end: status {came.returncode}, modes file left: {modes_file.exists()}", came.returncode == 0 and not modes_file.exists())
    bench.at_end("then", "new")
    bench.warned("  then its reverse is not warned of", False, "--reverse")
    bench.plan.write_bytes(plan_text("bench-host", {path: (OTHER, THIRD) for path in owners}))
    bench.warned("  then another plan is", True)
    came = bench.ran()
    bench.warned("  and once it is done it is not", False)
    counts = seen(root, {path: (OTHER, THIRD) for path in owners})[0]
    say(f"  then another plan: status {came.returncode}, {dict(counts)}, modes file left: {modes_file.exists()}", came.returncode == 0 and counts["new"] == 20 and not modes_file.exists())


def count_syncs(program, room, what, options, every):
    """How often a run syncs on an ext4 of a loop device that is made with these options: every file of the plan, or a few."""
    root, image = room / "tree", room / "image"
    root.mkdir(parents=True)
    with open(image, "wb") as made:
        made.truncate(32 << 20)
    subprocess.run(["mkfs.ext4", "-q", *options, image], check=True)
    subprocess.run(["mount", "-o", "loop", image, root], check=True)
    try:
        bench = Bench(program, room, make_tree(root, 200), "bench-host")
        trace = room / "trace"
        words = ["strace", "-f", "-o", trace, "-e", "trace=fsync", *bench.words()]
        came = subprocess.run(words, capture_output=True, text=True)
        opened = sum(stat.S_ISREG(mode) or stat.S_ISDIR(mode) for mode in (os.lstat(root / path).st_mode for path in bench.owners))
        syncs = trace.read_text().count("fsync(")
        good = came.returncode == 0 and (syncs > opened if every else syncs < 20)
        say(f"an ext4 {what}: status {came.returncode}, {opened} regular files and folders, {syncs} syncs", good)
        bench.at_end("then", "new")
    finally:
        os.chdir("/")
        subprocess.run(["umount", root], check=True)


def count_ways(program, room):
    """A run where another subvolume of the same btrfs is mounted below, and what is refused where a folder is so once more."""
    root, image = room / "tree", room / "image"
    root.mkdir(parents=True)
    with open(image, "wb") as made:
        made.truncate(128 << 20)
    subprocess.run(["mkfs.btrfs", "-q", image], check=True, capture_output=True)
    device = subprocess.run(["losetup", "--find", "--show", image], check=True, capture_output=True, text=True).stdout.strip()
    mounted = []

    def mount(*words):
        subprocess.run(["mount", *words], check=True)
        mounted.append(words[-1])

    try:
        mount(device, root)
        bench = Bench(program, room, make_tree(root, 200), "bench-host")
        subprocess.run(["btrfs", "subvolume", "create", root / "other"], check=True, stdout=subprocess.DEVNULL)
        for name in ("home", "again"):
            (root / name).mkdir()
        mount("-o", "subvol=other", device, root / "home")
        mount("--bind", root / "d0", root / "again")
        bench.refused("a folder of a btrfs below it once more", (), 2, "is also mounted below it")
        mount("-t", "tmpfs", "none", root / "again")
        came = bench.ran()
        say(f"a subvolume below: status {came.returncode}, {came.stderr.strip()}", came.returncode == 0)
        bench.at_end("then", "new")
    finally:
        os.chdir("/")
        for path in reversed(mounted):
            subprocess.run(["umount", path], check=True)
        subprocess.run(["losetup", "--detach", device], check=True)


class Cell(Bench):
    """A bench whose program runs in a root that is a plain directory: the system does not tell it the mount of that."""

    def words(self, *flags):
        return ["chroot", self.room, "/unify", "apply", "--host", self.host, "-q", *flags, "/plan", "/tree"]


def in_a_cell(program, room):
    """What is refused where the mount of the tree is not told, and a run there where another file system is mounted below."""
    (room / "tree").mkdir(parents=True)
    shutil.copy(program, room / "unify")
    cell = Cell(program, room, make_tree(room / "tree", 200), "bench-host")
    mounted = []

    def mount(*words):
        words[-1].mkdir(exist_ok=True)
        subprocess.run(["mount", *words], check=True)
        mounted.append(words[-1])

    try:
        for name in ("proc", "sys", "usr", "lib", "lib64"):
            if os.path.islink(f"/{name}"):
                os.symlink(os.readlink(f"/{name}"), room / name)
            elif os.path.isdir(f"/{name}"):
                mount("--bind", f"/{name}", room / name)
        mount("--bind", room / "tree/d0", room / "tree/again")
        cell.refused("a bind mount below, in a cell", (), 2, "is also mounted below it, at /tree/again")
        subprocess.run(["umount", mounted.pop()], check=True)
        mount("-t", "tmpfs", "none", room / "tree/again")
        came = cell.ran()
        say(f"another file system below, in a cell: status {came.returncode}, {came.stderr.strip()}", came.returncode == 0)
        cell.at_end("then", "new")
    finally:
        os.chdir("/")
        for path in reversed(mounted):
            subprocess.run(["umount", "-l", path], check=True)


def main():
    parser = argparse.ArgumentParser(description=__doc__, formatter_class=argparse.RawDescriptionHelpFormatter)
    parser.add_argument("--program", default=str(TOP / "crates/unify_cli/out/unify_cli"))
    parser.add_argument("--files", type=int, default=2000)
    parser.add_argument("--kills", type=int, default=40)
    parser.add_argument("--seed", type=int, default=1)
    parser.add_argument("--folder", default=None)
    args = parser.parse_args()
    if os.geteuid() != 0:
        sys.exit("bench/apply.py needs root")
    random.seed(args.seed)
    with tempfile.TemporaryDirectory(prefix="unify-apply-", dir=args.folder) as name:
        room = pathlib.Path(name)
        os.chmod(room, 0o755)
        (room / "tree").mkdir()
        owners = make_tree(room / "tree", args.files)
        bench = Bench(str(pathlib.Path(args.program).resolve()), room, owners, "bench-host")
        print(f"{len(owners)} planned files")
        bench.refusals()
        bench.no_text()
        bench.no_files()
        in_a_cell(bench.program, room / "cell")
        if shutil.which("mkfs.btrfs"):
            count_ways(bench.program, room / "ways")
        took = bench.seconds()
        bench.on_terminal()
        if shutil.which("strace"):
            bench.foreign_modes()
            bench.without_modes()
            no_modes(bench.program, room / "plain")
            bench.between()
            bench.between("--reverse")
            if shutil.which("mkfs.ext4"):
                count_syncs(bench.program, room / "with", "with a journal", [], False)
                count_syncs(bench.program, room / "without", "without a journal", ["-O", "^has_journal"], True)
        else:
            print("strace is not there: nothing was killed between the change of an owner and that of a mode")
        bench.killed(took * 0.7, args.kills)
        bench.killed(took * 0.7, args.kills, "--reverse")
    sys.exit(f"otherwise: {len(faults)}" if faults else 0)


if __name__ == "__main__":
    main()
