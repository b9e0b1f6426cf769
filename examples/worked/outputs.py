#!/usr/bin/env python3
"""What `merge` with words does to the directory that it writes into, and to what lies there.

    examples/worked/outputs.py PROGRAM                  directories that are refused, links that were planted, a disk that is
                                                        full, and some stops: a few seconds
    examples/worked/outputs.py PROGRAM --each-call      a stop at each system call that changes a file, while a merge is made
                                                        and while one takes the place of an earlier one

A stop is a SIGKILL that strace sends when the program makes a system call; without strace the program is killed after times
that grow. After each, every file is whole: as it was before or as the merge makes it; no file of a host stands beside the map of
another merge; a report stands only where all files are those of one merge; and the merge made again gives what it gives without a stop.

Prints the first difference and ends with status 1 there.
"""
import os
import pathlib
import shutil
import subprocess
import sys
import tempfile
import time

STORED = pathlib.Path(__file__).resolve().parents[1] / "stored-count"
MARK, TEMPORARY = ".unify-merge", ".unify-new."
ORDER = ["passwd", "group", "map", "certificate"]
# Those of each host, in the order in which a merge writes them.
OF_HOSTS = ["plan", "passwd", "group"]
# The system calls that change files or what is on a disk, as strace names them.
CHANGING = "openat,write,fsync,rename,unlink"
# A stop at the first call and then at every seventh is a few seconds' work.
STEP = 7


def of_hosts(*hosts):
    """The names of the files of hosts."""
    return [f"{file}.{host}" for file in OF_HOSTS for host in hosts]


def fail(name, what):
    sys.exit(f"{name}: {what}")


def want(name, wanted, came):
    if wanted != came:
        fail(name, f"wanted\n{wanted}\n{name}: came\n{came}")


def contents(folder):
    """What stands in a folder: the bytes of files, and where links lead."""
    files = [path for path in folder.iterdir() if not path.is_dir()]
    return {path.name: os.readlink(path) if path.is_symlink() else path.read_bytes() for path in files}


class Room:
    """A folder with the hosts a and b of examples/stored-count, a host c, and an empty folder `out`."""

    def __init__(self, program, name):
        self.program, self.path = program, pathlib.Path(name)
        shutil.copytree(STORED, self.path, dirs_exist_ok=True)
        shutil.copytree(STORED / "a", self.path / "c")
        passwd = (self.path / "c/passwd").read_text()
        (self.path / "c/passwd").write_text(passwd.replace(":1001:", ":2001:"))
        (self.path / "c/mtree").write_text((self.path / "c/mtree").read_text().replace("1001", "2001"))
        self.out = self.path / "out"
        self.out.mkdir()

    def run(self, *words, before=()):
        words = [*before, self.program, *words]
        ran = subprocess.run(words, cwd=self.path, stdin=subprocess.DEVNULL, capture_output=True, timeout=120)
        return ran.returncode, ran.stdout.decode("latin-1"), ran.stderr.decode("latin-1")

    def merge(self, *words):
        status, out, err = self.run("merge", "-q", *words)
        want(f"merge {' '.join(words)}", (0, ""), (status, err))
        return contents(self.out)


def in_room(program, test):
    with tempfile.TemporaryDirectory(prefix="unify-outputs-") as name:
        test(Room(program, name))


HOSTS_FILE = "holds {}, as the directory of a host does".format
FOREIGN = "holds {}, and no report of an earlier merge".format
DIRECTORY = "holds {}, which is a directory".format

# Directories that are refused: how the room is changed, the words, and what is told.
REFUSED = [
    ("OUT forgotten", "", "a b", "a: " + HOSTS_FILE("mtree")),
    ("OUT is a host", "", "a a b", "a: the directory of host a"),
    ("OUT is a host by another path", "", "out/../b/. a b", "out/../b/.: the directory of host b"),
    ("OUT is a host by a link", "ln -s a link", "link a b", "link: the directory of host a"),
    ("a host is OUT by a link", "ln -s a link; rm a/mtree", "a x=link b", "a: the directory of host x"),
    ("-o is a host", "", "-o b a b", "b: the directory of host b"),
    ("OUT is the current directory, and a host too", "rm -r out", ". x= b", ".: the directory of host x"),
    ("mtree", "touch out/mtree", "out a b", "out: " + HOSTS_FILE("mtree")),
    ("login.defs", "ln -s nowhere out/login.defs", "out a b", "out: " + HOSTS_FILE("login.defs")),
    ("shadow", "touch out/shadow", "out a b", "out: " + HOSTS_FILE("shadow")),
    ("shadow beside a report", "touch out/shadow; echo 'unify report 2' > out/report", "out a b", "out: " + HOSTS_FILE("shadow")),
    ("passwd", "touch out/passwd", "out a b", "out: " + FOREIGN("passwd")),
    ("group", "ln -s nowhere out/group", "out a b", "out: " + FOREIGN("group")),
    ("map", "touch out/map", "--pins out/map out a b", "out: " + FOREIGN("map")),
    ("somebody's report", "echo report > out/report", "out a b", "out: " + FOREIGN("report")),
    ("passwd and somebody's report", "touch out/passwd; echo report > out/report", "out a b", "out: " + FOREIGN("passwd")),
    ("somebody's plan", "echo plan > out/plan.md", "out a b", "out: " + FOREIGN("plan.md")),
    ("somebody's old passwd", "touch out/passwd.old", "out a b", "out: " + FOREIGN("passwd.old")),
    ("somebody's old group", "ln -s nowhere out/group.old", "out a b", "out: " + FOREIGN("group.old")),
    ("a folder as report", "mkdir out/report", "out a b", "out: " + DIRECTORY("report")),
    ("a folder as mark", f"mkdir out/{MARK}", "out a b", "out: " + DIRECTORY(MARK)),
    ("a folder as mark beside a report", f"mkdir out/{MARK}; echo 'unify report 2' > out/report", "out a b", "out: " + DIRECTORY(MARK)),
    ("a folder as map beside a report", "mkdir out/map; echo 'unify report 2' > out/report", "out a b", "out: " + DIRECTORY("map")),
    ("a folder as plan beside a report", "mkdir out/plan.b; echo 'unify report 2' > out/report", "out a b", "out: " + DIRECTORY("plan.b")),
    ("a folder as passwd of a host that is no more", "mkdir out/passwd.c; echo 'unify plan 1 c' > out/plan.c; touch out/.unify-merge", "out a b", "out: " + DIRECTORY("passwd.c")),
    ("a folder at a temporary name", f"mkdir out/{TEMPORARY}map", "out a b", "out: " + DIRECTORY(TEMPORARY + "map")),
    ("an empty word", "", " a b", "-: an empty word"),
    ("an empty word behind -o", "", "-o  a b", "-: an empty word"),
    ("OUT is not there", "", "none a b", "none: No such file or directory"),
    ("OUT is a file", "", "map a b", "map: Not a directory"),
    ("OUT before all that is read", "", "none x --pins nothing", "none: No such file or directory"),
]

# Names of which the system does not tell what they lead to: how the room is changed, the words, and what is told.
LOOP = "{}: Too many levels of symbolic links".format
UNSEEN = [
    ("a plan of a host that is no more", "echo 'unify report 2' > out/report; touch out/passwd.c; ln -s plan.c out/plan.c", "out a b", LOOP("out/plan.c")),
    ("a plan of no host", f"touch out/{MARK}; ln -s plan.md out/plan.md", "out a b", LOOP("out/plan.md")),
    ("a report", "ln -s report out/report", "out a b", LOOP("out/report")),
    ("a host", "ln -s d d", "out a d --pins none", LOOP("d")),
]


def refused(room, name, change, words, told, status=2, thing="output"):
    """A directory that is refused stays as it is, and so do the hosts."""
    subprocess.run(["sh", "-ec", change], cwd=room.path, check=True)
    before = {path: path.read_bytes() for path in room.path.rglob("*") if path.is_file()}
    want(name, (status, "", f"unify: {thing} {told}\n"), room.run("merge", *words.split(" ")))
    want(f"{name}: files", before, {path: path.read_bytes() for path in room.path.rglob("*") if path.is_file()})


def replaced(room):
    """A merge takes the place of an earlier one, of which no file of a host stays; what is somebody else's stays. The earlier map
    gives the pins."""
    earlier = room.merge("out", "a", "b", "c")
    want("a merge", {*ORDER, "report", *of_hosts("a", "b", "c")}, set(earlier))
    mine = ["notes", "plan.md", "passwd.old", "group.md"]
    for name in mine:
        (room.out / name).write_text("mine\n")
    later = room.merge("--pins", "out/map", "-o", "out", "a/", "./b")
    want("a second merge", {*ORDER, "report", *of_hosts("a", "b"), *mine}, set(later))
    want("what is not the merge's", [b"mine\n"] * len(mine), [later[name] for name in mine])
    fresh = room.path / "fresh"
    fresh.mkdir()
    (fresh / "map").write_bytes(earlier["map"])
    pins = str((fresh / "map").rename(room.path / "earlier"))
    room.merge("--pins", pins, "fresh", "a", "b")
    for name in mine:
        del later[name]
    want("a second merge, by the same pins", contents(fresh), later)


def opened_for_reading(fifo, seconds=60):
    """A FIFO opened for writing, once somebody has it open for reading."""
    until = time.monotonic() + seconds
    while time.monotonic() < until:
        try:
            return os.open(fifo, os.O_WRONLY | os.O_NONBLOCK)
        except OSError:
            time.sleep(0.01)
    fail(str(fifo), "nobody reads it")


def held(room):
    """While a merge has OUT another one is refused and leaves it as it was, by whatever path; a kill lets go of it."""
    earlier = room.merge("out", "a", "b")
    (room.path / "link").symlink_to("out")
    (room.path / "c/mtree").unlink()
    os.mkfifo(room.path / "c/mtree")
    first = subprocess.Popen([room.program, "merge", "out", "a", "c"], cwd=room.path, stdin=subprocess.DEVNULL)
    try:
        writer = opened_for_reading(room.path / "c/mtree")
        for out in ("out", "link"):
            told = f"unify: output {out}: another merge is writing there\n"
            want(f"two merges into {out}", (2, "", told), room.run("merge", out, "a", "b"))
        want("two merges: the files", earlier, contents(room.out))
        want("two merges: the first", None, first.poll())
    finally:
        first.kill()
        first.wait()
    os.close(writer)
    want("a merge behind one that was killed", earlier, room.merge("out", "a", "b"))


def refused_later(room):
    """A fault that is found while the site is read or counted leaves an earlier merge as it was."""
    earlier = room.merge("out", "a", "b")
    (room.path / "b/passwd").write_text("no line of any text\n")
    want("a fault in passwd", (1, "", "unify: 1 BadFields host b passwd line 1\n"), room.run("merge", "out", "a", "b"))
    shutil.copy(room.path / "a/passwd", room.path / "b/passwd")
    (room.path / "b/mtree").write_text("f uid=4000 gid=100\n")
    want("a fault in mtree", (1, "", "unify: 25 UnownedUid host b uid 4000 f\n"), room.run("merge", "out", "a", "b"))
    want("an earlier merge, after faults", earlier, contents(room.out))


def planted(room, name, link):
    """What a link leads to stays as it is, whatever its name in OUT."""
    victim = room.path / "victim"
    victim.write_text("mine\n")
    (room.out / name).unlink(missing_ok=True)
    link(victim, room.out / name)
    merged = room.merge("out", "a", "b")
    want(f"a link at {name}: what it leads to", "mine\n", victim.read_text())
    want(f"a link at {name}: the merge", {*ORDER, "report", *of_hosts("a", "b")}, set(merged))
    want(f"a link at {name}: other links", False, any(path.is_symlink() for path in room.out.iterdir()))
    want(f"a link at {name}: other names", {1}, {path.stat().st_nlink for path in room.out.iterdir()})


def links(program):
    """Links to a file of somebody's, in a directory that is new where that is accepted, and else in one that has a merge."""
    makes = [lambda victim, name: name.symlink_to(victim), lambda victim, name: name.hardlink_to(victim)]
    for link in makes:
        for file in [*ORDER, "report", *of_hosts("a", "b")]:
            in_room(program, lambda room: planted(room, TEMPORARY + file, link))
        for file in [*ORDER, *of_hosts("b"), MARK, TEMPORARY + "passwd"]:
            in_room(program, lambda room: (room.merge("out", "a", "b"), planted(room, file, link)))


def inventory_linked(room):
    """A plan's name that leads to an inventory, which is read after the plans of the earlier merge are gone."""
    room.merge("out", "a", "b")
    whole = (room.path / "a/mtree").read_bytes()
    for link in (pathlib.Path.symlink_to, pathlib.Path.hardlink_to):
        (room.out / "plan.b").unlink()
        link(room.out / "plan.b", room.path / "a/mtree")
        room.merge("out", "a", "b")
        want("a plan that led to an inventory", whole, (room.path / "a/mtree").read_bytes())


def full_disk(program):
    """Merges into file systems of so few blocks that not all files have room."""
    with tempfile.TemporaryDirectory(prefix="unify-outputs-") as name:
        room = Room(program, name)
        large = "".join(f"u{number}:x:{number}:100::/:/bin/sh\n" for number in range(2000, 4000))
        for host in ("a", "b"):
            with open(room.path / host / "passwd", "a") as passwd:
                passwd.write(large)
        merged = room.merge("out", "a", "b")
        small = room.path / "small"
        small.mkdir()
        stopped = 0
        for size in range(16, 1024, 48):
            options = f"size={size}k"
            if subprocess.run(["mount", "-t", "tmpfs", "-o", options, "tmpfs", small], capture_output=True).returncode:
                print("a full disk: skipped, since no file system can be mounted here")
                return
            try:
                status, _, err = room.run("merge", "small", "a", "b")
                whole(f"a disk of {size} KB", [{}, merged], contents(small))
                if status:
                    stopped += 1
                    want(f"a disk of {size} KB", (3, True), (status, err.endswith(": No space left on device\n")))
            finally:
                subprocess.run(["umount", small], check=True)
        want("full disks: some, and not all", True, 0 < stopped < 21)
        print(f"full disks: {stopped} merges stopped, each file whole or not there")


def whole(name, merges, came):
    """Every file is that of one of these merges; no file of a host stands beside the map of another one, nor without its plan; and
    a report stands only where all files are those of its merge."""
    ours = {file: text for file, text in came.items() if not file.startswith(".")}
    for file, text in ours.items():
        want(f"{name}: {file}", True, text in [merge.get(file) for merge in merges])
    theirs = [file for file in ours if "." in file]
    mapped = [merge for merge in merges if "map" in ours and merge.get("map") == ours["map"]]
    if theirs and not any(all(merge.get(file) == ours[file] for file in theirs) for merge in mapped):
        fail(name, f"{theirs} beside the map of another merge")
    if lost := {f"plan.{file.partition('.')[2]}" for file in theirs} - set(ours):
        fail(name, f"files of hosts without {lost}")
    if "report" in ours and ours not in [merge for merge in merges if merge]:
        fail(name, "a report beside files that are not those of its merge")


def stops(room):
    """How a merge is stopped at one call after another: a name, and the words before the program, until none is left."""
    if not shutil.which("strace"):
        for number in range(100):
            yield f"after {number / 4:.2f} ms", ["timeout", "-s", "KILL", f"{0.001 + number / 4000}"]
        return
    trace = ["strace", "-f", "-qq", "-o", "/dev/null", "-e", f"trace={CHANGING}"]
    calls = room.path / "calls"
    for call in CHANGING.split(","):
        status, _, _ = room.run("merge", "out", "a", "b", before=["strace", "-f", "-qq", "-o", calls, "-e", f"trace={call}"])
        want("a merge with strace", 0, status)
        for number in range(1, len(calls.read_text().splitlines()) + 1):
            yield f"{call} {number}", [*trace, "-e", f"inject={call}:signal=KILL:when={number}"]


def laid(folder, files):
    shutil.rmtree(folder)
    folder.mkdir()
    for name, text in files.items():
        (folder / name).write_bytes(text)


def stopped(room, step):
    """Stops merges into an empty directory, and merges that take the place of an earlier one; tells how many were stopped."""
    earlier = room.merge("--pins", other_pins(room), "out", "b", "c", "a")
    laid(room.out, {})
    merged = room.merge("out", "a", "b")
    want("two merges that differ", [], [name for name in ("passwd", "map", "plan.a", "passwd.a", "report") if merged[name] == earlier[name]])
    number = 0
    for older in ({}, earlier):
        laid(room.out, older)
        for at, (name, before) in enumerate(list(stops(room))):
            if at % step:
                continue
            laid(room.out, older)
            status, _, _ = room.run("merge", "out", "a", "b", before=before)
            number += status != 0
            name = f"stopped at {name}{', over an earlier merge' if older else ''}"
            whole(name, [older, merged], contents(room.out))
            want(f"{name}, made again", merged, room.merge("out", "a", "b"))
    return number


def least_stops():
    """So many stops there are at least where not each call is tried: by strace at calls, and else by time."""
    return 15 if shutil.which("strace") else 2


def some_stopped(room):
    """Stops some merges; with fewer stops than these nothing would be seen."""
    number = stopped(room, STEP)
    want("stops, not too few", True, number >= least_stops())
    print(f"stops: {number}, after each every file whole and the merge made again")


def other_pins(room):
    """Numbers with which a merge differs from one without them in each file."""
    (room.path / "pins").write_text("user alice 1500\nuser bob 1501\n")
    return "pins"


def main(words):
    if len(words) not in (1, 2) or words[1:] not in ([], ["--each-call"]):
        print(__doc__)
        return 2
    program, began = pathlib.Path(words[0]).resolve(), time.monotonic()
    if words[1:]:
        in_room(program, lambda room: print(f"stops: {stopped(room, 1)}, after each every file whole and the merge made again"))
        return 0
    for row in REFUSED:
        in_room(program, lambda room: refused(room, *row))
    for row in UNSEEN:
        in_room(program, lambda room: refused(room, *row, status=3, thing="file"))
    print(f"directories that are refused: {len(REFUSED) + len(UNSEEN)}, each left as it was")
    for test in (replaced, held, refused_later, inventory_linked):
        in_room(program, test)
    links(program)
    full_disk(program)
    if not shutil.which("strace"):
        print("stops: without strace, so at times and not at calls")
    in_room(program, some_stopped)
    print(f"outputs: as wanted, in {time.monotonic() - began:.1f} s")
    return 0


sys.exit(main(sys.argv[1:]))
