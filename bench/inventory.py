#!/usr/bin/env python3
"""Which names come back from the inventories that `unify inventory` writes: every byte that is a text by itself, and letters of two,
three and four bytes, in the five places of escapes.py, in a folder and as the name of a folder; and what the first line tells.

    bench/inventory.py [PROGRAM]

PROGRAM is what `make program` built, if none is named. A path is right if the plan of a merge has it, and os.walk too. Then it
tells what `unify verify` finds of the inventory and the tree, what is said of names that are not UTF-8, and, as root, of a folder
that the caller may not read, and what `-x` lists and tells where another file system is mounted; with strace, what is opened; and
lists /usr, which it times.
"""
import os
import pathlib
import re
import shutil
import subprocess
import sys

from escapes import ESCAPE, PLACES, byte_of, fresh, read_back
from measure import HERE, UNIFY, timed

LETTERS = [bytes([byte]) for byte in range(1, 128) if byte != ord("/")] + [letter.encode() for letter in "é\u0085\u2028漢\U0001f600"]
NO_TEXT = [b"\xff", b"\xc3", b"x\x80y"]


def lay_out(tree):
    """Files of one folder with each name, and folders of these names with a file each."""
    for place in PLACES.values():
        for letter in LETTERS:
            name = place(letter)
            if name != b".":
                folder = tree + b"/folders/" + name
                os.makedirs(folder, exist_ok=True)
                open(folder + b"/" + name, "w").close()
                open(tree + b"/" + name, "w").close()
    os.symlink(b"nowhere", tree + b"/a link")
    os.mkfifo(tree + b"/a pipe")


def paths_below(folder, root):
    """The paths of a root of a folder and of all below it, as os.walk has them."""
    found = {root}
    for path, folders, files in os.walk(folder + b"/" + root):
        found |= {os.path.join(path, name)[len(folder) + 1 :] for name in folders + files}
    return found


def parted(text):
    """The host and the roots that the first line of an inventory tells, and all lines behind it. The time, which is between the
    two, has to have its form."""
    head, _, lines = text.partition(b"\n")
    host, _, roots = re.fullmatch(rb"# unify inventory 1 (\S*) (\d{4}-\d\d-\d\dT\d\d:\d\d:\d\dZ) (.*)", head).groups()
    return ESCAPE.sub(byte_of, host), [ESCAPE.sub(byte_of, root) for root in roots.split(b" ")], lines


def verify(program, room, listed, tree):
    """What the program tells of an inventory and the tree that is there."""
    (room / "listed").write_bytes(listed)
    tables = [room / "passwd", room / "group"]
    return subprocess.run([program, "verify", "--was", *tables, "--now", *tables, room / "listed", tree], capture_output=True, text=True)


def list_as_other(program, tree):
    """What another user is told who may not read a folder of the tree, and what that user's inventory has."""
    closed = tree / "closed"
    closed.mkdir(mode=0o700)
    (closed / "inside").write_bytes(b"")
    words = ["setpriv", "--reuid", "65534", "--clear-groups", program, "inventory", tree]
    came = subprocess.run(words, capture_output=True)
    whole = subprocess.run([program, "inventory", tree], capture_output=True).stdout
    lacks = [line for line in parted(whole)[2].split(b"\n") if line not in parted(came.stdout)[2].split(b"\n")]
    last = [line for line in lacks if line.startswith(b"# end ")]
    print(f"a folder that the caller may not read: status {came.returncode}, files left out {len(lacks) - len(last)}, last line there", end=" ")
    print(f"{came.stdout.splitlines()[-1].startswith(b'# end ')}, told: {came.stderr.decode().strip().replace(str(tree).lstrip('/'), 'TREE')}")
    shutil.rmtree(closed)


def list_mounted(program, tree):
    """How many lines a file system that is mounted in the tree has with -x and without, and what is told."""
    folder = tree / "mounted"
    folder.mkdir()
    subprocess.run(["mount", "-t", "tmpfs", "none", folder], check=True)
    try:
        (folder / "inside").write_bytes(b"")
        for flags in (["-x"], []):
            came = subprocess.run([program, "inventory", *flags, tree], capture_output=True)
            lines = sum(b"/mounted" in line for line in came.stdout.splitlines())
            told = came.stderr.decode().strip().replace(str(tree).lstrip("/"), "TREE")
            print(f"a file system mounted below {' '.join(flags)}: status {came.returncode}, its lines {lines}, told: {told or 'nothing'}")
    finally:
        subprocess.run(["umount", folder], check=True)
        folder.rmdir()


def list_traced(program, tree):
    """How many names of the tree are opened, and which of those in another way than as a directory."""
    trace = tree.parent / "trace"
    words = ["strace", "-f", "-s", "9999", "-o", trace, "-e", "trace=open,openat,openat2,creat", program, "inventory", tree]
    subprocess.run(words, capture_output=True)
    names = re.findall(rb'"((?:[^"\\]|\\.)*)"', trace.read_bytes())
    # The names in an open directory are read by its descriptor alone. What ends in a slash or in a dot is a directory or nothing.
    opened = [name for name in names if name.startswith(os.fsencode(tree)) or re.match(rb"/proc/self/fd/\d+/", name)]
    others = [name for name in opened if not name.endswith((b"/", b"/."))]
    print(f"opened: {len(opened)} names, of which are not opened as a directory {others}")


def main():
    program = pathlib.Path(*sys.argv[1:2] or [UNIFY]).resolve()
    room, tree = fresh(pathlib.Path(HERE, "work", "inventory"))
    folder = os.fsencode(tree.parent)
    lay_out(os.fsencode(tree))
    words = [program, "inventory", "-x", tree]
    listed = subprocess.run(words, capture_output=True, check=True)
    root = os.fsencode(tree).lstrip(b"/")
    there = {root + path[len(b"tree") :] for path in paths_below(folder, b"tree")}
    came, refused = read_back(program, room, listed.stdout)
    print(f"{len(there)} paths: {len(there & came)} right, {refused} refused, {len(came - there)} other paths, {len(listed.stderr)} bytes told")
    host, roots, lines = parted(listed.stdout)
    print(f"first line: this host {host == os.fsencode(os.uname().nodename)}, the root as it was named {roots == [os.fsencode(tree)]}")
    verified = verify(program, room, listed.stdout, tree)
    print(f"verified with the tree: status {verified.returncode}, {', '.join(verified.stdout.splitlines())}")
    for name in NO_TEXT:
        open(os.fsencode(tree) + b"/folders/" + name, "w").close()
    again = subprocess.run(words, capture_output=True)
    print(f"{len(NO_TEXT)} names that are not UTF-8: status {again.returncode}, the same files {parted(again.stdout)[2] == lines}, told:")
    print(again.stderr.decode().replace(str(tree), "TREE"), end="")
    if os.geteuid() == 0:
        list_as_other(program, tree)
        list_mounted(program, tree)
    if shutil.which("strace"):
        list_traced(program, tree)
    seconds, mebibytes, text = timed([program, "inventory", "-x", "/usr"])
    print(f"/usr: {text.splitlines()[-1]}, {seconds:.2f} s, {mebibytes:.0f} MiB")


if __name__ == "__main__":
    main()
