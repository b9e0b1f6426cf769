#!/usr/bin/env python3
"""Which names come back from the inventories that mtree and bsdtar write: every byte that a name may have, in five places, and at
the end of a folder's name.

    bench/escapes.py [PROGRAM]

PROGRAM is what `make program` built, if none is named. It wants NetBSD's `mtree` and `bsdtar`. A name is right if the plan of
a merge has it; refused if its line is told as a bad path, which is then taken out and the rest read again; lost if the tool
wrote another name, as this script reads it; and wrong if it is none of these, or if the plan has a name that nobody wrote.
Of folders it tells how many names the plan has that are no file's; `mtree -C` is not asked for them, since a folder whose name
it cuts gives those behind it other paths.
"""
import os
import pathlib
import re
import shutil
import subprocess
import sys

from measure import HERE, UNIFY

BYTES = [bytes([byte]) for byte in range(1, 256) if byte != ord("/")]
PLACES = {
    "alone": lambda byte: byte,
    "between": lambda byte: b"x" + byte + b"y",
    "in front": lambda byte: byte + b"y",
    "at the end": lambda byte: b"x" + byte,
    "at a long end": lambda byte: b"a-name-that-fills-its-column" + byte,
}
ESCAPE = re.compile(rb"\\(?:M-([!-~])|M\^([?-_])|\^([?-_])|([0-7]{3})|([\\stnvfrab#]))", re.DOTALL)
LETTERS = dict(zip(b"\\stnvfrab#", b"\\ \t\n\v\f\r\a\b#"))
REFUSED = re.compile(r"unify: 14 BadPath host a mtree line (\d+)\n")


def byte_of(found):
    meta, meta_control, control, octal, letter = found.groups()
    if octal:
        return bytes([int(octal, 8)])
    if letter:
        return bytes([LETTERS[ord(letter)]])
    if meta:
        return bytes([128 + ord(meta)])
    return bytes([(ord(meta_control or control) ^ 64) + (128 if meta_control else 0)])


def names_written(text):
    """The names that a tool wrote of a flat folder, as vis(3) has them."""
    words = [line.split()[0].removeprefix(b"./") for line in text.split(b"\n") if re.match(rb"( {4})?[^ #/]", line)]
    return {ESCAPE.sub(byte_of, word) for word in words} - {b".", b"..", b""}


def run(words, **more):
    return subprocess.run(words, capture_output=True, check=True, **more).stdout


def by_mtree(folder):
    return run(["mtree", "-c", "-k", "uid,gid,type", "-p", folder])


def by_mtree_with_time(folder):
    text = run(["mtree", "-c", "-k", "uid,gid,type,time", "-p", folder])
    return b"".join(line for line in text.splitlines(True) if not line.startswith(b"#"))


def by_mtree_again(folder):
    return run(["mtree", "-C", "-k", "uid,gid,type"], input=by_mtree_with_time(folder))


def by_bsdtar(folder):
    return run(["bsdtar", "-cf", "-", "--format=mtree", "--options=!all,uid,gid,type", "-C", folder, "."])


TOOLS = {
    "mtree -c": by_mtree,
    "mtree -c with time, without comments": by_mtree_with_time,
    "mtree -C": by_mtree_again,
    "bsdtar": by_bsdtar,
}


def paths_of(plan):
    """The paths of a plan's records, each of which tells its length."""
    paths, rest = set(), plan.split(b"\n", 1)[1]
    while not rest.startswith(b"end\n"):
        length, rest = rest.split(b" ", 5)[4:]
        paths.add(rest[: int(length)])
        rest = rest[int(length) + 1 :]
    return paths


def read_back(program, room, text):
    """The paths of an inventory, and how many of its lines were refused."""
    uid, gid = os.getuid(), os.getgid()
    for name, has in [
        ("passwd", f"me:x:{uid}:{gid}:::\n"),
        ("group", f"us:x:{gid}:\n"),
        ("login.defs", "SYS_UID_MIN 0\nSYS_GID_MIN 0\n"),
        ("pins", f"user me {uid + 5000}\n"),
    ]:
        (room / name).write_text(has)
    out = room.with_name("out")
    out.mkdir()
    lines, refused = text.split(b"\n"), 0
    while True:
        (room / "mtree").write_bytes(b"\n".join(lines))
        ran = subprocess.run([program, "merge", "--pins", room / "pins", out, f"a={room}"], capture_output=True, text=True)
        if ran.returncode == 0:
            return paths_of((out / "plan.a").read_bytes()) - {b"."}, refused
        told = REFUSED.fullmatch(ran.stderr)
        if told is None:
            sys.exit(ran.stderr)
        lines[int(told[1]) - 1] = b""
        refused += 1


def fresh(folder):
    """A folder for a host and one for files, both empty."""
    shutil.rmtree(folder, ignore_errors=True)
    room, tree = folder / "a", folder / "tree"
    room.mkdir(parents=True)
    tree.mkdir()
    return room, tree


def tell_files(program, work, tool, place):
    """Files of one folder, whose names have each byte in this place."""
    room, tree = fresh(work)
    names = {PLACES[place](byte) for byte in BYTES} - {b"."}
    for name in names:
        open(os.fsencode(tree) + b"/" + name, "w").close()
    text = TOOLS[tool](tree)
    written = names_written(text)
    came, refused = read_back(program, room, text)
    right, lost = len(names & came), len(names - written)
    wrong = len(came - written) + len(names) - right - refused - lost
    print(f"{tool}, {place}: {right} right, {refused} refused, {lost} lost by the tool, {wrong} wrong")


def tell_folders(program, work, tool):
    """Folders whose names end in each byte, with a file in each whose long name ends in it too."""
    room, tree = fresh(work)
    names = set()
    for byte in BYTES:
        folder = PLACES["at the end"](byte)
        file = folder + b"/" + PLACES["at a long end"](byte)
        os.mkdir(os.fsencode(tree) + b"/" + folder)
        open(os.fsencode(tree) + b"/" + file, "w").close()
        names |= {folder, file}
    came, refused = read_back(program, room, TOOLS[tool](tree))
    print(f"{tool}, folders: {len(names & came)} of {len(names)} right, {refused} refused, {len(came - names)} other names")


def main():
    program = pathlib.Path(*sys.argv[1:2] or [UNIFY]).resolve()
    work = pathlib.Path(HERE, "work", "escapes")
    for tool in TOOLS:
        for place in PLACES:
            tell_files(program, work, tool, place)
        if tool != "mtree -C":
            tell_folders(program, work, tool)


if __name__ == "__main__":
    main()
