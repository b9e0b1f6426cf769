#!/usr/bin/env python3
"""What pwck and grpck of the Debian package `passwd` say of account files: of each host's own, of these with their new numbers
(passwd.NAME and group.NAME), and of the merged ones, where there are such. The hosts are those of examples/office; then three that
are made of a Debian system's own files: of those that its package base-passwd has, and of this machine's, with people who have
other numbers on each, merged without a keep text and with examples/keep/system; and with that the Debian host of examples/mixed
with the Rocky one, and with the FreeBSD one.

    bench/pwck.py [PROGRAM]

PROGRAM is what `make program` built, if none is named. It wants Debian, and root, since pwck and grpck are run with `--root` in a
folder that has the two files as /etc/passwd and /etc/group, and the homes and shells that the passwd names. Ends with status 1
where they say something else of a host's own files with their new numbers than of those that the host had.
"""
import pathlib
import subprocess
import sys
import tempfile

from measure import HERE, UNIFY

EXAMPLES = pathlib.Path(HERE).parent / "examples"
OFFICE, MIXED, SYSTEM = EXAMPLES / "office", EXAMPLES / "mixed", EXAMPLES / "keep/system"
# Debian's own passwd and group: as its package base-passwd has them, and as they are here.
MASTER = "/usr/share/base-passwd/passwd.master", "/usr/share/base-passwd/group.master"
HERE_TOO = "/etc/passwd", "/etc/group"
# Of each host what it is made of, and its people with their numbers.
DEBIAN = {
    "web": (MASTER, {"ada": 1100, "zoe": 1101}),
    "db": (HERE_TOO, {"zoe": 1100, "ada": 1101}),
    "build": (MASTER, {"ada": 1101, "eve": 1100}),
}


def lay_out(root, passwd, group):
    """A folder as it would be the root of a host with these account files."""
    (root / "etc").mkdir(parents=True)
    (root / "etc/passwd").write_bytes(passwd.read_bytes())
    (root / "etc/group").write_bytes(group.read_bytes())
    for line in passwd.read_text().splitlines():
        fields = line.split(":")
        if len(fields) == 7:
            (root / fields[5].strip("/")).mkdir(parents=True, exist_ok=True)
            shell = root / fields[6].strip("/")
            shell.parent.mkdir(parents=True, exist_ok=True)
            shell.touch(mode=0o755)


def said(passwd, group):
    """The status of pwck and of grpck for two files, and what each says."""
    with tempfile.TemporaryDirectory() as name:
        root = pathlib.Path(name) / "root"
        lay_out(root, passwd, group)
        told = []
        for words in (["pwck", "-r", "--root", root], ["grpck", "-r", "--root", root]):
            ran = subprocess.run(words, stdin=subprocess.DEVNULL, stdout=subprocess.PIPE, stderr=subprocess.STDOUT, text=True)
            told.append(f"{words[0]} {ran.returncode}: {' / '.join(ran.stdout.splitlines()) or 'nothing'}")
        return told


def debian_hosts(folder):
    """Makes the folders of the hosts of Debian's own files; each of the people has a file there."""
    for host, ((passwd, group), people) in DEBIAN.items():
        (folder / host).mkdir()
        rows = "".join(f"{name}:x:{uid}:{uid}:{name}:/home/{name}:/bin/sh\n" for name, uid in people.items())
        (folder / host / "passwd").write_text(pathlib.Path(passwd).read_text() + rows)
        rows = "".join(f"{name}:x:{gid}:\n" for name, gid in people.items())
        (folder / host / "group").write_text(pathlib.Path(group).read_text() + rows)
        (folder / host / "login.defs").write_text("SYS_UID_MIN 100\nSYS_GID_MIN 100\n")
        files = "".join(f"./home/{name} uid={number} gid={number}\n" for name, number in people.items())
        (folder / host / "mtree").write_text(files)


def told_of(program, hosts, *options):
    """Merges the hosts, whose folders are given by name, prints what is said, and tells whose own files differ in that."""
    print(f"--- {' '.join(hosts)} {' '.join(map(str, options))}".rstrip())
    differ = []
    with tempfile.TemporaryDirectory() as name:
        out = pathlib.Path(name)
        words = [program, "merge", "-q", *options, out, *(f"{host}={folder}" for host, folder in hosts.items())]
        subprocess.run(words, check=True, stdout=subprocess.DEVNULL)
        for host, folder in hosts.items():
            before = said(folder / "passwd", folder / "group")
            after = said(out / f"passwd.{host}", out / f"group.{host}")
            print(f"{host}, its own:", *before, sep="\n  ")
            print(f"{host}, with new numbers:", *after, sep="\n  ")
            differ += [host] * (before != after)
        if (out / "passwd").exists():
            print("merged:", *said(out / "passwd", out / "group"), sep="\n  ")
    return differ


def main(program=UNIFY):
    differ = told_of(program, {host: OFFICE / host for host in ("amber", "basalt")})
    with tempfile.TemporaryDirectory() as name:
        folder = pathlib.Path(name)
        debian_hosts(folder)
        for options in ((), ("--keep", SYSTEM)):
            differ += told_of(program, {host: folder / host for host in DEBIAN}, *options)
    for other in ("rocky", "freebsd"):
        differ += told_of(program, {host: MIXED / host for host in ("debian", other)}, "--keep", SYSTEM)
    print(f"not the same: {' '.join(differ)}" if differ else "the same of each host's own files, before and after")
    return bool(differ)


if __name__ == "__main__":
    sys.exit(main(*sys.argv[1:]))
