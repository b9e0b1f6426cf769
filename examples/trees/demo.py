#!/usr/bin/env python3
"""Merges two hosts that have real trees, carries the plans out on these, verifies them, and takes the plans back. It needs root.

    examples/trees/demo.py PROGRAM FOLDER

The hosts are those of examples/office, with their account files. Each gets a tree below FOLDER, of the files below; what is done
then is what docs/OPERATIONS.md tells of a site. Every command is printed with its answer. Ends with status 1 where anything is
otherwise than it has to be: a file whose owner has another name than before, or a tree that is not as it was at the end.
"""
import os
import pathlib
import shutil
import subprocess
import sys

OFFICE = pathlib.Path(__file__).resolve().parent.parent / "office"
HOSTS = ["amber", "basalt"]
# The files of each host: what they are, and the names of user and group. Folders come first.
FILES = {
    "amber": [
        ("folder", "home", "root", "root"),
        ("folder", "home/ines", "ines", "ines"),
        ("file", "home/ines/Offer 2026.odt", "ines", "ines"),
        ("folder", "home/jonas", "jonas", "jonas"),
        ("file", "home/jonas/.bashrc", "jonas", "jonas"),
        ("folder", "home/maya", "maya", "maya"),
        ("file", "home/maya/.zshrc", "maya", "maya"),
        ("folder", "backup", "postgres", "postgres"),
    ],
    "basalt": [
        ("folder", "home", "root", "root"),
        ("folder", "home/ines", "ines", "ines"),
        ("folder", "home/jonas", "jonas", "jonas"),
        ("file", "home/jonas/two\nlines", "jonas", "jonas"),
        ("link", "home/jonas/mail", "jonas", "jonas"),
        ("pipe", "home/jonas/pipe", "jonas", "jonas"),
        ("folder", "home/lucia", "lucia", "lucia"),
        ("set-id", "home/lucia/viewer", "lucia", "atlas"),
        ("file", "home/lucia/größe.csv", "lucia", "atlas"),
        ("folder", "home/maya", "maya", "users"),
    ],
}


def numbers_of(path):
    """The numbers of an account file by name."""
    rows = (line.split(":") for line in path.read_text().splitlines() if line and not line.startswith("#"))
    return {row[0]: int(row[2]) for row in rows}


def make_tree(root, host):
    """Makes the tree of a host, owned as its own account files say."""
    users, groups = (numbers_of(OFFICE / host / file) for file in ("passwd", "group"))
    root.mkdir(parents=True)
    for kind, name, user, group in FILES[host]:
        path = root / name
        if kind == "folder":
            path.mkdir()
        elif kind == "link":
            path.symlink_to("/var/mail/jonas")
        elif kind == "pipe":
            os.mkfifo(path)
        else:
            path.write_text("some text\n")
        os.chown(path, users[user], groups[group], follow_symlinks=False)
        if kind == "set-id":
            path.chmod(0o6750)


def state_of(root):
    """Each file of a tree with its mode, owner and group."""
    found = [root, *sorted(root.rglob("*"))]
    return {str(path.relative_to(root)): (path.lstat().st_mode, path.lstat().st_uid, path.lstat().st_gid) for path in found}


def names_of(root, passwd, group):
    """Each file of a tree with its mode and the names that account files give its owner and its group."""
    users, groups = ({number: name for name, number in numbers_of(file).items()} for file in (passwd, group))
    return {path: (mode, users.get(uid), groups.get(gid)) for path, (mode, uid, gid) in state_of(root).items()}


class Demo:
    def __init__(self, program, folder):
        self.program, self.folder = pathlib.Path(program).resolve(), pathlib.Path(folder).resolve()

    def unify(self, *words, into=None, below=None):
        """Runs the program with some words, below the folder or below a folder in it, and prints them with the answer."""
        print(f"$ unify {' '.join(words)}{f' > {into.name}' if into else ''}", flush=True)
        ran = subprocess.run([self.program, *words], cwd=below or self.folder, stdin=subprocess.DEVNULL, stdout=subprocess.PIPE)
        if ran.returncode:
            sys.exit(f"it ended with status {ran.returncode}")
        if into:
            into.write_bytes(ran.stdout)
        else:
            print(ran.stdout.decode(), end="", flush=True)

    def gather(self, host):
        """Makes a host's tree and its inventory."""
        site = self.folder / host
        shutil.copytree(OFFICE / host, site, ignore=shutil.ignore_patterns("mtree"))
        make_tree(site / "tree", host)
        self.unify("inventory", "-x", ".", into=site / "mtree", below=site / "tree")

    def carry_out(self, host):
        """Carries a host's plan out, and has the names of all files looked at, here and by the program."""
        tree, plan = f"{host}/tree", f"out/plan.{host}"
        before = names_of(self.folder / tree, self.folder / host / "passwd", self.folder / host / "group")
        self.unify("apply", "--check", "--host", host, plan, tree)
        self.unify("apply", "-q", "--host", host, plan, tree)
        own = [f"{host}/passwd", f"{host}/group"]
        new = [f"out/passwd.{host}", f"out/group.{host}"]
        above = [f"../../{file}" for file in (*own, *new)]
        self.unify("verify", "--was", *above[:2], "--now", *above[2:], "../mtree", ".", below=self.folder / tree)
        if names_of(self.folder / tree, *(self.folder / file for file in new)) != before:
            sys.exit(f"a file of {host} has another mode, or an owner of another name")

    def run(self):
        shutil.rmtree(self.folder, ignore_errors=True)
        (self.folder / "out").mkdir(parents=True)
        for host in HOSTS:
            self.gather(host)
        were = {host: state_of(self.folder / host / "tree") for host in HOSTS}
        self.unify("merge", "-q", "out", *HOSTS)
        for host in HOSTS:
            self.carry_out(host)
        for host in HOSTS:
            self.unify("apply", "-q", "--reverse", "--host", host, f"out/plan.{host}", f"{host}/tree")
            if state_of(self.folder / host / "tree") != were[host]:
                sys.exit(f"the tree of {host} is not as it was")
        print("each file kept its names and its mode, and has its old owner again")


if __name__ == "__main__":
    if len(sys.argv) != 3:
        sys.exit(__doc__)
    if os.geteuid():
        sys.exit("only root may give files other owners")
    Demo(*sys.argv[1:]).run()
