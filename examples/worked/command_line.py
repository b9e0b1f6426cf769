"""The command line: what the program answers to words, on which stream, and with which exit status.

The words name files of a room, a folder that is made for them: the hosts a and b of examples/stored-count and a map of theirs,
and the texts and hosts below."""
import hashlib
import os
import pathlib
import re
import shutil
import subprocess
import tempfile
import time

STORED = pathlib.Path(__file__).resolve().parents[1] / "stored-count"
COUNTED = "user-fields 2\ngroup-fields 0\n"
CERTIFICATE = "unify certificate 2\nuser alice 1001 3\nuser bob 1000 0\nzuser 1001 {}\ngroup users 100 0\nend\n"
# The owner of the files of the room, and one that no file has.
OWN, FAR = f"{os.geteuid()} {os.getegid()}", "4000000001 4000000001"
OWN_PLAN = f"unify plan 1 b\n{OWN} {FAR} 3 map\n{FAR} {OWN} 4 pins\nend\n"
# A plan whose one file lies in a folder, so that a look at it leaves the folder that the command began in.
DEEP_PLAN = f"unify plan 1 b\n{OWN} {FAR} 17 linked/to nothing\nend\n"


def known_by(plan):
    """What the mark of a plan of host b, and the text of its modes, know it by."""
    return f"b {len(plan)} {hashlib.sha256(plan.encode()).hexdigest()}\n"


# Plans with the names that they have in the room, and what stands beside them there; and what is told of that.
BESIDE = {
    "odd-mark": (DEEP_PLAN, {".done": "no mark\n"}),
    "other-mark": (DEEP_PLAN, {".done": "unify applied 1 " + known_by(OWN_PLAN)}),
    "done-early": (DEEP_PLAN, {".done": "unify applied 1 " + known_by(DEEP_PLAN)}),
    "cut-modes": (DEEP_PLAN, {".done.modes": "unify modes 1 " + known_by(DEEP_PLAN)}),
    "other-modes": (DEEP_PLAN, {".done.modes": "unify modes 1 " + known_by(OWN_PLAN) + "end\n"}),
    "own-modes": (OWN_PLAN, {".done.modes": "unify modes 1 " + known_by(OWN_PLAN) + "end\n"}),
}
OTHER_PLAN = "another plan was started and is not finished; finish that one first (the reverse of a plan is another plan)\n"
TEXTS = {
    "good": CERTIFICATE.format(7),
    "wrong": CERTIFICATE.format(8),
    "plan": "unify plan 1 b\n1001 100 1000 100 4 bob1\n1001 100 1000 100 4 bob2\nend\n",
    "own-plan": OWN_PLAN,
    "moved.new": OWN_PLAN,
    "moved.modes.new": OWN_PLAN,
    "deep-plan": DEEP_PLAN,
    "lone-plan": f"unify plan 1 b\n{OWN} {FAR} 3 two\nend\n",
    "torn-plan": f"unify plan 1 b\n{OWN} {FAR} 3 two\n{OWN} 4000000002 4000000002 5 names\nend\n",
    "rooted-plan": f"unify plan 1 b\n{OWN} {FAR} 4 /map\nend\n",
    "near-plan": f"unify plan 1 b\n{OWN} {FAR} 3 map\nend\n",
    "more-plan": f"unify plan 1 b\n{OWN} {FAR} 3 two\n{OWN} {FAR} 5 names\n{OWN} {FAR} 6 set-id\nend\n",
    "far-plan": f"unify plan 1 b\n{FAR} 4000000002 4000000002 3 map\nend\n",
    "pins": "user bob 1005\n",
    "bad": "no line of any text\n",
    "cut-pins": "user bob 1005",
    "low-pins": "user bob 6\n",
    "low-keep": "users 5 7\n",
    "returns-pins": "user bob 1005\r\n",
    "returns-keep": "user bob\r\n",
    "returns-map": (STORED / "map").read_text().replace("\n", "\r\n"),
    "cut-keep": "users 0 999",
    "cut-map": (STORED / "map").read_text().rstrip("\n"),
    # Groups whose number 100 each host pins.
    "users-pins": "group users 105\n",
    "staff-pins": "group staff 100\n",
    # Names of few letters.
    "short-pins": "user bbo 1006\nuser dab 1007\nuser ob 1008\nuser rob 1009\n",
    "near-pins": "user alcie 1006\nuser bobby 1007\ngroup user 7\ngroup usres 8\n",
    "wide-pins": f"user {'x' * 65} 1006\nuser {'x' * 63} 1007\n",
    "other-pins": "group wheel 7\n\nuser bob 1005\nuser carol\tx 1006\n",
    # Pins of names of which a keep text keeps two, and of which two are names of the other kind.
    "keep-names": "user bob\ngroup users\n",
    "kept-pins": "user bob 1005\nuser users 1006\nuser alce 1007\ngroup users 7\ngroup bob 8\n",
    "keep-all": "user alice\nuser bob\ngroup users\n",
    # Keep texts that keep nothing, since no host has their names.
    "nobody-keep": "# none\nuser carol\tx\ngroup bob\nusers 5 7\n",
    "many-keep": "".join(f"user carol{number}\n" for number in range(10, 22)),
    "many-pins": "".join(f"user carol{number} {number}\n" for number in range(10, 22)),
    # Keep texts by whose ranges people stay as they are, and one that lists a name besides.
    "keep-ranges": "users 5 5000\ngroups 1000 5000\n",
    "keep-listed": "users 5 5000\nuser svc\n",
}
NOTHING_COUNTED = "user-fields 0\ngroup-fields 0\n"
NO_ACCOUNTS = "".join(f"unify: warning: host b has no {what}\n" for what in ("users", "groups"))
BARE = NO_ACCOUNTS + "unify: warning: host b has no files\n"
RETURNS = "".join(f"unify: warning: host a has lines in {file} that end in a carriage return\n" for file in ("passwd", "group", "login.defs"))
ENDED = "unify: warning: file {} has lines that end in a carriage return\n".format
CUT = "unify: warning: file cut-pins has no newline at its end\n"
CUT_KEEP = CUT.replace("pins", "keep")
TAKEN = "unify: warning: numbers of users that were another user's on some host: 1\n"
NOBODY = "unify: warning: pin of {} is for a name that no host has{}\n".format
KEPT = "unify: warning: keep of {} is for a name that no host has\n".format
SPACED = "".join(f"unify: warning: host a has lines in {file} that begin with white space\n" for file in ("passwd", "group"))
SPACED += "unify: warning: host a has members in group that begin with white space\n"
MTREE_RETURNS = "unify: warning: host a has lines in mtree that end in a carriage return\n"
DIFFER = "unify: warning: {} keeps its numbers, which differ between hosts: {} on {} and {} on {}\n".format
STAYS = "unify: warning: pin of {} has no effect: the name stays as it is on each host\n".format
ALICE = "alice:x:1001:100:{}:/home/alice:/bin/sh\n".format
MANY = range(10, 22)
# Hosts whose users and groups may be two under one name. Each has alice.
DOUBTED = {
    "web": (ALICE("A. Adams"), "users:x:100:\nsudo:x:27:alice\n"),
    "db": (ALICE("Alice"), "users:x:100:\nsudo:x:27:bob,carol\n"),
    "commas": (ALICE("A. Adams,,,"), "users:x:100:\nsudo:x:27:alice\n"),
    "odd": ("o\\x:x:1001:100:One:/:/\n", "users:x:100:\n"),
    "odder": ("o\\x:x:1001:100:Two,Room 1:/:/\n", "users:x:100:\n"),
    "crowd": (ALICE(""), "users:x:100:\n" + "".join(f"g{number}:x:{number}:alice\n" for number in range(200, 216))),
    "many": (ALICE("") + "".join(f"u{number}:x:{number}:100:one:/:/\n" for number in MANY), "users:x:100:\n"),
    "more": (ALICE("") + "".join(f"u{number}:x:{number}:100:two:/:/\n" for number in MANY), "users:x:100:\n"),
    "lists": (ALICE(""), "users:x:100:\n" + "".join(f"g{number}:x:{number}:\n" for number in MANY)),
    "listed": (ALICE(""), "users:x:100:\n" + "".join(f"g{number}:x:{number}:alice\n" for number in MANY)),
    "wide": (ALICE("") + f"{'x' * 64}:x:1003:100::/:/bin/sh\n", "users:x:100:\n"),
    # Numbers that pin a name: of groups at 100 and at 90, and of a user whose number is another one elsewhere.
    "ninety": (ALICE("").replace(":100:", ":90:"), "users:x:90:\n"),
    "staff": (ALICE(""), "staff:x:100:\n"),
    "low": (ALICE("") + "svc:x:6:100::/:/bin/sh\n", "users:x:100:\n"),
    "high": (ALICE("") + "svc:x:1006:100::/:/bin/sh\n", "users:x:100:\n"),
    "lower": (ALICE("") + "svc:x:7:100::/:/bin/sh\n", "users:x:100:\n"),
    # Users and groups that have other numbers on one of these than on the other.
    **{
        host: (
            ALICE("") + "".join(f"u{number}:x:{first + number}:100::/:/bin/sh\n" for number in MANY),
            "users:x:100:\n" + "".join(f"g{number}:x:{first + number}:\n" for number in MANY),
        )
        for host, first in {"here": 3000, "there": 4000}.items()
    },
    "long": (ALICE(""), "users:x:100:" + ",".join(f"u{number}" for number in MANY) + "\n"),
}
GETS = "unify: warning: group {} on host {} had {} and gains {}\n".format
# A tree, of which each folder holds one name, so that the files come in one order, and a folder with a link; and their lines.
TREE = ["tree", "tree/new\nline", "tree/new\nline/a b\\#\u00e9\\"]
LINKED = "linked/to nothing"
OWNED = f"uid={os.getuid()} gid={os.getgid()}"
# Who owns them, and another name that has got the number of this user.
OWN_TEXTS = {
    "own-passwd": f"me:x:{os.getuid()}:{os.getgid()}::/:/bin/sh\n",
    "own-group": f"mine:x:{os.getgid()}:\n",
    "other-passwd": f"other:x:{os.getuid()}:{os.getgid()}::/:/bin/sh\nme:x:4000000001:{os.getgid()}::/:/bin/sh\n",
}
# The first line of an inventory of this machine, with a word for the time when it was made.
TIME = "YYYY-MM-DDTHH:MM:SSZ"
MACHINE = f"# unify inventory 1 {os.uname().nodename} {TIME} {{}}\n".format
MADE = re.compile(r"(# unify inventory 1 \S+ )(\d{4}-\d\d-\d\dT\d\d:\d\d:\d\dZ) ")
# A root with which that line is as long as a line of an inventory may be, and roots that are too long together.
LONG = "x" * (65536 - len(MACHINE("")))
ROOTS = [f"{number:0100}" for number in range(700)]
TREE_LINES = (
    f"./tree type=dir {OWNED}\n./tree/new\\012line type=dir {OWNED}\n"
    f"./tree/new\\012line/a\\040b\\134#\\303\\251\\134 type=file {OWNED}\n"
)
# The tree as files that are new, with their owners, and with a number that the user me has left.
TREE_PATHS = ["tree", "tree/new\\012line", "tree/new\\012line/a\\040b\\134#\\303\\251\\134"]
TREE_NEW = "".join(f"unify: new {path} user {{0}} {os.getuid()} group mine {os.getgid()}\n" for path in TREE_PATHS).format
TREE_LEFT = "".join(f"unify: left {path} user me {os.getuid()}\n" for path in TREE_PATHS)
# Where another file system is mounted on a folder of /dev, as on most machines, what `-x` tells of it there.
APART = [
    f"unify: other file system dev/{name}\n"
    for name in ("pts", "shm")
    if os.path.isdir(f"/dev/{name}") and os.lstat(f"/dev/{name}").st_dev != os.lstat("/dev").st_dev
]
LINKED_LINES = f"./linked type=dir {OWNED}\n./linked/to\\040nothing type=link {OWNED}\n"
FULL_NAMES = "unify: warning: user {} has another full name on host {} than on {}\n".format
# An inventory with three files, of which one stands on three lines; the second of these lines is joined of two.
AGAIN = "# of alice\n./file uid=1001 gid=100\n/set uid=1001 gid=100\n\n  ./file \\\n  type=file\n. type=dir\nfile\n..\nother\n"
# The same behind a comment, so long that the program gets the `..` in two pieces, which have 1,024 bytes each.
PIECED = "#" + "x" * (1021 - AGAIN.index("..\n")) + "\n" + AGAIN
# A file behind backslashes that join nothing with a comment and with a blank line.
FOLDED = "\\\n# of alice\n\\\n\n./file uid=1001 gid=100\n"
# The files of b in inventories that unify writes: whole, two one behind the other, cut behind a line, with a line lost, and cut
# before another.
HEAD = "# unify inventory 1 b 2026-01-02T03:04:05Z /\n"
BOBS, END = "./bob1 type=file uid=1001 gid=100\n./bob2 type=file uid=1001 gid=100\n", "# end 2\n"
WRITTEN = {
    "whole": HEAD + BOBS + END,
    "joined": HEAD + "# end 0\n" + HEAD + BOBS + END,
    "cut": HEAD + BOBS,
    "lost": HEAD + BOBS.splitlines(True)[0] + END,
    "cut-before": HEAD + HEAD + BOBS + END,
}
# A file that no user of b owns, what is told of it, and what is told behind that to whoever looks on.
UNOWNED = {"unowned": "./file uid=7 gid=100\n"}
UNOWNED_TOLD = "unify: 25 UnownedUid host b uid 7 file\n"
MAY_STAY = "unify: hint: --keep FILE leaves accounts and numbers as they are on each host\n"
MAKE_AGAIN = "unify: hint: the inventory was cut; copy or make it again\n"
OTHER_PIN = "unify: hint: pin another number in the pins file, or see what the keep file says of this one\n"
KEEP_NAME = "unify: hint: a line for this name in the keep file leaves it too as it is on each host\n"
PIN_AS_HOST = "unify: hint: in the pins file give this name the number that it has on this host, or take its line out\n"
PIN_APART = "unify: hint: in the pins file give one of these names another number, or take its line out\n"
WIDER_RANGE = "unify: hint: widen this range of numbers in the hosts' login.defs\n"
NO_FILE = "unify: file {}: the path of a directory, and no file's; choose another mark with --mark\n".format
MARKS_OWN = "unify: file {}: a file of this name is written and removed with the mark; choose another mark with --mark\n".format
# A mark and a plan that has one of its names, as it is written or by another path.
OWN_NAMES = [
    "--mark plan plan",
    "--mark moved moved.new",
    "--mark moved.new moved.new",
    "--mark none none.modes",
    "--mark moved moved.modes.new",
    "--mark moved ./moved.new",
    "--mark ./moved tree/../moved.modes.new",
    "--mark moved to-new",
    "--reverse --mark moved moved.new",
]
WAS_CUT = "unify: 45 CutInventory host b mtree line {}\n".format
# Hosts that are a without a file, and one whose passwd is refused and that has no inventory.
LACKING = {"lacks-passwd": "passwd", "lacks-group": "group", "lacks-mtree": "mtree", "refused": "mtree"}

# The account files of a host and its inventory, as they were and under new numbers. Of the second inventory each file but the
# first is found: bob's is alice's, a group has lost its name, a number that never had a name is left, and so on.
VERIFIED = {
    "old-passwd": ALICE("") + "bob:x:1002:100::/:/bin/sh\n",
    "old-group": "users:x:100:\nstaff:x:50:\n",
    "new-passwd": "alice:x:2001:100::/:/bin/sh\nbob:x:2002:100::/:/bin/sh\n",
    "new-group": "users:x:100:\nstaff:x:51:\n",
    "first": "./a uid=1001 gid=100\n./b uid=1002 gid=100\n./c uid=1001 gid=50\n./d uid=7 gid=100\n./gone uid=1001 gid=100\n",
    "second": "./a uid=2001 gid=100\n./b uid=2001 gid=100\n./c uid=2001 gid=50\n./d uid=7 gid=100\n./fresh uid=2002 gid=51\n",
    "moved": "./a uid=2001 gid=100\n./b uid=2002 gid=100\n./c uid=2001 gid=51\n./new\\040one uid=2002 gid=51\n",
    "named": "./a uid=1001 gid=100\n./b uid=1002 gid=100\n./c uid=1001 gid=50\n",
    "none-left": "# no file\n",
    "left-over": "./fresh uid=2001 gid=100\n./late uid=1002 gid=50\n",
    "known-late": "./late uid=1002 gid=100\n",
    "many-left": "".join(f"./f{number} uid=1001 gid=100\n" for number in range(12)),
}
VERIFY = "verify --was old-passwd old-group --now new-passwd new-group {} {}".format
VERIFY_OWN = "verify --was own-passwd own-group --now own-passwd own-group {} {}".format
VERIFY_OTHER = "verify --was own-passwd own-group --now other-passwd own-group {} {}".format
# What is counted of the files of a plan: with the old owners, with the new ones, not there, with others.
SEEN = "before {}\nafter {}\nmissing {}\nforeign {}\nset-id {}\nlinked {}\nmounts 0\n".format
FOUND = "kept {}\nmissing {}\nchanged {}\nnew {}\nunnamed {}\nleft {}\n".format
# Inventories of the files of the room: as they are; with a file that is gone, and without one that has come; and of the folder
# with a name that is not UTF-8.
VERIFIED |= OWN_TEXTS | {
    "tree-before": TREE_LINES,
    "tree-once": TREE_LINES.splitlines(True)[0] + f"./tree/gone {OWNED}\n./tree/other uid=4000000001 gid=4000000001\n",
    "odd-before": f"./odd-name {OWNED}\n./odd-name/gone {OWNED}\n",
    "linked-before": LINKED_LINES,
}
LATE = (
    "unify: changed late user bob 1002 - 1002 group users 100 - 50\n"
    "unify: new fresh user alice 2001 group users 100\n"
    "unify: unnamed late uid 1002 gid 50\n"
)
NO_FILES = "unify: warning: inventory {} has no files\n".format
NEW_ONE = "unify: new new\\040one user bob 2002 group staff 51\n"
OTHER_ROOT = "unify: hint: most paths of BEFORE are not in AFTER; both have to be of the same ROOT, which the first line of an inventory names\n"
A_LINK = "a symbolic link to a directory; it is followed where a slash stands behind it"
# Words; the exit status; what is on standard output; and what on standard error. What the crate clap words is a tuple of what
# it has to hold.
TABLE = [
    # Help and version.
    (
        "--help",
        0,
        ("unify", "count", "merge", "check", "rehearse", "inventory", "apply", "verify", "--help", "--version"),
        "",
    ),
    ("count --help", 0, ("--keep", "MAP", "HOST"), ""),
    ("merge --help", 0, ("--pins", "--keep", "--output", "--quiet", "OUT", "HOST"), ""),
    ("check --help", 0, ("--pins", "--keep", "CERTIFICATE", "HOST"), ""),
    ("rehearse --help", 0, ("PLAN", "MTREE"), ""),
    ("inventory --help", 0, ("ROOT", "-x", "--one-file-system"), ""),
    ("apply --help", 0, ("--check", "--reverse", "--begun", "--mark", "--host", "--quiet", "no progress", "--progress", "PLAN", "ROOT"), ""),
    (
        "verify --help",
        0,
        ("--was <PASSWD> <GROUP>", "--now <PASSWD> <GROUP>", "<BEFORE>", "<AFTER>", "or the directory that is there now"),
        "",
    ),
    ("--version", 0, "unify 0.1.0\n", ""),
    # Wrong words.
    ("recount", 2, "", ("recount",)),
    ("--nothing", 2, "", ("--nothing",)),
    ("count --pins pins map a b", 2, "", ("--pins",)),
    ("count", 2, "", ("MAP", "HOST")),
    ("count map", 2, "", ("HOST",)),
    ("merge", 2, "", ("OUT", "HOST")),
    ("merge out", 2, "", ("HOST",)),
    ("merge out a b --pins", 2, "", ("--pins",)),
    ("merge out a b --keep", 2, "", ("--keep",)),
    ("rehearse --keep pins plan b/mtree", 2, "", ("--keep",)),
    ("merge -o", 2, "", ("--output",)),
    ("merge -o out", 2, "", "unify: no HOST\n"),
    ("check", 2, "", ("CERTIFICATE", "HOST")),
    ("check good", 2, "", ("HOST",)),
    ("rehearse", 2, "", ("PLAN", "MTREE")),
    ("rehearse plan", 2, "", ("MTREE",)),
    ("rehearse plan b/mtree more", 2, "", ("more",)),
    ("inventory", 2, "", ("ROOT",)),
    ("inventory -x", 2, "", ("ROOT",)),
    ("inventory tree --quiet", 2, "", ("--quiet",)),
    ("apply", 2, "", ("PLAN", "ROOT")),
    ("apply plan", 2, "", ("ROOT",)),
    ("apply plan b more", 2, "", ("more",)),
    (b"count map \xff", 2, "", "unify: an argument is not UTF-8\n"),
    (["\x1b]0;r\x07 \x7f\u009b\xfc\n"], 2, "", ("\\033]0;r\\007 \\177\\302\\233\xc3\xbc\n",)),
    # What the commands answer. No host has a login.defs.
    ("count map a b", 0, COUNTED, ""),
    ("count map a=a b=b", 0, COUNTED, ""),
    ("count map a=odd=name b", 0, COUNTED, ""),
    ("count map a= b", 0, COUNTED, ""),
    ("merge out a b", 0, COUNTED, TAKEN),
    ("merge --pins pins out a b", 0, COUNTED, TAKEN),
    ("merge -o out a b", 0, COUNTED, TAKEN),
    ("merge a b --output=out", 0, COUNTED, TAKEN),
    # The name of a host is the last part of a path.
    ("count map ./a/ ./b/.", 0, COUNTED, ""),
    ("count map odd=name/../a b", 3, "", "unify: file name/../a/passwd: No such file or directory\n"),
    ("merge out ./a a/", 1, "", "unify: 19 HostTwice a\n"),
    ("count map a/.. b", 1, "", "unify: 18 BadHostName a/..\n"),
    ("check good a b", 0, "accepted 2\n", ""),
    ("rehearse plan b/mtree", 0, "records 2\ndone\n", ""),
    # Inventories that unify wrote.
    ("count map a b=whole", 0, COUNTED, ""),
    ("merge -q out a b=joined", 0, COUNTED, ""),
    ("rehearse plan whole/mtree", 0, "records 2\ndone\n", ""),
    # Inventories of files of the room. What cannot be listed is told, and the rest is written.
    ("inventory tree", 0, MACHINE("tree") + TREE_LINES + "# end 3\n", ""),
    ("inventory -x linked/. ./tree//", 0, MACHINE("linked/. ./tree//") + LINKED_LINES + TREE_LINES + "# end 5\n", ""),
    ("inventory --one-file-system linked", 0, MACHINE("linked") + LINKED_LINES + "# end 2\n", ""),
    *(("inventory -x /dev", 0, ("./dev type=dir ", "./dev/null type=char "), (told,)) for told in APART),
    (
        ["inventory", "linked/to nothing", "tree"],
        3,
        MACHINE("linked/to\\040nothing tree") + TREE_LINES,
        "unify: file linked/to\\040nothing: not a directory\n",
    ),
    ("inventory none tree", 3, MACHINE("none tree") + TREE_LINES, "unify: file none: No such file or directory\n"),
    ("inventory map", 3, MACHINE("map"), "unify: file map: not a directory\n"),
    (
        "inventory odd-name linked",
        3,
        MACHINE("odd-name linked") + f"./odd-name type=dir {OWNED}\n" + LINKED_LINES + "# end 3\n",
        "unify: file odd-name: a name in it is not UTF-8\n",
    ),
    (["inventory", LONG], 3, MACHINE(LONG), f"unify: file {LONG}: File name too long\n"),
    (["inventory", LONG + "x"], 2, "", f"unify: root {LONG}x: the roots are too long for a line\n"),
    (["inventory", *ROOTS], 2, "", f"unify: root {ROOTS[-1]}: the roots are too long for a line\n"),
    ("inventory tree linked/../tree", 2, "", "unify: root linked/../tree: a part of it is ..\n"),
    (["inventory", "tree", ""], 2, "", "unify: root -: an empty word\n"),
    ("inventory tree linked ./tree/none", 2, "", "unify: root ./tree/none: it lies in tree\n"),
    ("inventory linked . tree", 2, "", "unify: root linked: it lies in .\n"),
    # The same directory twice, and one in another, by a link; one that is not followed is no directory.
    ("inventory tree linked to-tree/", 2, "", "unify: root to-tree/: it lies in tree\n"),
    (["inventory", "to-tree/new\nline", "tree"], 2, "", "unify: root to-tree/new\\012line: it lies in tree\n"),
    (["inventory", "tree", "to-tree/new\nline"], 2, "", "unify: root to-tree/new\\012line: it lies in tree\n"),
    ("inventory tree to-tree", 3, MACHINE("tree to-tree") + TREE_LINES, "unify: file to-tree: not a directory\n"),
    ("inventory tree treehouse", 3, MACHINE("tree treehouse") + TREE_LINES, "unify: file treehouse: No such file or directory\n"),
    # Plans whose files are counted, and of which a run would begin.
    ("apply --check -q --host b --begun own-plan .", 0, SEEN(1, 1, 0, 0, 0, 0), ""),
    ("apply --check -q --host b own-modes .", 0, SEEN(1, 1, 0, 0, 0, 0), ""),
    ("apply --check -q --host b near-plan .", 0, SEEN(1, 0, 0, 0, 0, 0), ""),
    ("apply --check -q --host b --begun --reverse near-plan .", 0, SEEN(0, 1, 0, 0, 0, 0), ""),
    ("apply --check -q --host b deep-plan .", 0, SEEN(1, 0, 0, 0, 0, 0), ""),
    ("apply --check -q --host b other-mark .", 0, SEEN(1, 0, 0, 0, 0, 0), ""),
    ("apply --check -q --host b --mark none deep-plan .", 0, SEEN(1, 0, 0, 0, 0, 0), ""),
    ("apply --check -q --host b more-plan .", 0, SEEN(3, 0, 0, 0, 1, 2), ""),
    ("apply --check --progress --host b --begun own-plan .", 0, SEEN(1, 1, 0, 0, 0, 0), ("unify: progress: looked at 2 of 2\n",)),
    ("apply --check --host b near-plan .", 0, SEEN(1, 0, 0, 0, 0, 0), ("unify: warning: the plan of host b is carried out on machine ",)),
    ("apply --check -q --progress --host b --begun own-plan .", 0, SEEN(1, 1, 0, 0, 0, 0), ""),
    # Which files have other owners by name.
    (VERIFY("named", "moved"), 0, FOUND(3, 0, 0, 1, 0, 0), NEW_ONE),
    (
        VERIFY("first", "second"),
        1,
        FOUND(2, 1, 2, 1, 2, 0),
        "unify: changed b user bob 1002 alice 2001\n"
        "unify: changed c group staff 50 - 50\n"
        "unify: missing gone\n"
        "unify: new fresh user bob 2002 group staff 51\n"
        "unify: unnamed c gid 50\n"
        "unify: unnamed d uid 7\n",
    ),
    (
        VERIFY("many-left", "none-left"),
        1,
        FOUND(0, 12, 0, 0, 0, 0),
        NO_FILES("none-left") + "".join(f"unify: missing f{number}\n" for number in range(10)) + "unify: more missing: 2\n",
    ),
    (
        VERIFY("--all many-left", "none-left"),
        1,
        FOUND(0, 12, 0, 0, 0, 0),
        NO_FILES("none-left") + "".join(f"unify: missing f{number}\n" for number in range(12)),
    ),
    (VERIFY("none-left", "none-left"), 0, FOUND(0, 0, 0, 0, 0, 0), 2 * NO_FILES("none-left")),
    # New files, of which one has numbers that names have left.
    (
        VERIFY("none-left", "left-over"),
        1,
        FOUND(0, 0, 0, 2, 1, 1),
        NO_FILES("none-left") + "unify: new fresh user alice 2001 group users 100\n"
        "unify: new late user - 1002 group - 50\n"
        "unify: unnamed late uid 1002 gid 50\n"
        "unify: left late user bob 1002 group staff 50\n",
    ),
    (VERIFY("known-late", "left-over"), 1, FOUND(0, 0, 1, 1, 1, 0), LATE),
    # The tree that is there, in place of an inventory.
    (VERIFY_OWN("tree-before", "tree"), 0, FOUND(3, 0, 0, 0, 0, 0), ""),
    (VERIFY_OWN("tree-before", "./tree//"), 0, FOUND(3, 0, 0, 0, 0, 0), ""),
    (VERIFY_OWN("linked-before", "linked"), 0, FOUND(2, 0, 0, 0, 0, 0), ""),
    (VERIFY_OWN("none-left", "tree"), 0, FOUND(0, 0, 0, 3, 0, 0), NO_FILES("none-left") + TREE_NEW("me")),
    (VERIFY_OTHER("none-left", "tree"), 1, FOUND(0, 0, 0, 3, 0, 3), NO_FILES("none-left") + TREE_NEW("other") + TREE_LEFT),
    (
        VERIFY_OTHER("tree-before", "tree"),
        1,
        FOUND(0, 0, 3, 0, 0, 0),
        "".join(f"unify: changed {path} user me {os.getuid()} other {os.getuid()}\n" for path in TREE_PATHS),
    ),
    (
        VERIFY_OWN("tree-once", "tree"),
        1,
        FOUND(1, 2, 0, 2, 0, 0),
        "unify: missing tree/gone\nunify: missing tree/other\n" + "".join(TREE_NEW("me").splitlines(True)[1:]),
    ),
    # A part that cannot be read is told, and so is the rest.
    (
        VERIFY_OWN("odd-before", "odd-name"),
        3,
        FOUND(1, 1, 0, 0, 0, 0),
        "unify: file odd-name: a name in it is not UTF-8\nunify: missing odd-name/gone\n",
    ),
    (VERIFY_OWN("tree-before", "tree/../tree"), 2, "", "unify: root tree/../tree: a part of it is ..\n"),
    (VERIFY_OWN("tree-before", "to-tree"), 3, "", f"unify: file to-tree: {A_LINK}\n"),
    (VERIFY_OWN("tree-before", "to-nothing"), 3, "", "unify: file to-nothing: No such file or directory\n"),
    (VERIFY("named", "to-moved"), 0, FOUND(3, 0, 0, 1, 0, 0), NEW_ONE),
    (VERIFY_OWN("bad", "tree"), 1, "", "unify: 11 NoUid file bad line 1\n"),
    ("verify --was old-passwd bad --now new-passwd new-group first second", 1, "", "unify: 1 BadFields file bad line 1\n"),
    (VERIFY("first", "bad"), 1, "", "unify: 11 NoUid file bad line 1\n"),
    (VERIFY("first", "none"), 3, "", "unify: file none: No such file or directory\n"),
    ("verify --was none old-group --now new-passwd new-group first second", 3, "", "unify: file none: No such file or directory\n"),
    ("verify --now new-passwd new-group first second", 2, "", ("--was",)),
    ("verify --was old-passwd --now new-passwd new-group first", 2, "", ("AFTER",)),
    # Warnings, which change nothing else.
    ("count map a=returns b", 0, COUNTED, RETURNS),
    ("count -q map a=returns b", 0, COUNTED, ""),
    ("count map a=returns-mtree b", 0, COUNTED, MTREE_RETURNS),
    ("count -q map a=returns-mtree b", 0, COUNTED, ""),
    ("merge out a=returns-mtree b", 0, COUNTED, MTREE_RETURNS + TAKEN),
    ("merge out a=spaced b", 0, COUNTED, SPACED + TAKEN),
    ("merge -q out a=spaced b", 0, COUNTED, ""),
    ("count cut-map a b", 0, COUNTED, "unify: warning: file cut-map has no newline at its end\n"),
    ("count --keep cut-keep map a b", 0, COUNTED, CUT_KEEP),
    ("count -q --keep cut-keep map a b", 0, COUNTED, ""),
    ("count returns-map a b", 1, "", ENDED("returns-map") + "unify: 40 BadMap line 1\n"),
    ("count -q returns-map a b", 1, "", "unify: 40 BadMap line 1\n"),
    ("merge --pins returns-pins out a b", 1, "", ENDED("returns-pins") + "unify: 43 BadPins line 1\n"),
    ("count --keep returns-keep map a b", 0, COUNTED, ENDED("returns-keep")),
    ("count map a b=bare", 1, "", NO_ACCOUNTS + "unify: 40 BadMap line 0\n"),
    ("count two b=bare", 0, NOTHING_COUNTED, BARE),
    ("count -q two b=bare", 0, NOTHING_COUNTED, ""),
    ("count --quiet map a b=bare", 1, "", "unify: 40 BadMap line 0\n"),
    ("merge out a=returns b", 0, COUNTED, RETURNS + TAKEN),
    ("merge out a b=bare", 0, NOTHING_COUNTED, BARE),
    ("merge -q out a b=bare", 0, NOTHING_COUNTED, ""),
    ("merge --pins cut-pins out a b", 0, COUNTED, CUT + TAKEN),
    ("merge --pins cut-pins --quiet out a b", 0, COUNTED, ""),
    ("merge --keep cut-keep --pins cut-pins out a b", 0, COUNTED, CUT + CUT_KEEP + TAKEN),
    (
        "merge --pins other-pins out a b",
        0,
        COUNTED,
        NOBODY("group wheel", "") + NOBODY("user carol\\011x", "") + TAKEN,
    ),
    ("merge -q --pins other-pins out a b", 0, COUNTED, ""),
    (
        "merge --pins short-pins out a b",
        0,
        COUNTED,
        NOBODY("user bbo", "; there is bob")
        + NOBODY("user dab", "")
        + NOBODY("user ob", "")
        + NOBODY("user rob", "; there is bob")
        + TAKEN,
    ),
    (
        "merge --pins near-pins out a b=a",
        0,
        NOTHING_COUNTED,
        NOBODY("user alcie", "; there is alice")
        + NOBODY("user bobby", "")
        + NOBODY("group user", "; there is users")
        + NOBODY("group usres", "; there is users"),
    ),
    (
        "merge --pins wide-pins out a=wide b=wide",
        0,
        NOTHING_COUNTED,
        NOBODY("user " + "x" * 65, "") + NOBODY("user " + "x" * 63, "; there is " + "x" * 64),
    ),
    (
        "merge --pins kept-pins --keep keep-names out a b",
        0,
        "user-fields 3\ngroup-fields 0\n",
        STAYS("user bob")
        + NOBODY("user users", "")
        + NOBODY("user alce", "; there is alice")
        + STAYS("group users")
        + NOBODY("group bob", ""),
    ),
    ("merge -q --pins kept-pins --keep keep-names out a b", 0, "user-fields 3\ngroup-fields 0\n", ""),
    ("merge --pins pins --keep keep-all out a b", 0, NOTHING_COUNTED, STAYS("user bob")),
    (
        "merge --pins many-pins out a b",
        0,
        COUNTED,
        "".join(NOBODY(f"user carol{number}", "") for number in MANY[:10])
        + "unify: warning: more pins of names that no host has: 2\n"
        + TAKEN,
    ),
    # Names that stay as they are by ranges, with two numbers. Of system accounts and of names that are listed nothing is told.
    ("merge --keep keep-ranges out a=low b=high", 0, NOTHING_COUNTED, DIFFER("user svc", 6, "a", 1006, "b")),
    ("merge --keep keep-ranges out a=low b=lower c=high", 0, NOTHING_COUNTED, DIFFER("user svc", 6, "a", 1006, "c")),
    ("merge -q --keep keep-ranges out a=low b=high", 0, NOTHING_COUNTED, ""),
    ("merge --keep keep-listed out a=low b=high", 0, NOTHING_COUNTED, ""),
    ("merge --keep keep-ranges out a=low b=lower", 0, NOTHING_COUNTED, ""),
    ("merge --keep keep-ranges out a=low b=early", 0, NOTHING_COUNTED, DIFFER("user svc", 6, "a", 7, "b")),
    ("merge --keep keep-ranges out a=high b=high", 0, NOTHING_COUNTED, ""),
    (
        "merge --keep keep-ranges out a=here b=there",
        0,
        NOTHING_COUNTED,
        "".join(
            "".join(DIFFER(f"{kind} {kind[0]}{number}", 3000 + number, "a", 4000 + number, "b") for number in MANY[:10])
            + f"unify: warning: more {kind}s whose kept numbers differ: 2\n"
            for kind in ("user", "group")
        ),
    ),
    ("merge --keep nobody-keep out a b", 0, COUNTED, KEPT("user carol\\011x") + KEPT("group bob") + TAKEN),
    ("merge -q --keep nobody-keep out a b", 0, COUNTED, ""),
    (
        "merge --keep many-keep out a b",
        0,
        COUNTED,
        "".join(KEPT(f"user carol{number}") for number in MANY[:10])
        + "unify: warning: more keeps of names that no host has: 2\n"
        + TAKEN,
    ),
    (
        "merge out a=web b=db",
        0,
        NOTHING_COUNTED,
        FULL_NAMES("alice", "b", "a") + GETS("sudo", "a", "alice", "bob, carol") + GETS("sudo", "b", "bob, carol", "alice"),
    ),
    ("merge -q out a=web b=db", 0, NOTHING_COUNTED, ""),
    ("merge out a=web b=commas", 0, NOTHING_COUNTED, ""),
    (
        "merge out a=web b=commas c=db",
        0,
        NOTHING_COUNTED,
        FULL_NAMES("alice", "c", "a")
        + "".join(GETS("sudo", host, "alice", "bob, carol") for host in "ab")
        + GETS("sudo", "c", "bob, carol", "alice"),
    ),
    ("merge out a=odd b=odder", 0, NOTHING_COUNTED, FULL_NAMES("o\\134x", "b", "a")),
    ("merge out a=crowd b=crowd", 0, NOTHING_COUNTED, "unify: warning: user alice is in 17 groups, and an NFS request carries 16\n"),
    (
        "merge out a=many b=more",
        0,
        NOTHING_COUNTED,
        "".join(FULL_NAMES(f"u{number}", "b", "a") for number in MANY[:10])
        + "unify: warning: more users with two full names: 2\n",
    ),
    (
        "merge out a=lists b=listed",
        0,
        NOTHING_COUNTED,
        "".join(GETS(f"g{number}", "a", "no member", "alice") for number in MANY[:10])
        + "unify: warning: more groups that get members on a host: 2\n",
    ),
    (
        "merge out a b=long",
        0,
        NOTHING_COUNTED,
        GETS("users", "a", "no member", ", ".join(f"u{number}" for number in MANY[:8]) + " and others"),
    ),
    ("merge out a=again b=again", 0, NOTHING_COUNTED, "unify: warning: inventory lines that repeat a path: 4\n"),
    ("merge out a=pieced b=pieced", 0, NOTHING_COUNTED, "unify: warning: inventory lines that repeat a path: 4\n"),
    ("merge out a=folded b=folded", 0, NOTHING_COUNTED, ""),
    ("merge -q out a=again b=again", 0, NOTHING_COUNTED, ""),
    ("check --pins cut-pins good a=returns b", 4, "", CUT + RETURNS + "unify: 32 PinBroken user bob\n"),
    ("check -q --pins cut-pins good a=returns b", 4, "", "unify: 32 PinBroken user bob\n"),
    ("check --keep cut-keep good a=returns b", 0, "accepted 2\n", CUT_KEEP + RETURNS),
    # Refused texts, and certificates that are rejected.
    ("count bad a b", 1, "", "unify: 40 BadMap line 1\n"),
    ("count map a", 1, "", "unify: 40 BadMap line 0\n"),
    ("count map a=a a=b", 1, "", "unify: 19 HostTwice a\n"),
    ("count map a b=unowned", 1, "", UNOWNED_TOLD),
    ("count map .a=a", 1, "", "unify: 18 BadHostName .a\n"),
    ("merge --pins bad out a b", 1, "", "unify: 43 BadPins line 1\n"),
    ("merge --pins bad --keep bad out a b", 1, "", "unify: 46 BadKeep line 1\n"),
    ("check --keep bad good a b", 1, "", "unify: 46 BadKeep line 1\n"),
    ("count --keep bad bad a b", 1, "", "unify: 46 BadKeep line 1\n"),
    ("merge out refused", 1, "", "unify: 1 BadFields host refused passwd line 1\n"),
    ("check bad a b", 1, "", "unify: 28 BadCertificate line 1\n"),
    ("check --pins pins good a b", 4, "", "unify: 32 PinBroken user bob\n"),
    ("check wrong a b", 4, "", "unify: 34 SumsDiffer user 11 10\n"),
    *((f"count map a b={host}", 1, "", WAS_CUT(line)) for host, line in {"cut": 4, "lost": 4, "cut-before": 2}.items()),
    ("check good a b=cut", 1, "", WAS_CUT(4)),
    ("merge out a b=cut", 1, "", WAS_CUT(4)),
    ("rehearse plan cut/mtree", 1, "", WAS_CUT(4)),
    (VERIFY("cut/mtree", "whole/mtree"), 1, "", "unify: 45 CutInventory file cut/mtree line 4\n"),
    ("rehearse bad b/mtree", 1, "", "unify: 35 BadPlan byte 0\n"),
    ("rehearse plan a/mtree", 1, "", "unify: 37 Missing bob1\n"),
    ("apply bad b", 1, "", "unify: 35 BadPlan byte 0\n"),
    ("apply --host a plan b", 1, "", "unify: host a: the plan is of host b\n"),
    # What a run would refuse is told after the count.
    ("apply --check -q --host b plan b", 1, SEEN(0, 0, 2, 0, 0, 0), "unify: 37 Missing bob1\n"),
    ("apply --check -q --host b far-plan .", 1, SEEN(0, 0, 0, 1, 0, 0), "unify: 38 Foreign map\n"),
    ("apply --check -q --host b own-plan .", 1, SEEN(1, 1, 0, 0, 0, 0), "unify: 48 AlreadyChanged pins\n"),
    ("apply --check -q --host b --reverse near-plan .", 1, SEEN(0, 1, 0, 0, 0, 0), "unify: 48 AlreadyChanged map\n"),
    ("apply --check -q --host b done-early .", 1, SEEN(1, 0, 0, 0, 0, 0), "unify: 44 Unfinished linked/to\\040nothing\n"),
    ("apply --check -q near-plan .", 1, SEEN(1, 0, 0, 0, 0, 0), f"unify: host {os.uname().nodename}: the plan is of host b\n"),
    ("apply --check -q --host a near-plan .", 1, SEEN(1, 0, 0, 0, 0, 0), "unify: host a: the plan is of host b\n"),
    ("apply --check -q --host b lone-plan .", 1, SEEN(1, 0, 0, 0, 0, 1), "unify: file two: a hard link to the file is not in the plan\n"),
    ("apply --check -q --host b torn-plan .", 1, SEEN(2, 0, 0, 0, 0, 2), "unify: file names: the plan gives another hard link of the file another owner\n"),
    ("apply --check -q --host b odd-mark .", 1, SEEN(1, 0, 0, 0, 0, 0), "unify: file odd-mark.done: not the mark of a plan\n"),
    ("apply --check -q --host b cut-modes .", 1, SEEN(1, 0, 0, 0, 0, 0), "unify: file cut-modes.done.modes: truncated, or not the modes of a plan\n"),
    ("apply --check -q --host b other-modes .", 1, SEEN(1, 0, 0, 0, 0, 0), f"unify: file other-modes.done.modes: {OTHER_PLAN}"),
    ("apply --check -q --host b --reverse own-modes .", 1, SEEN(1, 1, 0, 0, 0, 0), f"unify: file own-modes.done.modes: {OTHER_PLAN}"),
    # Of several, that which a run would tell; but a file that cannot be looked at is not counted, and told first.
    ("apply --check -q --mark moved moved.new .", 2, SEEN(1, 1, 0, 0, 0, 0), MARKS_OWN("moved.new")),
    ("apply --check -q --mark moved to-new .", 2, SEEN(1, 1, 0, 0, 0, 0), MARKS_OWN("to-new")),
    ("apply --check -q --mark linked deep-plan .", 2, SEEN(1, 0, 0, 0, 0, 0), NO_FILE("linked")),
    ("apply --check -q --mark linked/ deep-plan .", 2, SEEN(1, 0, 0, 0, 0, 0), NO_FILE("linked/")),
    ("apply --check -q --mark none/mark --host a odd-mark .", 3, SEEN(1, 0, 0, 0, 0, 0), "unify: file none: No such file or directory\n"),
    ("apply --check -q --host b --mark odd-mark.done far-plan .", 1, SEEN(0, 0, 0, 1, 0, 0), "unify: file odd-mark.done: not the mark of a plan\n"),
    ("apply --check -q rooted-plan .", 1, "", "unify: file /map: no inventory has such a path, or it is too long\n"),
    # Files that are not there, or cannot be read or written.
    ("count none a b", 3, "", "unify: file none: No such file or directory\n"),
    (["count", "", "a"], 3, "", "unify: file -: No such file or directory\n"),
    (["count", "no map", "a"], 3, "", "unify: file no\\040map: No such file or directory\n"),
    ("count map lacks-passwd", 3, "", "unify: file lacks-passwd/passwd: No such file or directory\n"),
    ("count map lacks-group", 3, "", "unify: file lacks-group/group: No such file or directory\n"),
    ("count map lacks-mtree b", 3, "", "unify: file lacks-mtree/mtree: No such file or directory\n"),
    ("count map lacks-mtree", 1, "", "unify: 40 BadMap line 0\n"),
    ("count map a=odd-defaults b", 3, "", "unify: file odd-defaults/login.defs: Is a directory\n"),
    ("check none a b", 3, "", "unify: file none: No such file or directory\n"),
    ("check --pins none good a b", 3, "", "unify: file none: No such file or directory\n"),
    ("merge --pins none out a b", 3, "", "unify: file none: No such file or directory\n"),
    ("count --keep none map a b", 3, "", "unify: file none: No such file or directory\n"),
    ("check --keep none good a b", 3, "", "unify: file none: No such file or directory\n"),
    ("merge --keep none out a b", 3, "", "unify: file none: No such file or directory\n"),
    ("merge out lacks-mtree", 3, "", "unify: file lacks-mtree/mtree: No such file or directory\n"),
    ("count map a=dangling b", 3, "", "unify: file dangling/login.defs: No such file or directory\n"),
    ("count a a b", 3, "", "unify: file a: Is a directory\n"),
    ("rehearse none b/mtree", 3, "", "unify: file none: No such file or directory\n"),
    ("rehearse plan none", 3, "", "unify: file none: No such file or directory\n"),
    ("apply none b", 3, "", "unify: file none: No such file or directory\n"),
    ("apply --mark none/mark plan b", 3, "", "unify: file none: No such file or directory\n"),
    ("apply --mark map/mark plan b", 3, "", "unify: file map: Not a directory\n"),
    ("apply --mark none/mark bad b", 1, "", "unify: 35 BadPlan byte 0\n"),
    ("apply --mark none/mark none/plan b", 3, "", "unify: file none/plan: No such file or directory\n"),
    ("apply --check -q --mark none/mark own-plan .", 3, SEEN(1, 1, 0, 0, 0, 0), "unify: file none: No such file or directory\n"),
    ("apply --check -q --mark map/mark deep-plan .", 3, SEEN(1, 0, 0, 0, 0, 0), "unify: file map: Not a directory\n"),
    ("apply --check plan none", 2, "", "unify: root none: No such file or directory\n"),
    ("apply --check plan to-itself", 2, "", "unify: root to-itself: Too many levels of symbolic links\n"),
    # A mark that can be no file, and a plan that a run would remove, as its mark has that name: nothing is read.
    *((f"apply --mark {mark} none b", 2, "", NO_FILE(mark)) for mark in ("linked", "linked/", "none/", "map/", ".")),
    (["apply", "--mark", "", "plan", "b"], 2, "", NO_FILE("-")),
    *((f"apply {words} b", 2, "", MARKS_OWN(words.split()[-1])) for words in OWN_NAMES),
    ("apply --check plan plan", 2, "", "unify: root plan: Not a directory\n"),
    # The order in which files are read: all of them but inventories before anything is judged.
    ("count none x y", 3, "", "unify: file none: No such file or directory\n"),
    ("count bad x y", 3, "", "unify: file x/passwd: No such file or directory\n"),
    ("count bad a y", 3, "", "unify: file y/passwd: No such file or directory\n"),
    ("count map lacks-group lacks-passwd", 3, "", "unify: file lacks-group/group: No such file or directory\n"),
    ("count map a=a a=lacks-mtree", 1, "", "unify: 19 HostTwice a\n"),
    ("count map lacks-mtree lacks-passwd", 3, "", "unify: file lacks-passwd/passwd: No such file or directory\n"),
    ("check none --pins later x", 3, "", "unify: file none: No such file or directory\n"),
    ("check --pins later none x", 3, "", "unify: file none: No such file or directory\n"),
    ("check bad x --pins none", 3, "", "unify: file none: No such file or directory\n"),
    ("check bad x --keep later --pins none", 3, "", "unify: file none: No such file or directory\n"),
    ("check bad x --pins bad --keep none", 3, "", "unify: file none: No such file or directory\n"),
    ("count none x --keep later", 3, "", "unify: file none: No such file or directory\n"),
    ("count bad x --keep none", 3, "", "unify: file none: No such file or directory\n"),
    ("check --pins bad bad x", 3, "", "unify: file x/passwd: No such file or directory\n"),
    ("merge out y --pins none", 3, "", "unify: file none: No such file or directory\n"),
    ("merge out y --keep later --pins none", 3, "", "unify: file none: No such file or directory\n"),
    ("merge out y --pins bad --keep none", 3, "", "unify: file none: No such file or directory\n"),
    ("merge out a y", 3, "", "unify: file y/passwd: No such file or directory\n"),
    ("merge out lacks-mtree lacks-passwd", 3, "", "unify: file lacks-passwd/passwd: No such file or directory\n"),
    ("merge out .a=lacks-mtree", 1, "", "unify: 18 BadHostName .a\n"),
    # The directory to write into, which is looked at before anything is read; outputs.py has more of it.
    ("merge none x --pins none", 2, "", "unify: output none: No such file or directory\n"),
    ("merge map x", 2, "", "unify: output map: Not a directory\n"),
    (["merge", "", "x"], 2, "", "unify: output -: an empty word\n"),
    (["merge", "no\nout", "x"], 2, "", "unify: output no\\012out: No such file or directory\n"),
    ("merge a b", 2, "", "unify: output a: holds mtree, as the directory of a host does\n"),
    ("merge b a b", 2, "", "unify: output b: the directory of host b\n"),
    ("rehearse none later", 3, "", "unify: file none: No such file or directory\n"),
    ("rehearse bad none", 3, "", "unify: file none: No such file or directory\n"),
]
OWNED_BY_OTHER = (
    f"unify: hint: the file has owner {os.geteuid()}:{os.getegid()}; if it is the file that was gathered, give it its old owner back, "
    "else take back what the plans of this host have changed, and only then gather it again and merge anew\n"
)
# Words, the exit status, and what is told where standard error is a terminal.
LOOKED_AT = [
    ("count map a b=unowned", 1, UNOWNED_TOLD + MAY_STAY),
    ("count -q map a b=unowned", 1, UNOWNED_TOLD),
    ("check good a b=unowned", 1, UNOWNED_TOLD + MAY_STAY),
    ("merge out a b=unowned", 1, UNOWNED_TOLD + MAY_STAY),
    ("merge -q out a b=unowned", 1, UNOWNED_TOLD),
    ("count map a", 1, "unify: 40 BadMap line 0\n"),
    ("count map a b=cut", 1, WAS_CUT(4) + MAKE_AGAIN),
    ("merge --keep low-keep --pins low-pins out a b", 1, "unify: 47 PinReserved user 6 bob range 5 7\n" + OTHER_PIN),
    ("merge --keep low-keep out a=low b=high", 1, "unify: 47 PinReserved user 6 svc range 5 7\n" + KEEP_NAME),
    ("merge --pins users-pins out a b", 1, "unify: 22 PinDisagrees group users - a\n" + PIN_AS_HOST),
    ("check --pins users-pins good a b", 1, "unify: 22 PinDisagrees group users - a\n" + PIN_AS_HOST),
    ("merge out a=web b=ninety", 1, "unify: 22 PinDisagrees group users a b\n" + MAY_STAY),
    ("merge --pins staff-pins out a b", 1, "unify: 23 PinClash group 100 users staff\n" + PIN_APART),
    ("merge -q --pins staff-pins out a b", 1, "unify: 23 PinClash group 100 users staff\n"),
    ("merge out a b=staff", 1, "unify: 23 PinClash group 100 users staff\n" + MAY_STAY),
    ("merge out a b=narrow", 1, "unify: 24 PoolTooSmall user regular 2 1\n" + WIDER_RANGE),
    # How far it is stands on one line, which is cleared before anything else is told.
    (
        "apply --check --host b --begun own-plan .",
        0,
        ("\r\x1b[Kunify: looked at 2 of 2\r\x1b[K" + SEEN(1, 1, 0, 0, 0, 0) + "unify: warning: ", "\r\x1b[Kunify: looked at 2 of 2\r\x1b[K"),
    ),
    ("apply --check -q --host b --begun own-plan .", 0, SEEN(1, 1, 0, 0, 0, 0)),
    ("apply --check --host b far-plan .", 1, ("unify: 38 Foreign map\n" + OWNED_BY_OTHER,)),
    ("apply --check -q --host b far-plan .", 1, SEEN(0, 0, 0, 1, 0, 0) + "unify: 38 Foreign map\n"),
    # Most files are missing: under another ROOT, and where there are none.
    (VERIFY_OWN("tree-before", "linked"), 1, (FOUND(0, 3, 0, 2, 0, 0) + OTHER_ROOT,)),
    (VERIFY_OWN("tree-once", "tree"), 1, (FOUND(1, 2, 0, 2, 0, 0) + OTHER_ROOT,)),
    (
        VERIFY("known-late", "none-left"),
        1,
        NO_FILES("none-left") + "unify: missing late\n" + FOUND(0, 1, 0, 0, 0, 0),
    ),
]
# Words that have an answer for standard output, which is full.
UNWRITTEN = [
    "count map a b",
    "merge -q out a b",
    "check good a b",
    "rehearse plan b/mtree",
    "inventory tree",
    "apply --check own-plan .",
    "verify --was old-passwd old-group --now old-passwd old-group named named",
    "--help",
    "--version",
]
# Words, the exit status, and what is on standard output where standard error is full: what would be lost there ends the command,
# and an inventory has no last line then.
UNTOLD = [
    *(("inventory -x /dev", 3, ("./dev type=dir ",)) for _ in APART[:1]),
    (VERIFY("named", "moved"), 3, ""),
    (VERIFY("first", "second"), 3, ""),
    ("verify --was old-passwd old-group --now old-passwd old-group named named", 0, FOUND(3, 0, 0, 0, 0, 0)),
]
MERGED = {"passwd", "group", "map", "certificate", "report", *(f"{file}.{host}" for file in ("plan", "passwd", "group") for host in "ab")}
# What a merge by the keep texts of the room does not write that keep a name of the hosts.
OF_ALL_HOSTS = {"passwd", "group"}
# What it writes besides where there is a host c.
OF_THIRD_HOST = {"plan.c", "passwd.c", "group.c"}


def lay_out(room):
    """Makes the files of the room."""
    shutil.copytree(STORED, room, dirs_exist_ok=True)
    shutil.copytree(STORED / "a", room, dirs_exist_ok=True)
    for host in ("odd=name", "odd-defaults", "dangling", "returns", "returns-mtree", "spaced", *LACKING):
        shutil.copytree(STORED / "a", room / host)
    for host, file in LACKING.items():
        (room / host / file).unlink()
    (room / "refused/passwd").write_text(TEXTS["bad"])
    (room / "odd-defaults/login.defs").mkdir()
    (room / "dangling/login.defs").symlink_to("nowhere")
    for file in ("passwd", "group", "login.defs"):
        with open(room / "returns" / file, "ab") as text:
            text.write(b"# a line that is skipped\r\n")
    with open(room / "returns-mtree/mtree", "ab") as mtree:
        mtree.write(b"# a comment\r\n")
    for file, line in {"passwd": " carol:x:1005:100::/:/bin/sh\n", "group": "\tstaff:x:50:alice, bob\n"}.items():
        with open(room / "spaced" / file, "a") as table:
            table.write(line)
    for host, tables in DOUBTED.items():
        (room / host).mkdir()
        for file, text in zip(("passwd", "group", "mtree"), (*tables, "./file uid=1001 gid=100\n")):
            (room / host / file).write_text(text)
    for host, mtree in (WRITTEN | UNOWNED).items():
        shutil.copytree(STORED / "b", room / host)
        (room / host / "mtree").write_text(mtree)
    shutil.copytree(STORED / "b", room / "narrow")
    (room / "narrow/login.defs").write_text("UID_MIN 1001\nUID_MAX 1001\n")
    shutil.copytree(room / "lower", room / "early")
    (room / "early/login.defs").write_text("UID_MIN 7\n")
    shutil.copytree(room / "web", room / "again")
    (room / "again/mtree").write_text(AGAIN)
    shutil.copytree(room / "web", room / "folded")
    (room / "folded/mtree").write_text(FOLDED)
    shutil.copytree(room / "web", room / "pieced")
    (room / "pieced/mtree").write_text(PIECED)
    (room / TREE[1]).mkdir(parents=True)
    (room / TREE[2]).touch()
    (room / LINKED).parent.mkdir()
    (room / LINKED).symlink_to("nothing")
    (room / "to-tree").symlink_to("tree")
    (room / "to-moved").symlink_to("moved")
    (room / "to-nothing").symlink_to("nothing")
    (room / "to-itself").symlink_to("to-itself")
    (room / "to-new").symlink_to("moved.new")
    (room / "two").touch()
    (room / "names").hardlink_to(room / "two")
    (room / "set-id").touch()
    (room / "set-id").chmod(0o4755)
    (room / "odd-name").mkdir()
    open(os.fsencode(room) + b"/odd-name/\xff", "w").close()
    (room / "bare").mkdir()
    for file in ("passwd", "group", "mtree"):
        (room / "bare" / file).write_text("#\n")
    for name, text in (TEXTS | VERIFIED).items():
        (room / name).write_text(text)
    for name, (plan, beside) in BESIDE.items():
        for end, text in {"": plan, **beside}.items():
            (room / f"{name}{end}").write_text(text)


def ran(program, words, folder, out=subprocess.PIPE, err=subprocess.PIPE):
    """The status for some words, and the text of each stream."""
    words = words if isinstance(words, list) else words.split()
    came = subprocess.run([program, *words], cwd=folder, stdin=subprocess.DEVNULL, stdout=out, stderr=err, timeout=120)
    return came.returncode, (came.stdout or b"").decode("latin-1"), (came.stderr or b"").decode("latin-1")


def seconds_since(begun):
    """The times that a clock told in UTC since a time, each second once."""
    return [time.strftime("%Y-%m-%dT%H:%M:%SZ", time.gmtime(second)) for second in range(int(begun), int(time.time()) + 1)]


def without_time(text, begun):
    """A text, with a word for the time in the first line of an inventory that was made since a time."""
    first = MADE.match(text)
    return text[: first.start(2)] + TIME + text[first.end(2) :] if first and first[2] in seconds_since(begun) else text


def agreed(wanted, came):
    """What came; or what was wanted, where that is what a text has to hold and it does."""
    return wanted if isinstance(wanted, tuple) and all(part in came for part in wanted) else came


def in_new_room(program, words, out=subprocess.PIPE, err=subprocess.PIPE):
    """The status for some words, the text of each stream, and the names of the files that are written into the room's `out`."""
    with tempfile.TemporaryDirectory() as name:
        room = pathlib.Path(name)
        lay_out(room)
        (room / "out").mkdir()
        begun = time.time()
        status, told, failed = ran(program, words, room, out, err)
        return status, without_time(told, begun), failed, {path.name for path in (room / "out").iterdir()}


def on_terminal(program):
    """The status and what is told where standard input is a terminal and there are no words."""
    ours, theirs = os.openpty()
    try:
        came = subprocess.run([program], stdin=theirs, capture_output=True, timeout=120)
    finally:
        os.close(ours)
        os.close(theirs)
    return came.returncode, came.stdout.decode(), came.stderr.decode()


def told_on_terminal(program, words):
    """The status for some words, and what is told where standard error is a terminal."""
    ours, theirs = os.openpty()
    with tempfile.TemporaryDirectory() as name, open(ours, "rb", buffering=0) as screen:
        room = pathlib.Path(name)
        lay_out(room)
        (room / "out").mkdir()
        with open(theirs, "wb") as err:
            came = subprocess.run([program, *words.split()], cwd=room, stdin=subprocess.DEVNULL, stdout=err, stderr=err, timeout=120)
            told = screen.read(65536)
    return came.returncode, told.decode("latin-1").replace("\r\n", "\n")


def written_by(words, status):
    """The names of the files that some words write which end with a status."""
    if status != 0 or not isinstance(words, str) or not words.startswith("merge") or "--help" in words:
        return set()
    merged = MERGED | OF_THIRD_HOST if " c=" in words else MERGED
    return merged - OF_ALL_HOSTS if "--keep keep-" in words else merged


def command_lines(program):
    """For each line of words: a name, what is wanted, and what came."""
    stored = (STORED.parents[1] / "crates/unify_cli/stdout").read_text()
    yield "count map a b, in examples/stored-count", (0, stored, ""), ran(program, "count map a b", STORED)
    yield "unify alone on a terminal", ran(program, "--help", STORED), on_terminal(program)
    for words, status, out, err in TABLE:
        came, came_out, came_err, written = in_new_room(program, words)
        wanted = status, out, err, written_by(words, status)
        yield f"unify {words}", wanted, (came, agreed(out, came_out), agreed(err, came_err), written)
    for words, status, told in LOOKED_AT:
        came, came_told = told_on_terminal(program, words)
        yield f"unify {words}, on a terminal", (status, told), (came, agreed(told, came_told))
    for words in UNWRITTEN:
        with open("/dev/full", "wb") as full:
            came = in_new_room(program, words, full)
        wanted = 3, "", "unify: write\n", MERGED if words.startswith("merge") else set()
        yield f"unify {words}, standard output full", wanted, came
    for words, status, out in UNTOLD:
        with open("/dev/full", "wb") as full:
            came, came_out, *others = in_new_room(program, words, err=full)
        wanted = status, out, ["", set()], False
        yield f"unify {words}, standard error full", wanted, (came, agreed(out, came_out), others, "\n# end " in came_out)
