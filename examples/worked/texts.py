"""What is read of a host's texts: texts that are refused; one inventory cut short at each of its bytes; and inventories that
come in two pieces, which part at each of their bytes.

Which files an inventory has is told by a plan: every user and every group of the host moves, so that the plan has each file."""
from words import Bundle, merged_by_words

# Where a piece of 1,024 bytes ends, and the buffer that it is taken from too, where an inventory is read by words.
PIECE = 65536
# The numbers of the host's users and groups, and how much greater their pins are.
UIDS, GIDS, MORE = (0, 1, 10, 100, 1001, 1002), (0, 100), 5000

# A text of a host with the name a, or a pins text, that is refused; and how.
REFUSED = [
    ("decimals-empty", "passwd", "alice:x::100:::\n", "3 BadNumber host a passwd line 1"),
    ("decimals-letter", "passwd", "alice:x:1x:100:::\n", "3 BadNumber host a passwd line 1"),
    ("c-numbers-octal", "login.defs", "UID_MIN 08\n", "3 BadNumber host a login.defs line 1"),
    ("c-numbers-no-digit", "login.defs", "UID_MIN 0x\n", "3 BadNumber host a login.defs line 1"),
    ("c-numbers-too-great", "login.defs", "UID_MIN 0xFFFFFFFF\n", "3 BadNumber host a login.defs line 1"),
    ("every-value-is-a-number", "login.defs", "\nUID_MIN 08\nUID_MIN 8\n", "3 BadNumber host a login.defs line 2"),
    ("greatest-gid-too-great", "login.defs", "GID_MAX 4294967295\n", "3 BadNumber host a login.defs line 1"),
    ("first-equals-sign", "mtree", "./f uid=1=2 gid=100\n", "3 BadNumber host a mtree line 1"),
    ("bad-escape-at-the-end", "mtree", "./a\\M- uid=1001 gid=100\n", "14 BadPath host a mtree line 1"),
    ("bad-escape-control", "mtree", "./a\\M^a uid=1001 gid=100\n", "14 BadPath host a mtree line 1"),
    ("bad-escape-meta", "mtree", "./a\\Mb uid=1001 gid=100\n", "14 BadPath host a mtree line 1"),
    ("bad-escape-of-a-slash", "mtree", "./a\\^/b uid=1001 gid=100\n", "14 BadPath host a mtree line 1"),
    ("lone-backslash", "mtree", "./a\\ uid=1001 gid=100\n", "14 BadPath host a mtree line 1"),
    ("meta-before-a-joined-line", "mtree", "./f uid=1001 gid=100\n    name\\M-\\\n    next\n", "14 BadPath host a mtree line 2"),
    ("pushed-escapes", "mtree", "./\\\\ uid=1005 gid=100\n", "25 UnownedUid host a uid 1005 \\134"),
    ("white-before-a-comment", "passwd", " # a\n", "1 BadFields host a passwd line 1"),
    ("name-with-nul", "passwd", "a\0:x:1001:100:::\n", "2 BadName host a passwd line 1"),
    ("name-with-comma", "passwd", "a,b:x:1001:100:::\n", "2 BadName host a passwd line 1"),
    ("name-begins-with-plus", "pins", "user +a 5\n", "43 BadPins line 1"),
    ("name-begins-with-minus", "pins", "user -a 5\n", "43 BadPins line 1"),
    ("name-begins-with-number-sign", "pins", "user #a 5\n", "43 BadPins line 1"),
    ("name-with-colon", "pins", "user a:b 5\n", "43 BadPins line 1"),
    ("name-is-empty", "pins", "user  5\n", "43 BadPins line 1"),
]

NESTED = (
    "#mtree\n"
    "/set type=file uid=1001 gid=100\n"
    ". type=dir\n"
    "    bin type=dir uid=0 gid=0\n"
    "        ls\n"
    "    ..\n"
    "    etc\\040x uid=1002\n"
    "..\n"
)
ROOT = [(".", 1001, 100)]
SO_FAR = [*ROOT, ("bin", 0, 0), ("bin/ls", 1001, 100)]

# The prefixes of the nested inventory: the first and the last length, and the files or the fault.
PREFIXES = [
    (0, 7, []),
    (8, 10, "10 BadCommand host a mtree line 2"),
    (11, 24, []),
    (25, 26, "3 BadNumber host a mtree line 2"),
    (27, 33, []),
    (34, 35, "3 BadNumber host a mtree line 2"),
    (36, 39, []),
    (40, 54, ROOT),
    (55, 55, [*ROOT, ("b", 1001, 100)]),
    (56, 56, [*ROOT, ("bi", 1001, 100)]),
    (57, 69, [*ROOT, ("bin", 1001, 100)]),
    (70, 71, "3 BadNumber host a mtree line 4"),
    (72, 75, [*ROOT, ("bin", 0, 100)]),
    (76, 77, "3 BadNumber host a mtree line 4"),
    (78, 87, [*ROOT, ("bin", 0, 0)]),
    (88, 88, [*ROOT, ("bin", 0, 0), ("bin/l", 1001, 100)]),
    (89, 94, SO_FAR),
    (95, 95, "15 OwnersDiffer host a mtree line 6"),
    (96, 101, SO_FAR),
    (102, 102, [*SO_FAR, ("e", 1001, 100)]),
    (103, 103, [*SO_FAR, ("et", 1001, 100)]),
    (104, 104, [*SO_FAR, ("etc", 1001, 100)]),
    (105, 105, "17 CutContinuation host a mtree line 7"),
    (106, 106, [*SO_FAR, ("etc\\0", 1001, 100)]),
    (107, 107, [*SO_FAR, ("etc\\04", 1001, 100)]),
    (108, 108, [*SO_FAR, ("etc ", 1001, 100)]),
    (109, 112, [*SO_FAR, ("etc x", 1001, 100)]),
    (113, 114, "3 BadNumber host a mtree line 7"),
    (115, 115, [*SO_FAR, ("etc x", 1, 100)]),
    (116, 116, [*SO_FAR, ("etc x", 10, 100)]),
    (117, 117, [*SO_FAR, ("etc x", 100, 100)]),
    (118, 122, [*SO_FAR, ("etc x", 1002, 100)]),
]




def file_of(name, text):
    return f"file {name}\n" + "".join(f"|{line}\n" for line in text.split("\n")[:-1])


def refused_texts():
    """The name, the bundle, the status and the answer of a merge for each text that is refused."""
    for name, file, text, told in REFUSED:
        texts = {"pins": "", "passwd": "alice:x:1001:100:::\n", "group": "users:x:100:\n"} | {file: text}
        pins = file_of("pins", texts.pop("pins"))
        host = "".join(file_of(*it) for it in texts.items())
        yield f"merge/{name}", f"run merge\n{pins}host a\n{host}", 1, f"unify: {told}\n"


def moving_host():
    """A merge of a host a whose users and groups all move."""
    pins = [f"user u{uid} {uid + MORE}\n" for uid in UIDS] + [f"group g{gid} {gid + MORE}\n" for gid in GIDS]
    texts = {
        "login.defs": "SYS_UID_MIN 0\nSYS_GID_MIN 0\n",
        "passwd": "".join(f"u{uid}:x:{uid}:{GIDS[0]}:::\n" for uid in UIDS),
        "group": "".join(f"g{gid}:x:{gid}:\n" for gid in GIDS),
    }
    return f"run merge\n{file_of('pins', ''.join(pins))}host a\n" + "".join(file_of(*it) for it in texts.items())


def told_of(read):
    """The status, and the plan of files or the line of a fault."""
    if isinstance(read, str):
        return 1, f"unify: {read}\n"
    records = [f"{uid} {gid} {uid + MORE} {gid + MORE} {len(path)} {path}\n" for path, uid, gid in read]
    return 0, f"unify plan 1 a\n{''.join(records)}end\n"


def in_two_pieces(text):
    """The inventory behind comments that are read over, so long that the first piece ends at one of its bytes after the other."""
    for at in range(len(text) + 1):
        rest = PIECE - at
        comment = "#" * 1023 + "\n"
        lines = comment * (rest // len(comment)) + comment[-(rest % len(comment)) :] * (rest % len(comment) != 0)
        yield at, lines + text


def inventories():
    """The name, the text, and the files or the fault of each inventory."""
    for first, last, read in PREFIXES:
        for length in range(first, last + 1):
            yield f"nested-inventory, its first {length} bytes", NESTED[:length], read
    for name, text, read in [
        ("nested-inventory", NESTED, PREFIXES[-1][2]),
        ("escape-across-pieces", "./a\\040b uid=1001 gid=100\n", [("a b", 1001, 100)]),
        ("meta-across-pieces", "na\\M-C\\M-/ve uid=1001 gid=100\n", [("na\xc3\xafve", 1001, 100)]),
    ]:
        for at, pieces in in_two_pieces(text):
            yield f"{name}, parted at {at}", pieces, read
    names = f"{40000 * 'a'} type=dir uid=0 gid=0\n{40000 * 'b'} uid=0 gid=0\n"
    yield "path-too-long", names, "14 BadPath host a mtree line 2"
    yield "many-dots", 100000 * ". type=dir uid=0 gid=0\n", [(".", 0, 0)]


def read_by_words(program, inventory):
    """The status of a merge by words, and its plan for the host with this inventory, or the line of its fault."""
    bundle = Bundle(moving_host())
    bundle.hosts[0][1]["mtree"] = inventory
    status, _, fault, files = merged_by_words(program, bundle)
    return status, fault or files["plan.a"]


def without_last_newlines(text):
    """A bundle each of whose texts ends without a newline, as only those by words can."""
    bundle = Bundle(text)
    bundle.texts = {name: it.removesuffix("\n") for name, it in bundle.texts.items()}
    bundle.hosts = [(name, {file: it.removesuffix("\n") for file, it in texts.items()}) for name, texts in bundle.hosts]
    return bundle
