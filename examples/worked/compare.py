#!/usr/bin/env python3
"""Runs each worked example of this folder through the program and compares what it answers.

    examples/worked/compare.py PROGRAM

README.md beside this file has the form of the examples. Also compared: examples that are too large to be kept as files,
each prefix of merge/root-only.bundle, the whole one byte a read, inputs and outputs that fail, the command line, certificates,
plans and inventories that end too early, each merge with the hosts' own files, and by words with directories, inventories of many pieces and
one that changes or goes while it is read twice, the texts and the inventories of texts.py, and the merges of 300 small generated
sites, of 300 with keep texts, of 44 contested ones and of all triples of users with few files, whose cost has to be the least of all
admissible mappings, and what the check of the printed certificate answers. All of these but the triples are merged by words too, and
what was written is checked, counted and rehearsed by words.

Prints the first difference and ends with status 1 there; else the last line tells how many examples there were.
"""
import contextlib
import fcntl
import os
import pathlib
import random
import re
import subprocess
import sys
import termios
import time

from command_line import command_lines
from cut_texts import cut_texts
from kept_sites import some_kept_site
from sites import all_triples, contested_sites, some_site
from texts import inventories, read_by_words, refused_texts, told_of, without_last_newlines
from words import Bundle, looks_of, merged_and_looked_at, merged_by_bundle, merged_by_words, merged_while_changing
from words import own_lines, with_hosts

FOLDER = pathlib.Path(__file__).resolve().parent
SITES = 300
ENDINGS = {"bundle", "answer", "parts", "status", "accepted"}
# So many there are at least: with fewer, some were lost.
LEAST_FILES, LEAST_BY_WORDS, LEAST_BY_LINE, LEAST_CUT, CONTESTED, SMALL = 189, 121, 269, 280, 44, 19683

# The answers to the prefixes of merge/root-only.bundle: the first and the last length, the status, and the fault line or the
# example that has the answer.
PREFIXES = [
    (0, 8, 2, "unify: 42 BadBundle line 1"),
    (9, 10, 1, "unify: 20 HostCount 0"),
    (11, 14, 2, "unify: 42 BadBundle line 2"),
    (15, 15, 1, "unify: 18 BadHostName -"),
    (16, 17, 0, "merge/empty-merge.answer"),
    (18, 27, 2, "unify: 42 BadBundle line 3"),
    (28, 30, 0, "merge/empty-merge.answer"),
    (31, 51, 1, "unify: 1 BadFields host a passwd line 1"),
    (52, 60, 1, "unify: 21 NoPrimaryGroup host a user root"),
    (61, 69, 2, "unify: 42 BadBundle line 5"),
    (70, 72, 1, "unify: 21 NoPrimaryGroup host a user root"),
    (73, 80, 1, "unify: 1 BadFields host a group line 1"),
    (81, 82, 0, "merge/root-only.answer"),
]


def answered(program, bundle):
    """The status and the standard output for a bundle, of which nothing is told on standard error."""
    ran = subprocess.run([program], input=bundle.encode("latin-1"), stdout=subprocess.PIPE, stderr=subprocess.PIPE, timeout=120)
    want("standard error for a bundle", b"", ran.stderr)
    return ran.returncode, ran.stdout.decode("latin-1")


def read(path):
    return path.read_bytes().decode("latin-1")


def shown(it):
    """A status with an output, as lines; or anything else."""
    return "status {}\n{}".format(*it[:2]) + "".join(f"\n{more}" for more in it[2:]) if isinstance(it, tuple) else it


def want(name, wanted, came):
    if wanted != came:
        sys.exit(f"{name}: wanted\n{shown(wanted)}\n{name}: came\n{shown(came)}")


def has_part(answer, part):
    """Whether the lines of a part stand in an answer, one after the other."""
    return "\n" + part.strip("\n") + "\n" in "\n" + answer


def check_of(bundle, answer):
    """The bundle that has the certificate of a merge's answer checked, with the same pins and hosts."""
    certificate = re.search(r"^file certificate\n(?:\|.*\n)*", answer, re.M)
    return "run check\n" + (certificate.group() if certificate else "") + bundle.partition("\n")[2]


def compare_accepted(program, name, bundle, answer, accepted):
    want(f"{name}, its certificate checked", (0, accepted), answered(program, check_of(bundle, answer)))


def example_files():
    """The examples that are files. Each other file of their folders stands beside one of them."""
    found = sorted(FOLDER.glob("*/*.bundle"))
    for path in sorted(FOLDER.glob("[a-z]*/*")):
        if path.with_suffix(".bundle") not in found:
            sys.exit(f"{path.parent.name}/{path.name}: wanted a bundle beside it, came none")
    return found


def want_at_least(least, number, what):
    want(f"{what}, {least} or more", True, number >= least)


def compare_file(program, path):
    """One example that is a file with its answer beside it."""
    name = f"{path.parent.name}/{path.stem}"
    beside = {file.suffix[1:]: read(file) for file in path.parent.glob(path.stem + ".*")}
    if set(beside) - ENDINGS or len({"answer", "parts"} & set(beside)) != 1:
        sys.exit(f"{name}: wanted an answer or parts of one, came\n{sorted(beside)}")
    wanted = int(beside.get("status", "0"))
    status, answer = answered(program, beside["bundle"])
    want(name, (wanted, beside.get("answer", answer)), (status, answer))
    for part in beside["parts"].split("\n\n") if "parts" in beside else []:
        if not has_part(answer, part):
            want(name, part, answer)
    if "accepted" in beside:
        compare_accepted(program, name, beside["bundle"], answer, beside["accepted"])


def empty_hosts(count):
    return "".join(f"host h{number}\n" for number in range(count))


def large_examples():
    """The name, the bundle, the status and the answer of each example that is made here."""
    long_line = "host a\nfile passwd\n|" + 65536 * "#" + "\n"
    too_long = "unify: 8 LineTooLong host a passwd line 1\n"
    no_accounts = "user-fields 0\ngroup-fields 0\n"
    limit_line = "host a\nfile passwd\n|" + 65535 * "#" + "\n"
    most_lines = "host a\nfile passwd\n" + 65536 * "|#\n"
    many_lines = most_lines + "|#\n"
    pins = "run merge\nfile pins\n" + 1048577 * "|\n" + "host a\n"
    merged = read(FOLDER / "merge/empty-merge.answer").replace("hosts 1", "hosts 64").partition("file plan")[0]
    plans = "".join(f"file plan.h{number}\n|unify plan 1 h{number}\n|end\n" for number in range(64))
    return [
        ("count/long-first-line", "run count\n" + long_line, 1, too_long),
        ("merge/long-first-line", "run merge\n" + long_line, 1, too_long),
        ("count/comment-at-the-limit", "run count\n" + limit_line, 0, no_accounts),
        ("count/most-lines", "run count\n" + most_lines, 0, no_accounts),
        ("merge/too-many-lines", "run merge\n" + many_lines, 1, "unify: 7 TooManyLines host a passwd line 65537\n"),
        ("merge/too-many-pins", pins, 1, "unify: 43 BadPins line 1048577\n"),
        ("merge/sixty-four-hosts", "run merge\n" + empty_hosts(64), 0, merged + plans),
        ("merge/sixty-five-hosts", "run merge\n" + empty_hosts(65), 1, "unify: 20 HostCount 65\n"),
    ]


def compare_prefixes(program):
    bundle = read(FOLDER / "merge/root-only.bundle")
    for first, last, status, told in PREFIXES:
        answer = read(FOLDER / told) if told.endswith(".answer") else told + "\n"
        for length in range(first, last + 1):
            want(f"merge/root-only, its first {length} bytes", (status, answer), answered(program, bundle[:length]))
    want("merge/root-only, its length", PREFIXES[-1][1], len(bundle))


def write_byte_by_byte(ran, text):
    """Writes to a program that runs. The next byte is written when the pipe is empty, so that each read has one."""
    for byte in text:
        ran.stdin.write(bytes([byte]))
        while ran.poll() is None and fcntl.ioctl(ran.stdin, termios.FIONREAD, bytes(4)) != bytes(4):
            time.sleep(0.0001)


def answered_byte_by_byte(program, bundle):
    """The status, standard output and standard error for a bundle of which each read has one byte."""
    pipe = subprocess.PIPE
    with subprocess.Popen([program], bufsize=0, stdin=pipe, stdout=pipe, stderr=pipe) as ran:
        with contextlib.suppress(BrokenPipeError):
            write_byte_by_byte(ran, bundle)
        out, err = ran.communicate(timeout=120)
        return ran.returncode, out.decode("latin-1"), err.decode("latin-1")


def compare_one_byte_a_read(program):
    bundle = (FOLDER / "merge/root-only.bundle").read_bytes()
    answer = read(FOLDER / "merge/root-only.answer")
    want("one-byte-a-read", (0, answer, ""), answered_byte_by_byte(program, bundle))


def compare_failures(program):
    """What is told where standard input cannot be read or never ends, and where standard output cannot be written."""
    told = (3, b"unify: read\n", b"")
    folder = os.open(FOLDER, os.O_RDONLY)
    try:
        ran = subprocess.run([program], stdin=folder, stdout=subprocess.PIPE, stderr=subprocess.PIPE, timeout=120)
        want("a folder as standard input", told, (ran.returncode, ran.stdout, ran.stderr))
    finally:
        os.close(folder)
    with open("/dev/zero", "rb") as endless:
        ran = subprocess.run([program], stdin=endless, stdout=subprocess.PIPE, stderr=subprocess.PIPE, timeout=120)
        want("an input without an end", told, (ran.returncode, ran.stdout, ran.stderr))
    for name in ("count/stored-count", "merge/root-only"):
        with open(FOLDER / f"{name}.bundle", "rb") as bundle, open("/dev/full", "wb") as full:
            ran = subprocess.run([program], stdin=bundle, stdout=full, stderr=subprocess.PIPE, timeout=120)
        want(f"{name}, an output that is full", (3, b""), (ran.returncode, ran.stderr))


def long_inventories():
    """A merge of two hosts whose inventories have many pieces, which end anywhere in a line, and in joined lines too."""
    hosts = ""
    for host, uids in (("a", (1001, 1002)), ("b", (1002, 1001))):
        hosts += f"host {host}\nfile passwd\n"
        hosts += "".join(f"|{name}:x:{uid}:100::/:/bin/sh\n" for name, uid in zip(("alice", "bob"), uids))
        hosts += "file group\n|users:x:100:\nfile mtree\n|/set gid=100\n"
        for number in range(9000):
            joined = "\\\n|" if number % 7 == 0 else ""
            hosts += f"|./{'d' * (number % 50)}/f{number} {joined}uid={uids[number % 3 == 0]}\n"
    return "run merge\n" + hosts


def compare_command_line(program):
    """Compares what is answered to each line of words, and tells how many there were."""
    lines = list(command_lines(program))
    for name, wanted, came in lines:
        want(name, wanted, came)
    return len(lines)


def compare_cut_texts(program):
    """Compares what is told of each text that is cut or has a line out of its place, and tells how many there were."""
    texts = list(cut_texts(program))
    for name, wanted, came in texts:
        want(name, wanted, came)
    return len(texts)


def compare_words(program, bundles):
    """Merges what is in bundles with the hosts' own files, which stand behind what is answered without them, and by words; and
    tells how many were compared by words."""
    compared = 0
    for name, text in bundles:
        bundle = Bundle(text)
        status, answer = answered(program, text)
        own = own_lines(answer, bundle) if status == 0 else ""
        want(f"{name}, with the hosts' own files", (status, answer + own), answered(program, with_hosts(text)))
        if status != 2 and bundle.is_for_words():
            want(f"{name}, by words", merged_by_bundle(status, answer + own), merged_by_words(program, bundle))
            compared += 1
    return compared


def compare_inventories(program):
    """Inventories by words: those of texts.py, and one of a host whose texts all end without a newline, as its own new files do
    then."""
    for name, inventory, told in inventories():
        want(name, told_of(told), read_by_words(program, inventory))
    nested = read(FOLDER / "merge/nested-inventory.bundle")
    whole, cut = (merged_by_words(program, bundle) for bundle in (Bundle(nested), without_last_newlines(nested)))
    for name in whole[3]:
        if name.startswith(("passwd.", "group.")):
            cut[3][name] += "\n"
    want("lines-split", whole, cut)


def left_by_stop(files, hosts):
    """What a merge leaves that stops where it writes the plan of the first of these hosts, the others being the later ones."""
    lost = {"report", *(f"plan.{name}" for name, _ in hosts)}
    kept = {name: text for name, text in files.items() if name not in lost and not name.startswith(("passwd.", "group."))}
    return kept | {".unify-merge": ""}


def compare_changing(program):
    """Inventories that are other texts when they are read for the second time: a file less, another order, a new file. Behind two
    of the merges stands a host c without accounts, whose inventory is the pipe."""
    swap = read(FOLDER / "merge/two-hosts-swap.bundle")
    names = read(FOLDER / "merge/two-names-one-number.bundle") + "host c\n"
    first, second = "|./bob1 uid=1001 gid=100\n", "|./bob2 uid=1001 gid=100\n"
    records = "1001 100 1000 100 4 bob1\n", "1001 100 1000 100 4 bob2\n"
    for name, text, host, old, new, told in [
        ("swap-short-second-pass", swap, 0, "|./bob1 uid=1002 gid=100\n", "", "unify: 41 InventoryChanged host a\n"),
        ("second-pass-reordered", names, 1, first + second, second + first, None),
        ("second-pass-new-file", names, 1, second, second + "|./bob3 uid=1005 gid=100\n", "unify: 41 InventoryChanged host b\n"),
    ]:
        status, kept, refused, files = merged_by_words(program, Bundle(text))
        if told is None:
            files["plan.b"] = files["plan.b"].replace("".join(records), "".join(reversed(records)))
        else:
            status, kept, refused, files = 1, "", told, left_by_stop(files, Bundle(text).hosts[host:])
        again = Bundle(text.replace(old, new, 1)).hosts[host][1]["mtree"]
        want(name, (status, kept, refused, files), merged_while_changing(program, Bundle(text), host, again))


def compare_gone(program):
    """An inventory that is gone when it is to be read for the second time, where an earlier merge was written: of its plans and
    of what it wrote for each host none is left."""
    bundle = Bundle(read(FOLDER / "merge/two-names-one-number.bundle") + "host c\n")
    names = [name for name, _ in bundle.hosts] + ["d"]
    older = {f"plan.{name}": f"unify plan 1 {name}\n1 1 2 2 5 older\nend\n" for name in names}
    older |= {f"{file}.{name}": "older\n" for file in ("passwd", "group") for name in names}
    older["report"] = "unify report 2\n"
    *_, files = merged_by_words(program, bundle)
    came = merged_while_changing(program, bundle, 1, None, older)
    told = "unify: file host1/mtree: No such file or directory\n"
    want("second-pass-gone", (3, "", told, left_by_stop(files, bundle.hosts[1:])), came)


def compare_merged(program, name, site):
    """The merge of a site: admissible, filled, of the least cost, which is told, and with a certificate that is accepted with
    it."""
    status, answer = answered(program, site.bundle())
    cost = 0
    for kind in site.kinds():
        fields, rows = kind.least()
        all_fields, all_rows = kind.totals()
        lines = f"|{kind.name}-fields {fields} of {all_fields}", f"|{kind.name}-lines {rows} of {all_rows}"
        told = status == 0 and all(has_part(answer, line) for line in lines)
        mapping = kind.mapping_in(answer) if told else None
        if mapping is None or kind.cost(mapping) != (fields, rows) or not kind.is_filled(mapping):
            want(name, "\n".join([*lines, "and a map that changes so many, for", site.bundle()]), (status, answer))
        cost += fields
    compare_accepted(program, name, site.bundle(), answer, f"accepted {cost}\n")


def compare_by_words(program, name, text):
    """A merge with the hosts' own files, by words; and what is told by words of the files that it writes."""
    merge, looks = merged_and_looked_at(program, Bundle(text))
    wanted = merged_by_bundle(*answered(program, text))
    want(f"{name}, by words, for\n{text}", wanted, merge)
    if wanted[0] == 0:
        want(f"{name}, its files by words, for\n{text}", looks_of(wanted[3]), looks)


def compare_sites(program):
    """Merges sites that look random, the same ones at each run, and tells how many could be merged."""
    chance = random.Random(2026)
    merged = 0
    for number in range(SITES):
        site = some_site(chance)
        compare_by_words(program, f"site {number}", with_hosts(site.bundle()))
        if refusal := site.refusal():
            want(f"site {number}", (1, refusal), answered(program, site.bundle()))
            want(f"site {number}, checked", (1, refusal), answered(program, check_of(site.bundle(), "file certificate\n")))
        else:
            compare_merged(program, f"site {number}", site)
            merged += 1
    return merged


def compare_kept(program, name, site):
    """The merge of a site with a keep text, with the hosts' own files: as that of any site over the names that are not kept; the
    plans and the own files to the byte; one passwd and one group exactly where no name is kept; and what its map is counted as."""
    compare_merged(program, name, site)
    _, answer = answered(program, site.bundle())
    users, groups = site.kinds()
    mappings = [kind.named_in(answer) for kind in (users, groups)]
    wanted = site.answer(users, groups, mappings)
    want(f"{name}, its plans and own files, for\n{site.bundle()}", wanted, answer[-len(wanted) :])
    files = re.findall(r"^file (\S+)$", answer, re.M)[:5]
    first = [] if users.kept_names or groups.kept_names else ["passwd", "group"]
    want(f"{name}, its files", [*first, "map", "certificate", "report"], files[: len(first) + 3])
    map_text = re.search(r"^file map\n(?:\|.*\n)*", answer, re.M).group()
    count = "run count\n" + map_text + site.bundle().partition("\n")[2]
    told = "".join(f"{kind.name}-fields {kind.least()[0]}\n" for kind in (users, groups))
    want(f"{name}, its map counted", (0, told), answered(program, count))


def compare_kept_sites(program):
    """Merges sites with keep texts, and tells how many could be merged."""
    chance = random.Random(2026)
    merged = 0
    for number in range(SITES):
        site = some_kept_site(chance)
        compare_by_words(program, f"kept site {number}", site.bundle())
        if refusal := site.refusal():
            want(f"kept site {number}, for\n{site.bundle()}", (1, refusal), answered(program, site.bundle()))
        else:
            compare_kept(program, f"kept site {number}", site)
            merged += 1
    return merged


def compare_contested_sites(program):
    """Merges sites where every user wants the number of others on each host, and tells how many there were."""
    sites = list(contested_sites(random.Random(2026)))
    for number, site in enumerate(sites):
        compare_merged(program, f"contested site {number}", site)
        compare_by_words(program, f"contested site {number}", with_hosts(site.bundle()))
    return len(sites)


def compare_small_sites(program):
    """Merges all triples of users with few files, many in a site, and tells how many triples there were."""
    merged = 0
    for site in all_triples():
        compare_merged(program, f"all-small-sites, behind {merged} triples", site)
        merged += len(site.triples)
    return merged


def main(words):
    if len(words) != 1:
        print(__doc__)
        return 2
    program = pathlib.Path(words[0]).resolve()
    files = example_files()
    for path in files:
        compare_file(program, path)
    made = [*large_examples(), *refused_texts()]
    for name, bundle, status, answer in made:
        want(name, (status, answer), answered(program, bundle))
    compare_prefixes(program)
    compare_one_byte_a_read(program)
    compare_failures(program)
    by_line = compare_command_line(program)
    cut = compare_cut_texts(program)
    merges = [(f"merge/{path.stem}", read(path)) for path in files if path.parent.name == "merge"]
    merges += [(name, bundle) for name, bundle, *_ in refused_texts()]
    by_words = compare_words(program, [*merges, ("long-inventories", long_inventories())])
    compare_inventories(program)
    compare_changing(program)
    compare_gone(program)
    merged, kept = compare_sites(program), compare_kept_sites(program)
    contested = compare_contested_sites(program)
    small = compare_small_sites(program)
    want_at_least(LEAST_FILES, len(files), "examples that are files")
    want_at_least(LEAST_BY_WORDS, by_words, "merges by words")
    want_at_least(LEAST_BY_LINE, by_line, "command lines")
    want_at_least(LEAST_CUT, cut, "cut certificates, plans and inventories")
    want_at_least(CONTESTED, contested, "contested sites")
    want_at_least(SMALL, small, "triples of users")
    for many in (merged, kept):
        want("generated sites, more than half merged, but not all", True, SITES // 2 < many < SITES)
    print(f"generated sites: {merged} merged at the least cost, {SITES - merged} refused for two pins or a small pool")
    print(f"generated sites with keep texts: {kept} merged at the least cost, {SITES - kept} refused")
    print(f"contested sites: {contested} merged at the least cost")
    print(f"small sites: {small} triples of users merged at the least cost")
    print(f"cut certificates, plans and inventories: {cut} as the definitions say")
    print(f"command lines: {by_line} as in the table")
    print(f"merges by words: {by_words} as by bundle")
    print(f"worked examples: {len(files) + len(made)} as committed")
    return 0


sys.exit(main(sys.argv[1:]))
