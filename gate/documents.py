#!/usr/bin/env python3
"""Looks whether the documents name what is there, and ends with status 1 where they do not.

Of each document in git: the file and the heading that a link leads to; the files that it names in code marks, as
`gate/documents.py`, `crates/*/src` or `Merge.antt`; the public names of crates, as `unify_merge::merge_files`; the laws that
docs/surface.md lists under each crate, which its src/lib.rt has to export; the laws, calls, clauses, fields and definitions that
some documents name without a crate, which something has to declare; and the headline, which README.md and docs/promises.md have to
quote alike.
"""
import functools
import itertools
import pathlib
import re
import subprocess
import sys

TOP = pathlib.Path(__file__).resolve().parent.parent
FOLDERS = "crates", "docs", "bench", "examples", "gate"
PUBLIC = re.compile(r"\bpub (?:fn|struct|enum|trait|const|type) (\w+)")
LINK = re.compile(r"\]\(([^)\s]+)\)")
MARKED = re.compile(r"`([^`\n]+)`")
FILE = re.compile(rf"(?:{'|'.join(FOLDERS)})/[\w./*-]+")
# The file of a definition whose crate is told before it.
DEFINITIONS = re.compile(r"\w+\.antt")
# What stands in place of any name, as in `crates/NAME/wrong-bodies`, and what only a run makes.
ANY_NAME, MADE = re.compile(r"\b[A-Z]+\b"), {"bench/work"}
PUBLIC_NAME = re.compile(r"([a-z_]+)::(?:[A-Z]\w+::)?(\w+)")
# In these documents a name without a crate, not all in capitals, is one that is declared, except for those of other things: a
# command, a variant and a word of the library, words of mtree, a file of the system.
DECLARING = {"README.md", "CONTRIBUTING.md", "docs/promises.md", "docs/definitions.md"}
NAME, OTHERS = re.compile(r"(?![A-Z_]+$)[A-Za-z]\w*(?:::\w+)?"), {"verify", "Ok", "view", "uname", "gname", "journal_task"}
# What is declared: what is public in sources and definitions, the clauses of contracts, the lines of a trait or an enum (calls,
# ghosts and variants), and the functions that make worked examples.
DECLARED, CLAUSE = re.compile(r"\b(?:pub (?:[a-z]+ )?|def )(\w+)"), re.compile(r"\bensures (\w+)")
BLOCK, MEMBER = re.compile(r"^pub (?:trait|enum) .*?^\}", re.M | re.S), re.compile(r"^    (?:fn |ghost )?(\w+)", re.M)
# A paragraph of laws, with a list that follows it; and what the root of a crate exports.
LAWS = re.compile(r"^Laws?\b(?:.|\n(?!\n[^-]))*", re.MULTILINE)
EXPORTED = re.compile(r"\bpub use ([^;]+);")


def documents():
    """The documents in git."""
    listed = subprocess.run(["git", "ls-files", "*.md"], cwd=TOP, capture_output=True, text=True, check=True)
    return [TOP / name for name in listed.stdout.split()]


@functools.cache
def anchors(path):
    """What leads to the headings of a document: in small letters, without marks, with hyphens for spaces."""
    headings = re.findall(r"^#+ (.*)$", path.read_text(), re.MULTILINE)
    return {re.sub(r"[^\w\- ]", "", heading.lower()).replace(" ", "-") for heading in headings}


@functools.cache
def public_names(crate):
    """The public names in the sources of a crate; none where this repository has no such crate."""
    sources = (TOP / "crates" / crate / "src").rglob("*.rt")
    return {name for source in sources for name in PUBLIC.findall(source.read_text())}


@functools.cache
def exported_names(crate):
    """The names that the root of a crate exports, or has itself."""
    root = (TOP / "crates" / crate / "src/lib.rt").read_text()
    return set(re.findall(r"\w+", " ".join(EXPORTED.findall(root)))) | set(PUBLIC.findall(root))


@functools.cache
def declared_names():
    """What is declared, and the names of crates, of the files of definitions and of wrong bodies."""
    crates, specs, edits = (list(TOP.glob(name)) for name in ("crates/*", "crates/*/specs/*.antt", "crates/*/wrong-bodies/*.edit"))
    names = {path.stem for path in crates + specs + edits}
    for path in itertools.chain(specs, TOP.glob("crates/*/src/**/*.rt"), TOP.glob("examples/worked/*.py")):
        text = path.read_text()
        names.update(DECLARED.findall(text), CLAUSE.findall(text), MEMBER.findall("\n".join(BLOCK.findall(text))))
    return names


def broken_links(document, text):
    for link in LINK.findall(text):
        name, _, anchor = link.partition("#")
        if "://" in link:
            continue
        path = (document.parent / name).resolve() if name else document
        if not path.exists() or anchor and anchor not in anchors(path):
            yield f"a link to {link}"


def missing_files(text):
    for mark in MARKED.findall(text):
        path = f"crates/*/specs/{mark}" if DEFINITIONS.fullmatch(mark) else mark
        if FILE.fullmatch(path) and mark not in MADE and not any(TOP.glob(ANY_NAME.sub("*", path))):
            yield f"the file {mark}"


def missing_names(text):
    for mark in MARKED.findall(text):
        found = PUBLIC_NAME.match(mark)
        if found and public_names(found[1]) and found[2] not in public_names(found[1]):
            yield f"the name {mark}"


def undeclared_names(text):
    for mark in MARKED.findall(text):
        if NAME.fullmatch(mark) and not (declared_names() | OTHERS).issuperset(mark.split("::")):
            yield f"the name {mark}"


def missing_laws():
    """The laws of docs/surface.md, section by section; of `TYPE::law` the type is exported."""
    for section in re.split(r"^## ", (TOP / "docs/surface.md").read_text(), flags=re.MULTILINE):
        crate = section.partition("\n")[0]
        for mark in MARKED.findall(" ".join(LAWS.findall(section))):
            outer, _, law = mark.partition("::")
            if outer not in exported_names(crate) or law and law not in public_names(crate):
                yield f"the law {mark} of {crate}"


def headline(name):
    """The longest quotation of a document, in one line and without marks."""
    quotations = re.findall(r"(?:^>.*\n)+", (TOP / name).read_text(), re.MULTILINE)
    return " ".join(max(quotations, key=len).replace(">", " ").replace("*", " ").split())


def main():
    faults = []
    for document in documents():
        text, name = document.read_text(), str(document.relative_to(TOP))
        found = [*broken_links(document, text), *missing_files(text), *missing_names(text)]
        found += undeclared_names(text) if name in DECLARING else []
        faults += [f"{name}: there is not {what}" for what in found]
    faults += [f"docs/surface.md: there is not {what}" for what in missing_laws()]
    if headline("README.md") != headline("docs/promises.md"):
        faults.append("README.md and docs/promises.md quote the headline otherwise")
    print("\n".join(faults) or f"documents: {len(documents())} name what is there")
    return 1 if faults else 0


if __name__ == "__main__":
    sys.exit(main())
