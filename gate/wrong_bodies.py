#!/usr/bin/env python3
"""Tries the wrong bodies of crates/NAME/wrong-bodies: the prover must refuse each one, in the function that it is in.

    gate/wrong_bodies.py --beside-ci  runs `rt ci`, and tries the wrong bodies of each crate once that has proved it
    gate/wrong_bodies.py [NAME..]     tries those of these crates, or of all

An edit is a file as rt's must-fail edits are: lines `file: PATH` below the crate, `old: TEXT`, which stands there once, and
`new: TEXT`. A line `why: TEXT` names the promise of docs/promises.md that it breaks, which has to be there, or some with commas
between them, and what else is to be said after a semicolon or a colon.

The edits of a crate are tried in rounds. A round takes edits that touch different functions, makes them all in one copy of the
crate, and has these functions checked, with what they call. An edit is refused where that check leaves a goal open in a function
that the edit touches. What was refused before stays made where a round touches nothing: such a function is not proved again. What
is not refused in a round is tried alone before it is told as let through. So is an edit outside of functions: all of the crate is
checked with it, and it is refused where any goal is left open.

An edit may turn the contracts of functions with their bodies. A line `in: PATH FUNCTION` names the one above them that has to
refuse it; that function alone is checked then, and by itself. What breaks in a lemma that its answers cite does not count. It does
where an edit turns a definition with its body, so that a law of the definition does not hold: there a line `law: PATH FUNCTION`
names the law, and that alone is checked, with its lemmas.

All is done in a copy of the repository's crates. A crate that `rt ci` has passed on this machine is taken as proved, by the
record of rt where it keeps one and else by build/passed and the libraries that it left; any other is proved first. Edits are tried
side by side, one a processor, those of the crate that was proved last before others, at the lowest priority: beside `rt ci` with
what it leaves idle. No check begins later than WRONG_BODY_MINUTES after this script did, where that is set: edits that are left
then are named. The last line is `N refused, M let through`, with `, K not tried` if there are any; M counts all others that were
tried or read and not refused. The status is 1 if M is not 0, if there was time for those K, or if a crate is not proved.
"""
import importlib.machinery
import importlib.util
import os
import pathlib
import queue
import re
import shutil
import subprocess
import sys
import tempfile
import threading
import time
from typing import NamedTuple

FOLDER = "wrong-bodies"
# How many of the edits that are tried alone go one after another: the later take from what the earlier kept.
SHARE = 8
# What has to be free where a check begins, in bytes, or a third of what is free at first, if that is less: twice the most that one
# was seen to take.
ROOM = 6_000_000_000
# The variable of the environment that says after how many minutes no further check begins, and when these began.
MINUTES, BEGUN = "WRONG_BODY_MINUTES", time.monotonic()
# The line by which `rt ci` tells that a crate is proved.
PROVED = re.compile(r"rt: (\w+) (?:proved|is kept: .*)\n")
# What `rt ci` passed last: a line for each crate, its name and the sum of all that it is made from.
PASSED = "build/passed"
# A goal that a check left open, told at the source that it comes from, or at the answer that does not prove it. An answer that
# only names what an edit took away shows nothing.
OPEN = re.compile(r"^note: (?:\./)?(src/\S+?):(\d+):\d+: .*\bnot proved\b[^`\n]*(?:`([^`]+)`)?", re.M)
ANSWER = re.compile(
    r"^(?:\./)?(proofs/\S+?):(\d+):\d+: error: (?:`([^`]+)`)?"
    r"(?!.*(?:is not in scope|was not (?:admitted|checked)|has no (?:field|`)))",
    re.M,
)
# Goals that say nothing of a clause: that a number fits, that an index is within.
RANGES = "overflow", "bounds", "slice_bounds", "offset_bounds", "nonzero"
# What keeps a check from any verdict: a text that does not compile.
ERROR = re.compile(r"^(?:\./)?(src/\S+?):(\d+):\d+: error(?:[^`\n]*`([^`]+)`)?", re.M)
# A search that took too many steps: the goal may hold.
BROKE_OFF = re.compile(r"`search` broke off")
# The last line of a check that came to an end.
ENDED = re.compile(r"^(?:only=\d+ proved=|logic=)", re.M)
FUNCTION = re.compile(
    r"(\s*)(?:pub(?:\([^)]*\))?\s+)?(?:final\s+)?(?:const\s+)?(?:unsafe\s+)?fn (\w+)"
)
IMPL = re.compile(
    r"impl(?:<(?P<parameters>[^{]*?)>)?\s+(?:(?:\w+::)*(?P<trait>\w+)(?P<of_trait><[^{]*?>)?\s+for\s+)?"
    r"&?(?:\w+::)*(?P<type>\w+)(?P<of_type><[^{]*>)?"
)
TRAIT = re.compile(r"(?:pub(?:\([^)]*\))?\s+)?trait (\w+)")


def toolchain():
    """rt as a module: its own check of an edited copy and its own way to run tasks side by side are used here."""
    command = shutil.which("rt") or sys.exit("rt, the command of the Rattle toolchain, is not on the PATH")
    loader = importlib.machinery.SourceFileLoader("rt", os.path.realpath(command))
    module = importlib.util.module_from_spec(importlib.util.spec_from_loader("rt", loader))
    loader.exec_module(module)
    return module


class Place(NamedTuple):
    """A line of a file, and the goal that is told there."""

    path: str
    line: int
    goal: str


class Function(NamedTuple):
    """A function of a source file, by its first and its last line and the folder of its answers."""

    path: str
    first: int
    last: int
    answers: str

    @property
    def name(self):
        """The function as a check names it."""
        return self.answers.removeprefix("proofs/").replace("/", "::")

    def has(self, place):
        is_answer = place.path.rpartition("/")[0] == self.answers
        return is_answer or place.path == self.path and self.first <= place.line <= self.last


class Edit(NamedTuple):
    """A wrong body: its changes, each a path, an old text and a new one; the functions that they touch, or that have to refuse
    them; whether these are named; and whether they are laws, whose lemmas count too."""

    name: str
    changes: list
    functions: set
    is_apart: bool
    is_of_laws: bool

    def found_in(self, places):
        """A place that lies in a function that the edit touches, or in any, where it touches none or only a law with its lemmas
        was checked; at best one of a clause."""
        is_any = self.is_of_laws or not self.functions
        found = [it for it in places if is_any or any(f.has(it) for f in self.functions)]
        return min(found, key=lambda it: it.goal.startswith(RANGES), default=None)


class Told(NamedTuple):
    """What a check tells: the goals that it left open, the errors, whether it came to an end, whether a search in it broke off,
    and its last line."""

    goals: list
    errors: list
    has_ended: bool
    broke_off: bool
    last: str


class Unreadable(Exception):
    """An edit that cannot be made."""


class TimeIsUp(Exception):
    """No further check is to begin."""


def owner_of(lines, first):
    """What the folders of answers call the impl or the trait around a function, and the type whose own impl it is, if any."""
    for line in reversed(lines[:first]):
        if found := IMPL.match(line):
            # The arguments of a type are named there but for those that are the impl's own; those of a trait are all named.
            own = re.findall(r"(?:^|,)\s*(\w+)", found["parameters"] or "")
            name = found["type"] + "".join(it for it in re.findall(r"(?<!')\b\w+", found["of_type"] or "") if it not in own)
            trait = (found["trait"] or "") + re.sub(r"[^A-Za-z0-9]", "", found["of_trait"] or "")
            return name + trait, "" if trait else found["type"]
        if found := TRAIT.match(line):
            return found[1], ""
        if line.startswith("}"):
            break
    return "", ""


def answers_of(path, lines, first, home_of):
    """The folder of the answers of the function that begins at a line. A type's own function is where the type is declared."""
    head = FUNCTION.match(lines[first])
    owner, own_type = owner_of(lines, first) if head[1] else ("", "")
    module = (home_of(own_type, path) if own_type else path).removeprefix("src/").removesuffix(".rt")
    return "/".join(it for it in ("proofs", module if module not in ("lib", "main") else "", owner, head[2]) if it)


def function_at(path, text, offset, home_of):
    """The function around an offset of a text that is laid out by rt fmt, or None."""
    lines, at = text.split("\n"), text.count("\n", 0, offset)
    indent = len(lines[at]) - len(lines[at].lstrip())
    for first in range(at, -1, -1):
        head = FUNCTION.match(lines[first])
        if head and (first == at or len(head[1]) < indent):
            # The body of a function that does nothing is one line.
            ends = head[1] + "}", head[1] + "{}"
            last = next((it for it in range(first, len(lines)) if lines[it] in ends), -1)
            answers = answers_of(path, lines, first, home_of)
            # What is said of a whole function is told at the first of its attributes.
            while first > 0 and lines[first - 1].startswith(f"{head[1]}#["):
                first -= 1
            return Function(path, first + 1, last + 1, answers) if last >= at else None
    return None


def changes_of(text):
    """The changes that the text of an edit has."""
    path, old, changes = "", "", []
    for line in text.splitlines():
        word, _, rest = line.partition(":")
        rest = rest.removeprefix(" ")
        if word == "file":
            path = rest.strip()
        elif word == "old":
            old = rest
        elif word == "new":
            changes.append((path, old, rest))
    return changes


def named_in(text, word):
    """The functions, or the laws, that have to refuse an edit, by their paths and names."""
    return re.findall(rf"^{word}: (\S+) (\w+)$", text, re.M)


def made(changes, texts, text_of):
    """The texts with the changes made too, by path; texts has those that were changed before."""
    texts = dict(texts)
    for path, old, new in changes:
        text = texts.get(path) or text_of(path)
        if text.count(old) != 1:
            raise Unreadable(f"an old text is in {path} {text.count(old)} times, and not once")
        texts[path] = text.replace(old, new)
    return texts


class Left:
    """What `rt ci` passed and left in crates/*/out, for an rt that keeps no record of it (as its class Kept does). A run that goes
    on notes nothing as yet, but leaves the library of each crate that it has told as proved."""

    def __init__(self, top, is_beside_ci=False):
        self.top, self.is_beside_ci, noted = pathlib.Path(top), is_beside_ci, pathlib.Path(top, PASSED)
        self.keys = set(noted.read_text(encoding="utf-8").splitlines()) if noted.is_file() else set()

    def key(self, crate):
        return f"{crate.name} {crate.stamp()}"

    def give(self, crate, _tests, key):
        """Puts the library of a crate that was passed into this copy of it. One with a stamp was left by another command."""
        left = self.top / "crates" / crate.name / "out/rlib"
        is_passed = self.is_beside_ci or key in self.keys
        if not is_passed or (left / "stamp").exists() or not (left / f"{crate.name}.rlib").is_dir():
            return False
        shutil.copytree(left, f"{crate.folder}/out/rlib", dirs_exist_ok=True)
        return True

    def is_built(self, crate):
        pass


class Crate:
    """A crate with its wrong bodies."""

    def __init__(self, rt, crate, passed):
        self.rt, self.crate, self.name, self.passed = rt, crate, crate.name, passed
        self.folder = pathlib.Path(crate.folder)
        self.edits, self.told, self.is_taken = [], [], False
        for path in sorted((self.folder / FOLDER).glob("*.edit")):
            try:
                self.edits.append(self.read(path))
            except (OSError, Unreadable) as error:
                self.told.append((path.stem, f"CANNOT BE MADE: {error}"))

    def text_of(self, path):
        return (self.folder / path).read_text(encoding="utf-8")

    def home_of(self, name, path):
        """The source that declares a type, this one before others: a part of its functions may stand in another."""
        declared = re.compile(rf"^\s*(?:pub(?:\([^)]*\))?\s+)?(?:struct|enum) {name}\b", re.M)
        sources = sorted(str(it.relative_to(self.folder)) for it in self.folder.glob("src/**/*.rt"))
        return next((it for it in [path, *sources] if declared.search(self.text_of(it))), path)

    def read(self, path):
        edit = path.read_text(encoding="utf-8")
        changes, functions, texts = changes_of(edit), set(), {}
        for change in changes:
            text = texts.get(change[0]) or self.text_of(change[0])
            functions.add(function_at(change[0], text, text.find(change[1]), self.home_of))
            texts = made([change], texts, self.text_of)
        if not changes:
            raise Unreadable("it has no change")
        named, laws = ({self.function_named(*it) for it in named_in(edit, word)} for word in ("in", "law"))
        touched = set() if None in functions else functions
        return Edit(path.stem, changes, named | laws or touched, bool(named or laws), bool(laws))

    def function_named(self, path, name):
        text = self.text_of(path)
        found = re.search(rf"\bfn {name}\b", text)
        if function := found and function_at(path, text, found.start(), self.home_of):
            return function
        raise Unreadable(f"{path} has no function {name}")

    def take(self):
        """Takes the library that rt ci proved of the crate on this machine, if it did; and only once."""
        pathlib.Path(self.folder, "out").mkdir(exist_ok=True)
        if not self.is_taken and self.passed.give(self.crate, False, self.passed.key(self.crate)):
            self.passed.is_built(self.crate)
            self.is_taken = True
        return self.is_taken

    def prove(self, jobs):
        """Takes that library, or else proves the crate, from nothing as rt ci does."""
        if self.take():
            return True
        with tempfile.TemporaryFile("w+", errors="replace") as self.crate.out:
            if is_proved := self.crate.ci(["--jobs", str(jobs)], False) == 0:
                self.passed.is_built(self.crate)
            else:
                self.crate.out.seek(0)
                print(f"{self.name} is not proved as it stands:\n{self.crate.out.read()}", end="", flush=True)
        return is_proved

    def shares(self):
        """The edits in parts that can be tried side by side: those for rounds, and some at a time of those that are tried alone."""
        together, alone = ([it for it in self.edits if it.is_apart == apart] for apart in (False, True))
        parts = [together, *(alone[at : at + SHARE] for at in range(0, len(alone), SHARE))]
        return [Share(self, it) for it in parts if it]


class Share:
    """Edits of a crate that are tried one after another, and what is told of them."""

    room, deadline = ROOM, float("inf")

    def __init__(self, crate, edits):
        self.crate, self.edits, self.told = crate, edits, []

    def round_of(self, edits, refused):
        """The first edits that can be made at once, since they touch different functions, and the texts that they make. In every
        other function what was refused last stays made: a check takes that from an earlier one, and proves no function again."""
        chosen, taken, texts = [], set(), {}
        for edit in (it for it in [*edits, *reversed(refused)] if it.functions):
            if not edit.functions & taken:
                try:
                    texts = made(edit.changes, texts, self.crate.text_of)
                except Unreadable:
                    continue
                taken |= edit.functions
                chosen += [edit] * (edit not in refused)
        return (chosen, texts) if chosen else (edits[:1], made(edits[0].changes, {}, self.crate.text_of))

    def check(self, edits, texts, kept):
        """Checks the functions that the edits touch, with the texts that they make, over what earlier checks of them kept. It waits
        until memory is free, and is made once more where it was killed, most likely for want of that."""
        if time.monotonic() > self.deadline:
            raise TimeIsUp
        crate = self.crate
        only = [f"--only={it.name}" for edit in edits for it in sorted(edit.functions)]
        for _ in range(2):
            while crate.rt.free() < self.room:
                time.sleep(5)
            ran = crate.rt.checked(crate.crate, texts, ["--jobs", "1", *only], kept)
            if ran.returncode >= 0:
                break
        said = ran.stdout
        goals, answers, errors = (
            [Place(path, int(line), goal) for path, line, goal in it.findall(said)] for it in (OPEN, ANSWER, ERROR)
        )
        last = said.rstrip("\n").rpartition("\n")[2]
        return Told(goals + answers, errors, ENDED.match(last) is not None, BROKE_OFF.search(said) is not None, last)

    def tried_together(self, kept):
        """Tries the edits in rounds, and returns those that were not refused."""
        left, doubtful = ([it for it in self.edits if it.is_apart == apart] for apart in (False, True))
        refused = []
        while left:
            chosen, texts = self.round_of(left, refused)
            if len(chosen) < 2 and not refused:
                return doubtful + left
            told = self.check(chosen, texts, kept)
            # With an error nothing was judged: what does not compile is told alone, and the others are tried once more.
            tried = [it for it in chosen if it.found_in(told.errors)] or chosen
            is_judged = told.has_ended and not told.errors
            refused += [it for it in tried if is_judged and self.is_refused(it, told.goals)]
            doubtful += [it for it in tried if it not in refused]
            left = [it for it in left if it not in tried]
        return doubtful

    def tried_alone(self, edit, kept):
        told = self.check([edit], made(edit.changes, {}, self.crate.text_of), kept)
        if told.errors:
            self.told.append((edit.name, f"DOES NOT COMPILE: {told.errors[0].path}:{told.errors[0].line}"))
        elif not told.has_ended:
            self.told.append((edit.name, f"NOT JUDGED: {told.last}"))
        elif not self.is_refused(edit, told.goals):
            self.told.append((edit.name, f"{'NOT JUDGED' if told.broke_off else 'LET THROUGH'}: {told.last}"))

    def is_refused(self, edit, goals):
        """Whether a goal is open where the edit is, which is told then."""
        if place := edit.found_in(goals):
            self.told.append((edit.name, f"refused, {place.path}:{place.line} {place.goal}".rstrip()))
        return place is not None

    def try_edits(self):
        """Tries the edits while there is time. Where that fails (a full disk, say) none is told as refused, and others go on."""
        try:
            with tempfile.TemporaryDirectory(prefix="wrong-bodies-") as kept:
                for edit in self.tried_together(kept):
                    self.tried_alone(edit, kept)
        except TimeIsUp:
            pass
        except Exception as error:
            self.told = [(it.name, f"NOT TRIED: {type(error).__name__}: {error}") for it in self.edits]
        self.crate.told += self.told
        tell(self.crate.name, self.told)


def tell(name, told):
    print("".join(f"{name}/{edit}: {what}\n" for edit, what in sorted(told)), end="", flush=True)


def proofs_of(crates, names):
    """The proofs of the crates of these names and of those below, as rt's in_lanes takes tasks: each waits for those below it."""
    tasks = {}
    wanted = {it.name for crate in crates if crate.name in names for it in [*crate.crate.below(), crate]}
    for it in (it for it in crates if it.name in wanted):
        below = [(below.name, "proof") for below in it.crate.below()]
        run = lambda given, jobs, it=it, below=below: all(given[key] for key in below) and it.prove(jobs)
        tasks[it.name, "proof"] = below, it.crate.count(rb"\n"), it.rt.need(it.crate), run
    return tasks


class Lanes:
    """Tries shares side by side, one a processor: those that came last first. It ends once nothing is to come and none is left."""

    def __init__(self, rt):
        self.left, self.is_all = queue.LifoQueue(), threading.Event()
        self.lanes = [threading.Thread(target=self.work) for _ in range(rt.processors())]

    def __enter__(self):
        for lane in self.lanes:
            lane.start()
        return self

    def __exit__(self, *_):
        self.is_all.set()
        for lane in self.lanes:
            lane.join()

    def add(self, crate):
        for share in reversed(crate.shares()):
            self.left.put(share)

    def work(self):
        # It is the thread's own, and that of the checks that it begins: rt ci and its proofs come first.
        os.nice(19)
        while not (self.is_all.is_set() and self.left.empty()):
            try:
                self.left.get(timeout=1).try_edits()
            except queue.Empty:
                pass


def shares_after_proofs(rt, crates, names):
    """Proves the crates of these names, and tries their edits. Returns whether all are proved."""
    given = rt.in_lanes(proofs_of(crates, names))
    with Lanes(rt) as lanes:
        for crate in (it for it in crates if it.name in names and given[it.name, "proof"]):
            lanes.add(crate)
    return all(given[name, "proof"] for name in names)


def shares_beside_ci(rt, crates, top):
    """Runs `rt ci` at the top, and tries the edits of each crate that it tells as proved; then of those whose libraries it did not
    keep, for want of room on the disk, say. Returns whether it passed."""
    by_name = {it.name: it for it in crates}
    how = {"stdin": subprocess.DEVNULL, "stdout": subprocess.PIPE, "stderr": subprocess.STDOUT, "text": True, "errors": "replace"}
    with Lanes(rt) as lanes, subprocess.Popen(["rt", "ci"], cwd=top, **how) as ci:
        for line in ci.stdout:
            print(line, end="", flush=True)
            found = PROVED.fullmatch(line)
            if found and by_name[found[1]].take():
                lanes.add(by_name[found[1]])
        if ci.wait():
            # Then no edit matters any more.
            Share.deadline = BEGUN
    left = [it.name for it in crates if it.edits and not it.is_taken]
    return ci.returncode == 0 and shares_after_proofs(rt, crates, left)


def tried(rt, names, top, is_beside_ci):
    """Tries the edits of the crates of these names, or of all. Returns whether all is proved, and whether each edit was refused.
    What was passed was passed at the top."""
    # As under rt ci: the crates above a library load its statements.
    rt.Crate.cuts_libraries = True
    rt.Crate.allowed = rt.handles_of(os.getcwd())
    if hasattr(rt, "Kept"):
        every = rt.crates_of(os.getcwd())
        passed = rt.Kept(every)
    else:
        # It puts what stands in the crates' out aside: nothing here.
        every = rt.crates_of(os.getcwd(), os.getcwd())
        passed = Left(top, is_beside_ci)
    rt.rtlib.guarded()
    Share.room = min(ROOM, rt.free() // 3)
    Share.deadline = BEGUN + 60 * float(os.environ.get(MINUTES) or "inf")
    crates = [Crate(rt, it, passed) for it in every]
    have = [it.name for it in crates if it.edits or it.told]
    if unknown := set(names) - set(have):
        sys.exit(f"no wrong bodies: {' '.join(sorted(unknown))}")
    for it in crates:
        tell(it.name, it.told if it.name in (names or have) else [])
    is_proved = shares_beside_ci(rt, crates, top) if is_beside_ci else shares_after_proofs(rt, crates, names or have)
    return is_proved, told_in_all([it for it in crates if it.name in (names or have)])


def told_in_all(crates):
    """Tells how many edits were refused, which were not, and which were not tried. Returns whether all were refused but for those
    that were not tried since the time was up."""
    told = {f"{it.name}/{name}": what for it in crates for name, what in it.told}
    late = sorted({f"{it.name}/{edit.name}" for it in crates for edit in it.edits} - set(told))
    not_refused = sorted(name for name, what in told.items() if not what.startswith("refused"))
    for what, names in ("not tried", late), ("not refused", not_refused):
        if names:
            print(f"{what}: {' '.join(names)}")
    end = f", {len(late)} not tried" if late else ""
    print(f"{len(told) - len(not_refused)} refused, {len(not_refused)} let through{end}")
    return not not_refused and (not late or time.monotonic() > Share.deadline)


def note_passed(rt, top):
    """Notes the crates as they are, all of which `rt ci` has passed."""
    crates = rt.rtlib.crates_below(top)
    pathlib.Path(top, PASSED).parent.mkdir(exist_ok=True)
    pathlib.Path(top, PASSED).write_text("".join(f"{Left(top).key(it)}\n" for it in crates), encoding="utf-8")


def promises_of(text):
    """The names of promises: headings, and what stands in bold at the front of a row of a table."""
    found = re.findall(r"^#+ (.+)$", text, re.M) + re.findall(r"^\| \*\*(.+?)\*\*", text, re.M)
    return {it.replace("`", "") for it in found}


def see_promises(top):
    """Ends the run where an edit names a promise that is not there."""
    promises = promises_of(pathlib.Path(top, "docs/promises.md").read_text(encoding="utf-8"))
    for path in sorted(pathlib.Path(top).glob(f"crates/*/{FOLDER}/*.edit")):
        for why in re.findall(r"^why: ([^;:\n]*)", path.read_text(encoding="utf-8"), re.M):
            if why not in promises and not promises.issuperset(why.split(", ")):
                sys.exit(f"{path.relative_to(top)}: no promise: {why}")


def copy_crates(top, room):
    """Copies what crates are made from."""
    shutil.copytree(f"{top}/crates", f"{room}/crates", ignore=shutil.ignore_patterns("out"))
    for name in ("crates.txt", "HANDLES"):
        if os.path.exists(f"{top}/{name}"):
            shutil.copy(f"{top}/{name}", room)
    # rt looks for the top of a repository.
    os.mkdir(f"{room}/.git")


def main(words):
    rt, top = toolchain(), os.getcwd()
    is_beside_ci = words == ["--beside-ci"]
    see_promises(top)
    with tempfile.TemporaryDirectory(prefix="wrong-bodies-") as room:
        copy_crates(top, room)
        os.chdir(room)
        try:
            is_proved, are_refused = tried(rt, [] if is_beside_ci else words, top, is_beside_ci)
        finally:
            os.chdir(top)
    if is_beside_ci and is_proved and not hasattr(rt, "Kept"):
        note_passed(rt, top)
    return 0 if is_proved and are_refused else 1


if __name__ == "__main__":
    sys.exit(main(sys.argv[1:]))
