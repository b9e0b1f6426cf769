#!/usr/bin/env python3
"""Runs unify as `rt try` compiles it: from the sources, with run-time checks and without a proof. No program is kept.

    gate/unproved.py demo           the two hosts of examples/office: merge, count, check and both rehearsals
    gate/unproved.py bundles        each bundle of examples/worked whose whole answer is committed
    gate/unproved.py words WORD..   unify with these words

The first two compare what comes out with what is committed, and end with status 1 where it differs.
"""
import filecmp
import itertools
import pathlib
import shutil
import subprocess
import sys
import tempfile

TOP = pathlib.Path(__file__).resolve().parent.parent
PROGRAM = TOP / "crates/unify_cli"
OFFICE, WORKED = TOP / "examples/office", TOP / "examples/worked"
DEMO = TOP / "build/office"
# What the calls of the demo tell, one after the other.
TOLD = "expected-merge", "expected-merge", "expected-check", "expected-rehearse"
# rt try interprets a program first, but none that reads its words: one step of that is enough.
TRY = ["rt", "try", "--steps", "1"]
# How many words name files before those that name hosts; -o stands for the first.
FILES_FIRST = {"merge": 1, "check": 1, "count": 1, "rehearse": 2, "apply": 2, "verify": 2, "inventory": sys.maxsize}
# How many words behind an option name files.
FILES_BEHIND = {"--pins": 1, "--keep": 1, "--output": 1, "-o": 1, "--mark": 1, "--was": 2, "--now": 2}


def run_cases(cases):
    """Compiles the program once and runs each case: its name, its words, its input, and what it must print or None."""
    with tempfile.TemporaryDirectory(prefix="unify-cases-") as folder:
        for name, words, given, wanted in cases:
            case = pathlib.Path(folder, name)
            case.write_bytes(given)
            if words:
                case.with_name(f"{name}.args").write_text("".join(f"{word}\n" for word in words))
            if wanted is not None:
                case.with_name(f"{name}.stdout").write_bytes(wanted)
        words = [*TRY, "--cases", folder]
        return subprocess.run(words, cwd=PROGRAM, stdin=subprocess.DEVNULL, capture_output=True, text=True, errors="replace")


def differing(wanted, came):
    """The names of the files that two folders do not have alike."""
    names = {path.name for folder in (wanted, came) for path in folder.iterdir()}
    alike, _, _ = filecmp.cmpfiles(wanted, came, names, shallow=False)
    return sorted(names - set(alike))


def demo_cases():
    hosts = [f"{name}={OFFICE / name}" for name in ("amber", "basalt")]
    calls = [
        ["merge", DEMO, *hosts],
        ["count", DEMO / "map", *hosts],
        ["check", DEMO / "certificate", *hosts],
        ["rehearse", DEMO / "plan.amber", OFFICE / "amber/mtree"],
        ["rehearse", DEMO / "plan.basalt", OFFICE / "basalt/mtree"],
    ]
    return [(f"{number}-{words[0]}", words, b"", None) for number, words in enumerate(calls, 1)]


def demo():
    """Merges the office, counts its map, checks its certificate and rehearses its plans; shows all of it."""
    print("compiling unify with run-time checks and no proof: two to three minutes", file=sys.stderr, flush=True)
    shutil.rmtree(DEMO, ignore_errors=True)
    DEMO.mkdir(parents=True)
    ran = run_cases(demo_cases())
    if ran.returncode:
        sys.exit(ran.stderr)
    for path in sorted(DEMO.iterdir()):
        print(f"{path.relative_to(TOP)}:\n{path.read_text()}")
    print(ran.stdout)
    told = "".join(line for line in ran.stdout.splitlines(True) if not line.startswith("== "))
    if told != "".join((OFFICE / name).read_text() for name in TOLD):
        sys.exit("not as committed in examples/office: what was told")
    if names := differing(OFFICE / "merged", DEMO):
        sys.exit(f"not as committed in examples/office/merged: {' '.join(names)}")
    print("All of it is as committed in examples/office. This run was compiled with run-time checks, and not proved;")
    print("`make program` proves the program that it links, and `make demo-proved` runs this with it.")


def bundles():
    """Has each bundle answered whose whole answer is committed."""
    cases = [
        (f"{path.parent.name}-{path.stem}", [], path.read_bytes(), path.with_suffix(".answer").read_bytes())
        for path in sorted(WORKED.glob("*/*.bundle"))
        if path.with_suffix(".answer").exists()
    ]
    ran = run_cases(cases)
    if ran.returncode:
        sys.exit(ran.stdout + ran.stderr)
    print(f"worked examples: {len(cases)} as committed, by a program that is not proved")


def host_whole(word, here):
    """A word that names a host, with a whole path. The name is the last part of the path, if none stands before it."""
    name, equals, path = word.partition("=")
    return f"{name}={here / path}" if equals else f"{pathlib.PurePath(word).name or word}={here / word}"


def file_whole(word, here):
    """A word that names a file, with a whole path; an empty one is kept."""
    return f"{here / word}" if word else word


def named_whole(words):
    """The words with whole paths, since rt try runs the program in a folder of its own."""
    here = pathlib.Path.cwd()
    command, *rest = words
    has_output = any(word.startswith(("-o", "--output")) for word in rest)
    files_left, whole, rest = 0 if has_output else FILES_FIRST.get(command, 0), [command], iter(rest)
    for word in rest:
        flag, equals, path = word.partition("=")
        if word in FILES_BEHIND:
            whole += [word, *(file_whole(file, here) for file in itertools.islice(rest, FILES_BEHIND[word]))]
        elif word == "--host":
            whole += [word, *itertools.islice(rest, 1)]
        elif word.startswith("-o"):
            whole += ["-o", file_whole(word[2:].removeprefix("="), here)]
        elif word.startswith("-"):
            whole.append(f"{flag}={file_whole(path, here)}" if equals and flag != "--host" else word)
        elif files_left:
            files_left -= 1
            whole.append(file_whole(word, here))
        else:
            whole.append(host_whole(word, here))
    return whole


def main(words):
    if words == ["demo"]:
        demo()
    elif words == ["bundles"]:
        bundles()
    elif words[:1] == ["words"]:
        given = named_whole(words[1:]) if words[1:] else []
        return subprocess.run([*TRY, "--", *given], cwd=PROGRAM).returncode
    else:
        print(__doc__)
        return 2
    return 0


if __name__ == "__main__":
    sys.exit(main(sys.argv[1:]))
