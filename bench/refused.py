#!/usr/bin/env python3
"""Refuses one growth of memory after another, and sees that each is told as such.

    bench/refused.py tests [FIRST [LAST [CRATE..]]]   the tests of each crate, with the first growth of each test refused, then
                                                      the second, and so on; a test has to pass, or to end with the error
                                                      that says that memory was refused. CRATE::tests::NAME is that module's
                                                      tests alone
    bench/refused.py program BUNDLE..                 the program, on each bundle: `unify: memory` on standard output and the
                                                      status 3, or the answer that it gives with all growths, until there
                                                      is no growth left to be refused
    bench/refused.py words WORD..                     the program, on these words: the same, on standard error, where warnings may be
                                                      lacking

It prints the first that fails, and ends with status 1 then.
"""
import os
import re
import subprocess
import sys

ROOT = os.path.dirname(os.path.dirname(os.path.abspath(__file__)))
PROGRAM = f"{ROOT}/crates/unify_cli/out/unify_cli"
SHIM = f"{ROOT}/build/refused.so"
TOLD = ("error: AllocError", "error: AllocFailed { .. }", "error: Memory")


def crates_with_tests():
    for line in open(f"{ROOT}/crates.txt"):
        name = line.partition(":")[0].strip()
        if line.strip() and not name.startswith("#") and os.path.exists(f"{ROOT}/crates/{name}/src/tests.rt"):
            yield name


def failed_tests(tests, number):
    """How many tests of a crate, or of a module of it, were told that memory was refused, and what the others that do not pass
    printed."""
    crate, _, module = tests.partition("::")
    words = ["rt", "try", "--test", "--seconds", "600", "--fail-alloc", str(number)]
    ran = subprocess.run(words, cwd=f"{ROOT}/crates/{crate}", capture_output=True, text=True)
    printed = ran.stdout + ran.stderr
    parts = re.split(r"(?m)^test (?=.* \.\.\. |result)", printed)[1:]
    parts = [part for part in parts if part.startswith(f"{module}::" if module else "")]
    if "test result:" not in printed or not parts:
        return 0, [printed]
    told, failed = 0, []
    for part in parts:
        lines = part.splitlines()
        if lines[0].endswith("FAILED") and len(lines) > 1 and lines[1].strip() in TOLD:
            told += 1
        elif lines[0].endswith("FAILED"):
            failed.append(part)
    return told, failed


def try_tests(first, last, crates):
    for crate in crates or crates_with_tests():
        for number in range(first, last + 1):
            told, failed = failed_tests(crate, number)
            if failed:
                print(f"{crate}: with the growth {number} of each test refused:\n{failed[0]}")
                return 1
            print(f"{crate}: growth {number}: {told} tests were refused and told so", flush=True)
            if told == 0:
                break
    return 0


def answer(words, bundle, refused):
    """The status, standard output and standard error where a growth is refused, and whether there was such a growth."""
    told, telling = os.pipe()
    env = {**os.environ, "LD_PRELOAD": SHIM, "REFUSED": str(refused), "REFUSED_FD": str(telling)}
    with open(bundle, "rb") as it:
        ran = subprocess.run([PROGRAM, *words], stdin=it, capture_output=True, env=env, pass_fds=[telling])
    os.close(telling)
    with os.fdopen(told, "rb") as it:
        return (ran.returncode, ran.stdout, ran.stderr), it.read() != b""


def without_warnings(given):
    """A status, standard output, and what stands on standard error but for warnings."""
    status, out, err = given
    return status, out, b"".join(line for line in err.splitlines(True) if not line.startswith(b"unify: warning: "))


def try_growths(name, words, bundle, memory):
    """Whether each growth of a run can be refused so that it is told as memory, or makes no difference."""
    granted, _ = answer(words, bundle, 0)
    number = told = 0
    while True:
        number += 1
        given, was_refused = answer(words, bundle, number)
        is_told = without_warnings(given) == memory
        is_alike = without_warnings(given) == without_warnings(granted)
        if not is_told and not is_alike or not was_refused and given != granted:
            print(f"{name}: with the growth {number} refused, status {given[0]}:\n{given[1].decode()}{given[2].decode()}")
            return False
        if not was_refused:
            print(f"{name}: {number - 1} growths refused, {told} of them told; with all granted status {granted[0]}", flush=True)
            return True
        told += is_told


def make_shim():
    os.makedirs(f"{ROOT}/build", exist_ok=True)
    words = ["cc", "-O2", "-shared", "-fPIC", "-o", SHIM, f"{ROOT}/bench/refused.c"]
    subprocess.run(words, check=True)


def try_program(bundles):
    make_shim()
    memory = 3, b"unify: memory\n", b""
    return 0 if all(try_growths(bundle, [], bundle, memory) for bundle in bundles) else 1


def try_words(words):
    make_shim()
    memory = 3, b"", b"unify: memory\n"
    return 0 if try_growths(" ".join(words), words, os.devnull, memory) else 1


def main(words):
    if words[:1] == ["tests"]:
        first, last = (int(word) for word in (words[1:3] + ["1", "8"][len(words[1:3]) :]))
        return try_tests(first, last, words[3:])
    if words[:1] == ["program"] and words[1:]:
        return try_program(words[1:])
    if words[:1] == ["words"] and words[1:]:
        return try_words(words[1:])
    print(__doc__)
    return 2


sys.exit(main(sys.argv[1:]))
