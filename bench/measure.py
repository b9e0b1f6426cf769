"""Runs programs and measures them."""
import collections
import os
import statistics
import subprocess
import sys
import time

HERE = os.path.dirname(os.path.abspath(__file__))
UNIFY = os.path.join(HERE, "..", "crates", "unify_cli", "out", "unify_cli")


def ran(words, wanted=0, **where):
    """Runs the words, which have to end with the status that is wanted; answers what they used, and what they printed."""
    child = subprocess.Popen(words, stdout=subprocess.PIPE, **where)
    printed = child.stdout.read()
    _, status, usage = os.wait4(child.pid, 0)
    ended = os.waitstatus_to_exitcode(status)
    if ended != wanted:
        sys.exit(f"{words[0]} ended with {ended}")
    return usage, printed.decode()


def timed(words, wanted=0, **where):
    """Runs the words; answers seconds, peak memory in MiB, and what they printed."""
    begun = time.monotonic()
    usage, printed = ran(words, wanted, **where)
    return time.monotonic() - begun, usage.ru_maxrss / 1024, printed


def spent(words, wanted=0, **where):
    """Runs the words; answers the seconds of a processor that they took, and their peak memory in MiB."""
    usage, _ = ran(words, wanted, **where)
    return usage.ru_utime + usage.ru_stime, usage.ru_maxrss / 1024


def least_processor_seconds(commands, rounds=5, wanted={}):
    """Runs the commands in turn, round by round; answers the least processor time of each, and what each printed. Those that have
    to end with another status than 0 are told in `wanted`."""
    least, printed = {}, {}
    for _ in range(rounds):
        for name, words in commands.items():
            usage, printed[name] = ran(words, wanted.get(name, 0))
            seconds = usage.ru_utime + usage.ru_stime
            least[name] = min(seconds, least.get(name, seconds))
    return least, printed


def median_ratios(commands, base, rounds=15):
    """Runs the commands in turn, round by round; answers for each the median of its processor time as a ratio to that of the base in
    the same round. The speed of a machine that others use too changes from one round to the next, and less within one."""
    ratios = collections.defaultdict(list)
    for _ in range(rounds):
        taken = {name: spent(words)[0] for name, words in commands.items()}
        for name, seconds in taken.items():
            ratios[name].append(seconds / taken[base])
    return {name: statistics.median(of) for name, of in ratios.items()}
