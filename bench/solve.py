#!/usr/bin/env python3
"""Compares what `unify merge` finds with scipy's `min_weight_full_bipartite_matching` on the same weights, and both times.

    bench/solve.py [NAMES ROWS NUMBERS [SEED]]

A site of as few hosts as will do has NAMES users in ROWS account rows with NUMBERS numbers in all, so that each number is
wanted by ROWS / NUMBERS names; no two names of a host share a number, and each row owns up to three files. Both find a
mapping of most weight, and the weights have to be equal. What `count` takes, which only reads and counts, is what `merge`
takes for all but the join, solving and writing; that is told beside it. For scipy each name has one number more, of its own,
that weighs nothing; above half a million names it is left out. It wants a Python that has scipy, and `make program` before
it. The site is made below bench/work, which git does not see.
"""
import collections
import os
import random
import shutil
import sys
import time

from measure import HERE, UNIFY, timed

FIRST = 1000

# above it scipy would take hours
MOST_FOR_SCIPY = 500_000


def make_rows(names, rows, numbers, seed):
    """The rows (host, name, number, files) of a site, host by host. A name has at most one row on a host; so has a number."""
    rng = random.Random(seed)
    hosts = -(-rows // min(numbers, names))
    made = []
    for host in range(hosts):
        share = rows // hosts + (host < rows % hosts)
        here = rng.sample(range(names), share)
        made += [(host, name, FIRST + number, rng.randrange(4)) for name, number in zip(here, rng.sample(range(numbers), share))]
    # a name without a row would be none of the site
    return hosts, made


def write_hosts(folder, hosts, names, rows):
    """The files of the hosts; the words that name them."""
    shutil.rmtree(folder, ignore_errors=True)
    by_host = collections.defaultdict(list)
    for host, name, number, files in rows:
        by_host[host].append((name, number, files))
    words = []
    for host in range(hosts):
        directory = f"{folder}/h{host}"
        os.makedirs(directory)
        with open(f"{directory}/passwd", "w") as passwd, open(f"{directory}/mtree", "w") as mtree:
            for name, number, files in by_host[host]:
                passwd.write(f"user{name}:x:{number}:100::/:/bin/sh\n")
                for file in range(files):
                    mtree.write(f"./u{name}/{file} uid={number} gid=100\n")
        with open(f"{directory}/group", "w") as group:
            group.write("users:x:100:\n")
        with open(f"{directory}/login.defs", "w") as ranges:
            ranges.write(f"UID_MAX {FIRST + names + len(rows)}\n")
        words.append(f"h{host}={directory}")
    return words


def weights_of(rows):
    """The weight of each name with each number that it has: files first, then rows."""
    weights = collections.Counter()
    for _, name, number, files in rows:
        weights[name, number] += (len(rows) + 1) * files + 1
    return weights


def scipy_answer(weights):
    """The processor seconds that scipy takes, and the greatest weight."""
    import numpy
    from scipy.sparse import csr_matrix
    from scipy.sparse.csgraph import min_weight_full_bipartite_matching

    names, name_index = numpy.unique([name for name, _ in weights], return_inverse=True)
    numbers, number_index = numpy.unique([number for _, number in weights], return_inverse=True)
    own = numpy.arange(len(names))
    # an entry of weight 0 would be none for scipy, so each weighs one more
    values = numpy.concatenate([numpy.fromiter(weights.values(), dtype=numpy.int64), numpy.zeros(len(names), dtype=numpy.int64)]) + 1
    places = (numpy.concatenate([name_index, own]), numpy.concatenate([number_index, len(numbers) + own]))
    matrix = csr_matrix((values, places), shape=(len(names), len(numbers) + len(names)))
    begun = time.process_time()
    chosen = min_weight_full_bipartite_matching(matrix, maximize=True)
    seconds = time.process_time() - begun
    return seconds, int(matrix[chosen[0], chosen[1]].sum()) - len(names)


def weight_of_map(path, weights):
    """The weight of a map."""
    total = 0
    with open(path) as text:
        for line in text:
            kind, name, number = line.split()
            if kind == "user":
                total += weights[int(name.removeprefix("user")), int(number)]
    return total


def measure(names, rows, numbers, seed):
    folder = os.path.join(HERE, "work", f"solve-{names}-{rows}-{numbers}-{seed}")
    hosts, made = make_rows(names, rows, numbers, seed)
    words = write_hosts(folder, hosts, names, made)
    weights = weights_of(made)
    out = f"{folder}/out"
    os.mkdir(out)
    merged, peak, _ = timed([UNIFY, "merge", "--quiet", out, *words])
    counted, _, _ = timed([UNIFY, "count", "--quiet", f"{out}/map", *words])
    weight = weight_of_map(f"{out}/map", weights)
    print(f"{hosts} hosts, {len({name for _, name, _, _ in made}):,} names, {len(weights):,} candidates, {numbers:,} numbers", flush=True)
    print(f"unify merge: {merged:.2f} s, peak {peak:,.0f} MiB; without join, solving and writing: {counted:.2f} s", flush=True)
    if names > MOST_FOR_SCIPY:
        return
    seconds, best = scipy_answer(weights)
    print(f"scipy:       {seconds:.2f} s of a processor; weights {'are the same' if best == weight else f'DIFFER: {weight} and {best}'}")
    if best != weight:
        sys.exit(1)


def main():
    sizes = [int(word) for word in sys.argv[1:]]
    if sizes:
        measure(*(sizes + [10000, 16000, 800, 1][len(sizes):])[:4])
        return
    for names, rows, numbers in [(10000, 16000, 800), (100000, 160000, 8000)]:
        measure(names, rows, numbers, 1)


if __name__ == "__main__":
    main()
