#!/usr/bin/env python3
"""Merges one host with directories in directories, whose paths are far longer than the text that names them.

    bench/deep.py [PROGRAM [DEPTH [FILES]]]

PROGRAM is the one that `make program` built unless it is given. DEPTH directories stand one in the other, 30,000 unless it is
given, and FILES files in the last of them, 20,000 unless it is given: anybody may make such a tree. Each name is short, so the
inventory has a few bytes for each file, while a path has two for each directory above it. Printed are the bytes of the inventory
and of all its paths, and of the merge the processor seconds and the peak memory. The site is made below bench/work, which git
does not see, and removed after.
"""
import itertools
import os
import shutil
import string
import sys

from measure import HERE, UNIFY, spent

NAMES = string.digits + string.ascii_letters


def main():
    program = sys.argv[1] if len(sys.argv) > 1 else UNIFY
    depth = int(sys.argv[2]) if len(sys.argv) > 2 else 30_000
    files = int(sys.argv[3]) if len(sys.argv) > 3 else 20_000
    folder = os.path.join(HERE, "work", "deep")
    host, out = os.path.join(folder, "host"), os.path.join(folder, "out")
    shutil.rmtree(folder, ignore_errors=True)
    os.makedirs(host)
    os.makedirs(out)
    names = ["".join(name) for name in itertools.islice(itertools.product(NAMES, repeat=3), files)]
    texts = {
        "passwd": "m:x:1001:100::/:/bin/sh\n",
        "group": "users:x:100:\n",
        "mtree": "/set uid=1001 gid=100 type=dir\n" + "d\n" * depth + "/set type=file\n" + "".join(f"{it}\n" for it in names),
    }
    for file, text in texts.items():
        with open(os.path.join(host, file), "w") as written:
            written.write(text)
    seconds, peak = spent([program, "merge", out, f"host={host}"])
    shutil.rmtree(folder)
    paths = depth * depth + files * (2 * depth + 3)
    print(f"{depth:,} directories, {files:,} files: an inventory of {len(texts['mtree']):,} bytes, paths of {paths:,}")
    print(f"merge: {seconds:.2f} s, peak {peak:.0f} MiB")


if __name__ == "__main__":
    main()
