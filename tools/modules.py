#!/usr/bin/env python3
"""Lists what took longest in the proof of a crate. Run it in the crate's folder, after a check from nothing by one process,
`rm -rf out/incremental && rt check --jobs 1`, on a quiet machine.

A check keeps a file for each module that it has proved, and the time between one file and the one before it is what the module
took. A function has several modules, which are named for it: in `..Proof` its goals are proved, and `..Lts` says what its code
does. Where a long function drops values at many `?`, or takes a `const` array by value, the second is the one that grows.
"""
import os
import sys


def kept():
    """Returns when each module's file was written, in seconds, and the module, in order."""
    found = []
    for at, _, names in os.walk("out/incremental"):
        for name in names:
            if name.endswith(".oantt"):
                found.append((os.stat(f"{at}/{name}").st_mtime, name.removesuffix(".oantt")))
    return sorted(found)


def main():
    most = int(sys.argv[1]) if len(sys.argv) > 1 else 20
    files = kept()
    spent = [(time - before, name) for (before, _), (time, name) in zip(files, files[1:])]
    for seconds, name in sorted(spent, reverse=True)[:most]:
        print(f"{seconds:8.1f} s  {name}")


if __name__ == "__main__":
    main()
