#!/usr/bin/env python3
"""Marks libraries as built, for kernels.sh.

    bench/mark_built.py COPY FOLDER ..

COPY is a copy of this repository, and each FOLDER that of a crate in it whose library `.ci/run` has built. The gate leaves its
libraries without the mark by which the toolchain knows what is built from the sources that are there; a program over them, which
times them and proves nothing, may begin with them.
"""
import os
import shutil
import sys

sys.path.insert(0, os.path.join(os.path.dirname(os.path.realpath(shutil.which("rt"))), ""))
import rtlib


def main():
    copy, *folders = sys.argv[1:]
    known = {}
    for folder in folders:
        crate = known.get(folder) or rtlib.Crate(folder, copy, known)
        with open(f"{folder}/out/rlib/stamp", "w", encoding="utf-8") as mark:
            mark.write(crate.stamp())


main()
