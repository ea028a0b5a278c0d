#!/usr/bin/env python3
"""Runs the kit's rt, but caches the crates below each crate.

Some kits look these up once for each path through crates.txt. From the program down there are two million paths, so `rt ci`
takes hours before its first proof; here it looks them up once for each crate. Nothing else of rt changes. If the kit has a
different rt, that runs unchanged.

usage: tools/rt.py WORDS     as rt
"""
import os
import pathlib
import runpy
import shutil
import sys
import threading

RT = pathlib.Path(shutil.which("rt") or sys.exit("rt.py: there is no rt on the path")).resolve()


def cache_below(crate):
    """The crates below a crate don't change during a run."""
    plain, known = crate.below, {}

    def below(self):
        if self.folder not in known:
            known[self.folder] = plain(self)
        return [*known[self.folder]]

    crate.below = below


def cache_stamps(crate):
    """The checksum of a crate's parts may change during a run, but not while one is computed."""
    plain, walk = crate.stamp, threading.local()

    def stamp(self):
        if getattr(walk, "known", None) is None:
            walk.known = {}
            try:
                return stamp(self)
            finally:
                walk.known = None
        if self.folder not in walk.known:
            walk.known[self.folder] = plain(self)
        return walk.known[self.folder]

    crate.stamp = stamp


def main():
    sys.dont_write_bytecode = True
    sys.argv[0] = str(RT)
    try:
        kit = runpy.run_path(str(RT))
        crate = kit["rtlib"].Crate
        cache_below(crate)
        cache_stamps(crate)
    except (SyntaxError, KeyError, AttributeError):
        os.execv(RT, [str(RT), *sys.argv[1:]])
    sys.exit(kit["main"](sys.argv[1:]))


if __name__ == "__main__":
    main()
