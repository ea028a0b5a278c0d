#!/usr/bin/env python3
"""Shows where the check of a crate spent its time, by the times of the files that it left in out/. The check has to start from scratch: remove out/
before it, and give it one job.

The end of a file name says what the file has of a function: `.Lts` its lifetimes and drops, which cost more if more values are alive where it may
return; `.Proof` the proofs that the search found, and the ones that it failed to find; `.Kinds` the types of a call of a generic function. A file
named after a crate has its libraries.

usage: tools/costs.py [-n LINES] CRATE..
"""
import argparse
import pathlib

ROOT = pathlib.Path(__file__).resolve().parent.parent


def costs_of(crate):
    """Returns the seconds that each file of the crate's last check took, and its name, the slowest first."""
    found = []
    for path in (ROOT / "crates" / crate / "out" / "incremental").rglob("*.oantt"):
        found.append((path.stat().st_mtime, path.name.removeprefix("Rattle-").removesuffix(".oantt").removesuffix(".decls")))
    found.sort()
    return sorted(((there - before, name) for (before, _), (there, name) in zip(found, found[1:])), reverse=True)


def main():
    parser = argparse.ArgumentParser(description=__doc__.partition("\n")[0])
    parser.add_argument("-n", type=int, default=12, metavar="LINES", help="how many files to show of each crate")
    parser.add_argument("crates", nargs="+", metavar="CRATE")
    given = parser.parse_args()
    for crate in given.crates:
        costs = costs_of(crate)
        print(f"{crate}: {sum(seconds for seconds, _ in costs):.0f} s")
        for seconds, name in costs[: given.n]:
            print(f"  {seconds:6.1f}  {name}")


if __name__ == "__main__":
    main()
