#!/usr/bin/env python3
"""Checks that the documents and the help of the program are in plain English, aren't too long, and have no dead links.

usage: tests/english.py     prints `FILE:LINE: words -> better ones`, and exits with 1 if there are any
"""
import pathlib
import re
import sys

ROOT = pathlib.Path(__file__).resolve().parent.parent
MOST_WORDS, MOST_LINES = 25_000, 60

BETTER = {
    r"wants? of memory|for want of|wants? memory": "out of memory, for lack of",
    r"hangs? on": "depends on",
    r"(?<!there )(?:is|are) no(?= (?!longer))": "isn't a, aren't",
    r"told": "reported, said",
    r"stands? behind": "comes after",
    r"what stands?": "the name of the thing",
    r"stands? (?:in|under|there|here|beside)": "is in, is under",
    r"behind": "after",
    r"so many": "n",
    r"(?:^|(?<=[.:] ))What (?:is|are|was|were|has|have|stands|a|an|the|it)\b(?!.*\?)": "the name of the thing as subject",
    r"fall away": "are left out",
    r"the like of|nothing of the kind": "nothing such",
    r"[TDRW][1-9]\d?(?![\w#])|row 14|document 0\d|/work/\S*|/home/\S*": "a name that the repository explains",
}
WORDS = [(re.compile(rf"(?<!\w)(?:{word})(?!\w)", re.I if word.islower() else 0), better) for word, better in BETTER.items()]
MADE_UP = re.compile(r"NAME|/(?:other_)?crate/")  # a placeholder
TITLE = re.compile(r"\| [A-Z]\d+ \|")  # a row of a code: its title comes from the program
PATH = re.compile(r"`((?:bench|crates|docs|examples|strength|tests|tools)/[\w./-]+)`")
LINK = re.compile(r"\]\(([^)#:\s]+)(?:#[^)\s]*)?\)")


def lines_of(path):
    """The numbered lines of a document without its code blocks; of a source file only the help texts."""
    code = False
    for number, line in enumerate(path.read_text().splitlines(), 1):
        if path.suffix == ".rt":
            line = " ".join(re.findall(r'\.(?:help|about)\("(.*?)"\)', line) or re.findall(r'^\s+"(.*)",$', line))
        code ^= line.startswith("```")
        yield number, "" if code else line


def main():
    documents = [ROOT / "README.md", ROOT / "CONTRIBUTING.md", *sorted(ROOT.glob("docs/*.md"))]
    readmes = sorted([*ROOT.glob("crates/*/README.md"), *ROOT.glob("tests/*/README.md")])
    odd = []
    others = [*sorted(ROOT.glob("*/README.md")), *sorted(ROOT.glob("crates/*/src/command.rt"))]
    for path in [*documents, *readmes, *others]:
        name = path.relative_to(ROOT)
        for number, line in lines_of(path):
            words = "" if TITLE.match(line) else re.sub(r'`[^`]*`|"[^"]*"', "`", line)
            odd += [f"{name}:{number}: {found[0].strip()} -> {better}" for word, better in WORDS for found in word.finditer(words)]
            odd += [f"{name}:{number}: {link} -> a file that exists" for link in LINK.findall(line) if not (path.parent / link).exists()]
            named = [it for it in PATH.findall(line) if not MADE_UP.search(it)]
            odd += [f"{name}:{number}: {it} -> a file that exists" for it in named if not (ROOT / it).exists()]
    odd += [f"{it.relative_to(ROOT)}:1: more lines -> {MOST_LINES}" for it in readmes if len(it.read_text().splitlines()) > MOST_LINES]
    words = sum(len(path.read_text().split()) for path in documents)
    odd += [f"README.md:1: {words} words of documents -> {MOST_WORDS}"] if words > MOST_WORDS else []
    if odd:
        sys.exit("\n".join(odd))
    print(f"english.py: {words} words in {len(documents)} documents and {len(readmes)} crates, in plain English")


main()
