#!/usr/bin/env python3
"""Checks the pages: each relative link leads to a file or folder, each anchor to a heading, and in refinement.md each
name in backquotes stands in the file that the link behind it names. Says what does not; ends with 1 where there is any.
"""
import glob
import os
import re
import sys

ROOT = os.path.dirname(os.path.dirname(os.path.abspath(__file__)))
LINK = re.compile(r"\[[^]]*\]\(([^)\s]+)\)")
NAMED = re.compile(r"((?:`[^`]+`[,:]? ?)+)in \[[^]]*\]\(([^)]+)\)")


def text_of(path):
    with open(path, encoding="utf-8") as file:
        return file.read()


def anchors_of(path):
    """The anchors of a page's headings, as they are made on the web."""
    headings = re.findall(r"^#+ (.*)$", text_of(path), re.M)
    return {re.sub(r"[^\w\- ]", "", it.lower()).replace(" ", "-") for it in headings}


def broken_links(page):
    for link in LINK.findall(text_of(page)):
        if "://" in link:
            continue
        path, _, anchor = link.partition("#")
        target = os.path.normpath(os.path.join(os.path.dirname(page), path)) if path else page
        if not os.path.exists(target):
            yield f"no {link}"
        elif anchor and anchor not in anchors_of(target):
            yield f"no heading {link}"


def missing_names(page):
    for names, link in NAMED.findall(text_of(page)):
        path = os.path.join(os.path.dirname(page), link)
        known = set(re.findall(r"\w+", text_of(path))) if os.path.isfile(path) else set()
        for name in re.findall(r"`([^`]+)`", names):
            if name not in known:
                yield f"no {name} in {link}"


def main():
    pages = [f"{ROOT}/README.md"]
    for folder in ("docs", "examples"):
        pages += sorted(glob.glob(f"{ROOT}/{folder}/**/*.md", recursive=True))
    faults = [(page, it) for page in pages for it in broken_links(page)]
    ladder = f"{ROOT}/docs/refinement.md"
    faults += [(ladder, it) for it in missing_names(ladder)]
    for page, fault in faults:
        print(f"{os.path.relpath(page, ROOT)}: {fault}")
    sys.exit(1 if faults else 0)


if __name__ == "__main__":
    main()
