#!/usr/bin/env python3
"""Compares the edits that must fail, and the names on all pages, with the repository as it is.

    bench/edits.py          in any folder

1. It reads crates/CRATE/must-fail/EDIT.edit and the rows "| CRATE | `EDIT` | WHAT IT TURNS | REFUSED BY |" of the table of
   kept edits in docs/ATTACK.md. It names each edit that is in one of the two places and not in the other, each row that is there
   twice or lacks a cell, and each edit whose old text is not in its file just once. It proves nothing: rt must-fail has the prover
   refuse each edit, and rt ci passes over those that can't be made.
2. It reads bench/tries.csv, and names each row that lacks a cell, is there twice or is of a crate that is gone.
3. It reads README.md, CONTRIBUTING.md and the pages of docs/, and names each `name` in backquotes that no source, no file and no
   crate of the repository has: of an edit, a function, a type or a file that is gone; each `name` that is said to be "of" a crate
   and each file in brackets after a crate that this crate does not have; and each link to a file or a heading that is gone.

It ends with 1 where it names anything, and else with 0.
"""

import csv
import functools
import os
import re
import sys
from pathlib import Path

SELF = Path(__file__).resolve()
TOP = SELF.parent.parent
TABLE = TOP / "docs" / "ATTACK.md"
TRIES = TOP / "bench" / "tries.csv"
HEADING = "## Edits that are kept"
ROW = re.compile(r"\| (\w+) \| `(\w+)` \| (.+) \| (.+) \|")
# what is between backquotes on one line, and of it what is a name: NAME, NAME::NAME, NAME.NAME, NAME/NAME or NAME-NAME
QUOTED = re.compile(r"`([^`\n]+)`")
NAMES = re.compile(r"(?:[\w*<>.]+(?:::|\.|/|-))*[\w*]+(?:\.\w+)?")
WORD = re.compile(r"\w+")
SOURCE = re.compile(r"(^|/)(src|specs|proofs|data)/\w")
# `NAME` of CRATE, and CRATE (`src/FILE.rt`, ..), over the ends of lines too
OWNED = re.compile(r"`([\w:.]+)`\s+of\s+(\w+)")
PLACED = re.compile(r"(\w+)\s+\(((?:`(?:src|specs|proofs)/[\w/.]+`(?:,\s+)?)+)\)")
LINK = re.compile(r"\]\(([^)#\s]*)(?:#([\w-]+))?\)")
SOURCES = ("*.rt", "*.antt", "*.edit", "*.py", "*.c", "transcript", "*.csv", "args", "crates.txt", "desk", "prove", "HANDLES", "run")
# names of the language, and words in the place of names, which no source of the repository has
FOREIGN = {"Mutex", "CRATE", "EDIT"}


def kept_edits():
    """The edits that are in the crates, by pairs of crate and name."""
    return {(path.parent.parent.name, path.stem): path for path in TOP.glob("crates/*/must-fail/*.edit")}


def edit_fault(path):
    """Why an edit can't be made, or none. Its changes are made one after another."""
    file, old, text = None, None, None
    for line in path.read_text(encoding="utf-8").split("\n"):
        word, _, rest = line.partition(": ")
        if word == "file":
            file = path.parent.parent / rest.strip()
            text = file.read_text(encoding="utf-8") if file.exists() else None
        elif word == "old":
            old = rest
        elif word == "new" and old is not None:
            if text is None or text.count(old) != 1:
                return f"its old text is not there once in {file.name if file else 'its file'}: {old.strip()}"
            text, old = text.replace(old, rest), None
    return "it changes nothing" if text is None else None


def listed_edits(faults):
    """The edits of the table, as pairs of crate and name; adds to the faults what is wrong with its rows."""
    text = TABLE.read_text(encoding="utf-8")
    if HEADING not in text:
        faults.append(f"{TABLE.name} has no section '{HEADING}'")
        return set()
    section = text.split(HEADING, 1)[1].split("\n## ", 1)[0]
    lines = [line for line in section.split("\n") if line.startswith("|")]
    listed = set()
    for line in lines[2:]:
        row = ROW.fullmatch(line)
        if row is None:
            faults.append(f"no row of an edit: {line}")
        elif row.groups()[:2] in listed:
            faults.append(f"listed twice: {row[1]} {row[2]}")
        else:
            listed.add(row.groups()[:2])
    return listed


def tries_faults():
    """What is wrong with the rows of bench/tries.csv."""
    seen, faults = set(), []
    with open(TRIES, encoding="utf-8", newline="") as file:
        for number, row in enumerate(csv.reader(file), 1):
            where = f"{TRIES.name}:{number}"
            if len(row) != 4 or not all(row):
                faults.append(f"{where}: a row has four cells")
            elif number > 1 and not (TOP / "crates" / row[0]).is_dir():
                faults.append(f"{where}: there is no crate {row[0]}")
            elif tuple(row[:2]) in seen:
                faults.append(f"{where}: tried twice")
            else:
                seen.add(tuple(row[:2]))
    return faults


def known_names():
    """All words of the sources, and the names of all files and folders that are kept."""
    words = set()
    for folder, folders, files in os.walk(TOP):
        folders[:] = [name for name in folders if name not in (".git", "out")]
        words.update(folders, files, (Path(name).stem for name in files))
        for path in (Path(folder, name) for name in files):
            if path not in (TRIES, SELF) and any(path.match(form) for form in SOURCES):
                words.update(WORD.findall(path.read_text(encoding="utf-8", errors="replace")))
    return words


def is_known(name, words):
    """Whether a path of sources is there, and each part of another name is a word of the repository; a part with a star is any
    word that fits."""
    if SOURCE.search(name) and "*" not in name and not FOREIGN & set(WORD.findall(name)):
        return any(any(TOP.glob(form + name + end)) for form in ("crates/*/", "crates/", "") for end in ("", ".rt", ".antt"))
    for part in re.split(r"::|[./<>-]+", name):
        if "*" in part:
            form = re.compile(part.replace("*", r"\w*"))
            if not any(form.fullmatch(word) for word in words):
                return False
        elif part and not part.isdigit() and part not in words and part not in FOREIGN:
            return False
    return True


@functools.cache
def words_of_crate(crate):
    """All words of a crate's sources, and the names of its files and folders; none where there is no such crate."""
    words = set()
    for path in (TOP / "crates" / crate).rglob("*") if crate else ():
        if "out" not in path.parts:
            words.update((path.stem, path.suffix[1:]))
            if path.suffix in (".rt", ".antt"):
                words.update(WORD.findall(path.read_text(encoding="utf-8")))
    return words


def owner_faults(page, text):
    """The names and files that a page says to be of a crate which does not have them."""
    where, faults = page.relative_to(TOP), []
    for name, crate in OWNED.findall(text):
        words = words_of_crate(crate)
        faults += [f"{where}: {crate} has no {part}" for part in WORD.findall(name) if words and part not in words]
    for crate, files in PLACED.findall(text):
        folder = TOP / "crates" / crate
        for file in QUOTED.findall(files) if folder.is_dir() else ():
            if not any((folder / (file + end)).exists() for end in ("", ".antt")):
                faults.append(f"{where}: {crate} has no {file}")
    return faults


def headings(page):
    """What a link can name of a page: its headings in small letters, words joined by dashes."""
    lines = page.read_text(encoding="utf-8").split("\n")
    texts = (line.lstrip("# ").lower() for line in lines if line.startswith("#"))
    return {re.sub(r"[^\w -]", "", text).replace(" ", "-") for text in texts}


def page_faults(page, words):
    """The names and links of a page that lead nowhere."""
    text = page.read_text(encoding="utf-8")
    faults = owner_faults(page, text)
    for number, line in enumerate(text.split("\n"), 1):
        where = f"{page.relative_to(TOP)}:{number}"
        if not line.startswith("    "):
            names = [it for it in QUOTED.findall(line) if NAMES.fullmatch(it)]
            faults += [f"{where}: nothing is named {name}" for name in names if not is_known(name, words)]
        for target, heading in LINK.findall(line):
            file = page.parent / target if target else page
            if "://" in target:
                continue
            if not file.exists():
                faults.append(f"{where}: there is no {target}")
            elif heading and heading not in headings(file):
                faults.append(f"{where}: {file.name} has no heading {heading}")
    return faults


def main():
    faults = []
    kept = kept_edits()
    listed = listed_edits(faults)
    faults += [f"kept, and not in the table: {crate} {edit}" for crate, edit in sorted(kept.keys() - listed)]
    faults += [f"in the table, and not kept: {crate} {edit}" for crate, edit in sorted(listed - kept.keys())]
    faults += [f"can't be made: {crate} {edit}: {why}" for (crate, edit), path in sorted(kept.items()) if (why := edit_fault(path))]
    faults += tries_faults()
    words = known_names()
    pages = [TOP / "README.md", TOP / "CONTRIBUTING.md", *sorted(TOP.glob("docs/*.md"))]
    faults += [fault for page in pages for fault in page_faults(page, words)]
    for fault in faults:
        print(fault)
    print(f"{len(kept)} edits in {len({crate for crate, _ in kept})} crates, {len(pages)} pages, {len(faults)} faults")
    return 1 if faults else 0


if __name__ == "__main__":
    sys.exit(main())
