#!/usr/bin/env python3
"""Compares the examples of README.md and docs/EXAMPLES.md with the runs of them that are checked.

    bench/readme.py          in any folder

The case `the_example_of_the_readme` of crates/desk_rows has the files of examples/day and a transcript of what the desk
gives for them, and `the_disrupted_example_of_the_readme` those of examples/disrupted. The cases of REPORTS are the examples of a day
that is made up, whose files are too long for a page. It names each file that differs; each line of an answer, or of a report,
that docs/EXAMPLES.md does not show as a line of its own; and each line that README.md shows and no run gives. It ends with 1 where it
names anything, and else with 0.
"""

import re
import sys
from pathlib import Path

TOP = Path(__file__).resolve().parent.parent
CASES = TOP / "crates" / "desk_rows" / "data"
EXAMPLES = {"day": "the_example_of_the_readme", "disrupted": "the_disrupted_example_of_the_readme"}
REPORTS = ("a_generated_day", "a_generated_day_is_recovered", "the_disruptions_of_a_generated_day_break_its_schedule")
FILE = re.compile(r"\w+\.csv:( \d+ bytes)?")
TRANSCRIPT = "transcript"
INDENT = "    "


def texts_of(folder):
    """The files of a folder but the transcript, by their names."""
    return {path.name: path.read_bytes() for path in folder.iterdir() if path.name != TRANSCRIPT}


def lines_of(case):
    """The lines of a case's transcript."""
    return (CASES / case / TRANSCRIPT).read_text(encoding="utf-8").split("\n")


def shown_on(page):
    """The lines that a page shows as they are, without the words of commands."""
    lines = (TOP / page).read_text(encoding="utf-8").split("\n")
    shown = [line[len(INDENT):] for line in lines if line.startswith(INDENT)]
    return [line for line in shown if not line.startswith("./desk ")]


def is_answer(line):
    """Whether a line of the transcript is one that the desk prints or writes."""
    return bool(line) and not line.startswith(("#", "$ ", "status ", "journal.bin:")) and not FILE.fullmatch(line)


def reports_in(lines):
    """The lines that the desk prints: those after a status, up to the first file, empty line or command."""
    reports, is_report = [], False
    for line in lines:
        is_report = is_report and is_answer(line)
        if is_report:
            reports.append(line)
        is_report = is_report or line.startswith("status ")
    return reports


def files_that_differ(name, case):
    """What of the files of an example is not as in its case."""
    files, checked = texts_of(TOP / "examples" / name), texts_of(CASES / case)
    return [f"not as in examples/{name}: {file}" for file in sorted(files.keys() | checked.keys()) if files.get(file) != checked.get(file)]


def compare(what, answers, faults):
    """Prints the faults of an example and of the answers that docs/EXAMPLES.md does not show; how many there are."""
    shown = shown_on("docs/EXAMPLES.md")
    faults = faults + [f"docs/EXAMPLES.md does not show: {line}" for line in answers if line not in shown]
    for fault in faults:
        print(fault)
    print(f"{len(answers)} lines of {what}, {len(faults)} faults")
    return len(faults) + (not answers)


def main():
    others, given = 0, []
    for name, case in EXAMPLES.items():
        answers = list(dict.fromkeys(filter(is_answer, lines_of(case))))
        others += compare(f"examples/{name}", answers, files_that_differ(name, case))
        given += answers
    for case in REPORTS:
        answers = list(dict.fromkeys(reports_in(lines_of(case))))
        others += compare(case, answers, [])
        given += answers
    shown = shown_on("README.md")
    strange = [line for line in shown if line not in given]
    for line in strange:
        print(f"no run gives what README.md shows: {line}")
    print(f"{len(shown)} lines of README.md, {len(strange)} faults")
    return 1 if others or strange or not shown else 0


if __name__ == "__main__":
    sys.exit(main())
