#!/usr/bin/env python3
"""Compares the explanations of crates/desk_words with the pages, and with what its stored run gives.

    bench/help.py          in any folder

1. The tables of causes in crates/desk_words/src are those of docs/REFUSALS.md, row by row, and each refusal in a transcript of
   crates/desk_rows has a row, and each row such a refusal. The sections that explanations name are headings of docs/FORMATS.md.
2. The rules of crates/desk_words/src/rules.rt are those of docs/RULES-AND-COST.md, with their words, items and sentences.
3. The commands of docs/FORMATS.md, with their options, ranges and what holds where one is left out, are those of USAGE.
4. crates/desk_rows/stdin has a case for each row and for each rule, and each answer at the end of its stdout, after the cases of the
   program, is what the pages say.

It ends with 1 where it names anything, and else with 0.
"""

import re
import sys
from pathlib import Path

TOP = Path(__file__).resolve().parent.parent
SOURCES = TOP / "crates" / "desk_words" / "src"
ROWS = TOP / "crates" / "desk_rows"
TRANSCRIPTS = ROWS / "data"
WHOLE = " at line 0"
COMMA_FILES = ("tariff.csv", "feed.csv", "journal.csv")
STRING = r'"((?:[^"\\]|\\.)*)"'
REFUSED = re.compile(r"refused (\w+\.csv) (\d+) (\w+)")
# what stands before each name of an item of this kind, by the page's word for it
ITEMS = {
    "leg": ("Leg", "leg {} of {}"),
    "aircraft": ("Aircraft", "aircraft {}"),
    "airport, hour": ("Hour", "airport {} on {} in hour {}"),
    "leg, cabin": ("Cabin", "leg {} of {} in cabin {}"),
    "reservation": ("Reservation", "reservation {} of type {}"),
    "crew": ("Crew", "crew {}"),
}


def text_of(*parts):
    """The text of a file of the repository."""
    return TOP.joinpath(*parts).read_text(encoding="utf-8")


def code_rows():
    """The rows of the code: the sentence by file, whether it is about the whole file, and cause."""
    texts = {path.stem: path.read_text(encoding="utf-8") for path in SOURCES.glob("*causes.rt")}
    named = dict(re.findall(r"const (\w+): &str =\s*" + STRING, texts["causes"]))
    tables = {}
    for text in texts.values():
        for name, body in re.findall(r"const (\w+): &\[CauseRow\] = &\[(.*?)\];", text, re.S):
            rows = re.findall(r"Cause::(\w+),\s*(?:" + STRING + r"|(\w+))", body)
            tables[name] = {cause: words or named[name] for cause, words, name in rows}
    files = file_names()
    rows = {}
    for call, whole in (("causes_of_lines", False), ("causes_of_the_whole", True)):
        body = re.search(r"fn " + call + r"\(.*?\{\n(.*?)\n\}", texts["causes"], re.S)[1]
        arms = dict(re.findall(r"(?:File::(\w+)|_) => (\w+)", body))
        for variant, file in files.items():
            for cause, sentence in tables[arms.get(variant, arms.get(""))].items():
                rows[file, whole, cause] = sentence
    found = consts()
    rows["journal.csv", False, "Other"] = found["OTHER"]
    rows["journal.csv", True, "Other"] = found["OTHER_WHOLE"]
    return rows


def consts():
    """The sentences of the code that stand in no table."""
    text = (SOURCES / "explanation.rt").read_text(encoding="utf-8")
    return dict(re.findall(r"const (\w+): &str =\s*" + STRING, text))


def file_names():
    """The names of the files by their variants."""
    text = text_of("crates", "desk_folder", "src", "files.rt")
    return dict(re.findall(r'File::(\w+) => "(\w+\.csv)"', text))


def sections():
    """The section of docs/FORMATS.md about each file."""
    text = text_of("docs", "FORMATS.md")
    headings = re.findall(r"^## (.+)$", text, re.M)
    found = {}
    for file in file_names().values():
        about = [name for name in headings if file in re.split(r", | and ", name)]
        found[file] = next((name for name in about if name.endswith("as input")), about[0] if about else None)
    return found


def page_rows():
    """The rows of docs/REFUSALS.md."""
    rows = {}
    for part in text_of("docs", "REFUSALS.md").split("\n## ")[1:]:
        file = part.split("\n", 1)[0]
        for cause, whole, sentence in re.findall(r"^\| `(\w+)`(" + WHOLE + r")? \| (.+) \|$", part, re.M):
            rows[file, bool(whole), cause] = sentence
    return rows


def page_rules():
    """The rules of docs/RULES-AND-COST.md: word, item and sentence by number."""
    text = text_of("docs", "RULES-AND-COST.md")
    found = re.findall(r"^\| ([CK]\d+) \| ([a-z ]+) \| ([a-z, ]+) \| (.+) \|$", text, re.M)
    return {number: (word, item, sentence) for number, word, item, sentence in found}


def code_rules():
    """The rules of the code, in the same form."""
    text = (SOURCES / "rules.rt").read_text(encoding="utf-8")
    form = r"Rule \{\s*number: " + STRING + r",\s*word: " + STRING + r",\s*item: ItemKind::(\w+),\s*text:\s*" + STRING
    kinds = {kind: item for item, (kind, _) in ITEMS.items()}
    return {number: (word, kinds[kind], sentence) for number, word, kind, sentence in re.findall(form, text)}


def usage():
    """The lines of USAGE."""
    text = (SOURCES / "usage.rt").read_text(encoding="utf-8")
    body = re.search(r"USAGE: &\[&str\] = &\[(.*?)\n\];", text, re.S)[1]
    return [line.replace('\\"', '"') for line in re.findall(STRING, body)]


def usage_faults():
    """What the page has of the words and USAGE has not."""
    text, shown = text_of("docs", "FORMATS.md"), "\n".join(usage())
    faults = []
    for command in re.findall(r"^\| `(\w+[^`]*)` \| .+ \| .+ \|$", text.split("The 13 files of the day are", 1)[0], re.M):
        start = re.match(r"[\w ]+", command)[0].strip()
        if not re.search(r"^  " + re.escape(start) + r"\b", shown, re.M):
            faults.append(f"USAGE has no line of the command {start}")
    for option, rest in re.findall(r"^\| `(--\w+)[^`]*`(.*)$", text, re.M):
        line = re.search(r"^    " + option + r"\b.*$", shown, re.M)
        numbers = re.search(r"(\d[\d,]*) to (\d[\d,]*); (\d[\d,]*)(?: where it is left out)?|(0) to (64); with (0)", rest)
        wanted = [number.replace(",", "") for number in numbers.groups() if number] if numbers else []
        if line is None or wanted != re.findall(r"\d+", line[0])[:len(wanted)]:
            faults.append(f"USAGE says of {option} other than docs/FORMATS.md: {' '.join(wanted)}")
    return faults


def refusal(report, rows):
    """The explanation of a refusal; none where the report is none of a row."""
    words = REFUSED.fullmatch(report)
    if words is None or (words[1], words[2] == "0", words[3]) not in rows:
        return None
    file, line, cause = words.groups()
    place = "" if line == "0" else f", {'record' if file in COMMA_FILES else 'line'} {line}"
    return [f"{file}{place}: {rows[file, line == '0', cause]}", f'See "{sections()[file]}" in docs/FORMATS.md.']


def broken(start, item, rules):
    """The explanation of an item that breaks a rule; none where it is of no rule."""
    number, *names = item.split()
    if number not in rules:
        return None
    word, kind, sentence = rules[number]
    return [f"{start}{ITEMS[kind][1].format(*names)} breaks {number}, {word}. {sentence}"]


def answer(case, rows, rules):
    """What the pages say of a case; none where they don't give its words."""
    status, report = case.split()[0], case.split(" > ", 1)[1].split(";")
    if status == "2":
        return usage()
    if report[-1] == "refused journal.bin 0 Damaged":
        return [consts()["DAMAGED"]]
    if status == "3":
        return refusal(report[-1], rows)
    if status == "8":
        return [consts()["DISK_FAULT"]]
    if status == "1":
        return broken("There is no plan: ", report[-1].removeprefix("no plan "), rules)
    if status == "7":
        plan = broken("The plan breaks a rule: ", report[0].removeprefix("broken "), rules)
        crews = broken("Its crews break a rule: ", report[-1].removeprefix("crew "), rules)
        return (plan or []) + (crews or []) or None
    return [] if status in ("0", "6", "9") else None


def run_faults(rows, rules):
    """What is wrong with the stored run."""
    cases = (ROWS / "stdin").read_text(encoding="utf-8").splitlines()
    given = ("\n" + (ROWS / "stdout").read_text(encoding="utf-8")).split("\n$ ")[1:]
    heads = [block.split("\n", 1)[0] for block in given]
    answers = dict(zip(heads, (block.split("\n")[1:] for block in given)))
    faults = [] if cases == heads else ["desk_rows: stdin and stdout don't have the same cases in the same order"]
    faults += [f"desk_rows: stdin and stdout have other cases: {case}" for case in set(cases) ^ set(answers)]
    for case in cases:
        wanted, got = answer(case, rows, rules), "\n".join(answers.get(case, [])).rstrip("\n").split("\n")
        if wanted is not None and (wanted or [""]) != got:
            faults.append(f"desk_rows: {case}: other than the pages say")
    asked = {(file, line == "0", cause) for file, line, cause in REFUSED.findall("\n".join(cases))}
    faults += [f"desk_rows: no case of {' '.join(map(str, row))}" for row in rows.keys() - asked]
    items = {number for number in rules if re.search(rf"(no plan|broken|crew) {number} ", "\n".join(cases))}
    return faults + [f"desk_rows: no case of {number}" for number in rules.keys() - items]


def faults_of(name, code, page):
    """The keys at which code and page differ."""
    return [f"{name}: other in the code: {key}" for key in sorted(code.keys() | page.keys()) if code.get(key) != page.get(key)]


def main():
    """Compares all, and answers the status."""
    rows, rules = page_rows(), page_rules()
    faults = faults_of("docs/REFUSALS.md", code_rows(), rows)
    faults += faults_of("docs/RULES-AND-COST.md", code_rules(), rules)
    faults += [f"docs/FORMATS.md has no section of {file}" for file, section in sections().items() if section is None]
    texts = [path.read_text(encoding="utf-8") for path in TRANSCRIPTS.glob("*/transcript")]
    refused = {(file, line == "0", cause) for file, line, cause in REFUSED.findall("\n".join(texts))}
    faults += [f"a row or a refusal of desk_rows without the other: {' '.join(map(str, row))}" for row in refused ^ rows.keys()]
    faults += usage_faults()
    faults += run_faults(rows, rules)
    for fault in faults:
        print(fault)
    print(f"{len(rows)} causes and {len(rules)} rules explained, {len(faults)} other than the pages")
    return 1 if faults else 0


if __name__ == "__main__":
    sys.exit(main())
