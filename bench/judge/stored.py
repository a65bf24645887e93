"""journal.bin (docs/FORMATS.md, "journal.bin"): the payloads of the events of a journal, and those of a file of records."""
from judge.expected import read_day
from judge.journal import join_journal

FIRST_BYTES = {"set": 0, "push": 1, "swap": 2, "rebook": 3, "tidy": 4, "refill": 5}


def number(value):
    """A number: four bytes, the most significant first."""
    return value.to_bytes(4, "big")


def row(placed):
    """A row: a byte 0 where the leg is cancelled, or a byte 1, the aircraft and the departure."""
    return b"\x01" + number(placed[0]) + number(placed[1]) if placed else b"\x00"


def path(legs):
    """A path: how many legs it has, and each with its cabin."""
    return bytes([len(legs)]) + b"".join(number(leg) + bytes([cabin]) for leg, cabin in legs)


def step(word, *named):
    """A step: its first byte, and what follows."""
    first = bytes([FIRST_BYTES[word]])
    if word == "set":
        return first + number(named[0]) + row(named[1]) + row(named[2])
    if word == "push":
        return first + number(named[0]) + (b"\x00" if named[1] is None else b"\x01" + number(named[1]))
    if word == "rebook":
        return first + number(named[0]) + number(named[1]) + path(named[2]) + path(named[3])
    return first + b"".join(number(value) for value in named)


def payload(who, what):
    """The payload of an event: of a batch by its number, or of a move by its steps."""
    if isinstance(what, int):
        return number(who) + b"\x00" + number(what)
    return number(who) + b"\x01" + bytes([len(what)]) + b"".join(step(*one) for one in what)


def journal_payloads(given):
    """The payloads of the events of a journal.csv, with the 13 files of its day, by name."""
    day, (records,) = read_day(given, ("journal.csv",))
    return [payload(who, what) for who, what in join_journal(day, records)]


def file_payloads(text):
    """The payloads of the records of a file; none where a record does not end before the file does."""
    found, place = [], 0
    if len(text) < 2:
        return found
    while text[place:place + 1] == b"\x01":
        size = int.from_bytes(text[place + 1:place + 5], "big")
        if place + 5 + size >= len(text):
            return None
        found.append(text[place + 5:place + 5 + size])
        place += 5 + size
    return found
