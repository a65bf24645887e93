"""Lines, fields and values of text files and comma files (docs/FORMATS.md, "What the text files share" and after)."""
import datetime
import re
from functools import lru_cache

PLAIN = re.compile(rb"[\t -~]*")
PRINTED = re.compile(rb"[ -~]*")
NUMBER = re.compile(rb"[0-9]{1,9}")
PRICE = re.compile(rb"([0-9]{1,9})(?:\.([0-9]{1,4}))?")
WEIGHT = re.compile(rb"([0-9]{1,6})(?:\.([0-9]{1,3}))?")
DATE = re.compile(rb"([0-9]{1,2})/([0-9]{1,2})/([0-9]{4}|[0-9]{2})")
TIME = re.compile(rb"([0-9]{1,2}):([0-9]{2})")
LATER_TIME = re.compile(rb"([0-9]{1,2}:[0-9]{2})(?:\+([0-9]))?")
ORIGIN = datetime.date(2000, 1, 1).toordinal()
BYTE_ORDER_MARK = b"\xef\xbb\xbf"
DAY = 1440
# in the order in which they are compared: the first cabin is the highest, the last haul is the highest
CABINS = {b"F": 0, b"B": 1, b"E": 2}
HAULS = {b"D": 0, b"C": 1, b"I": 2}


class Refused(Exception):
    """Why a field, and so its line and its file, is refused."""

    def __init__(self, cause, line=None, file=None):
        super().__init__(cause)
        self.cause, self.line, self.file = cause, line, file


def text_lines(data):
    """The lines of a text file that have fields, each with its number and its fields."""
    for number, line in enumerate(data.split(b"\n"), 1):
        if line.startswith(b"#"):
            return
        if line.endswith(b"\r"):
            line = line[:-1]
        if not PLAIN.fullmatch(line):
            raise Refused("Byte", number)
        fields = line.split()
        if fields:
            yield number, fields


def quoted_records(data):
    """The records of bytes that have quote marks."""
    fields, field, state, begun = [], bytearray(), "start", False
    for byte in data:
        if state == "quoted":
            if byte == 0x22:
                state = "closed"
            else:
                field.append(byte)
        elif byte == 0x22 and state == "closed":
            field.append(byte)
            state = "quoted"
        elif byte == 0x22 and state == "start":
            state, begun = "quoted", True
        elif byte == 0x2C:
            fields.append(bytes(field))
            field, state, begun = bytearray(), "start", True
        elif byte in (0x0A, 0x0D):
            if begun:
                yield fields + [bytes(field)]
            fields, field, state, begun = [], bytearray(), "start", False
        else:
            field.append(byte)
            state, begun = "field", True
    if begun:
        yield fields + [bytes(field)]


def comma_records(data):
    """The records of a comma file, each with its number and its fields."""
    if data.startswith(BYTE_ORDER_MARK):
        data = data[3:]
    if b'"' in data:
        records = quoted_records(data)
    else:
        records = (line.split(b",") for line in re.split(rb"[\r\n]", data) if line)
    return enumerate(records, 1)


def all_printed(fields):
    """Refuses a record that has a byte which may not stand there."""
    for field in fields:
        if not PRINTED.fullmatch(field):
            raise Refused("Byte")


def name(field):
    if not 1 <= len(field) <= 32:
        raise Refused("Size")
    return field


def number(least, most):
    """What reads a number of a range."""

    def read(field):
        if not NUMBER.fullmatch(field) or not least <= int(field) <= most:
            raise Refused("Number")
        return int(field)

    return read


def decimal(form, places):
    """What reads a decimal number as so many parts of one."""

    def read(field):
        found = form.fullmatch(field)
        if not found:
            raise Refused("Number")
        return int(found[1]) * 10**places + int((found[2] or b"").ljust(places, b"0"))

    return read


price = decimal(PRICE, 4)
weight = decimal(WEIGHT, 3)


def seats(field):
    parts = field.split(b"/")
    if len(parts) != 3:
        raise Refused("Number")
    return tuple(number(0, 999)(part) for part in parts)


def word(words):
    """What reads one of some words, as that which stands for it."""

    def read(field):
        if field not in words:
            raise Refused("Word")
        return words[field]

    return read


cabin = word(CABINS)
haul = word(HAULS)
kind = word({b"A": b"A", b"R": b"R"})


@lru_cache(maxsize=4096)
def date(field):
    """The number of a day, counted from 01/01/2000."""
    found = DATE.fullmatch(field)
    if not found:
        raise Refused("Date")
    year = int(found[3]) + (2000 if len(found[3]) == 2 else 0)
    if not 2000 <= year <= 2099:
        raise Refused("Date")
    try:
        return datetime.date(year, int(found[2]), int(found[1])).toordinal() - ORIGIN
    except ValueError:
        raise Refused("Date") from None


@lru_cache(maxsize=4096)
def time(field):
    """The minute of a day."""
    found = TIME.fullmatch(field)
    if not found or int(found[1]) > 23 or int(found[2]) > 59:
        raise Refused("Time")
    return int(found[1]) * 60 + int(found[2])


def time_to(field):
    """The end of a part of the day: the day's end is 00:00 or 24:00."""
    return DAY if field == b"24:00" else time(field) or DAY


def later_time(field):
    """A time, perhaps with days: its minute of the day, and how many days later, or none."""
    found = LATER_TIME.fullmatch(field)
    if not found:
        raise Refused("Time")
    return time(found[1]), None if found[2] is None else int(found[2])


def columns(fields, readers):
    """The first fields of a line, each by its reader, from the left; there have to be as many."""
    if len(fields) < len(readers):
        raise Refused("Fields")
    return [read(field) for read, field in zip(readers, fields)]


def in_groups(fields, first, group, at_least=1):
    """A line of some fields and then whole groups: the values of the first ones, and of each group."""
    rest = len(fields) - len(first)
    if rest < at_least * len(group) or rest % len(group):
        raise Refused("Fields")
    head = columns(fields, first)
    return head, [columns(fields[at:], group) for at in range(len(first), len(fields), len(group))]
