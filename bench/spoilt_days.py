"""Spoils the files of a day, for bench/fuzz.py: bytes, fields and lines that are wrong, missing, twice or out of place."""
ENDS = (
    b"0", b"00", b"1", b"-1", b"+1", b"2879", b"2880", b"2881", b"1000", b"1001", b"100000", b"100001", b"999999999", b"1000000000",
    b"000000000", b"0000000001", b"64", b"65", b"10000", b"10001", b"52480000", b"1.5", b"1.", b".5", b"0.0001", b"0.00001",
    b"999999.999", b"1000000", b"0/0/999", b"0/0/1000", b"1/2", b"1/2/3/4", b"a" * 32, b"a" * 33, b"", b"!", b"~", b"NULL", b"none",
    b"cancelled", b"Cancelled", b"all", b"after", b"+", b"-", b"00:00", b"0:00", b"23:59", b"24:00", b"24:01", b"12:60", b"8:5",
    b"08:00+0", b"08:00+1", b"08:00+2", b"08:00+9", b"08:00+10", b"08:00+", b"01/01/00", b"31/12/99", b"1/1/2000", b"01/01/2100",
    b"31/12/1999", b"29/02/08", b"29/02/07", b"29/02/2000", b"31/04/08", b"00/01/08", b"01/00/08", b"01/13/08", b"26/10/99", b"12/10/99",
    b"1/3/8", b"001/03/08", b"D", b"C", b"I", b"F", b"B", b"E", b"A", b"R", b"d", b"P1", b"P9", b"F1", b"F9", b"AAA", b"ZZZ", b"R1",
    b"AAA-01/03/08-11:00-01/03/08-13:00-600", b"D-D-01/03/08-11:00-01/03/08-13:00-0", b"-01/03/08-11:00-01/03/08-13:00-1",
    b"AAA-01/03/08-13:00-01/03/08-13:00-600", b"AAA-01/03/08-11:00-01/03/08-13:00-100001", b"11:00-01/03/08-13:00-600",
    b"set", b"push", b"swap", b"rebook", b"tidy", b"refill", b"batch", b"move", b"flight", b"aircraft", b"airport", b"at", b"surface",
    b"weight", b"10:40", b"10:41",
)
BYTES = b"\x00\t\n\r #\",-+/:.0159AZaz~\x7f\x80\xff"
LINES = (
    b"", b" \t ", b"#", b"# the rest is not looked at", b" #", b"\r", b"\xef\xbb\xbf", b'"', b'""', b'"a', b'a"b', b",", b"1,none",
    b"0,move,tidy", b"0,move,", b"0,move,   ", b"0,batch,0", b"0,batch,1", b"1,move,tidy tidy", b"1,none,", b"2,none",
    b"1,at,12/10/99,10:40", b"1,at,12/10/99,10:41", b"1,at,01/03/08,10:00", b"2,at,01/03/08,12:00,", b"2,at,01/03/08,12:00",
)


def lines_of(text):
    return text.split(b"\n")


def spoil_byte(draws, text):
    """Another byte, one more, or one less."""
    at, byte = draws.randrange(len(text) + 1), bytes([draws.choice(BYTES)])
    return draws.choice((text[:at] + byte + text[at:], text[:at] + byte + text[at + 1:], text[:at] + text[at + 1:]))


def cut(draws, text):
    return text[:draws.randrange(len(text) + 1)]


def spoil_line(draws, text):
    """A line more, one twice, one less, or two the other way round."""
    lines = lines_of(text)
    one, other = draws.randrange(len(lines)), draws.randrange(len(lines))
    way = draws.randrange(4)
    if way == 0:
        lines.insert(one, draws.choice(LINES))
    elif way == 1:
        lines.insert(other, lines[one])
    elif way == 2:
        del lines[one]
    else:
        lines[one], lines[other] = lines[other], lines[one]
    return b"\n".join(lines)


def apart(text, name):
    """What stands between the fields of a line."""
    return b"," if b"," in text and name in ("tariff.csv", "feed.csv", "journal.csv") else b" "


def spoil_field(draws, text, name):
    """A field with another value, one more, one less, or two the other way round."""
    lines = lines_of(text)
    at = draws.randrange(len(lines))
    mark = apart(lines[at], name)
    if name == "journal.csv" and draws.random() < 0.8:
        mark = b" "
    fields = lines[at].split(mark)
    one, other = draws.randrange(len(fields)), draws.randrange(len(fields))
    way = draws.randrange(6)
    if way < 3:
        fields[one] = draws.choice(ENDS)
    elif way == 3:
        fields.insert(one, draws.choice(ENDS))
    elif way == 4:
        del fields[one]
    else:
        fields[one], fields[other] = fields[other], fields[one]
    lines[at] = mark.join(fields)
    return b"\n".join(lines)


def respell(draws, text, name):
    """Other ends of lines, or other blanks: mostly the same rows."""
    if draws.random() < 0.5 or name in ("tariff.csv", "feed.csv", "journal.csv"):
        return text.replace(b"\n", draws.choice((b"\r\n", b"\r", b"\n\n", b"\r\r\n", b"\n\r")))
    return text.replace(b" ", draws.choice((b"\t", b"  ", b" \t ")))


def trade(draws, files, name):
    """The text of another file."""
    return files[draws.choice(sorted(files))] or b""


def spoil(draws, files):
    """Spoils some of the files by name; one that is missing is none."""
    for _ in range(draws.choice((1, 1, 1, 2, 3))):
        name = draws.choice(sorted(files))
        text = files[name] or b""
        way = draws.random()
        if way < 0.55:
            files[name] = spoil_field(draws, text, name)
        elif way < 0.75:
            files[name] = spoil_line(draws, text)
        elif way < 0.85:
            files[name] = spoil_byte(draws, text)
        elif way < 0.91:
            files[name] = cut(draws, text)
        elif way < 0.97:
            files[name] = respell(draws, text, name)
        else:
            files[name] = None if way < 0.985 else trade(draws, files, name)
