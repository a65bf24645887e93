#!/usr/bin/env python3
"""A second program that answers as the desk does, by a slow reading of the pages: for whoever trusts no single program.

Usage: bench/second.py WORD ..

The words are those of the desk, but for --workers above 0: bench/second.py replay IN OUT. It reads and writes the same files, prints the
same report and ends with the same status: it is the package bench/judge, in plain Python with nothing but the standard library. It takes
a second where the desk takes milliseconds, and much longer to search. A call that the system refuses is no fault with a status here, but
an error of Python.

To check a journal of the desk: copy it and the 13 files of its day to a folder, replay that, and compare OUT with what the desk wrote.
"""
import sys

from judge.disk import run


def main():
    status, report = run(sys.argv[1:])
    sys.stdout.buffer.write(report)
    sys.exit(status)


if __name__ == "__main__":
    main()
