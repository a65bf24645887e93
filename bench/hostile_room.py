"""Runs the desk in a folder of its own, for bench/hostile.py and bench/hostile_inputs.py: the folder, the run, and what it left."""
import contextlib
import os
import resource
import shutil
import signal
import subprocess
import tempfile
import threading
import time
from typing import NamedTuple

from judge import expected
from judge.files import DAY_FILES
from judge.stored import file_payloads

TOP = os.path.dirname(os.path.dirname(os.path.abspath(__file__)))
SAMPLE = os.path.join(TOP, "examples", "disrupted")
WRITTEN = expected.WRITTEN
NOBODY = 65_534
# seconds after which a run hangs
LONGEST = 300
OLD = b"what an earlier run left\n"


class Given(NamedTuple):
    """What a run gave: its status or the signal that ended it, what it said, its seconds, and its most megabytes."""
    status: int | str
    said: bytes
    warned: bytes
    seconds: float
    megabytes: int


def files_of(folder):
    """The files of a day and its journal, by name."""
    files = {}
    for name in DAY_FILES + ("journal.csv",):
        if os.path.isfile(os.path.join(folder, name)):
            with open(os.path.join(folder, name), "rb") as file:
                files[name] = file.read()
    return files


class Room:
    """A folder with the sample day in `in` and what an earlier run left in `out`."""

    def __init__(self, path):
        self.path = path
        os.chmod(path, 0o755)
        shutil.copytree(SAMPLE, self.of("in"))
        os.mkdir(self.of("out"))
        for name in WRITTEN:
            self.put("out", name, OLD)
        self.ends = contextlib.ExitStack()

    def of(self, *names):
        return os.path.join(self.path, *names)

    def put(self, folder, name, text):
        with open(self.of(folder, name), "wb") as file:
            file.write(text)

    def take(self, folder, name):
        """Takes a file away, and gives its place."""
        path = self.of(folder, name)
        if os.path.lexists(path):
            os.remove(path)
        return path

    def link(self, folder, name, target):
        os.symlink(target, self.take(folder, name))

    def new(self):
        """What the desk writes on the sample day."""
        return expected.replay(files_of(self.of("in"))).files

    def beside(self, work):
        """Has a thread work while the desk runs."""
        threading.Thread(target=work, daemon=True).start()

    def out_of_nobody(self):
        for path in [self.of("out")] + [self.of("out", name) for name in WRITTEN]:
            os.chown(path, NOBODY, NOBODY)


def limited(limits):
    def limit():
        for kind, most in limits:
            resource.setrlimit(kind, (most, most))

    return limit


def ended(status):
    return signal.Signals(-status).name if status < 0 else status


def run(program, words, room, limits=(), user=None, before=(), into=None, seconds=LONGEST):
    """Runs the desk in a room; `before` are words of a shell before it, and `into` is where standard output goes."""
    begun = time.monotonic()
    said = tempfile.TemporaryFile() if into is None else into
    command = [*before, program, *words]
    more = {} if user is None else {"user": user, "group": user, "extra_groups": []}
    with tempfile.TemporaryFile() as warned:
        child = subprocess.Popen(command, cwd=room, stdin=subprocess.DEVNULL, stdout=said, stderr=warned,
                                 preexec_fn=limited(limits) if limits else None, **more)
        hung = []
        timer = threading.Timer(seconds, lambda: (hung.append(True), child.kill()))
        timer.start()
        _, status, used = os.wait4(child.pid, 0)
        timer.cancel()
        child.returncode = os.waitstatus_to_exitcode(status)
        texts = []
        for file in (said, warned):
            with contextlib.suppress(OSError, ValueError, AttributeError):
                file.seek(0)
                texts.append(file.read(4096))
        texts = (texts + [b"", b""])[:2] if into is None else [b""] + texts[-1:]
    took = time.monotonic() - begun
    return Given("hung" if hung else ended(child.returncode), texts[0], texts[1], took, used.ru_maxrss // 1024)


def state_of(path, new):
    """What stands in an output: none, empty, old, whole, a beginning, or what it should not."""
    if not os.path.lexists(path):
        return "none"
    if not os.path.isfile(path):
        return "no file"
    with open(path, "rb") as file:
        text = file.read()
    if not text:
        return "empty"
    if text == OLD:
        return "old"
    return "whole" if text == new else "a beginning" if new.startswith(text) else "OTHER BYTES"


def left_in(room, new):
    """What stands in the outputs, in their order; one word where they are alike."""
    states = [state_of(room.of("out", name), new[name]) for name in WRITTEN]
    return states[0] if len(set(states)) == 1 else ", ".join(states)


def entries_left(room, folder="out"):
    """The entries that stand in journal.bin of a folder; none where it is damaged."""
    with open(room.of(folder, "journal.bin"), "rb") as file:
        return file_payloads(file.read())


def disk_left(room):
    """What stands in journal.bin: no file, damaged, or how many entries it has."""
    path = room.of("out", "journal.bin")
    if not os.path.isfile(path):
        return "no file" if os.path.lexists(path) else "none"
    if os.path.getsize(path) > 1 << 24:
        return "as it was"
    found = entries_left(room)
    return "damaged" if found is None else "%d entries" % len(found)


def printed(text):
    """What a run said, on one line of a table: its first line, and how it ends where there are more."""
    lines = text.decode("ascii", "backslashreplace").split("\n")[:-1]
    told = lines[0] if len(lines) == 1 else "%s .. %s" % (lines[0], lines[-1]) if lines else ""
    return "`%s`" % told if told else ""


def row_of(title, words, given, left):
    """A row of the table."""
    warned = " with a warning" if b"desk: warning: " in given.warned else ""
    return "| %s | %s | %s%s | %s | %s |" % (title, " ".join(words), given.status, warned, printed(given.said), left)
