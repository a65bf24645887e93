"""A whole run over folders of the disk, with the words of the desk."""
import os

from judge import expected
from judge.files import DAY_FILES, SOLUTION_FILES
from judge.words import command


def read(folder, names):
    """Files by name; none for one that is not there."""
    files = {}
    for name in names:
        path = os.path.join(folder, name)
        files[name] = None
        if os.path.exists(path):
            with open(path, "rb") as file:
                files[name] = file.read()
    return files


def write(folder, files, is_read):
    """Writes what has bytes, and empties what has none and stands there, but for a file that was read from there."""
    for name, text in files.items():
        path = os.path.join(folder, name)
        if text or os.path.exists(path) and name not in is_read:
            os.makedirs(folder or ".", exist_ok=True)
            with open(path, "wb") as file:
                file.write(text)


def outcome(asked, places):
    """What a command gives for the files in its directories."""
    if asked.word == "gen":
        return expected.gen(asked.value("--seed"), asked.value("--size"))
    if asked.word == "trial":
        return expected.trial(asked.value("--seed"), asked.value("--size"))
    given = read(places[0], DAY_FILES + ("crew.csv", "journal.csv"))
    has_crews = "--crew" in asked.flags
    if asked.word == "recover":
        return expected.recover(given, asked.value("--moves"))
    if asked.word == "check":
        return expected.check(given, read(places[1], SOLUTION_FILES), has_crews)
    if asked.word == "ferry":
        return expected.ferry(given, read(places[1], SOLUTION_FILES))
    return expected.replay(given, has_crews)


def run(words, folder=""):
    """Runs a command whose directories are in a folder; gives its status and report."""
    asked = command(words)
    if asked is None:
        return 2, b"usage\n"
    if asked.value("--workers"):
        raise NotImplementedError("what many workers find is not one outcome")
    places = [os.path.join(folder, place) for place in asked.directories]
    given = outcome(asked, places)
    if given.files:
        is_one = asked.word == "replay" and asked.directories[0] == asked.directories[1]
        write(places[-1], given.files, ("journal.csv",) if is_one else ())
    return given.status, given.report
