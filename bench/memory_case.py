"""The case of desk_rows whose allocations are refused: a folder with it alone, and whether its runs ended as they may."""
import os
import shutil

DATA = os.path.join(os.path.dirname(os.path.dirname(os.path.abspath(__file__))), "crates", "desk_rows", "data")
CASE = "runs_of_most_commands_in_little_memory"


def laid_out(folder):
    """A folder in which desk_rows plays that case and no other."""
    data = os.path.join(folder, "data")
    for name in ("usual", CASE):
        shutil.copytree(os.path.join(DATA, name), os.path.join(data, name))
    return data


def statuses(text):
    return [line for line in text.splitlines() if line.startswith("status ")]


def is_right(done):
    """Whether each run has its own status or 6. Where desk_rows itself was refused memory, it ends with 1 and has told of none."""
    with open(os.path.join(DATA, CASE, "transcript")) as file:
        own = statuses(file.read())
    if done.returncode == 0:
        return True
    told = statuses(done.stdout)
    are_own = len(told) == len(own) and all(one in (other, "status 6") for one, other in zip(told, own))
    return done.returncode == 1 and (are_own or not told)
