"""The words of a command (docs/FORMATS.md, "The words")."""
import re

DIRECTORIES = {"replay": 2, "recover": 2, "check": 2, "ferry": 2, "gen": 1, "trial": 0}
# for each option its commands, its range, and what holds where it is left out
OPTIONS = {
    "--seed": (("gen", "trial"), 0, 999_999_999, 1),
    "--size": (("gen", "trial"), 1, 40, 1),
    "--moves": (("recover",), 1, 100_000, 1_000),
    "--workers": (("recover",), 0, 64, 0),
}
# the options without a value, with their commands; those of recover need a worker
FLAGS = {"--live": ("recover",), "--watch": ("recover",), "--crew": ("replay", "check")}
NUMBER = re.compile("[0-9]{1,9}")


class Command:
    """A command with its directories and the values of its options."""

    def __init__(self, word):
        self.word, self.directories, self.given, self.flags = word, [], {}, set()

    def value(self, option):
        return self.given.get(option, OPTIONS[option][3])

    def set(self, option, text):
        """Takes the value of an option; whether it may."""
        commands, least, most, _ = OPTIONS[option]
        if self.word not in commands or option in self.given or text is None or not NUMBER.fullmatch(text):
            return False
        self.given[option] = int(text)
        return least <= int(text) <= most

    def take(self, word, rest):
        """Takes a word, and where it is an option what follows it; whether it may."""
        option, equals, text = word.partition("=")
        if word in FLAGS:
            if self.word not in FLAGS[word] or word in self.flags:
                return False
            self.flags.add(word)
        elif option in OPTIONS:
            return self.set(option, text if equals else next(rest, None))
        elif word.startswith("-") or not word:
            return False
        else:
            self.directories.append(word)
        return True


def command(words):
    """The command of some words, or none: a usage fault."""
    if not words or words[0] not in DIRECTORIES:
        return None
    asked, rest = Command(words[0]), iter(words[1:])
    for word in rest:
        if word == "--":
            directories = list(rest)
            if any(not one or one.startswith("-") for one in directories):
                return None
            asked.directories += directories
        elif not asked.take(word, rest):
            return None
    if len(asked.directories) != DIRECTORIES[asked.word] or asked.word == "recover" and asked.flags and asked.value("--workers") == 0:
        return None
    return asked
