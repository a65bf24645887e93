#!/usr/bin/env python3
"""Tries the released programs: what runs in a new clone, what is not run, and what the gate refuses.

Usage: bench/release.py [--programs FOLDER]

It copies the files of this folder to another one, and works there alone. The programs are those that stand built, crates/NAME/out/NAME,
or those of FOLDER: they need not be proved, for what is tried is how they are packed, found, run and compared. It is a part of .ci/run, takes
a minute, and needs the kit to pack; the copy then runs without it, as a machine does that has none.
"""
import os
import shutil
import subprocess
import sys
import tempfile

TOP = os.path.dirname(os.path.dirname(os.path.abspath(__file__)))
PROGRAMS = ("desk", "day_page")
SAMPLE = ["batch 0 shift 1020000000000", "batch 1 keep 192000000000", "ended quiet", "changes 4", "cost 180000000000"]
MOST_BYTES = 1_048_576
NOBODY = 65534
SAID = "rt: ok; handles allowed: Threads, Wait; every proof was done in this run\n3 passed, 0 failed\n"


class Tries:
    """A copy of the folder, and what was tried there."""

    def __init__(self, room):
        self.room, self.copy, self.failed, self.count = room, f"{room}/copy", 0, 0
        os.chmod(room, 0o755)
        # all that a plain Debian has, and no kit
        self.tools = f"{room}/tools"
        os.mkdir(self.tools)
        for folder in ("/usr/bin", "/bin"):
            for name in os.listdir(folder):
                if name != "rt" and not os.path.lexists(f"{self.tools}/{name}"):
                    os.symlink(f"{folder}/{name}", f"{self.tools}/{name}")

    def run(self, *words, with_kit=False, at=None, drop=False, **environment):
        """Runs a command in the copy. Gives its status, and what it said on both streams."""
        path = os.environ["PATH"] if with_kit else self.tools
        tmp = f"{self.room}/tmp"
        os.makedirs(tmp, exist_ok=True)
        env = {"PATH": path, "HOME": self.room, "TMPDIR": tmp, "LANG": "C.UTF-8", **environment}
        prefix = ["setpriv", f"--reuid={NOBODY}", f"--regid={NOBODY}", "--clear-groups"] if drop and os.geteuid() == 0 else []
        ran = subprocess.run([*prefix, *words], cwd=at or self.copy, env=env, stdin=subprocess.DEVNULL, capture_output=True, text=True, check=False, errors="replace")
        return ran.returncode, ran.stdout, ran.stderr

    def holds(self, what, is_so, told=""):
        self.count += 1
        if not is_so:
            self.failed += 1
            print(f"FAILED: {what}: {told}")

    def desk(self, *words, **how):
        return self.run(f"{self.copy}/desk", *words, **how)

    def is_refused(self, what, reason):
        """Neither --version nor a command runs anything, and both say the reason."""
        for words in (["--version"], ["recover", "examples/disrupted", f"{self.room}/none"]):
            status, out, err = self.desk(*words)
            self.holds(f"{what}: {words[0]}", status == 70 and not out and reason in err, (status, out, err))
        self.holds(f"{what}: nothing is written", not os.path.exists(f"{self.room}/none"))

    def is_run(self, what, **how):
        status, out, err = self.desk("recover", "examples/disrupted", f"{self.room}/out", **how)
        self.holds(what, (status, out.splitlines(), err) == (0, SAMPLE, ""), (status, out, err))


def copied(tries):
    """Copies what git knows, or would, of this folder."""
    listed = subprocess.run(["git", "ls-files", "-z", "--cached", "--others", "--exclude-standard"], cwd=TOP, capture_output=True, check=True).stdout
    for name in filter(None, listed.decode().split("\0")):
        if os.path.isfile(f"{TOP}/{name}"):
            os.makedirs(os.path.dirname(f"{tries.copy}/{name}"), exist_ok=True)
            shutil.copy2(f"{TOP}/{name}", f"{tries.copy}/{name}")
    for name in PROGRAMS:
        for end in ("xz", "txt"):
            if os.path.exists(f"{tries.copy}/released/{name}.{end}"):
                os.remove(f"{tries.copy}/released/{name}.{end}")


def place(tries, folder):
    """Puts the programs where the gate's proofs leave them."""
    for name in PROGRAMS:
        to = f"{tries.copy}/crates/{name}/out"
        os.makedirs(to, exist_ok=True)
        shutil.copyfile(f"{folder}/{name}" if folder else f"{TOP}/crates/{name}/out/{name}", f"{to}/{name}")
        os.chmod(f"{to}/{name}", 0o755)


def release(tries, verb, *words):
    return tries.run(f"{tries.copy}/release", verb, *words, with_kit=True)


def gate(tries):
    """What .ci/run does around `rt ci`, which is taken to have built what stands."""
    said = f"{tries.room}/said"
    with open(said, "w", encoding="utf-8") as file:
        file.write(SAID)
    for words in (["begin"], ["mark", said]):
        status, out, err = release(tries, *words)
        tries.holds(f"release {words[0]}", status == 0, (status, out, err))


def changed(path, old=None, new=None):
    """Changes one byte of a file, or a text in it, and leaves its time as it was. Gives what takes that back."""
    with open(path, "rb") as file:
        was = file.read()
    times = os.stat(path)
    now = was.replace(old, new, 1) if old else was[:-40] + bytes([was[-40] ^ 1]) + was[-39:]
    assert now != was

    def write(what):
        with open(path, "wb") as file:
            file.write(what)
        os.utime(path, ns=(times.st_atime_ns, times.st_mtime_ns))

    write(now)
    return lambda: write(was)


def try_packing(tries, folder):
    """Only what the gate built is packed."""
    place(tries, folder)
    status, out, err = release(tries, "make")
    tries.holds("nothing is packed before the gate ran", status == 1 and "run it first" in err, (status, out, err))
    gate(tries)
    for what, path, reason in (
        ("nothing is packed of sources that were changed since", "crates/desk_core/src/lib.rt", "was changed since"),
        ("no other program is packed", "crates/desk/out/desk", "is not what .ci/run built"),
    ):
        back = changed(f"{tries.copy}/{path}")
        status, out, err = release(tries, "make")
        tries.holds(what, status == 1 and reason in err and not os.path.exists(f"{tries.copy}/released/desk.xz"), (status, out, err))
        back()
    status, out, err = release(tries, "make")
    tries.holds("what the gate built is packed", status == 0, (status, out, err))
    for name in PROGRAMS:
        size = os.path.getsize(f"{tries.copy}/released/{name}.xz")
        tries.holds(f"{name} is small enough", size <= MOST_BYTES, size)
    status, out, err = release(tries, "same")
    tries.holds("the gate holds what it built to be the same", status == 0 and out.count("byte for byte") == 2, (status, out, err))


def try_gate(tries):
    """The gate refuses a release of other sources, and a program that was patched."""
    back = changed(f"{tries.copy}/crates/desk_core/src/lib.rt")
    gate(tries)
    status, out, err = release(tries, "same")
    tries.holds("a release of other sources fails", status == 1 and "these differ: desk_core" in out, (status, out, err))
    back()
    gate(tries)
    packed, of = f"{tries.copy}/released/desk.xz", f"{tries.copy}/released/desk.txt"
    with open(packed, "rb") as file:
        was = file.read()
    plain = subprocess.run(["xz", "-dc", packed], capture_output=True, check=True).stdout
    patched = plain[:-1] + bytes([plain[-1] ^ 1])
    sums = [subprocess.run(["sha256sum"], input=it, capture_output=True, check=True).stdout[:64] for it in (plain, patched)]
    back = changed(of, sums[0], sums[1])
    with open(packed, "wb") as file:
        file.write(subprocess.run(["xz", "-9e"], input=patched, capture_output=True, check=True).stdout)
    status, out, err = release(tries, "same")
    tries.holds("a program that was patched fails", status == 1 and "is not the one that was proved" in out, (status, out, err))
    back()
    with open(packed, "wb") as file:
        file.write(was)
    status, out, err = release(tries, "same")
    tries.holds("and what was packed passes again", status == 0, (status, out, err))


def try_first_runs(tries):
    """In a new clone without a kit, and in one that has it."""
    for name in PROGRAMS:
        shutil.rmtree(f"{tries.copy}/crates/{name}/out")
    shutil.rmtree(f"{tries.copy}/released/out")
    words = [f"{tries.copy}/desk", "recover", "examples/disrupted"]
    env = {"PATH": tries.tools, "HOME": tries.room, "TMPDIR": tries.room}
    first = [subprocess.Popen([*words, f"{tries.room}/at{it}"], cwd=tries.copy, env=env, stdout=subprocess.PIPE, text=True) for it in range(4)]
    for it in first:
        out = it.communicate()[0]
        tries.holds("four first runs at one time", (it.returncode, out.splitlines()) == (0, SAMPLE), out)
    tries.is_run("the second run")
    status, out, err = tries.desk("--version")
    tries.holds("--version", status == 0 and out.startswith("released") and f"file {tries.copy}/released/out/desk" in out, (status, out, err))
    status, out, err = tries.desk("check", "examples/disrupted", f"{tries.room}/out")
    tries.holds("check", (status, out) == (0, "feasible\ncost 180000000000\n"), (status, out, err))
    status, out, err = tries.desk("gen", "--size", "1", f"{tries.room}/made")
    tries.holds("gen", status == 0 and os.path.exists(f"{tries.room}/made/flights.csv"), (status, out, err))
    page = f"{tries.room}/day.html"
    status, out, err = tries.desk("page", "examples/disrupted", f"{tries.room}/out", page)
    tries.holds("page", status == 0 and os.path.isfile(page) and "</html>" in open(page, encoding="utf-8").read(), (status, out, err))
    status, out, err = tries.desk("page", "examples/disrupted", f"{tries.room}/out", "-")
    tries.holds("page -", status == 0 and out == open(page, encoding="utf-8").read(), (status, err))
    status, out, err = tries.desk("page", "examples/nowhere", f"{tries.room}/out", page)
    tries.holds("a page that can't be made leaves the old one", status not in (0, 7) and os.path.getsize(page) > 0, (status, out, err))
    status, out, err = tries.desk("recover", "examples/disrupted", f"{tries.room}/out", with_kit=True)
    tries.holds("with the kit", (status, out.splitlines()) == (0, SAMPLE), (status, out, err))
    os.remove(f"{tries.tools}/xz")
    shutil.rmtree(f"{tries.copy}/released/out")
    if os.path.exists(f"{tries.tools}/python3"):
        tries.is_run("without xz")
    shutil.rmtree(f"{tries.copy}/released/out", ignore_errors=True)
    os.symlink("/usr/bin/xz", f"{tries.tools}/xz")
    tries.is_run("once more")


def try_changes(tries):
    """One byte of anything that a program is made from, or of what is packed: it is not run."""
    specs = next(f"specs/{it}" for it in sorted(os.listdir(f"{tries.copy}/crates/desk_rules/specs")) if it.endswith(".antt"))
    for what, path, old, new, reason in (
        ("a source", "crates/desk_core/src/lib.rt", None, None, "these differ: desk_core\n"),
        ("a definition", f"crates/desk_rules/{specs}", None, None, "these differ: desk_rules\n"),
        ("crates.txt", "crates.txt", b"\nfile_rows:", b"\nfile_rows: ", "these differ: file_rows\n"),
        ("HANDLES", "HANDLES", b"Threads", b"Thread", "these differ: HANDLES\n"),
        ("the packed file", "released/desk.xz", None, None, "released/desk.xz"),
        ("the SHA-256", "released/desk.txt", b"\nprogram ", b"\nprogram 0", "its SHA-256 is another"),
    ):
        back = changed(f"{tries.copy}/{path}", old, new)
        tries.is_refused(f"{what} was changed", reason)
        back()
        tries.is_run(f"{what} is as it was")
    os.rename(f"{tries.copy}/crates/desk_core/src/lib.rt", f"{tries.room}/lib.rt")
    tries.is_refused("a source is gone", "these differ: desk_core\n")
    os.rename(f"{tries.room}/lib.rt", f"{tries.copy}/crates/desk_core/src/lib.rt")
    kept = f"{tries.copy}/released/out/desk"
    back = changed(kept)
    tries.is_run("what was unpacked was changed, and is unpacked anew")
    if shutil.which("rt"):
        back = changed(f"{tries.copy}/released/desk.txt", b"\nkit rattle", b"\nkit settle")
        status, out, err = tries.desk("--version", with_kit=True)
        tries.holds("another kit", status == 70 and "another kit" in err, (status, out, err))
        back()


def try_unwritable(tries):
    """In a folder that can't be written the program stands below TMPDIR; and where that can't be written either, that is said."""
    shutil.rmtree(f"{tries.copy}/released/out")
    own = f"{tries.room}/own"
    os.mkdir(own)
    if os.geteuid() == 0:
        os.chown(own, NOBODY, NOBODY)
    else:
        os.chmod(f"{tries.copy}/released", 0o555)
    status, out, err = tries.desk("recover", "examples/disrupted", f"{own}/out", drop=True, TMPDIR=own)
    tries.holds("unwritable", (status, out.splitlines(), err) == (0, SAMPLE, ""), (status, out, err))
    status, out, err = tries.desk("--version", drop=True, TMPDIR=own)
    tries.holds("unwritable: --version", status == 0 and f"file {own}/desk-of-" in out, (status, out, err))
    shut = f"{tries.room}/shut"
    os.mkdir(shut, 0o555)
    status, out, err = tries.desk("check", "examples/disrupted", f"{own}/out", drop=True, TMPDIR=shut)
    tries.holds("nothing can be written", status == 70 and not out and "name another folder by TMPDIR" in err, (status, out, err))
    os.chmod(f"{tries.copy}/released", 0o755)


def main(words):
    folder = os.path.abspath(words[1]) if words[:1] == ["--programs"] and len(words) == 2 else None
    if words and not folder:
        print(__doc__.strip(), file=sys.stderr)
        return 2
    with tempfile.TemporaryDirectory(prefix="desk-release-") as room:
        tries = Tries(room)
        copied(tries)
        try_packing(tries, folder)
        try_gate(tries)
        try_first_runs(tries)
        try_changes(tries)
        try_unwritable(tries)
    print(f"release: {tries.count - tries.failed} of {tries.count} tries as they have to be")
    return 1 if tries.failed else 0


if __name__ == "__main__":
    try:
        sys.exit(main(sys.argv[1:]))
    except OSError as error:
        print(f"release: {error}", file=sys.stderr)
        sys.exit(2)
