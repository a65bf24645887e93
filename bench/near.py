#!/usr/bin/env python3
"""Compares the moves near plans, move by move, with those that another program lists.

Usage: bench/near.py [--shards N] COMMAND FOLDER ..

Each FOLDER has the 13 files of a day, and a journal.csv whose events are taken first. COMMAND is called with a folder, a
shard and the number of shards after its words. It prints the moves of that shard near the plan that is then left, in their
order, each as a line of the journal by caller 0 up to its answer: `0,move,STEPS`. The desk's are those that LegMoves and
PaxMoves give, one after another. They are made and compared by a program that stands in this script, since it has no place in
the gate. It is proved and built in a folder of its own, over the libraries of this repository as `./prove` leaves them, which
takes some minutes, and kept in bench/out until a source is newer.

The whole list is compared, and each of N shards, 3 where it is left out. The first line that differs is printed of each folder and
shard, and the status is 1 where there is one.
"""
import glob
import os
import shlex
import shutil
import subprocess
import sys
import tempfile
from concurrent.futures import ThreadPoolExecutor

TOP = os.path.dirname(os.path.dirname(os.path.abspath(__file__)))
CRATES = os.path.join(TOP, "crates")
KEPT = os.path.join(TOP, "bench", "out", "near_list")
STANDS_ON = (
    "desk_units", "day_orders", "desk_data", "desk_rules", "desk_folder", "desk_words", "desk_tasks",
    "desk_core", "desk_eval", "desk_model", "near_moves", "plan_moves", "plan_pages", "output_texts", "near_legs", "near_pax",
)
# its source and its proofs, by their files
PROGRAM = {
    "src/main.rt": r"""//! Compares the moves near plans with lists of them, or counts them.
//!
//! Standard input has cases, one after the other. A case has a line with a word, a shard, the number of
//! shards and the number of its files; and these: a line each with the file's name and how many bytes it has,
//! and these bytes. After the word `compare` the last file is `list`, the lines of the moves near the plan
//! after the events of the day: what is printed is how many there are, or the first that differs. After
//! `count` it is how many moves there are, and how long it took to walk through them.
#![tactic(auto)]

ghost use Rattle.std.specs.Prelude.{◌≡◌, ◌<◌, [], IfOk, OnOk};
ghost use Rattle.desk_data.specs.Valid.{IsPlanFor};
ghost use Rattle.desk_model.specs.Histories.{IsAskable, AreAskable};

use desk_core::Book;
use desk_data::{Grains, Instance};
use desk_folder::{ALL_FILES, File, MemFolder};
use desk_model::{Answer, Entry, Event};
use desk_tasks::{InputStory, InputTask, read_task};
use desk_words::Command;
use near_legs::LegMoves;
use near_pax::PaxMoves;
use output_texts::journal_line;
use plan_moves::{Move, fits};
use plan_pages::Pages;
use std::alloc::Global;
use std::io::{self, ErrorKind, Read};
use std::time::Instant;

// A case: a shard of some, the files of a day, and the list that its moves are compared with.
#[derive(Drop)]
struct Case {
    compares: bool,
    shard: u32,
    shards: u32,
    files: Vec<(File, Vec<u8>)>,
    list: Vec<u8>,
}

fn bad() -> io::Error {
    io::Error::from(ErrorKind::InvalidData)
}

// The first line of some bytes, and what follows it.
fn cut_line(bytes: &[u8]) -> Option<(&str, &[u8])> {
    let end = bytes.iter().position(|byte| *byte == b'\n')?;
    let (line, rest) = bytes.split_at(end);
    Some((std::str::from_utf8(line).ok()?, rest.get(1..)?))
}

fn file_of(name: &str) -> Option<File> {
    for file in ALL_FILES {
        if file.name() == name {
            return Some(file);
        }
    }
    None
}

// A number up to a blank, and what follows that.
fn cut_number(text: &str) -> Option<(u32, &str)> {
    let (number, rest) = text.split_once(' ')?;
    Some((number.parse().ok()?, rest))
}

// The line of a file, its bytes, and what follows them.
fn cut_file(bytes: &[u8]) -> Option<(&str, &[u8], &[u8])> {
    let (line, behind) = cut_line(bytes)?;
    let (name, size) = line.split_once(' ')?;
    let size: usize = size.parse().ok()?;
    let (text, behind) = behind.split_at(size.min(behind.len()));
    Some((name, text, behind))
}

// The first line of a case: whether it compares, its shard, the number of shards and of files.
fn cut_head(line: &str) -> Option<(bool, u32, u32, u32)> {
    let (what, line) = line.split_once(' ')?;
    let (shard, line) = cut_number(line)?;
    let (shards, line) = cut_number(line)?;
    Some((what == "compare", shard, shards, line.parse().ok()?))
}

// The next case, and what follows it.
fn cut_case(alloc: Global, bytes: &[u8]) -> io::Result<(Case, &[u8])> {
    let (line, mut rest) = cut_line(bytes).ok_or(bad())?;
    let (compares, shard, shards, count) = cut_head(line).ok_or(bad())?;
    let mut files = Vec::new(alloc);
    let mut list = Vec::new(alloc);
    for _ in 0..count {
        let (name, text, behind) = cut_file(rest).ok_or(bad())?;
        match file_of(name) {
            Some(file) => files.push((file, Vec::from_slice(alloc, text)?))?,
            None => list.extend_from_slice(text)?,
        }
        rest = behind;
    }
    Ok((Case { compares, shard, shards, files, list }, rest))
}

// The day of some files, and the events of its journal.
fn story_of(alloc: Global, files: Vec<(File, Vec<u8>)>) -> io::Result<InputStory>
    ensures { IfOk result (λ story. (story.inst.orders ≡ []) × AreAskable story.inst story.events.items) }
{
    let mut folder = MemFolder::new(files, Vec::new(alloc), Vec::new(alloc));
    match read_task(alloc, &Command::Replay, &mut folder) {
        Ok(InputTask::Play(story)) => Ok(story),
        _ => Err(bad()),
    }
}

fn take_event(alloc: Global, book: &mut Book, caller: u32, event: &Event) -> io::Result<()>
    requires { IsAskable book.old.opening event.now }
    ensures { OnOk result (book.new.opening ≡ book.old.opening) }
{
    match event {
        Event::Batch(batch) => {
            book.intake(alloc, caller, batch).ok().ok_or(bad())?;
            Ok(())
        }
        Event::Move(m) => {
            book.propose(alloc, caller, m).ok().ok_or(bad())?;
            Ok(())
        }
    }
}

// The book of a day after these events.
fn run_events(alloc: Global, inst: Instance, events: &[(u32, Event)]) -> io::Result<Book>
    requires fresh { inst.orders ≡ [] }
    requires asked { AreAskable inst events.now }
{
    let mut book = Book::open(alloc, inst).ok().ok_or(bad())?;
    for asked in events {
        take_event(alloc, &mut book, asked.0, &asked.1)?;
    }
    Ok(book)
}

fn book_of(alloc: Global, files: Vec<(File, Vec<u8>)>) -> io::Result<Book> {
    let InputStory { inst, events } = story_of(alloc, files)?;
    run_events(alloc, inst, events.as_slice())
}

// Adds the line of a move, without its answer.
fn push_move(alloc: Global, out: &mut Vec<u8>, inst: &Instance, m: Move) -> io::Result<()> {
    if !fits(inst, &m) {
        return Err(bad());
    }
    let entry = Entry {
        caller: 0,
        event: Event::Move(m),
        answer: Answer::Accepted { cost: Grains(0) },
    };
    let line = journal_line(alloc, inst, 0, &entry).ok().ok_or(bad())?;
    let told = line.as_slice().strip_suffix(b",accepted 0\n").ok_or(bad())?;
    out.extend_from_slice(told)?;
    out.push(b'\n')?;
    Ok(())
}

// Adds the line of a move; where moves are counted, nothing.
fn tell_move(alloc: Global, out: &mut Vec<u8>, inst: &Instance, m: Move, compares: bool) -> io::Result<()> {
    if !compares {
        return Ok(());
    }
    push_move(alloc, out, inst, m)
}

// How many moves of legs there are; they are printed where they are to be compared.
fn walk_legs(alloc: Global, out: &mut Vec<u8>, inst: &Instance, plan: &Pages, case: &Case) -> io::Result<u64>
    requires plan { IsPlanFor inst.now plan.now }
    requires shard { case.now.shard < case.now.shards }
{
    let mut moves = LegMoves::of(alloc, inst, plan, case.shard, case.shards).ok().ok_or(bad())?;
    for n in 0..u64::MAX {
        match moves.next(alloc, inst, plan).ok().ok_or(bad())? {
            Some(m) => tell_move(alloc, out, inst, m, case.compares)?,
            None => return Ok(n),
        }
    }
    Err(bad())
}

// The same of moves of passengers.
fn walk_passengers(alloc: Global, out: &mut Vec<u8>, inst: &Instance, plan: &Pages, case: &Case) -> io::Result<u64>
    requires plan { IsPlanFor inst.now plan.now }
    requires shard { case.now.shard < case.now.shards }
{
    let mut moves = PaxMoves::of(alloc, inst, plan, case.shard, case.shards).ok().ok_or(bad())?;
    for n in 0..u64::MAX {
        match moves.next(alloc, inst, plan).ok().ok_or(bad())? {
            Some(m) => tell_move(alloc, out, inst, m, case.compares)?,
            None => return Ok(n),
        }
    }
    Err(bad())
}

// The line of a text that begins with these bytes, with no end.
fn shown(alloc: Global, bytes: &[u8]) -> io::Result<String> {
    let line = match cut_line(bytes) {
        Some((line, _)) => line,
        None => "none",
    };
    Ok(String::from_str(alloc, line)?)
}

// Prints how many lines two lists have, or the first that differs.
fn compare<P: Print>(rt: &P, alloc: Global, own: &[u8], other: &[u8]) -> io::Result<()> {
    let (mut own, mut other, mut n) = (own, other, 0u64);
    for _ in 0..u64::MAX {
        match (cut_line(own), cut_line(other)) {
            (None, None) => {
                println!(rt; "same {n}")?;
                return Ok(());
            }
            (Some((a, own_rest)), Some((b, other_rest))) if a == b => {
                own = own_rest;
                other = other_rest;
                n = n.saturating_add(1);
            }
            _ => {
                let own = shown(alloc, own)?;
                let other = shown(alloc, other)?;
                println!(rt; "move {n}: the desk has {own} and the other {other}")?;
                return Ok(());
            }
        }
    }
    Err(bad())
}

fn do_case(rt: &HostRuntime, alloc: Global, mut case: Case) -> io::Result<()> {
    let files = std::mem::replace(&mut case.files, Vec::new(alloc));
    let book = book_of(alloc, files)?;
    let inst = book.instance();
    let plan = book.eval().plan();
    if case.shard >= case.shards {
        return Err(bad());
    }
    let mut out = Vec::new(alloc);
    let start = Instant::now(rt)?;
    let of_legs = walk_legs(alloc, &mut out, inst, plan, &case)?;
    let took_legs = start.elapsed(rt)?.as_millis();
    let of_passengers = walk_passengers(alloc, &mut out, inst, plan, &case)?;
    let took = start.elapsed(rt)?.as_millis();
    if case.compares {
        return compare(rt, alloc, out.as_slice(), case.list.as_slice());
    }
    println!(rt; "{of_legs} moves of legs in {took_legs} ms, {of_passengers} of passengers, {took} ms in all")?;
    Ok(())
}

fn main(rt: HostRuntime) -> io::Result<()> {
    let alloc = rt.alloc();
    let mut bytes = Vec::new(alloc);
    rt.reader().read_to_end(&mut bytes)?;
    let mut rest = bytes.as_slice();
    for _ in 0..u64::MAX {
        if rest.is_empty() {
            break;
        }
        let (case, behind) = cut_case(alloc, rest)?;
        do_case(&rt, alloc, case)?;
        rest = behind;
    }
    Ok(())
}
""",
    "proofs/run_events/Answers.antt": r"""use Rattle.std.proofs.Common.{ℕ, sym, subst}
use Rattle.desk_model.specs.declared.answer.Event.{Event}
use Rattle.desk_model.specs.Histories.{IsAskable}
use Rattle.near_list.proofs.run_events.Goals as goal

pub take_event-requires : goal.take_event-requires
take_event-requires c =
    rw c.loop-asked.invariant
    (subst (λ (asked : ℕ × Event). IsAskable c.args.inst asked.1) (sym c.asked-item.is)
    (c.requires.asked c.loop-asked.asked-index c.asked-item.result c.loop-asked-test.true))
""",
    "proofs/run_events/Invariants.antt": r"""use Rattle.std.proofs.Common.{◌≡◌}
use Rattle.near_list.proofs.run_events.Given as goal

-- the day that the book was opened with stays
abbrev pub invariant-loop-asked : goal.invariant-loop-asked
invariant-loop-asked l = l.book.opening ≡ l.fn.inst
""",
    "proofs/walk_legs/Invariants.antt": r"""use Rattle.near_legs.specs.Walk.{IsOf}
use Rattle.near_list.proofs.walk_legs.Given as goal

-- the moves are those of the plan
abbrev pub invariant-loop-n : goal.invariant-loop-n
invariant-loop-n l = IsOf l.inst l.plan l.moves
""",
    "proofs/walk_passengers/Invariants.antt": r"""use Rattle.near_pax.specs.Left.{IsOf}
use Rattle.near_list.proofs.walk_passengers.Given as goal

-- the moves are those of the plan
abbrev pub invariant-loop-n : goal.invariant-loop-n
invariant-loop-n l = IsOf l.inst l.plan l.moves
""",
}
NO_FILES = ("feed.csv", "journal.csv")
FILES = (
    "config.csv", "flights.csv", "rotations.csv", "aircraft.csv", "airports.csv", "dist.csv", "itineraries.csv", "position.csv",
    "alt_flights.csv", "alt_aircraft.csv", "alt_airports.csv", "tariff.csv", "feed.csv", "journal.csv",
)


def link(old, new):
    """Gives a file another name, or copies it where the new one lies on another disk. `rt` takes no symbolic link here."""
    try:
        os.link(old, new)
    except OSError:
        shutil.copy2(old, new)


def make_program(top):
    """A copy of this repository's sources with the program, over the same built libraries, and the program's folder."""
    shutil.copytree(CRATES, os.path.join(top, "crates"), ignore=shutil.ignore_patterns("out", "data", "must-fail"))
    for name in os.listdir(CRATES):
        built = os.path.join(CRATES, name, "out", "rlib")
        if os.path.isdir(built):
            shutil.copytree(built, os.path.join(top, "crates", name, "out", "rlib"), copy_function=link)
    for name in ("crates.txt", "HANDLES"):
        shutil.copy(os.path.join(TOP, name), top)
    with open(os.path.join(top, "crates.txt"), "a") as file:
        file.write("near_list: %s\n" % " ".join(STANDS_ON))
    crate = os.path.join(top, "crates", "near_list")
    for name, text in PROGRAM.items():
        path = os.path.join(crate, name)
        os.makedirs(os.path.dirname(path), exist_ok=True)
        with open(path, "w") as file:
            file.write(text)
    return crate


def is_older(program):
    """Whether the program is missing, or older than a source."""
    if not os.path.exists(program):
        return True
    sources = [os.path.join(TOP, "crates.txt"), os.path.abspath(__file__)]
    for part in ("src", "specs", "proofs"):
        sources += glob.glob(os.path.join(CRATES, "*", part, "**"), recursive=True)
    return os.path.getmtime(program) < max(map(os.path.getmtime, sources))


def built_program():
    """The program, proved and built."""
    if is_older(KEPT):
        subprocess.run([os.path.join(TOP, "prove"), *STANDS_ON], check=True)
        with tempfile.TemporaryDirectory() as folder:
            crate = make_program(folder)
            run = subprocess.run(["rt", "run"], cwd=crate, input=b"", stdout=subprocess.PIPE, stderr=subprocess.STDOUT)
            if run.returncode:
                sys.exit("the program could not be built:\n" + run.stdout.decode(errors="replace"))
            os.makedirs(os.path.dirname(KEPT), exist_ok=True)
            shutil.copy(os.path.join(crate, "out", "near_list"), KEPT)
    return KEPT


def file_text(name, text):
    return b"%s %d\n" % (name.encode(), len(text)) + text


def input_of(case, list_of=None):
    """What the program reads of a case, a folder, a shard and the number of shards; with a list, that is compared."""
    folder, shard, shards = case
    files = []
    for name in FILES:
        path = os.path.join(folder, name)
        if os.path.exists(path) or name not in NO_FILES:
            with open(path, "rb") as file:
                files.append(file_text(name, file.read()))
    if list_of is not None:
        files.append(file_text("list", list_of))
    head = "%s %d %d %d\n" % ("count" if list_of is None else "compare", shard, shards, len(files))
    return head.encode() + b"".join(files)


def run_program(text):
    """What the program prints of these cases, line by line, and its status."""
    ran = subprocess.run([built_program()], input=text, stdout=subprocess.PIPE)
    return ran.stdout.decode().splitlines(), ran.returncode


def other_list(command, case):
    """The list of a case by the other program."""
    words = command + [case[0], str(case[1]), str(case[2])]
    return subprocess.run(words, stdout=subprocess.PIPE, check=True).stdout


def main():
    words = sys.argv[1:]
    shards = int(words[1]) if words[:1] == ["--shards"] else 3
    words = words[2:] if words[:1] == ["--shards"] else words
    if len(words) < 2:
        sys.exit(__doc__)
    command, folders = shlex.split(words[0]), [os.path.abspath(folder) for folder in words[1:]]
    cases = [(folder, s, n) for folder in folders for s, n in [(0, 1)] + [(s, shards) for s in range(shards)]]
    with ThreadPoolExecutor(2) as pool:
        lists = list(pool.map(lambda case: other_list(command, case), cases))
    lines, status = run_program(b"".join(map(input_of, cases, lists)))
    moves, differ = 0, len(cases) - len(lines)
    for case, line in zip(cases, lines):
        if line.startswith("same "):
            moves += int(line[len("same "):])
        else:
            differ += 1
            print("%s, shard %d of %d, %s" % (*case, line))
    if len(lines) < len(cases):
        print("the program ended with status %d at %s, shard %d of %d" % (status, *cases[len(lines)]))
    print("%d days, %d lists, %d moves; %d lists differ" % (len(folders), len(cases), moves, differ))
    return 1 if differ else 0


if __name__ == "__main__":
    sys.exit(main())
