"""The programs that list fields, proved and built. `rt` proves only what has changed, so it is asked each time, and the archive of the C interface is made
again where a file of a crate is newer: no answer comes from a program that is older than the crates. What the prover says goes to a log. Run by itself
this makes the program `list`."""

import contextlib
import fcntl
import pathlib
import re
import subprocess
import sys
import threading

ROOT = pathlib.Path(__file__).resolve().parents[2]
LOGS = PROGRAMS = ROOT / "target" / "explain"
SOURCES = pathlib.Path(__file__).parent
ARCHIVE = ROOT / "target" / "staticlib" / "libexports.a"
INTERFACE = ("writeexports", "areaexports", "exports")  # the crates that it is made of
SILENT = 5  # seconds before a run that proves something says so
CHECKED = re.compile(r"crate (\S+): modules loaded=")


class Missing(Exception):
    """A program isn't there and can't be made, or didn't answer."""


def list_program():
    """The paper's listing program, for messages of at most 65,536 bytes."""
    return program("list")


def fields_program():
    """The C interface's field list, for messages of any size."""
    return c_program("fields")


def areas_program():
    """The C interface's field list of areas, and the turning of their holes."""
    return c_program("areas")


def cards_program():
    """The C interface's opening of a card, and whether it fits."""
    return c_program("cards")


def c_program(name):
    """A program of this folder over the C interface."""
    made, source = PROGRAMS / name, SOURCES / (name + ".c")
    crates = list(dict.fromkeys(crate for top in INTERFACE for crate in closure(top)))
    with told_after("making the archive of the C interface, %d crates: this takes minutes the first time; the prover's notes go to %s" % (len(crates), log_of("archive"))):
        logged("archive", ["tools/c/archive"], Progress(crates).line)  # makes it only if it has to
    with alone("explain"):
        if not fresh(made, ARCHIVE, source, ROOT / "include"):
            logged(name, ["tools/c/kit", "build", str(made), str(source), str(ARCHIVE)])
    return made


def fresh(made, *sources):
    """Whether a made file is there, and no source of it is newer."""
    if not made.exists():
        return False
    files = [file for source in sources for file in ([source] if source.is_file() else source.rglob("*"))]
    return made.stat().st_mtime >= max(file.stat().st_mtime for file in files)


def program(name):
    """Proves and builds a program and what it depends on, as far as it isn't, and says how far it is. It is run once, on no input."""
    crates = closure(name)
    with alone("rt"), told_after("proving %s, %d crates: this takes minutes the first time; the prover's notes go to %s" % (name, len(crates), log_of(name))):
        logged(name, ["rt", "run"], Progress(crates).line, ROOT / "crates" / name)
    return ROOT / "crates" / name / "out" / name


@contextlib.contextmanager
def told_after(text):
    """Says what takes so long."""
    waiting = threading.Timer(SILENT, say, [text])
    waiting.start()
    try:
        yield
    finally:
        waiting.cancel()


@contextlib.contextmanager
def alone(name):
    """While nobody else is at it here: who comes second waits. The lock of `rt` is that of tools/alone."""
    LOGS.mkdir(parents=True, exist_ok=True)
    with open(ROOT / "target" / (name + ".lock"), "w") as lock:
        fcntl.flock(lock, fcntl.LOCK_EX)
        yield


class Progress:
    """One line for each crate that had to be proved, of those in the order in which they are."""

    def __init__(self, crates):
        self.crates, self.name = crates, None

    def line(self, text):
        match = CHECKED.match(text)
        if match:
            self.name = match[1]
        elif text.startswith("logic=proved ") and self.name in self.crates:
            say("%d of %d: %s proved" % (self.crates.index(self.name) + 1, len(self.crates), self.name))


def closure(name):
    """A crate and the project's crates that it depends on, by crates.txt, in the order in which `rt` proves them: each after those that it uses."""
    lines = [line.split("#")[0].split(":") for line in (ROOT / "crates.txt").read_text().splitlines()]
    uses = {line[0].split()[0]: line[1].split() for line in lines if len(line) == 2}
    found = []

    def find(crate):
        for used in uses[crate]:
            if used in uses and used not in found:
                find(used)
        found.append(crate)

    find(name)
    return found


def log_of(name):
    return (LOGS / (name + ".log")).relative_to(ROOT)


def logged(name, command, each=lambda text: None, folder=ROOT):
    """Runs a command, its output into a log, and each line of it to a function."""
    LOGS.mkdir(parents=True, exist_ok=True)
    with open(ROOT / log_of(name), "w", encoding="utf-8", errors="backslashreplace") as log:
        try:
            running = subprocess.Popen(command, cwd=folder, stdout=subprocess.PIPE, stderr=subprocess.STDOUT, stdin=subprocess.DEVNULL, errors="backslashreplace")
        except FileNotFoundError as problem:
            raise Missing("the Rattle kit's command `rt` isn't found: it proves and builds the program that lists fields (README, \"What is needed\")") from problem
        with running:
            for text in running.stdout:
                log.write(text)
                each(text)
    if running.returncode != 0:
        raise Missing("`%s` failed; %s says why" % (" ".join(command[:3]), log_of(name)))


def say(text):
    print("explain: " + text, file=sys.stderr, flush=True)


if __name__ == "__main__":  # for ./list
    try:
        list_program()
    except (Missing, OSError) as problem:
        sys.exit("list: %s" % problem)
    except KeyboardInterrupt:
        sys.exit("list: stopped")
