"""Pages: folders with a document `Main.qml` and a script `script.txt`, and how the program is run on one.

A page may have a file `words`: further words of the command line, parted by blanks or line ends.
"""
import argparse
import os
import pathlib
import re
import subprocess
import tempfile
import threading
from typing import NamedTuple

from pictures import PictureError, p6_images

TOP = pathlib.Path(__file__).resolve().parent.parent
LAUNCHER = TOP / "qmlstage"
PROGRAM = TOP / "crates" / "qmlstage" / "out" / "qmlstage"


class PagesError(Exception):
    """There is no such page, or no program to run it."""


class Ended(NamedTuple):
    """How a run ended: its exit status, the bytes of its notes, and, where it is no run to judge, what is wrong."""

    status: int
    notes: bytes
    fault: str


def is_page(folder):
    return (folder / "Main.qml").is_file() and (folder / "script.txt").is_file()


def pages_of(directories):
    """The pages, as paths: each directory that is one, and else the folders in it that are, in the order of names."""
    pages = []
    for directory in map(pathlib.Path, directories):
        found = [directory] if is_page(directory) else sorted(filter(is_page, directory.glob("*/")))
        if not found:
            raise PagesError(f"{directory} is no page, and none is in it: a page has Main.qml and script.txt")
        pages += [page for page in found if page not in pages]
    return pages


def words_of(page):
    """The further words of a page's command line."""
    file = page / "words"
    return file.read_text().split() if file.exists() else []


def lines_of(data):
    """The lines of a script or of notes, as bytes, each with its LF; the last may lack it."""
    return re.findall(rb"[^\n]*\n|[^\n]+", data)


def program_path(given):
    """The program that was given, or this repository's, which is first built where it is missing or old."""
    if given:
        if not os.access(given, os.X_OK) or os.path.isdir(given):
            raise PagesError(f"{given} is no program")
        return os.path.abspath(given)
    with tempfile.TemporaryDirectory() as folder:
        for name, text in ("Main.qml", "Item { }"), ("script.txt", ""):
            pathlib.Path(folder, name).write_text(text)
        calm = {name: value for name, value in os.environ.items() if name != "QMLSTAGE_TRY"}
        if subprocess.run([LAUNCHER, "Main.qml", "script.txt"], cwd=folder, env=calm).returncode != 0:
            raise PagesError("the program does not run")
    return str(PROGRAM)


def run_page(program, folder, words, seconds, take):
    """Runs the program in a folder, with further words, for `seconds` at most. `take` is called with each frame, as
    a Picture, as soon as it was written. Gives how the run Ended."""
    command = [program, "Main.qml", "script.txt", *words]
    late, fault = threading.Event(), ""
    with tempfile.TemporaryFile() as notes:
        streams = dict(stdin=subprocess.DEVNULL, stdout=subprocess.PIPE, stderr=notes)
        with subprocess.Popen(command, cwd=folder, **streams) as process:
            timer = threading.Timer(seconds, lambda: (late.set(), process.kill()))
            timer.start()
            try:
                for picture in p6_images(process.stdout):
                    take(picture)
            except PictureError as error:
                fault = f"standard output has no frames: {error}"
            finally:
                process.stdout.close()
                status = process.wait()
                timer.cancel()
        notes.seek(0)
        if late.is_set():
            fault = f"it did not end within {seconds:g} s"
        elif status < 0:
            fault = f"it was ended by signal {-status}"
        return Ended(status, notes.read(), fault)


def above_zero(kind):
    """What reads a number of that kind, int or float, from a word of the command line."""

    def read(text):
        try:
            number = kind(text)
        except ValueError:
            number = 0
        if not 0 < number < 1_000_000:
            raise argparse.ArgumentTypeError(f"{text!r} is no number above 0 and below a million")
        return number

    return read
