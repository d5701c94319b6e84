"""The rows of this folder, and which of them the built program shows.

A file NAME.rows has a row a line, CALL tab ARGUMENT tab EXPECTED; empty lines and lines that begin with '#' are for the reader. The
files are taken in the order of their names. Rows whose calls are of the groups SESSIONS are given to the program scheme_ls by
tests/sessions/run, and tests/sessions/README.md tells what they say. Those of the groups PROGRAMS are answered by the program
`program_rows`, and all others by the program `rows`.
"""
import pathlib
import sys
from typing import NamedTuple

HERE = pathlib.Path(__file__).resolve().parent
SESSIONS = {"command", "programs", "session", "stream"}
PROGRAMS = {"differences"}


class Row(NamedTuple):
    file: str
    line: int
    call: str
    argument: str
    wanted: str

    @property
    def group(self):
        return self.call.split("/")[0]

    @property
    def is_of_sessions(self):
        return self.group in SESSIONS

    @property
    def crate(self):
        """The crate of the program that answers it, where it is of no session."""
        return "program_rows" if self.group in PROGRAMS else "rows"


def rows():
    for file in sorted(HERE.glob("*.rows")):
        for number, line in enumerate(file.read_text(encoding="utf-8").split("\n"), 1):
            if not line or line.startswith("#"):
                continue
            parts = line.split("\t")
            if len(parts) != 3:
                sys.exit(f"{file.name}:{number}: not CALL tab ARGUMENT tab EXPECTED")
            yield Row(file.name, number, *parts)
