"""Runs of the program on files: the words, the files of the folder that it runs in, what it has to print, and its status.

They are made of the rows of this folder, and of those of tests/rows: documents that are open together are files of one `check`, a
rename in one document is a rename in its file, and a session is a file that is replayed.
"""
import json
import pathlib
import posixpath
import sys
from typing import Callable, NamedTuple, Optional

HERE = pathlib.Path(__file__).resolve().parent
ROOT = HERE.parent.parent
sys.path[:0] = [str(ROOT / "tests" / "sessions"), str(ROOT / "tests" / "rows")]
import client  # noqa: E402
import row_files  # noqa: E402
import scripts  # noqa: E402

USAGE = b"""\
usage: scheme_ls serve
       scheme_ls serve --ahead
       scheme_ls replay FILE
       scheme_ls arrows
       scheme_ls check FILE...
       scheme_ls rename FILE LINE COL NAME
       scheme_ls selfrun N
"""
# The most bytes of a document, and of a word that a process is given on Linux, with the byte behind it.
LONGEST_TEXT, LONGEST_WORD = 1_048_576, 131_072
# A recorded session that a fault of frames ends, and what is written of it.
FAULTY = b"Content-Length: +5\r\n"
FAREWELL = client.frame(b'{"jsonrpc":"2.0","method":"window/logMessage","params":{"message":"frame fault 3 at 16","type":1}}')
# Behind this line and column no row of words asks for a name that is there.
FAR = 99


class Room(NamedTuple):
    """What takes only so many bytes of an output: a pipe whose other end is closed then, or a file that may have no more."""

    is_pipe: bool
    count: int


class Run(NamedTuple):
    """`files` has contents by names: bytes, or what README.md tells. `wrong` says what is wrong with an output, where anything is. A
    stream that is replayed is also `served`."""

    what: str
    words: list
    files: dict
    status: int
    wrong: Callable
    room: Optional[Room] = None
    served: Optional[bytes] = None


def run_of(row, words, files, printed, status):
    told = " ".join(it.decode(errors="replace") for it in words)
    return Run(f"{row.file}:{row.line}: {row.call} ({told[:200]})", words, files, status, unless(printed))


def unless(wanted):
    """What is wrong with an output unless it is the wanted one."""
    return lambda got: None if got == wanted else f"wanted {near(wanted, got)}\n    got    {near(got, wanted)}"


def near(text, other, most=400):
    """Bytes as far as they can be shown, from a little before the first place where they differ from others."""
    at = next((n for n, (a, b) in enumerate(zip(text, other)) if a != b), min(len(text), len(other)))
    start = max(0, at - most // 2)
    return f"{text[start : start + most]!r}" + f" from byte {start} on" * (start > 0)


def lines(told):
    return "".join(line + "\n" for line in told).encode()


# ---- the rows of this folder


def rows(file):
    """The rows of a file of this folder, in the format of tests/rows."""
    for number, line in enumerate((HERE / file).read_text(encoding="utf-8").split("\n"), 1):
        if line and not line.startswith("#"):
            yield row_files.Row(f"tests/commands/{file}", number, *line.split("\t"))


def on_files(row):
    """A row that tells its files."""
    words, files = json.loads(row.argument)
    printed, status = json.loads(row.wanted)
    contents = {name: it if is_special(it) else scripts.made(it) for name, it in files}
    return run_of(row, [scripts.made(it) for it in words], contents, scripts.made(printed), status)


def is_special(content):
    """Whether a content isn't a text."""
    return isinstance(content, dict) and not content.keys() & {"bytes", "repeat"}


def asked(row):
    """A row of words, as a run in a folder that has the files which they name, and no others. What is printed of these shows which
    were asked for, and what a rename was asked."""
    words, (kind, *more) = [scripts.made(it) for it in json.loads(row.argument)], json.loads(row.wanted)
    return run_of(row, words, *ASKED[kind](*more))


def selfrun(number):
    """`selfrun`: the counts follow from the number."""
    return {}, lines([f"documents {number + 1}", "diagnostics 0", f"arrows {8 * number + 2}", "references 3", "edits 3"]), 0


def check(names):
    """`check` of files, none of which reads."""
    said = lines(f"{name}:0:0: error 5 open list" for name in sorted(names, key=str.encode))
    return dict.fromkeys(names, b"("), said, 1


def rename(file, at, name, outcome):
    """`rename` at a position to a name: of a `v` that stands there and is defined behind it, if it is accepted. If the position is far
    away nothing stands there."""
    line, column = at
    text = b"\n" * line * (line <= FAR) + b" " * column * (column <= FAR) + b"v (define v 1)"
    if outcome != "accepted":
        return {file: text}, lines([outcome]), 1
    starts = column, column + len("v (define ")
    return {file: text}, lines(f"{file}:{line}:{start}-{line}:{start + 1}: {name}" for start in starts), 0


# What words ask for, by its kind: the files, what is printed, and the status.
ASKED = {
    "unknown": lambda: ({}, USAGE, 2),
    "arrows": lambda: ({}, b"", 0),
    "serve": lambda: ({}, b"", 1),
    "replay": lambda file: ({file: FAULTY}, FAREWELL, 6),
    "check": check,
    "too many files": lambda: ({}, b"", 7),
    "rename": rename,
    "selfrun": selfrun,
}


# ---- the rows of tests/rows


def is_path(name):
    """Whether a document's uri can be the name of a file in a folder."""
    parts = posixpath.normpath(name).split("/")
    return bool(name.strip("/.")) and not {name[0], name[-1]} & {"/"} and ".." not in parts and all(0 < len(it.encode()) < 256 for it in parts)


def as_files(documents):
    """Documents as files with their uris as names, or None where they can't be."""
    files = {uri: scripts.made(text) for uri, text in documents}
    differ = len({posixpath.normpath(uri) for uri in files}) == len(documents)
    return files if differ and all(map(is_path, files)) and all(len(it) <= LONGEST_TEXT for it in files.values()) else None


def words_of(command, words):
    """The words of a command, behind `--` where one of them would be an option; None where one can't be a word."""
    if not all(0 < len(it) < LONGEST_WORD and b"\0" not in it for it in words):
        return None
    return [command, *[b"--"] * any(it.startswith(b"-") and len(it) > 1 for it in words), *words]


def place(text, offset):
    at = text.position(offset)
    return f"{at['line']}:{at['character']}"


def checked(row):
    """Documents that are open together, as files of one `check` that are named from the last on, and the last one twice."""
    files = as_files(json.loads(row.argument))
    words = files and words_of(b"check", [uri.encode() for uri in [*reversed(files), *reversed(files)][: len(files) + 1]])
    if not words:
        return None
    printed, found = [], dict(json.loads(row.wanted))
    for uri in sorted(files, key=str.encode):
        text = client.Lines(files[uri].decode())
        printed += [f"{uri}:{place(text, start)}: {'error' if severity == 1 else 'warning'} {code} {message}"
                    for start, _, code, severity, message in found[uri]]
    status = 1 if any(severity == 1 for listed in found.values() for _, _, _, severity, _ in listed) else 0
    return run_of(row, words, files, lines(printed), status)


def renamed(row):
    """A rename in the one document that is open, where it is asked in UTF-16."""
    documents, (uri, (line, column)), name, *encoding = json.loads(row.argument)
    files = as_files(documents)
    words = files and words_of(b"rename", [uri.encode(), b"%d" % line, b"%d" % column, name.encode()])
    if not words or len(files) > 1 or uri not in files or encoding not in ([], ["utf-16"]) or max(line, column) > 999_999_999:
        return None
    text, wanted = client.Lines(files[uri].decode()), json.loads(row.wanted)
    if isinstance(wanted, str):
        return run_of(row, words, files, lines([wanted]), 1)
    edits = [it for _, listed in wanted for it in listed]
    return run_of(row, words, files, lines(f"{uri}:{place(text, start)}-{place(text, end)}: {new}" for start, end, new in edits), 0)


def sessions():
    """The sessions of tests/rows, as tests/sessions has them."""
    programs, found = scripts.Programs(), []
    for row in row_files.rows():
        if row.call.startswith("programs/"):
            programs.add(row)
        elif row.call == "session/rename":
            found.append(scripts.Renamed(row))
        elif row.call in ("session/new", "stream/of"):
            found.append(scripts.Session())
        if row.call in ("session/body", "session/body-made", "stream/of"):
            found[-1].add(row)
    return [it for it in [*found, programs] if any(step.row for step in it.steps)]


def replayed(script):
    """A session whose stream is a file."""
    stream = b"".join(next(script.cuts(0))[1])
    first = next(step.row for step in script.steps if step.row)

    def wrong(written):
        failed = {f"{row.file}:{row.line}: wanted {row.wanted[:400]}\n    got    {(got or '')[:400]}" for row, got in script.judge(written)}
        return "\n".join(sorted(failed)) or None

    what = f"{first.file}:{first.line}: {first.call}, replayed"
    return Run(what, [b"replay", b"a session"], {"a session": stream}, script.status, wrong, served=stream)


# ---- writes that fail


# A text with a diagnostic for each of many uses, an identifier with many uses, and a session with many replies: of each more is printed
# than a pipe takes.
MANY = 4_000
MANY_UNBOUND = b"(import (scheme base))\n" + b"x " * MANY
MANY_WARNINGS = lines(f"f.scm:1:{2 * number}: warning 103 unbound x" for number in range(MANY))
MANY_USES = b"(define x 1)\n" + b"x " * MANY
MANY_EDITS = lines(["f.scm:0:8-0:9: y", *(f"f.scm:1:{2 * number}-1:{2 * number + 1}: y" for number in range(MANY))])
MANY_BODIES = client.frame(b'{"jsonrpc":"2.0","id":1,"method":"shutdown"}') * MANY
MANY_REPLIES = client.frame(b'{"error":{"code":-32002,"message":"server not initialized"},"id":1,"jsonrpc":"2.0"}') * MANY
LONG = [
    ([b"check", b"f.scm"], {"f.scm": MANY_UNBOUND}, MANY_WARNINGS),
    ([b"rename", b"f.scm", b"1", b"0", b"y"], {"f.scm": MANY_USES}, MANY_EDITS),
    ([b"replay", b"f.scm"], {"f.scm": MANY_BODIES}, MANY_REPLIES),
]
SHORT = [
    ([b"check"], {}, USAGE),
    ([b"check", b"b", b"a"], *check(["a", "b"])[:2]),
    ([b"rename", b"a", b"0", b"0", b"w"], *rename("a", (0, 0), "w", "accepted")[:2]),
    ([b"rename", b"a", b"0", b"0", b"1"], *rename("a", (0, 0), "1", "refused 3 bad name")[:2]),
    ([b"rename", b"a", b"0", b"0", b"w"], {"a": b"\xff"}, b"a:0:0: error 13 not UTF-8\n"),
    ([b"replay", b"a"], {"a": FAULTY}, FAREWELL),
    ([b"selfrun", b"2"], *selfrun(2)[:2]),
]


def cut_short(words, files, printed, is_pipe, count):
    """A run that can write only so many bytes: these are there, and the status is 5."""
    what = f"{b' '.join(words).decode()}, where {'a pipe' if is_pipe else 'a file'} takes {count} bytes"
    return Run(what, words, files, 5, unless(printed[:count]), Room(is_pipe, count))


def broken_writes():
    for words, files, printed in LONG:
        for count in (0, 1, 5_000):
            yield cut_short(words, files, printed, True, count)
    for words, files, printed in SHORT:
        yield cut_short(words, files, printed, True, 0)
        for count in range(len(printed)):
            yield cut_short(words, files, printed, False, count)


# ---- all of them


def all_runs():
    """The runs by their kinds."""
    taken = list(row_files.rows())
    return {
        "words": [asked(it) for it in rows("words.rows")],
        "files": [on_files(it) for it in rows("files.rows")],
        "check": [run for it in taken if it.call == "programs/open" and (run := checked(it))],
        "rename": [run for it in taken if it.call == "session/rename" and (run := renamed(it))],
        "replay": [replayed(it) for it in sessions()],
        "writes": [*broken_writes()],
    }
