#!/usr/bin/env python3
"""Drives the built `scheme_ls serve` over a pipe and prints what it measures, one line of a table each.

  serve.py [--runs N] [--limit SECONDS] [PROGRAM] [GROUP ..]

PROGRAM is crates/scheme_ls/out/scheme_ls unless told. Figures are medians of N runs (7), each in a process of its own, but for
questions, which are asked in one; hostile texts are opened 3 times, and 64 documents once. A time ends when the last byte of the
answer has come, and what takes longer than the limit (300 s) is given up. A ratio is that to the line before, whose text is half as
long. The peak is the most memory that the process ever had (VmHWM); it may have 8 GiB. GROUP is one of

  start      from the start of the process to the answer to `initialize`
  open       opening one document until its diagnostics are there: procedures of the shapes `derived` and `core` of bench/expand.sh,
             at an eighth, a quarter, a half and the whole of 220 KB
  questions  a change of one character; definition, references, highlights, prepareRename and arrows in the document of 220 KB, the
             first of each after a change apart from the following ones; then the same where one name is used 50,000 times
  renames    a rename in these two documents that is accepted, beside opening one, and one that each condition refuses which they can
             fail; what the memory grows to by the renames
  many       64 documents of 64 KB: opened one after another, which takes minutes, a change, a question
  files      `check` of 1, 2, 4, .. 64 files of 64 KB, each beside opening the last of as many documents with their texts, which takes
             in all of them anew. The peak of `check` may be this script's own, which it begins with
  hostile    texts that are long, deep, at limits, or whose expansion is large: opening one, with its first diagnostic
"""
import argparse
import json
import os
import pathlib
import platform
import resource
import select
import shutil
import statistics
import subprocess
import sys
import tempfile
import time

ROOT = pathlib.Path(__file__).resolve().parent.parent
PROGRAM = ROOT / "crates/scheme_ls/out/scheme_ls"
URI = "file:///a.scm"
WHOLE = 220 * 1024
LIMIT = 1_048_576
MEMORY = 8 << 30


class NoAnswer(Exception):
    """None came in time, or the program ended."""


def frame(method, params, number=None):
    message = {"jsonrpc": "2.0", "method": method, "params": params}
    if number is not None:
        message["id"] = number
    body = json.dumps(message, ensure_ascii=False).encode()
    return b"Content-Length: %d\r\n\r\n%s" % (len(body), body)


class Client:
    """One process with its session."""

    def __init__(self, program, limit):
        self.limit, self.unread, self.number, self.version = limit, bytearray(), 0, 0
        self.start = time.perf_counter()
        self.process = subprocess.Popen([str(program), "serve"], stdin=subprocess.PIPE, stdout=subprocess.PIPE, bufsize=0)
        resource.prlimit(self.process.pid, resource.RLIMIT_AS, (MEMORY, MEMORY))
        self.started = self.ask("initialize", {"capabilities": {}}, self.start)[0]

    def __enter__(self):
        return self

    def __exit__(self, *_):
        self.process.kill()
        self.process.wait()
        self.process.stdin.close()
        self.process.stdout.close()

    def send(self, data):
        rest = memoryview(data)
        try:
            while rest:
                rest = rest[os.write(self.process.stdin.fileno(), rest) :]
        except BrokenPipeError:
            raise NoAnswer(self.ended()) from None

    def ended(self):
        try:
            return f"ended with status {self.process.wait(5)}"
        except subprocess.TimeoutExpired:
            return "closed its output"

    def receive(self, deadline):
        """The next message, and when its last byte came."""
        head = -1
        length = 0
        while True:
            if head < 0:
                head = self.unread.find(b"\r\n\r\n")
                if head >= 0:
                    fields = dict(it.split(b":", 1) for it in bytes(self.unread[:head]).split(b"\r\n"))
                    length = int(fields[b"Content-Length"])
            if head >= 0 and len(self.unread) >= head + 4 + length:
                at = time.perf_counter()
                body = bytes(self.unread[head + 4 : head + 4 + length])
                del self.unread[: head + 4 + length]
                return json.loads(body), at
            left = deadline - time.perf_counter()
            if left <= 0 or not select.select([self.process.stdout], [], [], left)[0]:
                raise NoAnswer(f"no answer in {self.limit:g} s")
            piece = os.read(self.process.stdout.fileno(), 1 << 20)
            if not piece:
                raise NoAnswer(self.ended())
            self.unread += piece

    def wait_for(self, is_it, start):
        """The seconds from the start to the message that is waited for, and the message."""
        while True:
            message, at = self.receive(start + self.limit)
            if is_it(message):
                return at - start, message

    def ask(self, method, params, start=None):
        self.number += 1
        number, data = self.number, frame(method, params, self.number)
        start = start or time.perf_counter()
        self.send(data)
        seconds, message = self.wait_for(lambda it: it.get("id") == number and "method" not in it, start)
        return seconds, message

    def tell(self, method, params, uri):
        """Tells a document event, and waits for the diagnostics of its document or the log of its refusal."""
        data = frame(method, params)
        start = time.perf_counter()
        self.send(data)

        def is_it(message):
            if message.get("method") == "window/logMessage":
                return uri in message["params"]["message"]
            return message.get("method") == "textDocument/publishDiagnostics" and message["params"]["uri"] == uri

        return self.wait_for(is_it, start)

    def open(self, text, uri=URI):
        document = {"uri": uri, "languageId": "scheme", "version": 0, "text": text}
        return self.tell("textDocument/didOpen", {"textDocument": document}, uri)

    def change(self, start, end, text, uri=URI):
        self.version += 1
        change = {"range": {"start": start, "end": end}, "text": text}
        return self.tell("textDocument/didChange", {"textDocument": {"uri": uri, "version": self.version}, "contentChanges": [change]}, uri)

    def peak(self):
        for line in pathlib.Path(f"/proc/{self.process.pid}/status").read_text(encoding="ascii").splitlines():
            if line.startswith("VmHWM:"):
                return int(line.split()[1]) / 1024
        return None


# ---- texts

CORE = """(define (f%d a b c)
  (define x (+ a b))
  (define (down n kept) (if (< n 1) kept (down (- n 1) (cons n kept))))
  (set! x (* x c))
  (if (eq? x 0) (quote (done %d)) (down x (list a b c (lambda (y) (f%d y a x))))))
"""
DERIVED = """(define (g%d a b)
  (let* ((x (+ a b)) (y (* x 2)))
    (cond ((assv x '((1 . 2))) => cdr)
          ((and (> x 1) (or (< y 9) (even? y)))
           (let down ((i %d) (kept '())) (if (= i y) kept (down (- i 1) (cons i kept)))))
          (else (when (zero? x) (set! y 1)) (g%d y a)))))
"""


def procedures(shape, count):
    return "".join(shape % (k, k, max(k - 1, 0)) for k in range(count))


def how_many(shape, size, multiple=1):
    """How many procedures such a text may have."""
    count = 0
    while len(procedures(shape, count + multiple)) <= size:
        count += multiple
    return count


def position(text, offset):
    """The position of an offset of an ASCII text."""
    before = text[:offset]
    return {"line": before.count("\n"), "character": offset - (before.rfind("\n") + 1)}


def row_of(part, count):
    return "".join(part.replace("#", str(k)) for k in range(count))


def as_long_as(part, size=LIMIT):
    return part * (size // len(part))


def padded(text, size=LIMIT):
    return text + " " * (size - len(text))


def libraries(count, imports, body):
    """Libraries and a program that imports the last of them."""
    found = "".join("(define-library (l %d) (import (scheme base)%s) %s)\n" % (k, imports(k), body(k)) for k in range(count))
    return found + "(import (scheme base) (l %d))\n" % (count - 1)


def handed_on(count, names):
    export = "(export%s)" % row_of(" n#", names)
    first = "(begin%s)" % row_of(" (define n# #)", names)
    return libraries(count, lambda k: " (l %d)" % (k - 1) if k else "", lambda k: export + ("" if k else first))


def all_before(count):
    return libraries(count, lambda k: row_of(" (l #)", k), lambda k: "(export n%d) (begin (define n%d %d))" % (k, k, k))


def circle(count):
    return "".join("(define-library (l %d) (import (l %d)))\n" % (k, (k + 1) % count) for k in range(count))


TWICE = "(define-syntax twice (syntax-rules () ((_ x) (list x x))))\n"
GROW = "(define-syntax grow (syntax-rules () ((_ (x ...) ()) '(x ...)) ((_ (x ...) (t . r)) (grow (x ... x ...) r))))\n"
LOOP = "(define-syntax loop (syntax-rules () ((_) (loop))))\n"
MORE = "(define-syntax more (syntax-rules () ((_ x ...) (more x ... 1))))\n"
LITERALS = "(define-syntax m (syntax-rules (%s) %s))\n" % (row_of("l# ", 1000), row_of("((_ l#) #) ", 1000))


def doubled(levels):
    return TWICE + "(twice " * levels + "1" + ")" * levels


HOSTILE = [
    ("the empty text", lambda: ""),
    ("one list, quoted", lambda: "'(" + "a " * (LIMIT // 2 - 2) + ")"),
    ("one call", lambda: "(" + "1 " * (LIMIT // 2 - 1) + ")"),
    ("one call of 99,000 parts", lambda: "(list" + " 1" * 99_000 + ")"),
    ("lists in lists, 400 deep", lambda: as_long_as("(" * 400 + ")" * 400)),
    ("calls in calls, 399 deep", lambda: as_long_as("(- " * 399 + "1" + ")" * 399 + "\n")),
    ("quoted lists in lists, 399 deep", lambda: as_long_as("'" + "(" * 399 + ")" * 399 + "\n")),
    ("tails in tails", lambda: "'" + "(a . " * 398 + "(" + "x " * (LIMIT // 2 - 1400) + ")" * 399),
    ("quote marks on quote marks, 400 deep", lambda: as_long_as("'" * 400 + "a ")),
    ("datum comments on datum comments", lambda: as_long_as("#;" * 400 + "a " * 400)),
    ("open lists to the end", lambda: "(" * LIMIT),
    ("one name", lambda: "a" * LIMIT),
    ("one string", lambda: '"' + "a\\n" * (LIMIT // 3 - 1) + '"'),
    ("one comment", lambda: ";" * LIMIT),
    ("one comment, nested", lambda: "#|" * (LIMIT // 4) + "|#" * (LIMIT // 4)),
    ("spaces", lambda: " " * LIMIT),
    ("a text of one byte more than it may have", lambda: " " * (LIMIT + 1)),
    ("30,000 definitions, to the limit of a text", lambda: padded(row_of("(define (f# x) (* x x))\n", 30_000))),
    ("one definition again and again, to the limit of a text", lambda: padded(as_long_as("(define (square x) (* x x))\n"))),
    ("10,000 macro uses and behind them as many definitions", lambda: "(define-syntax same (syntax-rules () ((_ x) x)))\n" + row_of("(same #)\n", 10_000) + row_of("(define d# #)\n", 10_000)),
    ("one `begin` of 10,000 definitions", lambda: "(begin\n" + row_of("(define d# #)\n", 10_000) + ")\n"),
    ("one body of 10,000 definitions", lambda: "(define (f)" + row_of(" (define d# #)", 10_000) + row_of(" d#", 10_000) + ")\n"),
    ("90,000 uses of the outermost of 190 binders", lambda: row_of("(lambda (a#) ", 190) + "(list" + " a0" * 90_000 + ")" * 191),
    ("490,000 unbound names", lambda: "x\n" * 490_000),
    ("a macro that doubles a use 13 times", lambda: doubled(13)),
    ("a macro that doubles a use 14 times", lambda: doubled(14)),
    ("a macro that doubles a list 15 times", lambda: GROW + "(grow (a) (" + "t " * 15 + "))"),
    ("a macro that doubles a list 18 times", lambda: GROW + "(grow (a) (" + "t " * 18 + "))"),
    ("1,000 forms whose macro uses don't end", lambda: LOOP + "(loop)\n" * 1_000),
    ("1,000 forms whose macro uses grow", lambda: MORE + "(more 1)\n" * 1_000),
    ("5,000 uses of the last of 1,000 rules", lambda: LITERALS + "(m l999)\n" * 5_000),
    ("240 calls of 1,000 parts", lambda: ("(list" + " 1" * 1_000 + ")\n") * 240),
    ("260 calls of 1,000 parts", lambda: ("(list" + " 1" * 1_000 + ")\n") * 260),
    ("128 units, each importing all before it", lambda: all_before(127)),
    ("128 units that hand on 1,000 names", lambda: handed_on(127, 1_000)),
    ("128 libraries on one circle", lambda: circle(128)),
    ("129 units", lambda: circle(129)),
    ("an import set of 390 prefixes", lambda: "(import " + "(prefix " * 390 + "(scheme base)" + " p)" * 390 + ")"),
]


# ---- the table

def show(what, size="", figure="", ratio="", peak="", beside=""):
    print(f"| {what} | {size} | {figure} | {ratio} | {peak} | {beside} |", flush=True)


def seconds(value):
    return f"{1000 * value:.2f} ms" if value < 0.1 else f"{value:.3f} s"


def megabytes(value):
    return "" if value is None else f"{value:.1f} MiB"


def found(message):
    """The first diagnostic of a list, and how many there are, or what was logged."""
    if "diagnostics" not in message["params"]:
        return message["params"]["message"][:60]
    every = message["params"]["diagnostics"]
    if not every:
        return "no diagnostics"
    errors = [it for it in every if it["severity"] == 1] or every
    first = f"{errors[0]['code']} {errors[0]['message'][:60]}"
    return first if len(every) == 1 else f"{len(every):,} diagnostics, among them {first}"


def answered(message):
    """How much an answer holds."""
    if "error" in message:
        return f"error {message['error']['code']}: {message['error']['message'][:60]}"
    result = message["result"]
    if isinstance(result, dict) and "changes" in result:
        return f"{sum(map(len, result['changes'].values())):,} edits"
    return f"{len(result):,} of them" if isinstance(result, list) else "nothing" if result is None else "one"


class Bench:
    def __init__(self, program, runs, limit):
        self.program, self.runs, self.limit = program, runs, limit

    def client(self):
        return Client(self.program, self.limit)

    def start(self):
        taken, peaks = [], []
        for _ in range(self.runs):
            with self.client() as client:
                taken.append(client.started)
                peaks.append(client.peak())
        show("start to the first answer", "", seconds(statistics.median(taken)), "", megabytes(statistics.median(peaks)))

    def opened(self, text, runs):
        """The median of opening a text, the peak, and what was found."""
        taken, peaks, last = [], [], None
        for _ in range(runs):
            with self.client() as client:
                one, last = client.open(text)
                taken.append(one)
                peaks.append(client.peak())
        return statistics.median(taken), statistics.median(peaks), found(last)

    def open(self):
        for name, shape in (("derived forms", DERIVED), ("core forms", CORE)):
            count, before = how_many(shape, WHOLE, 8), None
            for part in (8, 4, 2, 1):
                text = procedures(shape, count // part)
                taken, peak, what = self.opened(text, self.runs)
                ratio = f"{taken / before:.2f}" if before else ""
                beside = f"Chez {chez(text, self.runs)}; {what}"
                show(f"opening {count // part} procedures of {name}", f"{len(text):,}", seconds(taken), ratio, megabytes(peak), beside)
                before = taken

    def questions(self):
        count = how_many(DERIVED, WHOLE, 8)
        text = procedures(DERIVED, count)
        middle = f"(g{count // 2 - 1} y a)"
        self.ask_all(f"{count} procedures", text, position(text, text.index(middle) + 1))
        text = "(define (f) 1)\n" + "(f)\n" * 50_000
        self.ask_all("a name with 50,000 uses", text, position(text, text.index("(f)\n") + 1))

    def ask_all(self, name, text, at):
        """Asks each question after a change, and then again without one."""
        document, runs = {"uri": URI}, self.runs
        here = {"textDocument": document, "position": at}
        questions = {
            "definition": ("textDocument/definition", here),
            "references": ("textDocument/references", {**here, "context": {"includeDeclaration": True}}),
            "highlights": ("textDocument/documentHighlight", here),
            "prepareRename": ("textDocument/prepareRename", here),
            "arrows": ("scheme/arrows", {"textDocument": document}),
        }
        end = position(text, len(text))
        behind = {"line": end["line"], "character": end["character"] + 1}
        with self.client() as client:
            client.open(text)
            opened = client.peak()
            changes = []
            for what, (method, params) in questions.items():
                first, following, message = [], [], None
                for run in range(runs):
                    changes.append(client.change(end, end if run % 2 == 0 else behind, " " if run % 2 == 0 else "")[0])
                    taken, message = client.ask(method, params)
                    first.append(taken)
                    following += [client.ask(method, params)[0] for _ in range(3)]
                if runs % 2:
                    client.change(end, behind, "")
                size, told = f"{len(text):,}", answered(message)
                show(f"{name}: the first {what} after a change", size, seconds(statistics.median(first)), "", "", told)
                show(f"{name}: {what} again", size, seconds(statistics.median(following)), "", "", told)
            show(f"{name}: a change of one character until its diagnostics", f"{len(text):,}", seconds(statistics.median(changes)))
            show(f"{name}: memory after opening", f"{len(text):,}", "", "", megabytes(opened))
            show(f"{name}: memory after all changes and questions", f"{len(text):,}", "", "", megabytes(client.peak()))

    def renames(self):
        count = how_many(DERIVED, WHOLE, 8)
        text = procedures(DERIVED, count)
        self.rename_all(f"{count} procedures", text, text.index(f"(g{count // 2 - 1} y a)") + 1, text.index("cond"), "cdr")
        text = "(define (f) 1)\n" + "(f)\n" * 50_000
        self.rename_all("a name with 50,000 uses", text, text.index("(f)\n") + 1, text.index("define"), "define")

    def rename_all(self, name, text, bound, standard, taken):
        """Renames what is bound at an offset, and asks for renames that are refused, in a session that changes nothing. A standard name
        stands at another offset, and another one can't be a new name."""
        size, document = f"{len(text):,}", {"uri": URI}
        with self.client() as client:
            show(f"{name}: opening", size, seconds(client.open(text)[0]), "", megabytes(client.peak()))
            for what, at, new in (
                ("accepted", bound, "h"),
                ("refused", 0, "h"),
                ("refused", standard, "h"),
                ("refused", bound, "1"),
                ("refused", bound, taken),
            ):
                params = {"textDocument": document, "position": position(text, at), "newName": new}
                asked = [client.ask("textDocument/rename", params) for _ in range(self.runs)]
                told = answered(asked[-1][1])
                show(f"{name}: a rename that is {what}", size, seconds(statistics.median(it for it, _ in asked)), "", megabytes(client.peak()), told)
            client.open("(", "file:///unread.scm")
            once, message = client.ask("textDocument/rename", {"textDocument": document, "position": position(text, bound), "newName": "h"})
            show(f"{name}: a rename beside a text that doesn't read", size, seconds(once), "", "", answered(message))

    def many(self):
        text = padded(procedures(DERIVED, how_many(DERIVED, 65_536)), 65_536)
        start = {"line": 0, "character": 0}
        uris = [f"file:///{k:02}.scm" for k in range(64)]
        with self.client() as client:
            all_of_them, before = 0, None
            for count, uri in enumerate(uris, 1):
                taken = client.open(text, uri)[0]
                all_of_them += taken
                if count & (count - 1) == 0:
                    ratio = f"{taken / before:.2f}" if before else ""
                    show(f"opening document {count} of 64", f"{count} × {len(text):,}", seconds(taken), ratio, megabytes(client.peak()))
                    before = taken
            size = f"64 × {len(text):,}"
            show("opening all 64, one after another", size, seconds(all_of_them))
            taken = client.change(start, start, " ", uris[0])[0]
            show("a change of one character with 64 open", size, seconds(taken), "", megabytes(client.peak()))
            at = position(text, text.index("(g0 y a)") + 1)
            asked = {"textDocument": {"uri": uris[1]}, "position": at}
            taken, message = client.ask("textDocument/definition", asked)
            show("the first definition after it", size, seconds(taken), "", "", answered(message))
            taken, message = client.ask("textDocument/definition", asked)
            show("definition again", size, seconds(taken), "", megabytes(client.peak()), answered(message))
            taken, message = client.open(text, "file:///64.scm")
            show("a 65th document", size, seconds(taken), "", megabytes(client.peak()), found(message))

    def files(self):
        text = padded(procedures(DERIVED, how_many(DERIVED, 65_536)), 65_536)
        with self.client() as client:
            for count in range(1, 65):
                opened = client.open(text, f"file:///{count - 1:02}.scm")[0]
                if count & (count - 1) == 0:
                    checked, peak = self.checked(text, count)
                    beside = f"{checked / opened:.2f} of opening the last of as many documents, {seconds(opened)}"
                    show(f"check of {count} files", f"{count} × {len(text):,}", seconds(checked), "", megabytes(peak), beside)

    def checked(self, text, count):
        """The seconds that `check` of so many files with this text takes, and its peak."""
        with tempfile.TemporaryDirectory() as folder:
            names = [f"{folder}/{k:02}.scm" for k in range(count)]
            for name in names:
                pathlib.Path(name).write_text(text, encoding="utf-8")
            start = time.perf_counter()
            with subprocess.Popen([self.program, "check", *names], stdout=subprocess.DEVNULL) as process:
                _, status, used = os.wait4(process.pid, 0)
                process.returncode = os.waitstatus_to_exitcode(status)
            if process.returncode not in (0, 1):
                raise NoAnswer(f"check ended with status {process.returncode}")
            return time.perf_counter() - start, used.ru_maxrss / 1024

    def hostile(self):
        for name, make in HOSTILE:
            text = make()
            size = f"{len(text):,}"
            try:
                taken, peak, what = self.opened(text, min(self.runs, 3))
                show(name, size, seconds(taken), "", megabytes(peak), what)
            except NoAnswer as fault:
                show(name, size, "", "", "", str(fault))


CHEZ = """(define (expand-all path)
  (call-with-input-file path
    (lambda (port)
      (let next ((form (read port)))
        (unless (eof-object? form)
          (expand form)
          (when (and (pair? form) (eq? (car form) 'define-syntax))
            (eval form))
          (next (read port)))))))
(define (seconds path)
  (collect)
  (let ((start (current-time 'time-monotonic)))
    (expand-all path)
    (let ((taken (time-difference (current-time 'time-monotonic) start)))
      (+ (time-second taken) (/ (time-nanosecond taken) 1e9)))))
(let next ((k (string->number (caddr (command-line)))))
  (unless (= k 0)
    (display (seconds (cadr (command-line))))
    (newline)
    (next (- k 1))))
"""


def chez(text, runs):
    """The median of the times in which Chez Scheme reads and expands a text."""
    program = shutil.which("chezscheme")
    if not program:
        return "isn't installed"
    with tempfile.TemporaryDirectory() as folder:
        script, source = pathlib.Path(folder, "time.ss"), pathlib.Path(folder, "text.scm")
        script.write_text(CHEZ, encoding="utf-8")
        source.write_text(text, encoding="utf-8")
        answer = subprocess.run([program, "--script", str(script), str(source), str(runs)], capture_output=True, text=True, check=False)
    taken = [float(it) for it in answer.stdout.split()]
    return seconds(statistics.median(taken)) if len(taken) == runs else "failed"


GROUPS = ["start", "open", "questions", "renames", "many", "files", "hostile"]


def main():
    options = argparse.ArgumentParser(usage="serve.py [--runs N] [--limit SECONDS] [PROGRAM] [GROUP ..]")
    options.add_argument("--runs", type=int, default=7)
    options.add_argument("--limit", type=float, default=300)
    options.add_argument("words", nargs="*")
    told = options.parse_args()
    program = PROGRAM
    if told.words and told.words[0] not in GROUPS:
        program = pathlib.Path(told.words.pop(0))
    unknown = [it for it in told.words if it not in GROUPS]
    if unknown or told.runs < 1:
        options.error(f"no such group: {' '.join(unknown)}" if unknown else "at least one run")
    if not os.access(program, os.X_OK):
        sys.exit(f"serve.py: {program} is missing: run bin/scheme_ls first")
    commit = subprocess.run(["git", "-C", str(ROOT), "rev-parse", "--short", "HEAD"], capture_output=True, text=True, check=False).stdout.strip()
    print(f"{time.strftime('%d %B %Y')}, commit {commit or 'unknown'}, {os.cpu_count()} processors ({platform.machine()}), load {os.getloadavg()[0]:.1f}\n")
    show("What", "Bytes", "Median", "Ratio", "Peak", "Beside")
    show(*["---"] * 6)
    bench = Bench(program, told.runs, told.limit)
    for group in told.words or GROUPS:
        try:
            getattr(bench, group)()
        except NoAnswer as fault:
            show(f"the rest of {group}", beside=str(fault))
    print(f"\nload at the end {os.getloadavg()[0]:.1f}")


if __name__ == "__main__":
    main()
