"""What programs that talk to the server need: its builds, frames, positions, streams in pieces, and a client that waits.

A test of a whole stream calls `converse` with the pieces that the server is to read. One that needs a reply before it goes on
makes a `Client`. Python's standard library is all that is needed.
"""
import bisect
import json
import os
import pathlib
import queue
import random
import re
import socket
import subprocess
import threading

ROOT = pathlib.Path(__file__).resolve().parent.parent.parent
OUT = ROOT / "crates" / "scheme_ls" / "out"
BUILDS = {"LLVM": OUT / "scheme_ls", "Rattle's own compiler": OUT / "scheme_ls.by-rattle"}
# The most bytes that `serve` reads at once, and `arrows`.
PIECE = 65_536
TEXT_PIECE = 4_096
SECONDS = 120


def builds():
    """The programs to be tried, by what built them: those that the gate leaves, or SCHEME_LS where that is set."""
    if "SCHEME_LS" in os.environ:
        return {"SCHEME_LS": pathlib.Path(os.environ["SCHEME_LS"])}
    return BUILDS


# ---- JSON and frames (LSP 3.17, base protocol)


def compact(value):
    """JSON as the server writes it: keys in byte order, no white space."""
    return json.dumps(value, ensure_ascii=False, separators=(",", ":"), sort_keys=True)


def request(number, method, params):
    return compact({"jsonrpc": "2.0", "id": number, "method": method, "params": params}).encode()


def notice(method, params):
    return compact({"jsonrpc": "2.0", "method": method, "params": params}).encode()


def opened(uri, text, version=1):
    return notice("textDocument/didOpen", {"textDocument": {"uri": uri, "languageId": "scheme", "version": version, "text": text}})


def closed(uri):
    return notice("textDocument/didClose", {"textDocument": {"uri": uri}})


def frame(body):
    return b"Content-Length: %d\r\n\r\n" % len(body) + body


def bodies(stream):
    """The bodies of a stream of such frames, and what stands behind them that is none."""
    found, at = [], 0
    while head := re.compile(rb"Content-Length: (\d+)\r\n\r\n").match(stream, at):
        end = head.end() + int(head[1])
        if end > len(stream):
            break
        found.append(stream[head.end() : end])
        at = end
    return found, stream[at:]


# ---- positions (LSP 3.17, Position)


class Lines:
    """The lines of a text, to turn offsets in bytes into positions and back. UNIT is what characters count in."""

    WIDTHS = {"utf-16": ("utf-16-le", 2), "utf-32": ("utf-32-le", 4), "utf-8": ("utf-8", 1)}

    def __init__(self, text, unit="utf-16"):
        self.bytes = text.encode()
        self.starts = [0] + [it.end() for it in re.finditer(rb"\r\n|\r|\n", self.bytes)]
        self.code, self.width = self.WIDTHS[unit]

    def position(self, offset):
        line = bisect.bisect_right(self.starts, offset) - 1
        before = self.bytes[self.starts[line] : offset].decode()
        return {"line": line, "character": len(before.encode(self.code)) // self.width}

    def offset(self, position):
        line = position["line"]
        if line >= len(self.starts):
            return len(self.bytes)
        start = self.starts[line]
        end = self.starts[line + 1] if line + 1 < len(self.starts) else len(self.bytes)
        units = self.bytes[start:end].rstrip(b"\r\n").decode().encode(self.code)
        return start + len(units[: position["character"] * self.width].decode(self.code, "ignore").encode())

    def range(self, start, end):
        return {"start": self.position(start), "end": self.position(end)}

    def span(self, spread):
        return [self.offset(spread["start"]), self.offset(spread["end"])]


# ---- streams in pieces


def by_size(stream, size):
    return [stream[at : at + size] for at in range(0, len(stream), size)]


def at_random(stream, seed, most=PIECE):
    """Pieces of random sizes, small ones and large ones."""
    dice, pieces, at = random.Random(seed), [], 0
    while at < len(stream):
        size = min(most, int(2 ** dice.uniform(0, 13)))
        pieces.append(stream[at : at + size])
        at += size
    return pieces


def cuts(stream, seed, short=4_096, most=PIECE):
    """A stream in several cuts, by their names."""
    yield "whole", by_size(stream, most)
    yield "at random", at_random(stream, seed, most)
    if len(stream) <= short:
        yield "byte by byte", by_size(stream, 1)


def converse(program, pieces, words=("serve",)):
    """What a program writes that reads these pieces, each by one read, and its status.

    The pieces go through a socket that keeps them apart, so no read takes more than one of them.
    """
    ours, theirs = socket.socketpair(socket.AF_UNIX, socket.SOCK_SEQPACKET)
    with ours, subprocess.Popen([program, *words], stdin=theirs, stdout=subprocess.PIPE) as server:
        theirs.close()
        feeding = threading.Thread(target=feed, args=(ours, pieces), daemon=True)
        feeding.start()
        limit = threading.Timer(SECONDS, server.kill)
        limit.start()
        written = server.stdout.read()
        status = server.wait()
        limit.cancel()
        feeding.join()
    return written, status


def feed(sock, pieces):
    try:
        for piece in filter(None, pieces):
            sock.send(piece)
        sock.shutdown(socket.SHUT_WR)
    except OSError:
        # The server ended before it read all.
        pass


# ---- a client that waits


class Client:
    """A session whose replies are waited for. `published` has the last list of each uri, and `logged` what was logged."""

    def __init__(self, program, encodings=("utf-16",)):
        self.server = subprocess.Popen([program, "serve"], stdin=subprocess.PIPE, stdout=subprocess.PIPE)
        self.came = queue.Queue()
        threading.Thread(target=self.listen, daemon=True).start()
        self.asked, self.published, self.logged = 0, {}, []
        self.ask("initialize", {"capabilities": {"general": {"positionEncodings": list(encodings)}}})

    def listen(self):
        """Takes each body as it comes, so that the server never waits for us; None at the end."""
        while head := self.server.stdout.readline():
            self.server.stdout.readline()
            self.came.put(json.loads(self.server.stdout.read(int(head.removeprefix(b"Content-Length: ")))))
        self.came.put(None)

    def send(self, body):
        self.server.stdin.write(frame(body))
        self.server.stdin.flush()

    def ask(self, method, params):
        """The reply to a request; what comes before it is taken down."""
        self.asked += 1
        self.send(request(self.asked, method, params))
        while (message := self.came.get(timeout=SECONDS)) is not None:
            if message.get("id") == self.asked:
                return message
            if message["method"] == "textDocument/publishDiagnostics":
                self.published[message["params"]["uri"]] = message["params"]
            else:
                self.logged.append(message["params"]["message"])
        raise EOFError(f"the server ended before it answered {method}")

    def tell(self, method, params):
        self.send(notice(method, params))

    def open(self, uri, text, version=1):
        self.send(opened(uri, text, version))

    def change(self, uri, changes, version):
        self.tell("textDocument/didChange", {"textDocument": {"uri": uri, "version": version}, "contentChanges": changes})

    def close(self, uri):
        self.send(closed(uri))

    def end(self):
        """Ends the session, and gives the status."""
        self.ask("shutdown", None)
        self.tell("exit", None)
        self.server.stdin.close()
        return self.server.wait()
