"""Folders with files that the program runs in, and what comes of a run there."""
import os
import pathlib
import resource
import shutil
import signal
import subprocess
import tempfile
import threading
from typing import NamedTuple

import cases
import client

# What stands on the standard input of a command that doesn't read it.
UNREAD = b"(define x 1) x"
# The number of a user who may do little: root may read a file that nobody may read, and this one may not.
NOBODY = 65_534


class Came(NamedTuple):
    """What a run has written, its status, what it said on its standard error, and how many bytes it has read of its standard input."""

    written: bytes
    status: int
    said: bytes
    read: int


class Folder:
    """A folder with the files of a run, that is gone in the end."""

    def __init__(self, program, files):
        self.here = pathlib.Path(tempfile.mkdtemp(prefix="scheme_ls."))
        self.program, self.user, self.pipes = program, None, []
        for name, content in files.items():
            path = self.here / name
            path.parent.mkdir(parents=True, exist_ok=True)
            if isinstance(content, bytes):
                path.write_bytes(content)
            else:
                self.make(path, *content.items())
        if self.user is not None:
            self.program = shutil.copy(program, self.here)
            self.here.chmod(0o755)

    def make(self, path, content):
        """Makes what isn't a file with a text."""
        kind, value = content
        if kind == "folder":
            path.mkdir(exist_ok=True)
        elif kind == "example":
            shutil.copy(cases.ROOT / "examples" / value, path)
        elif kind == "zeros":
            path.touch()
            os.truncate(path, value)
        elif kind == "forbidden":
            path.write_bytes(value.encode())
            path.chmod(0)
            self.user = NOBODY if os.geteuid() == 0 else None
        elif kind == "pipe":
            os.mkfifo(path)
            self.pipes.append(path)
            threading.Thread(target=feed, args=(path, value.encode()), daemon=True).start()
        else:
            raise ValueError(f"a file that is {kind}")

    def __enter__(self):
        return self

    def __exit__(self, *error):
        for path in self.pipes:
            # Whoever still waits for a reader has one for a moment.
            os.close(os.open(path, os.O_RDONLY | os.O_NONBLOCK))
        shutil.rmtree(self.here)

    def run(self, words, room):
        """What comes of these words here."""
        text = b"" if words[:1] in ([b"arrows"], [b"serve"]) else UNREAD
        with tempfile.TemporaryFile() as reading, tempfile.TemporaryFile() as saying:
            reading.write(text)
            reading.seek(0)
            written, status = HOW[room and room.is_pipe](room, [self.program, *words], cwd=self.here, stdin=reading, stderr=saying, user=self.user)
            saying.seek(0)
            return Came(written, status, saying.read(), os.lseek(reading.fileno(), 0, os.SEEK_CUR))


def feed(pipe, text):
    try:
        pipe.write_bytes(text)
    except BrokenPipeError:
        # The program didn't read all.
        pass


def into_all(room, command, **more):
    """A run whose output is taken whole."""
    run = subprocess.run(command, stdout=subprocess.PIPE, timeout=client.SECONDS, **more)
    return run.stdout, run.returncode


def into_file(room, command, **more):
    """A run that writes into a file that may have only so many bytes. The write that passes them takes what fits, and the next one
    fails."""

    def limit():
        signal.signal(signal.SIGXFSZ, signal.SIG_IGN)
        resource.setrlimit(resource.RLIMIT_FSIZE, (room.count, room.count))

    with tempfile.TemporaryFile() as file:
        run = subprocess.run(command, stdout=file, preexec_fn=limit, timeout=client.SECONDS, **more)
        file.seek(0)
        return file.read(), run.returncode


def into_pipe(room, command, **more):
    """A run that writes into a pipe whose other end is closed before it begins, or behind so many bytes."""
    reading, writing = os.pipe()
    with open(reading, "rb", buffering=0) as output:
        if not room.count:
            output.close()
        with subprocess.Popen(command, stdout=writing, **more) as run:
            os.close(writing)
            limit = threading.Timer(client.SECONDS, run.kill)
            limit.start()
            written = b""
            while len(written) < room.count and (more_of_it := output.read(room.count - len(written))):
                written += more_of_it
            output.close()
            run.wait()
            limit.cancel()
    return written, run.returncode


HOW = {None: into_all, False: into_file, True: into_pipe}
