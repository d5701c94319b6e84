"""Moves forms and declarations of documents into texts of their own, which are included in their place (R7RS 4.1.7, 5.6.1)."""
import posixpath
import re

FOLDERS = "", "", "parts/", "x%20y/"
STRING = re.compile(rb'"(file:///[^"]*)"')
DATUM = re.compile(rb"""\s*(?:(?P<mark>'|`|,@?)|(?P<open>\()|(?P<close>\))|(?P<text>"(?:[^"\\]|\\.)*")|(?P<atom>[^\s()'`,"]+))""")


def data(text, at, end):
    """The spans of the data of a part of a text without comments and vectors."""
    found, depth, begin = [], 0, None
    while (token := DATUM.match(text, at, end)) is not None:
        kind, at = token.lastgroup, token.end()
        begin = token.start(kind) if begin is None else begin
        depth += {"open": 1, "close": -1}.get(kind, 0)
        if not depth and kind != "mark":
            found.append((begin, at))
            begin = None
    return found


def head(text, span):
    """The word that heads a list."""
    found = re.match(rb"\(([a-z-]+)", text[span[0] : span[1]])
    return found[1] if found else b""


def inside(text, span, skipped):
    """The data of a list behind so many of its parts."""
    return data(text, span[0] + 1, span[1] - 1)[skipped:]


def begun(text, declarations):
    """The data of each `begin` among declarations."""
    return [(b"include", inside(text, it, 1)) for it in declarations if head(text, it) == b"begin"]


def of_document(text):
    """The rows of data of a document in each of which some can be moved, with the word that includes them there."""
    found, row = [], []
    for span in data(text, 0, len(text)):
        if head(text, span) == b"define-library":
            declarations = inside(text, span, 2)
            found += [(b"include", row), (b"include-library-declarations", declarations), *begun(text, declarations)]
            row = []
        else:
            row.append(span)
    return [*found, (b"include", row)]


def of_part(text, word):
    """The same of a text that is included by this word."""
    declared = data(text, 0, len(text))
    return [(word, declared), *(begun(text, declared) if word == b"include-library-declarations" else [])]


class Parts:
    """Documents, of which some hold what others held before; `place` says where."""

    def __init__(self, texts):
        self.texts, self.words, self.cuts = {uri: text.encode() for uri, text in texts.items()}, {}, []

    def rows(self, uri):
        text, word = self.texts[uri], self.words.get(uri)
        return [it for it in (of_part(text, word) if word else of_document(text)) if it[1]]

    def move(self, dice):
        """Moves data that stand in a row, chosen at random, into a new document."""
        uri = dice.choice(sorted(self.texts))
        rows = self.rows(uri)
        if not rows:
            return
        word, row = dice.choice(rows)
        first = dice.randrange(len(row))
        last = dice.randrange(first, len(row))
        start, end = row[first][0], row[last][1]
        part = f"file:///{dice.choice(FOLDERS)}{dice.choice('anz')}{len(self.words)}.scm"
        new = b'(%s "%s")' % (word, part.encode())
        self.texts[part], self.words[part] = self.texts[uri][start:end] + dice.choice((b"", b"\n")), word
        self.replace(uri, start, end, new, part)

    def replace(self, uri, start, end, new, part=None):
        text = self.texts[uri]
        self.texts[uri] = text[:start] + new + text[end:]
        self.cuts.append((uri, start, end, len(new), part))

    def shorten(self, dice):
        """Writes some of the strings that include as paths from the folders of their documents."""
        for uri in sorted(self.texts):
            for found in reversed(list(STRING.finditer(self.texts[uri]))):
                path = posixpath.relpath(found[1].decode(), posixpath.dirname(uri))
                if dice.random() < 0.7:
                    self.replace(uri, *found.span(1), (path.replace("%20", " ") if dice.random() < 0.5 else path).encode())

    def place(self, uri, at, stays=False):
        """Where an offset of a document stands by now. One that `stays` is the start of what includes it, where it was moved."""
        for here, start, end, grown, part in self.cuts:
            if uri == here and at >= end:
                at += grown - (end - start)
            elif uri == here and at >= start and part:
                uri, at = (uri, start) if stays else (part, at - start)
        return uri, at

    def span(self, span):
        uri, start, end, *more = span
        there, at = self.place(uri, start)
        return (there, at, at + end - start, *more)
