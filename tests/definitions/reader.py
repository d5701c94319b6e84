"""Reads Scheme texts (R7RS 7.1.1, 7.1.2) into tokens and data, to build the arguments of definitions.

It is a plain reader of its own for well-formed texts, and knows nothing of the product. A token is a tuple
(kind, start, end, value ..) and a datum (kind, (first token, last token, start, end), value ..), with places in bytes
and kinds as in the rows: 'name' (symbol, in bars), 'numeral', 'string', 'char', 'bool', 'list' (parts, tail or None),
'vector', 'bytes'. A text that it can't read raises Unreadable.
"""
import unicodedata

INITIAL = set("abcdefghijklmnopqrstuvwxyzABCDEFGHIJKLMNOPQRSTUVWXYZ!$%&*/:<=>?^_~\u200c\u200d")
INITIAL_CATEGORIES = set("Lu Ll Lt Lm Lo Mn Nl No Pd Pc Po Sc Sm Sk So Co".split())
SUBSEQUENT_CATEGORIES = set("Nd Mc Me".split())
WHITESPACE = set("\t\n\v\f\r \x85\u00a0\u1680\u2028\u2029\u202f\u205f\u3000") | {chr(c) for c in range(0x2000, 0x200b)}
DELIMITERS = WHITESPACE | set('|()";')
NAMED = {"alarm": 7, "backspace": 8, "delete": 127, "escape": 27, "newline": 10, "null": 0, "return": 13, "space": 32, "tab": 9}
ESCAPES = {"a": "\a", "b": "\b", "t": "\t", "n": "\n", "r": "\r", '"': '"', "\\": "\\", "|": "|"}
MARKS = {"'": "quote", "`": "quasiquote", ",": "unquote", ",@": "unquote-splicing"}


class Unreadable(Exception):
    """The text isn't tokens, or these are no data."""


def is_initial(c):
    return c in INITIAL or (ord(c) > 127 and unicodedata.category(c) in INITIAL_CATEGORIES)


def is_subsequent(c):
    return is_initial(c) or c in "0123456789+-.@" or (ord(c) > 127 and unicodedata.category(c) in SUBSEQUENT_CATEGORIES)


def is_sign_subsequent(c):
    return is_initial(c) or c in "+-@"


def is_numeral(word):
    w = word.lower()
    if w[0].isdigit() and w[0].isascii():
        return True
    if w[0] == "#":
        return len(w) > 1 and w[1] in "bodxei"
    rest = w[1:] if w[0] in "+-" else w
    if w[0] in "+-" and (rest == "i" or rest.startswith(("inf.0", "nan.0"))):
        return True
    if rest[:1] == ".":
        return rest[1:2].isdigit() and rest[1:2].isascii()
    return w[0] in "+-" and rest[:1].isdigit() and rest[:1].isascii()


def is_identifier(word):
    first, rest = word[0], word[1:]
    if is_initial(first):
        return all(map(is_subsequent, rest))
    if first in "+-":
        if not rest:
            return True
        if rest[0] == ".":
            return len(rest) > 1 and (is_sign_subsequent(rest[1]) or rest[1] == ".") and all(map(is_subsequent, rest[2:]))
        return is_sign_subsequent(rest[0]) and all(map(is_subsequent, rest[1:]))
    if first == ".":
        return bool(rest) and (is_sign_subsequent(rest[0]) or rest[0] == ".") and all(map(is_subsequent, rest[1:]))
    return False


class Scanner:
    """Goes through a text from its start."""

    def __init__(self, text):
        self.text = text
        self.at = 1 if text[:1] == "\ufeff" else 0
        self.bytes = [0]
        for c in text:
            self.bytes.append(self.bytes[-1] + len(c.encode()))

    def gap(self):
        text = self.text
        while self.at < len(text):
            if text[self.at] in WHITESPACE:
                self.at += 1
            elif text[self.at] == ";":
                while self.at < len(text) and text[self.at] not in "\n\r":
                    self.at += 1
            elif text.startswith("#|", self.at):
                self.comment()
            else:
                return

    def comment(self):
        depth, self.at = 1, self.at + 2
        while depth:
            if self.at >= len(self.text):
                raise Unreadable("open comment")
            if self.text.startswith("#|", self.at):
                depth, self.at = depth + 1, self.at + 2
            elif self.text.startswith("|#", self.at):
                depth, self.at = depth - 1, self.at + 2
            else:
                self.at += 1

    def quoted(self, close):
        """The characters between marks, of which the first was taken."""
        out, text = [], self.text
        while True:
            if self.at >= len(text):
                raise Unreadable("open mark")
            c = text[self.at]
            self.at += 1
            if c == close:
                return "".join(out)
            if c == "\\":
                out.append(self.escape(close))
            elif close == '"' and c in "\n\r":
                if c == "\r" and text[self.at:self.at + 1] == "\n":
                    self.at += 1
                out.append("\n")
            else:
                out.append(c)

    def escape(self, close):
        text = self.text
        c = text[self.at:self.at + 1]
        if c in ("x", "X"):
            end = text.find(";", self.at)
            digits = text[self.at + 1:end]
            if end < 0 or not digits or any(d not in "0123456789abcdefABCDEF" for d in digits):
                raise Unreadable("escape")
            code = int(digits, 16)
            if code > 0x10FFFF or 0xD800 <= code <= 0xDFFF:
                raise Unreadable("escape")
            self.at = end + 1
            return chr(code)
        if c and c in ESCAPES:
            self.at += 1
            return ESCAPES[c]
        if close == '"':
            return self.folded()
        raise Unreadable("escape")

    def folded(self):
        text = self.text
        while text[self.at:self.at + 1] in (" ", "\t"):
            self.at += 1
        if text[self.at:self.at + 2] == "\r\n":
            self.at += 2
        elif text[self.at:self.at + 1] in ("\n", "\r"):
            self.at += 1
        else:
            raise Unreadable("escape")
        while text[self.at:self.at + 1] in (" ", "\t"):
            self.at += 1
        return ""

    def word(self):
        start = self.at
        while self.at < len(self.text) and self.text[self.at] not in DELIMITERS:
            self.at += 1
        return self.text[start:self.at]

    def character(self):
        first = self.text[self.at:self.at + 1]
        if not first:
            raise Unreadable("character")
        self.at += 1
        rest = self.word()
        if not rest:
            return first
        if first in "xX" and all(d in "0123456789abcdefABCDEF" for d in rest):
            code = int(rest, 16)
            if code > 0x10FFFF or 0xD800 <= code <= 0xDFFF:
                raise Unreadable("character")
            return chr(code)
        if first + rest in NAMED:
            return chr(NAMED[first + rest])
        raise Unreadable("character")

    def token(self):
        """The kind of the next token and its values."""
        text, c = self.text, self.text[self.at]
        for mark in ("#(", "#;", ",@", "(", ")", "'", "`", ","):
            if text.startswith(mark, self.at):
                self.at += len(mark)
                return (mark,)
        if c == '"':
            self.at += 1
            return ("string", self.quoted('"'))
        if c == "|":
            self.at += 1
            return ("name", self.quoted("|"), True)
        if text.startswith("#\\", self.at):
            self.at += 2
            return ("char", self.character())
        word = self.word()
        if word.lower() == "#u8" and text[self.at:self.at + 1] == "(":
            self.at += 1
            return ("#u8(",)
        if word.lower() in ("#t", "#true"):
            return ("bool", True)
        if word.lower() in ("#f", "#false"):
            return ("bool", False)
        if word and is_numeral(word):
            return ("numeral", word)
        if word and is_identifier(word):
            return ("name", word, False)
        if word == ".":
            return (".",)
        raise Unreadable("token")

    def tokens(self):
        out = []
        self.gap()
        while self.at < len(self.text):
            start = self.at
            kind = self.token()
            out.append((kind[0], self.bytes[start], self.bytes[self.at], *kind[1:]))
            self.gap()
        return out


def tokens(text):
    return Scanner(text).tokens()


class Reader:
    """Makes data of tokens, and beside each datum how it is written (with the data that `#;` skips)."""

    def __init__(self, toks):
        self.toks = toks
        self.at = 0

    def spot(self, n):
        t = self.toks[n]
        return (n, t[1], t[2])

    def peek(self):
        return self.toks[self.at][0] if self.at < len(self.toks) else None

    def take(self):
        if self.at >= len(self.toks):
            raise Unreadable("end")
        self.at += 1
        return self.at - 1

    def gap(self):
        """What `#;` skips here."""
        out = []
        while self.peek() == "#;":
            n = self.take()
            before = self.gap()
            out.append((self.spot(n), before, self.datum()))
        return out

    def parts(self, closes):
        out = []
        while True:
            gap = self.gap()
            if self.peek() in closes:
                return out, gap
            out.append((gap, self.datum()))

    def datum(self):
        n = self.take()
        t = self.toks[n]
        spot, kind = self.spot(n), t[0]
        if kind in ("name", "numeral", "string", "char", "bool"):
            return ("alone", spot, (kind, *t[3:]))
        if kind in MARKS:
            gap = self.gap()
            return ("abbreviated", spot, kind, gap, self.datum())
        if kind == "(":
            return self.listed(spot)
        if kind == "#(":
            parts, gap = self.parts((")", None))
            return ("vectored", spot, parts, gap, self.closing())
        if kind == "#u8(":
            parts, gap = self.parts((")", None))
            for _, d in parts:
                if d[0] != "alone" or d[2][0] != "numeral" or (d[2][1].isdigit() and int(d[2][1]) > 255):
                    raise Unreadable("byte")
            return ("byted", spot, parts, gap, self.closing())
        raise Unreadable("datum")

    def closing(self):
        if self.peek() != ")":
            raise Unreadable("open")
        return self.spot(self.take())

    def listed(self, spot):
        parts, gap = self.parts((")", ".", None))
        if self.peek() != ".":
            return ("listed", spot, parts, gap, self.closing())
        if not parts:
            raise Unreadable("dot")
        dot = self.spot(self.take())
        behind_dot = self.gap()
        tail = self.datum()
        last = self.gap()
        return ("tailed", spot, parts, gap, dot, behind_dot, tail, last, self.closing())

    def all(self):
        parts, gap = self.parts((None,))
        return parts, gap


def written(text):
    """A text's tokens, and how its data are written: parts behind gaps, and a gap at the end."""
    toks = tokens(text)
    return toks, Reader(toks).all()


def meant(w):
    """The datum that a written one means."""
    if w[0] == "alone":
        (n, start, end), (kind, *values) = w[1], w[2]
        return (kind, (n, n, start, end), *values)
    if w[0] == "abbreviated":
        (n, start, end), d = w[1], meant(w[4])
        name = ("name", None, MARKS[w[2]], False)
        return ("list", (n, d[1][1], start, d[1][3]), [name, d], None)
    place = (w[1][0], w[-1][0], w[1][1], w[-1][2])
    if w[0] == "byted":
        return ("bytes", place, [d[2][1] for _, d in w[2]])
    parts = [meant(d) for _, d in w[2]]
    if w[0] == "vectored":
        return ("vector", place, parts)
    if w[0] == "listed":
        return ("list", place, parts, None)
    tail = meant(w[6])
    if tail[0] == "list":
        return ("list", place, parts + tail[2], tail[3])
    return ("list", place, parts, tail)


def data(text):
    """The data of a text."""
    _, (parts, _) = written(text)
    return [meant(d) for _, d in parts]


def marks_in(w):
    """The places of the marks in a written datum, in reading order; what `#;` skips has none."""
    if w[0] == "abbreviated":
        n, start, end = w[1]
        return [(n, n, start, end)] + marks_in(w[4])
    if w[0] in ("alone", "byted"):
        return []
    return [p for _, d in w[2] for p in marks_in(d)] + (marks_in(w[6]) if w[0] == "tailed" else [])


def mark_places(text):
    """The places of the marks of a text's data, in the order of the identifiers that they imply."""
    _, (parts, _) = written(text)
    return [p for _, d in parts for p in marks_in(d)]
