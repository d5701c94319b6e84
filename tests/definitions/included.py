#!/usr/bin/env python3
"""What included texts give, by walking them one after the other, in written order, as the report says it (R7RS 4.1.7, 5.6.1).

    included.py FILE      adds `included` to each row of FILE that has `texts` and none, and prints the rows

It has no tables and keeps nothing between two includes of one text. A row has `texts` (uri to text), perhaps `meant`, a list of [uri,
string, uri], without which a string is joined to the part of the uri up to its last slash, and perhaps `limit`, the most tokens of a unit.
"""
import json
import sys

import reader

MOST_UNITS = 128


class Ends(Exception):
    """The walk of a unit ends: the code, and where, as [uri, start, end], for a bad declaration."""


def head(d):
    return d[2][0][2] if d[0] == "list" and d[2] and d[2][0][0] == "name" else None


def strings(d, word):
    """The strings of a proper list that includes."""
    if head(d) == word and d[3] is None and len(d[2]) > 1 and all(x[0] == "string" for x in d[2][1:]):
        return d[2][1:]
    return None


def all_strings(d):
    """The strings of all lists that include, however deep."""
    if d[0] not in ("list", "vector"):
        return []
    found = [s for word in ("include", "include-library-declarations") for s in strings(d, word) or []]
    parts = d[2] + ([d[3]] if d[0] == "list" and d[3] is not None else [])
    return found + [s for x in parts for s in all_strings(x)]


def place(d, uri):
    return [uri, d[1][2], d[1][3]]


class Workspace:
    def __init__(self, row):
        self.uris = sorted(row["texts"], key=str.encode)
        self.limit = row.get("limit", 2 ** 20)
        self.meant = {(u, s): to for u, s, to in row["meant"]} if "meant" in row else None
        self.data = {}
        for uri in self.uris:
            try:
                self.data[uri] = reader.data(row["texts"][uri])
            except reader.Unreadable:
                self.data[uri] = None
        self.names = {u: {self.means(u, s[2]) for d in self.data[u] or [] for s in all_strings(d)} - {None} for u in self.uris}
        self.numbers, number = {}, 0
        for uri in self.uris:
            libraries = [d for d in self.data[uri] or [] if head(d) == "define-library"]
            self.numbers[uri] = (number, number + len(libraries))
            number += len(libraries) + (1 if self.program(uri) else 0)

    def means(self, uri, string):
        if self.meant is not None:
            return self.meant.get((uri, string))
        whole = string if string.startswith("/") else uri[:uri.rfind("/") + 1] + string
        return whole if whole in self.uris else None

    def program(self, uri):
        return [d for d in self.data[uri] or [] if head(d) != "define-library"]

    def on_circle(self, uri):
        seen, todo = set(), list(self.names[uri])
        while todo:
            u = todo.pop()
            if u not in seen:
                seen.add(u)
                todo += self.names[u]
        return uri in seen

    def is_part(self, uri):
        return any(uri in names for names in self.names.values()) and not self.on_circle(uri)

    def usable(self, uri):
        return uri is not None and self.is_part(uri) and self.data[uri] is not None and (not self.program(uri) or self.numbers[uri][1] < MOST_UNITS)

    # a walk writes forms as [place, declared, home, first token], home being None for the unit's own text

    def begin(self):
        self.out, self.lost, self.count = [], [], 0

    def emit(self, uri, home, d, declared):
        self.count += d[1][1] - d[1][0] + 1
        if self.count > self.limit:
            raise Ends(66, None)
        self.out.append((place(d, uri), declared, home, d[1][0]))

    def include(self, uri, found, each):
        for s in found:
            to = self.means(uri, s[2])
            if not self.usable(to):
                if place(s, uri) not in self.lost:
                    self.lost.append(place(s, uri))
                continue
            for n, d in enumerate(self.program(to)):
                each(to, (self.numbers[to][1], n, d[1][0]), d)

    def form(self, uri, home, d):
        found = strings(d, "include")
        if found is None:
            self.emit(uri, home, d, False)
        else:
            self.include(uri, found, self.form)

    def declaration(self, uri, home, d):
        if d[0] != "list" or d[3] is not None:
            raise Ends(61, place(d, uri))
        word, parts = head(d), d[2][1:]
        if word == "export" and all(x[0] == "name" or (x[0] == "list" and x[3] is None and head(x) == "rename" and [y[0] for y in x[2]] == ["name"] * 3) for x in parts):
            self.emit(uri, home, d, True)
        elif word in ("import", "include-ci"):
            self.emit(uri, home, d, True)
        elif word == "begin":
            for x in parts:
                self.form(uri, home, x)
        elif word == "include" and strings(d, word):
            self.include(uri, strings(d, word), self.form)
        elif word == "include-library-declarations" and strings(d, word):
            self.include(uri, strings(d, word), self.declaration)
        elif word == "cond-expand":
            chosen = self.choose(d, parts)
            if chosen is None:
                raise Ends(61, place(d, uri))
            for x in chosen:
                self.declaration(uri, home, x)
        else:
            raise Ends(61, place(d, uri))

    def choose(self, d, clauses):
        """The declarations of the first clause that holds; None without the shape. Requirements: else, r7rs, not, and, or alone."""
        if not clauses or any(c[0] != "list" or not c[2] or c[3] is not None for c in clauses):
            return None
        found = []
        for n, c in enumerate(clauses):
            r = c[2][0]
            holds = n == len(clauses) - 1 if r[0] == "name" and r[2] == "else" else self.holds(r)
            if holds is None or (r[0] == "name" and r[2] == "else" and not holds):
                return None
            if holds:
                found.append(c[2][1:])
        return found[0] if found else []

    def holds(self, r):
        if r[0] == "name":
            return r[2] == "r7rs"
        if head(r) in ("and", "or") and r[3] is None:
            each = [self.holds(x) for x in r[2][1:]]
            return None if None in each else (all if head(r) == "and" else any)(each)
        if head(r) == "not" and r[3] is None and len(r[2]) == 2:
            one = self.holds(r[2][1])
            return None if one is None else not one
        return None

    def result(self, uri, kind, number, walk, imports=False):
        fault, forms, lost = self.walked(uri, number, walk, imports)
        return [uri, kind, [67, None] if number >= MOST_UNITS else fault, forms, lost]

    def walked(self, uri, number, walk, imports):
        """What breaks a unit, its forms, and the strings in it that give nothing."""
        if self.on_circle(uri):
            return [68, None], [], []
        self.begin()
        try:
            walk()
        except Ends as end:
            return list(end.args), [], []
        forms, leading = [], imports
        for n, (at, declared, home, first) in enumerate(self.out):
            leading = leading and self.is_import(at)
            unit, form, begins = home or (number, n, first)
            forms.append([at, declared or leading, [unit, form, first - begins]])
        return None, forms, self.lost

    def is_import(self, at):
        return any(place(d, at[0]) == at and head(d) == "import" and d[3] is None for d in self.program(at[0]))

    def units(self):
        out = []
        for uri in self.uris:
            for n, d in enumerate(x for x in self.data[uri] or [] if head(x) == "define-library"):
                out.append(self.result(uri, "library", self.numbers[uri][0] + n, lambda d=d: self.library(uri, d)))
            if self.program(uri):
                part = self.is_part(uri)
                walk = (lambda: self.as_part(uri)) if part else (lambda: [self.form(uri, None, d) for d in self.program(uri)])
                out.append(self.result(uri, "part" if part else "program", self.numbers[uri][1], walk, not part))
        return out

    def as_part(self, uri):
        for n, d in enumerate(self.program(uri)):
            self.out.append((place(d, uri), False, (self.numbers[uri][1], n, d[1][0]), d[1][0]))

    def library(self, uri, d):
        parts = d[2][1:]
        if not parts or not self.is_library_name(parts[0]):
            raise Ends(61, place(d, uri))
        for x in parts[1:]:
            self.declaration(uri, None, x)
        if d[3] is not None:
            raise Ends(61, place(d, uri))

    @staticmethod
    def is_library_name(d):
        return d[0] == "list" and d[2] and d[3] is None and all(x[0] == "name" or (x[0] == "numeral" and x[2].isdigit()) for x in d[2])


def main():
    for line in open(sys.argv[1], encoding="utf-8"):
        row = json.loads(line)
        if "texts" in row and "included" not in row:
            row["included"] = Workspace(row).units()
        print(json.dumps(row, ensure_ascii=False))


if __name__ == "__main__":
    main()
