#!/usr/bin/env python3
"""Which forms are carried from one set of texts to the next, and what work is left, by expanding both and writing down what each form asks.

    carried.py FILE      checks `carried` and `work`, or `pairs`, of each row of FILE, and says which differ

A form's diary (`diaries.py`) tells units and forms by the texts that they are paired with, and one that isn't paired by a name of its own
side. So a form is carried where it is paired and both diaries are the same. Nothing is asked a second time, as the definition does it,
and no number is moved. Counts of nodes aren't known here: rows of units that get too large say so.
"""
import json
import sys

import included
import reader
from diaries import PRELUDE_UNIT, Workspace, headed, library_name



def shape(d, first):
    """A datum with the numbers of its tokens, counted from its form's first."""
    kind, at, *values = d
    token = at[0] - first if at and at[0] is not None else None
    if kind in ("list", "vector"):
        return (kind, token, tuple(shape(x, first) for x in values[0]), values[1] and shape(values[1], first)) if kind == "list" else (kind, token, tuple(shape(x, first) for x in values[0]))
    return (kind, token, str(values[0]))


def ends(fs, gs):
    """Numbers side by side: the longest common front, and then the longest common end of what is left."""
    front = 0
    while front < len(fs) and front < len(gs) and fs[front] == gs[front]:
        front += 1
    end = 0
    while end < len(fs) - front and end < len(gs) - front and fs[-1 - end] == gs[-1 - end]:
        end += 1
    return [(n, n) for n in range(front)] + [(len(fs) - n, len(gs) - n) for n in range(end, 0, -1)]


class Told:
    """Diaries with units and forms told by their pairs."""

    def __init__(self, side, units, forms):
        self.side, self.units, self.forms = side, units, forms

    def unit(self, u):
        return "prelude" if u == PRELUDE_UNIT else ("pair", self.units[u]) if u in self.units else (self.side, u)

    def number(self, k):
        u, f, *rest = k
        return (self.unit(u), f if u == PRELUDE_UNIT else ("pair", self.forms[u, f]) if (u, f) in self.forms else (self.side, f), *rest)

    def ident(self, i):
        return ("written", self.unit(i[1]), i[2]) if i[0] == "written" else ("inserted", self.ident(i[1]), self.number(i[2]))

    def meaning(self, m):
        return ("global", self.unit(m[1]), self.ident(m[2])) if m[0] == "global" else m

    def tree(self, t):
        if t is None:
            return None
        occ = t[-1] and self.number(t[-1])
        if t[0] == "name":
            return ("name", self.ident(t[1]), occ)
        return ("atom", t[1], occ) if t[0] == "atom" else ("list", tuple(map(self.tree, t[1])), self.tree(t[2]), occ)

    def entry(self, e):
        word, *rest = e
        if word == "look":
            return (word, self.ident(rest[0]), self.meaning(rest[1]), rest[2])
        if word == "rules":
            return (word, self.meaning(rest[0]), tuple(map(self.tree, rest[1][0])), tuple((self.tree(p), self.tree(t)) for p, t in rest[1][1]))
        if word == "same":
            return (word, self.ident(rest[0]), self.ident(rest[1]), rest[2])
        if word in ("assigned", "defines"):
            return (word, self.ident(rest[0]), rest[1])
        return e

    def diary(self, form):
        return [self.entry(e) for e in form.pass_diary], [self.entry(e) for e in form.item_diary]


def carried(before, after):
    """The carried forms, and the work."""
    old, new = Workspace(before), Workspace(after)
    pairs = []
    for u in old.units:
        v = next((v for v in new.units if v.key() == u.key() and not v.broken), None)
        if not u.broken and v is not None:
            fs, gs = ([shape(d, d[1][0]) for d in w.data] for w in (u, v))
            pairs.append((u, v, ends(fs, gs)))
    told = [Told(side, {p[k].number: n for n, p in enumerate(pairs)}, {(p[k].number, q[k]): (n, m) for n, p in enumerate(pairs) for m, q in enumerate(p[2])})
            for k, side in ((0, "old"), (1, "new"))]
    out = []
    for u, v, forms in pairs:
        for f, g in forms:
            if f in u.forms and g in v.forms and told[0].diary(u.forms[f]) == told[1].diary(v.forms[g]):
                out.append([v.number, g])
    return out, sum(f.uses for u in new.units for n, f in u.forms.items() if [u.number, n] not in out)


def homed_forms(texts):
    """The units of texts that include others, by `included.py`: key, whether broken, and each form with its home and whether it is included."""
    units = included.Workspace({"texts": texts}).units()
    for n, (uri, kind, fault, forms, _) in enumerate(units):
        libraries = [d for d in reader.data(texts[uri]) if headed(d, "define-library")]
        before = sum(1 for u in units[:n] if u[:2] == [uri, "library"])
        name = library_name(libraries[before][2][1]) if kind == "library" and len(libraries[before][2]) > 1 else None
        found = []
        for (at, start, end), _, (unit, form, token) in forms:
            d = datum_at(reader.data(texts[at]), start, end)
            found.append((shape(d, d[1][0] - token), (at, form), unit != n))
        yield (uri, kind == "library", name), fault is not None, found


def datum_at(data, start, end):
    todo = list(data)
    while todo:
        d = todo.pop()
        if d[1] and d[1][0] is not None and (d[1][2], d[1][3]) == (start, end):
            return d
        if d[0] in ("list", "vector"):
            todo += list(d[2]) + ([d[3]] if d[0] == "list" and d[3] is not None else [])
    raise LookupError


def paired(before, after):
    """The units that go on, each with its forms, where texts may include others."""
    out = []
    for n, (key, broken, fs) in enumerate(homed_forms(before)):
        for m, (other, broken_too, gs) in enumerate(homed_forms(after)):
            if key == other and not broken and not broken_too:
                if not any(f[2] for f in fs + gs):
                    out.append([n, m, [list(p) for p in ends([f[0] for f in fs], [g[0] for g in gs])]])
                elif [f[:2] for f in fs] == [g[:2] for g in gs]:
                    out.append([n, m, [[k, k] for k in range(len(fs))]])
    return out


def main():
    rows = [json.loads(line) for line in open(sys.argv[1], encoding="utf-8")]
    differ = 0
    for row in rows:
        if row.get("by_hand_alone"):
            continue
        if "pairs" in row:
            told, found = row["pairs"], paired(row["before"], row["after"])
        else:
            told, found = (row["carried"], row["work"]), carried(row["before"], row["after"])
        if found != told:
            differ += 1
            print(row["name"], "told", told, "found", found)
    print(f"{len(rows)} rows, {differ} differ")
    return 1 if differ else 0


if __name__ == "__main__":
    sys.exit(main())
