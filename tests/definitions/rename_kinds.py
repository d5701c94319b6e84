"""The kinds of rows of renames, as README.md tells: two programs and how they differ, and documents whose names are renamed. `kinds.py` has
what all kinds share.
"""
import re

import kinds
import reader
import terms

HEAD = """
use Rattle.std.specs.Prelude.{◌≡◌, ℕ, Bool, true, false, List, [], ◌∷◌, Option, Some, None, codes, refl}
use Rattle.std.specs.Char.{encode_utf8}
use Rattle.scheme_model.specs.declared.Occ.{Occ}
use Rattle.scheme_model.specs.StandardNames.{base_names}
use Rattle.scheme_model.specs.StandardLibraries.{standard_libraries}
use Rattle.scheme_model.specs.Prelude.{prelude}
use Rattle.scheme_model.specs.Kinds as k
use Rattle.scheme_model.specs.Data as g
use Rattle.rename_model.specs.Difference as w
use Rattle.rename_model.proofs.SameShown.{CALLED}

abbrev p : ℕ → ℕ → ℕ → ℕ → g.Place
p first last start end = record { first = first; last = last; start = start; end = end }

abbrev o : ℕ → ℕ → ℕ → Occ
o unit form token = record { unit = unit; form = form; token = token }

abbrev d : w.Kind → (unit form : ℕ) → Option Occ → (before after : w.Side) → w.Difference
d kind unit form place before after = record { kind = kind; unit = unit; form = form; occ = place; before = before; after = after }
"""
SPANS = """use Rattle.scheme_model.specs.Diagnostics.{Span}

abbrev s : ℕ → ℕ → Span
s start end = record { start = start; end = end }

"""

SIDES = {"binder": lambda v: f"(w.AtBinder {occ(v)})", "standard": lambda v: f"(w.OfStandard {terms.utf8(v)})",
         "unbound": lambda v: f"(w.OfUnbound {terms.utf8(v)})", "symbol": lambda v: f"(w.OfSymbol {terms.utf8(v)})"}


def occ(o):
    return f"(o {' '.join(map(str, o))})"


def side(told):
    return SIDES[told[0]](told[1]) if told else "w.OfNothing"


def difference(d):
    if d is None:
        return "None"
    place = terms.optional(d["occ"], occ)
    return f"(Some (d w.Is{d['kind'].capitalize()} {d['unit']} {d['form']} {place} {side(d['before'])} {side(d['after'])}))"


def edited(text, edits):
    """A text with the bytes between these places replaced."""
    data = text.encode()
    for start, end, new in sorted(edits, reverse=True):
        data = data[:start] + new.encode() + data[end:]
    return data.decode()


class Differences(kinds.Kind):
    """Two programs, some occurrences of the old one, and the first difference."""

    crate = "rename_model"
    module = "DifferenceRows"
    says = "Two programs, some occurrences of the old one, and their first difference in all units, from outside."
    unfolding = kinds.Workspaces.unfolding
    head = HEAD.replace("CALLED", "difference_rows")

    def fits(self, row):
        return "difference" in row and "old" in row

    def lemma(self, row):
        old, new = (kinds.document_terms({"texts": row[side]})[0] for side in ("old", "new"))
        members = terms.many(f"o {' '.join(map(str, m))}" for m in row["members"])
        return f"difference_rows {old} {new} ({members}) ≡ {difference(row['difference'])}", "refl"


class Renames(kinds.Kind):
    """Documents, edits that rename identifiers and change nothing else, and the first difference in the units in reach."""

    crate = "rename_model"
    module = "RenameRows"
    says = "Open documents, and how they differ from what they are once identifiers that begin at these bytes have other names."
    unfolding = kinds.Workspaces.unfolding
    head = HEAD.replace("CALLED", "renamed_rows").replace("\nabbrev p", SPANS + "abbrev p")

    def fits(self, row):
        return "edits" in row

    def lemma(self, row):
        old, spans = kinds.document_terms(row)
        new, _ = kinds.document_terms({"texts": {uri: edited(text, row["edits"].get(uri, [])) for uri, text in row["texts"].items()}})
        uris = [uri for uri, _, _ in kinds.documents(row)]
        names = terms.many(f"({uris.index(uri)}, {start}), {terms.utf8(name.strip('|'))}" for uri in sorted(row["edits"]) for start, _, name in row["edits"][uri])
        return f"renamed_rows {spans} {old} {new} ({names}) ≡ {difference(row.get('difference'))}", "refl"


def offset_in(text, line, character):
    """The byte at a line and the bytes before in it."""
    return sum(len(it.encode()) for it in text.splitlines(keepends=True)[:line]) + character


def symbol_of(name):
    """The symbol of a text that is one identifier."""
    try:
        (kind, _, end, *values), *more = reader.tokens(name)
    except (reader.Unreadable, ValueError):
        return None
    return values[0] if kind == "name" and not more and end == len(name.encode()) and not name[0].isspace() else None


class Conditions(kinds.Kind):
    """Documents, an identifier and its new name: the edits, or the first condition that fails."""

    crate = "rename_conditions"
    module = "ConditionRows"
    says = "Open documents, and what a rename of an identifier edits or why it is refused, from outside."
    unfolding = kinds.Edits.unfolding.removesuffix(" ucd_category")
    head = """
use Rattle.std.specs.Prelude.{◌≡◌, ℕ, Bool, true, false, List, [], ◌∷◌, Option, Some, None, codes, refl}
use Rattle.std.specs.Char.{encode_utf8}
use Rattle.std.specs.Str.{chars}
use Rattle.scheme_model.specs.StandardNames.{base_names}
use Rattle.scheme_model.specs.StandardLibraries.{standard_libraries}
use Rattle.scheme_model.specs.Prelude.{prelude}
use Rattle.scheme_model.specs.Kinds as k
use Rattle.scheme_model.specs.Data as g
use Rattle.scheme_model.specs.Diagnostics.{Span}
use Rattle.scheme_tokens.specs.Lexical.{is_initial, is_subsequent}
use Rattle.scheme_tokens.specs.Mirror.Spelled.{spelled}
use Rattle.scheme_tokens.specs.Mirror.Words.{is_identifier, is_numeral}
use Rattle.rename_model.specs.Difference as d
use Rattle.text_edits.specs.Edits.{Edit}
use Rattle.rename_conditions.specs.Readers.{Reading}
use Rattle.rename_conditions.specs.Opened.{DocEdits}
use Rattle.rename_conditions.proofs.RenameShown as w
use Rattle.rename_conditions.proofs.RenameShown.{rename_rows}

abbrev p : ℕ → ℕ → ℕ → ℕ → g.Place
p first last start end = record { first = first; last = last; start = start; end = end }

abbrev s : ℕ → ℕ → Span
s start end = record { start = start; end = end }

abbrev r : List g.Datum → List Span → Reading
r items spans = record { items = items; spans = spans }

abbrev e : ℕ → ℕ → List ℕ → Edit
e start end text = record { start = start; end = end; text = text }

abbrev es : ℕ → List Edit → DocEdits
es document edits = record { document = document; edits = edits }
"""

    def fits(self, row):
        return "new" in row and "at" in row and isinstance(row["at"][0], str) and ("edits" in row or "refused" in row)

    def reading(self, text):
        try:
            toks, found = reader.tokens(text), reader.data(text)
        except reader.Unreadable:
            return []
        items = re.sub(r"\bd\.", "g.", kinds.datum_terms(text, found))
        return [f"{terms.utf8(text) if text else '[]'}, r ({items}) ({terms.many(f's {t[1]} {t[2]}' for t in toks)})"]

    def lemma(self, row):
        uris = [uri for uri, _, _ in kinds.documents(row)]
        texts = [row["texts"][uri] for uri in uris]
        readings = [it for text in dict.fromkeys(texts) for it in self.reading(text)]
        uri, line, character = row["at"]
        symbol = terms.optional(symbol_of(row["new"]), lambda it: terms.utf8(it) if it else "[]")
        asked = f"({terms.many(readings)}) {symbol} ({terms.many(terms.utf8(it) if it else '[]' for it in texts)}) {uris.index(uri)} {offset_in(row['texts'][uri], line, character)} {terms.utf8(row['new']) if row['new'] else '[]'}"
        return f"rename_rows {asked} ≡ {self.answer(row, uris)}", "refl"

    def answer(self, row, uris):
        if "edits" in row:
            each = [(uris.index(uri), terms.many(f"e {a} {b} {terms.utf8(text)}" for a, b, text in row["edits"][uri])) for uri in uris if row["edits"].get(uri)]
            return f"w.Edits ({terms.many(f'es {n} ({told})' for n, told in each)})"

        def place(told):
            uri, line, character = told.rsplit(":", 2)
            return f"{uris.index(uri)} {offset_in(row['texts'][uri], int(line), int(character))}"

        def name(told):
            return terms.utf8(told) if told else "[]"

        def end(told):
            if told == "nothing":
                return "w.Nothing"
            for word, it in (("standard ", "Standard"), ("unbound ", "Unbound")):
                if told.startswith(word):
                    return f"(w.{it} {name(told.removeprefix(word))})"
            return f"(w.Binder {place(told)})" if re.fullmatch(r"\S+:\d+:\d+", told) else f"(w.Symbol {name(told)})"

        number, _, rest = row["refused"].removeprefix("refused ").partition(" ")
        if number == "1":
            return "w.NotBound"
        if number == "2":
            return f"w.OfStandard {name(rest.removeprefix('standard '))}"
        if number == "3":
            return "w.BadName"
        if number == "4":
            return f"w.Unreadable {uris.index(rest.removeprefix('unreadable '))}"
        if number == "5":
            return f"w.PrefixLost {name(rest.removeprefix('prefix lost '))}"
        if number == "6":
            return f"w.PrefixClash {place(rest.removeprefix('prefix clash '))}"
        if number == "7":
            where, code = rest.removeprefix("broken ").rsplit(" ", 1)
            return f"w.BrokenUnit {place(where)} {code}"
        if number == "8":
            return f"w.TooLong {uris.index(rest.removeprefix('text too long '))}"
        kind, where, before, after = re.fullmatch(r"(\w+) (\S+) from (.*) to (.*)", rest, re.S).groups()
        return f"w.Differs d.Is{kind.capitalize()} {place(where)} {end(before)} {end(after)}"


KINDS = [Differences(), Renames(), Conditions()]
