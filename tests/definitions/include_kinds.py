"""The kinds of rows of included texts: what a string means, the forms of units with their homes, and what is told of programs."""
import json

import kinds
import reader
import rename_kinds
import terms


class Meant(kinds.Kind):
    """What a string means in a document."""

    crate = "included_documents"
    module = "MeantRows"
    says = "Which document a string means in another, from outside."
    unfolding = "url_on_literals"
    head = """
use Rattle.std.specs.Prelude.{◌≡◌, ℕ, List, [], ◌∷◌, Some, None, codes, refl}
use Rattle.url.proofs.OnLiterals.{url_on_literals}
use Rattle.included_documents.specs.Meant.{meant}
"""

    def fits(self, row):
        return "means" in row

    def lemma(self, row):
        uris = sorted(row["uris"], key=str.encode)
        told = terms.optional(row["means"], lambda uri: uris.index(uri))
        return f"meant ({terms.many(map(terms.utf8, uris))}) {uris.index(row['in'])} {terms.utf8(row['string']) if row['string'] else '[]'} ≡ {told}", "refl"


def string_of(text):
    return terms.utf8(text) if text else "[]"


def by_folder(row):
    """What strings mean that are joined to the part of the uri up to its last slash."""
    uris = list(row["texts"])
    return [[u, v[len(u[:u.rfind("/") + 1]):], v] for u in uris for v in uris if v.startswith(u[:u.rfind("/") + 1])] + [[u, v, v] for u in uris for v in uris if v.startswith("/")]


def bytes_row(place, uris):
    return f"b {uris.index(place[0])} {place[1]} {place[2]}"


def unit_row(unit, uris):
    uri, kind, fault, forms, lost = unit
    told = "None" if fault is None else f"Some ({fault[0]}, {'None' if fault[1] is None else f'Some ({bytes_row(fault[1], uris)})'})"
    rows = terms.many(f"f ({bytes_row(at, uris)}) {terms.boolean(declared)} ({o[0]}) ({o[1]}) ({o[2]})" for at, declared, o in forms)
    kind = {"library": "ALibrary", "program": "AProgram", "part": "APart"}[kind]
    return f"u {uris.index(uri)} {kind} ({told}) ({rows}) ({terms.many(bytes_row(x, uris) for x in lost)})"


class Included(kinds.Kind):
    """Documents that include texts, and the forms of their units."""

    module = "IncludedRows"
    says = "Documents that include one another, and the forms of their units with their homes, from outside."
    unfolding = "encode_utf8"
    head = """
use Rattle.std.specs.Prelude.{◌≡◌, ℕ, ◌^◌, true, false, Bool, List, [], ◌∷◌, Option, Some, None, codes, refl}
use Rattle.std.specs.Char.{encode_utf8}
use Rattle.scheme_model.specs.declared.Occ.{Occ}
use Rattle.scheme_model.specs.Kinds as k
use Rattle.scheme_model.specs.Data as g
use Rattle.scheme_model.proofs.ShownIncludes.{BytesRow, HomeRow, KindRow, ALibrary, AProgram, APart, ListedRow, listed_rows}

abbrev p : ℕ → ℕ → ℕ → ℕ → g.Place
p first last start end = record { first = first; last = last; start = start; end = end }

abbrev b : ℕ → ℕ → ℕ → BytesRow
b document start end = record { document = document; start = start; end = end }

abbrev f : BytesRow → Bool → ℕ → ℕ → ℕ → HomeRow
f bytes declared unit form token = record { bytes = bytes; declared = declared; occ = record { unit = unit; form = form; token = token } }

abbrev o : ℕ → ℕ → ℕ → Occ
o unit form token = record { unit = unit; form = form; token = token }

abbrev u : ℕ → KindRow → Option (ℕ × Option BytesRow) → List HomeRow → List BytesRow → ListedRow
u document kind fault forms lost = record { document = document; kind = kind; fault = fault; forms = forms; lost = lost }
"""

    def fits(self, row):
        return "included" in row

    def arguments(self, row):
        uris = sorted(row["texts"], key=str.encode)
        data, _ = kinds.document_terms(row)
        meant = row["meant"] if "meant" in row else by_folder(row)
        told = terms.many(f"{uris.index(u)}, {string_of(s)}, {uris.index(to)}" for u, s, to in meant)
        return uris, f"{row.get('limit', '(2 ^ 20)')} ({told}) {data}"

    def lemma(self, row):
        uris, arguments = self.arguments(row)
        return f"listed_rows {arguments} ≡ ({terms.many(unit_row(x, uris) for x in row['included'])})", "refl"


def meanings(row):
    """What strings mean in the documents of a row, as terms."""
    uris = sorted(row["texts"], key=str.encode)
    return terms.many(f"{uris.index(u)}, {string_of(s)}, {uris.index(to)}" for u, s, to in (row["meant"] if "meant" in row else by_folder(row)))


class Told(kinds.Diagnostics):
    """Documents that include one another, and all their diagnostics."""

    module = "ToldRows"
    says = "Documents that include one another, and all their diagnostics, from outside."
    head = kinds.Diagnostics.head.replace("Shown.{ArrowRow, arrow_rows, diagnostic_rows}", "Shown.{ArrowRow}\nuse Rattle.scheme_model.proofs.ShownIncludes.{told_diagnostics, told_early, told_arrows}")

    def fits(self, row):
        return "told" in row

    def diagnostics(self, row, told):
        uris = sorted(row["texts"], key=str.encode)
        return terms.many(f"q {uris.index(uri)} {x[0]} {x[1]} {x[2]} {terms.utf8(x[3])}" for uri in uris for x in told.get(uri, []))

    def lemma(self, row):
        data, spans = kinds.document_terms(row)
        return f"told_diagnostics {spans} ({meanings(row)}) {data} ≡ ({self.diagnostics(row, row['told'])})", "refl"


EARLY = {61: "bad declaration", 66: "unit too large", 67: "too many units", 68: "include cycle"}


class Early(Told):
    """Documents that include one another, and their diagnostics that are told before names are looked at, by what `Included` says of their units."""

    module = "EarlyRows"
    says = "Documents that include one another, and their diagnostics with the codes 61, 66, 67, 68 and 105, from outside."

    def fits(self, row):
        return "included" in row and "limit" not in row

    def starts(self, row):
        """The first token of each unit, and its name where it is a library."""
        for uri in sorted(row["texts"], key=str.encode):
            try:
                data = reader.data(row["texts"][uri])
            except reader.Unreadable:
                continue
            libraries = [d for d in data if is_library(d)]
            for d in libraries + [d for d in data if not is_library(d)][:1]:
                yield d[1][2], str(name_of(d)) if is_library(d) else None

    def lemma(self, row):
        told, named = {}, set()
        for number, (unit, (start, name)) in enumerate(zip(row["included"], self.starts(row), strict=True)):
            uri, _, fault, _, lost = unit
            if number >= 128:
                fault = [67, None]
            if fault:
                at = fault[1] or [uri, start, start + len(first_token(row["texts"][uri], start))]
                told.setdefault(at[0], set()).add((at[1], at[2], fault[0], EARLY[fault[0]]))
            elif name is None or name not in named:
                named.add(name)
                for at in lost:
                    told.setdefault(at[0], set()).add((at[1], at[2], 105, "included text not usable " + json.loads(row["texts"][at[0]].encode()[at[1]:at[2]])))
        data, spans = kinds.document_terms(row)
        listed = {uri: sorted(found, key=lambda x: (x[0], x[2], x[3])) for uri, found in told.items()}
        return f"told_early {spans} ({meanings(row)}) {data} ≡ ({self.diagnostics(row, listed)})", "refl"


def is_library(d):
    return d[0] == "list" and bool(d[2]) and d[2][0][0] == "name" and d[2][0][2] == "define-library"


def without_places(d):
    return [without_places(x) for x in d[2]] if d[0] == "list" else d[2:]


def name_of(d):
    return without_places(d[2][1]) if len(d[2]) > 1 else None


def first_token(text, start):
    return next(text.encode()[t[1]:t[2]] for t in reader.tokens(text) if t[1] == start)


class ToldArrows(Told):
    """Documents that include one another, and their arrows."""

    module = "ToldArrowRows"
    says = "Documents that include one another, and their arrows, from outside."

    def fits(self, row):
        return "told_arrows" in row

    def lemma(self, row):
        data, spans = kinds.document_terms(row)
        uris = sorted(row["texts"], key=str.encode)
        told = terms.many(f"a (b {uris.index(x[0])} {x[1]} {x[2]}) (b {uris.index(y[0])} {y[1]} {y[2]})" for x, y in row["told_arrows"])
        return f"told_arrows {spans} ({meanings(row)}) {data} ≡ ({told})", "refl"


class ToldClass(kinds.Classes):
    """Documents that include one another, and the class of an occurrence."""

    module = "ToldClassRows"
    says = "Documents that include one another, and the occurrences that are spelled together with one of them, each with its prefix."
    head = kinds.Classes.head.replace("Shown.{PartRow, class_rows}", "Shown.{PartRow}\nuse Rattle.scheme_model.proofs.ShownIncludes.{told_class}")

    def fits(self, row):
        return "told_class" in row

    def lemma(self, row):
        statement, proof = super().lemma({**row, "class": row["told_class"]})
        data, spans = kinds.document_terms(row)
        return statement.replace(f"class_rows {spans} {data}", f"told_class {spans} ({meanings(row)}) {data}"), proof


class ToldAnswer(kinds.Answers):
    """Documents that include one another, and what is answered about an offset of one of them."""

    module = "ToldAnswerRows"
    says = "Documents that include one another, and what is answered about a place in one of them, from outside."
    head = kinds.Answers.head.replace("Shown.{answer_rows}", "ShownIncludes.{told_answer}")

    def fits(self, row):
        return "told_answer" in row

    def lemma(self, row):
        statement, proof = super().lemma({**row, "answer": row["told_answer"]})
        data, spans = kinds.document_terms(row)
        return statement.replace(f"answer_rows {spans} {data}", f"told_answer {spans} ({meanings(row)}) {data}"), proof


class Held(Told):
    """Which units hold an occurrence, and aren't parts."""

    crate = "rename_model"
    module = "HeldRows"
    says = "Documents that include one another, and which units hold an occurrence, from outside."
    unfolding = kinds.Workspaces.unfolding
    head = rename_kinds.HEAD.replace("CALLED", "held_rows")

    def fits(self, row):
        return "held" in row

    def lemma(self, row):
        at, units = row["held"]
        data, _ = kinds.document_terms(row)
        return f"held_rows ({meanings(row)}) {data} (o {at[0]} {at[1]} {at[2]}) ≡ ({terms.many(map(terms.boolean, units))})", "refl"


class RenamedParts(Told):
    """Documents that include one another, edits that rename identifiers, and the first difference in the units in reach."""

    crate = "rename_model"
    module = "RenamedPartRows"
    says = "Documents that include one another, and how they differ from what they are once identifiers that begin at these bytes have other names."
    head = rename_kinds.HEAD.replace("CALLED", "renamed_parts").replace("\nabbrev p", rename_kinds.SPANS + "abbrev p")

    def fits(self, row):
        return "part_edits" in row

    def lemma(self, row):
        uris = sorted(row["texts"], key=str.encode)
        new = {uri: rename_kinds.edited(text, row["part_edits"].get(uri, [])) for uri, text in row["texts"].items()}
        old, spans = kinds.document_terms(row)
        names = terms.many(f"({uris.index(uri)}, {start}), {terms.utf8(name)}" for uri in sorted(row["part_edits"]) for start, _, name in row["part_edits"][uri])
        return f"renamed_parts {spans} ({meanings(row)}) {old} {kinds.document_terms({'texts': new})[0]} ({names}) ≡ {rename_kinds.difference(row['part_difference'])}", "refl"


KINDS = [Meant(), Included(), Told(), Early(), ToldArrows(), ToldClass(), ToldAnswer(), Held(), RenamedParts()]
