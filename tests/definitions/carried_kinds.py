"""The kind of rows of two programs, one after the other: which forms are carried to the second, and the work of the event between them."""
import re

import include_kinds
import kinds
import reader
import terms


def opened(texts):
    """Documents in the byte order of their uris, each with its data where it reads."""
    out = []
    for uri in sorted(texts, key=str.encode):
        try:
            data = re.sub(r"\bd\.", "g.", f"Some ({kinds.datum_terms(texts[uri], reader.data(texts[uri]))})")
        except reader.Unreadable:
            data = "None"
        out.append(f"{terms.utf8(uri)}, {data}")
    return f"({terms.many(out)})"


class Carried(kinds.Kind):
    """Documents before and after an event, the forms that are carried, and the work."""

    crate = "carried_forms"
    module = "CarriedRows"
    says = "Open documents before and after an event, the forms that are carried, and the work of the event, from outside."
    unfolding = kinds.Workspaces.unfolding
    head = """
use Rattle.std.specs.Prelude.{◌≡◌, ℕ, Bool, true, false, List, [], ◌∷◌, Option, Some, None, codes, refl}
use Rattle.std.specs.Char.{encode_utf8}
use Rattle.scheme_model.specs.StandardNames.{base_names}
use Rattle.scheme_model.specs.StandardLibraries.{standard_libraries}
use Rattle.scheme_model.specs.Prelude.{prelude}
use Rattle.scheme_model.specs.Kinds as k
use Rattle.scheme_model.specs.Data as g
use Rattle.carried_forms.proofs.ShownCarried.{carried_rows}

abbrev p : ℕ → ℕ → ℕ → ℕ → g.Place
p first last start end = record { first = first; last = last; start = start; end = end }
"""

    def fits(self, row):
        return "carried" in row and "work" in row

    def lemma(self, row):
        told = terms.many(f"{unit}, {form}" for unit, form in row["carried"])
        return f"carried_rows {opened(row['before'])} {opened(row['after'])} ≡ ({told}, {row['work']})", "refl"


class Without(Carried):
    """Documents before and after an event, and the forms that would be carried if questions of one kind weren't asked."""

    module = "WithoutRows"
    says = "Open documents before and after an event, and the forms that would be carried if questions of one kind weren't asked."
    head = Carried.head.replace("{carried_rows}", "{Kind, LookUp, Keyword, Rules, Comparison, Assignment, Library, Outcome, without_rows}")

    def fits(self, row):
        return "without" in row

    def lemma(self, row):
        kind, forms = row["without"]
        told = terms.many(f"{unit}, {form}" for unit, form in forms)
        return f"without_rows {kind} {opened(row['before'])} {opened(row['after'])} ≡ ({told})", "refl"


class Paired(Carried):
    """Documents that include texts before and after an event, and the units and forms that are paired."""

    module = "PairedRows"
    says = "Open documents that include texts before and after an event, and the units and forms that are paired, from outside."
    head = """
use Rattle.std.specs.Prelude.{◌≡◌, ℕ, Bool, true, false, List, [], ◌∷◌, Option, Some, None, codes, refl}
use Rattle.std.specs.Char.{encode_utf8}
use Rattle.scheme_model.specs.StandardNames.{base_names}
use Rattle.scheme_model.specs.StandardLibraries.{standard_libraries}
use Rattle.scheme_model.specs.Prelude.{prelude}
use Rattle.scheme_model.specs.Kinds as k
use Rattle.scheme_model.specs.Data as g
use Rattle.carried_forms.proofs.ShownPairs.{Texts, pair_rows}

abbrev p : ℕ → ℕ → ℕ → ℕ → g.Place
p first last start end = record { first = first; last = last; start = start; end = end }

abbrev t : List (List ℕ) → List (ℕ × List ℕ × ℕ) → List (Option (List g.Datum)) → Texts
t uris meant read = record { uris = uris; meant = meant; read = read }
"""

    def fits(self, row):
        return "pairs" in row

    def texts(self, texts):
        uris = sorted(texts, key=str.encode)
        data, _ = kinds.document_terms({"texts": texts})
        meant = terms.many(f"{uris.index(u)}, {include_kinds.string_of(s)}, {uris.index(to)}" for u, s, to in include_kinds.by_folder({"texts": texts}))
        return f"(t ({terms.many(map(terms.utf8, uris))}) ({meant}) {data})"

    def lemma(self, row):
        told = terms.many(f"{u}, {v}, ({terms.many(f'{f}, {g}' for f, g in forms)})" for u, v, forms in row["pairs"])
        return f"pair_rows {self.texts(row['before'])} {self.texts(row['after'])} ≡ ({told})", "refl"


KINDS = [Carried(), Without(), Paired()]
