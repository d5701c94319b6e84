"""The kinds of rows that have a call, an argument and an answer, as README.md tells: what the row says, and the lemma that says the same
of a definition. `kinds.py` has the other kinds, and what all share.
"""
import re

import kinds
import reader
import terms
from kinds import ATOMS, Kind, chain, datum, ident, occ, plain, trees


def tree_term(it):
    """A tree of a row of macros, as a term."""
    kind, at, *values = it
    if kind == "name":
        return f"(t.name {ident(values[0])} {occ(at)})"
    if kind == "vector":
        return f"(t.vector {trees(map_back(values[0]))} {occ(at)})"
    if kind == "list":
        return f"(t.list {trees(map_back(values[0]))} {tail_term(values[1:])} {occ(at)})"
    return f"(t.atom {ATOMS[kind](values[0])} {occ(at)})"


def map_back(items):
    return [tree_term(it) for it in items]


def tail_term(tail):
    return f"(t.dotted {tree_term(tail[0])})" if tail else "t.proper"


def read_tree(datum, form):
    """A datum of a text by itself, as rows of macros have trees."""
    kind, at, *values = datum
    at = at and [0, form, at[0]]
    if kind not in ("list", "vector"):
        return [kind, at, values[0] + "@0" if kind == "name" else values[0]]
    tail = [read_tree(values[1], form)] if kind == "list" and values[1] else []
    return [kind, at, [read_tree(part, form) for part in values[0]], *tail]


def named(it):
    return f"named {ident(it[2])} {occ(it[1])}"


def found_at(it, at):
    """The leaf of a tree that has this place."""
    if it[1] == at:
        return it
    inner = it[2] + it[3:] if it[0] in ("list", "vector") else []
    return next(filter(None, (found_at(part, at) for part in inner)), None)


def rule_term(rule):
    (_, _, parts, *tail), template = rule[2]
    return f"u {trees(map_back(parts[1:]))} {tail_term(tail)} {tree_term(template)}"


def value_term(value):
    """What a variable stands for."""
    if value and isinstance(value[0], str):
        return f"(v.One {tree_term(value)})"
    return f"(v.Many {chain('v.value', 'v.no_values', [value_term(inner) for _, inner in value])})"


RULE_FAULTS = {"bad shape": "f.BadRules", "two ellipses": "f.TwoEllipses", "duplicate variable": "f.DuplicateVariable", "depth": "f.EllipsisDepth",
               "idle ellipsis": "f.IdleEllipsis", "node budget": "f.NodeBudget", "ellipsis length": "f.EllipsisLength"}


class Macros(Kind):
    """Rules of macros and uses of them."""

    module = "MacroRows"
    says = "Rules of macros, and which rule a use matches and what its template gives, from outside."
    head = """
use Rattle.std.specs.Prelude.{◌≡◌, ℕ, Bool, true, false, ◌&&◌, ◌||◌, List, [], ◌∷◌, Option, Some, None, Result, Ok, Err, codes, refl}
use Rattle.scheme_model.specs.declared.Occ.{Occ}
use Rattle.scheme_model.specs.Identifiers.{Number}
use Rattle.scheme_model.specs.Ident as x
use Rattle.scheme_model.specs.Ident.{same_ident, symbol_of}
use Rattle.scheme_model.specs.Trees as t
use Rattle.scheme_model.specs.ExpansionFaults as f
use Rattle.scheme_model.specs.ExpansionFaults.{Named, named, Fault}
use Rattle.scheme_model.specs.RulesShape.{Names, Rule, Rules, rules_of, role_of, dots_of}
use Rattle.scheme_model.specs.Matching as v
use Rattle.scheme_model.specs.Matching.{Binding, Chosen, match_of, matcher, first_match, compared}
use Rattle.scheme_model.specs.Building.{Built, built, build}

abbrev o : ℕ → ℕ → ℕ → Occ
o unit form token = record { unit = unit; form = form; token = token }

abbrev n : ℕ → ℕ → ℕ → Number
n unit form count = record { unit = unit; form = form; count = count }

abbrev u : t.Trees x.Ident → t.Tail x.Ident → t.Tree x.Ident → Rule x.Ident
u parts tail template = record { parts = parts; tail = tail; template = template }

abbrev rs : Option x.Ident → List (Named x.Ident) → List (Rule x.Ident) → Rules x.Ident
rs ellipsis literals rules = record { ellipsis = ellipsis; literals = literals; rules = rules }

abbrev b : x.Ident → v.Value x.Ident → Binding x.Ident x.Ident
b variable value = record { variable = variable; value = value }

abbrev c : Rule x.Ident → List (Binding x.Ident x.Ident) → List (Named x.Ident) → Chosen x.Ident x.Ident
c rule bindings met = record { rule = rule; match = match_of bindings met }

abbrev names : Names x.Ident
names = record { same = same_ident; strip = symbol_of }

-- the first part of a list isn't looked at
abbrev behind_head : {X : Type 0} → t.Tree x.Ident → X → (t.Trees x.Ident → t.Tail x.Ident → X) → X
behind_head (t.name i p) otherwise g = otherwise
behind_head (t.atom a p) otherwise g = otherwise
behind_head (t.vector ts p) otherwise g = otherwise
behind_head (t.list t.no_trees tail p) otherwise g = otherwise
behind_head (t.list (t.tree d ts) tail p) otherwise g = g ts tail

abbrev rules_row : t.Tree x.Ident → Result (Rules x.Ident) (Fault x.Ident)
rules_row d = behind_head d (Err f.BadRules) (λ ts tail. rules_of names ts tail)

abbrev of_rules : {X : Type 0} → Result (Rules x.Ident) (Fault x.Ident) → X → (Rules x.Ident → X) → X
of_rules (Err e) otherwise g = otherwise
of_rules (Ok r) otherwise g = g r

abbrev same : List (x.Ident × x.Ident) → x.Ident → x.Ident → Bool
same [] i j = false
same (p ∷ ps) i j = (same_ident p.0 i && same_ident p.1 j) || same ps i j

abbrev matched : Rules x.Ident → t.Tree x.Ident → List (x.Ident × x.Ident) → Option (Chosen x.Ident x.Ident)
matched r d ps = behind_head d None (λ ts tail. first_match (matcher names r (same ps)) r.rules ts tail)

abbrev match_row : t.Tree x.Ident → t.Tree x.Ident → List (x.Ident × x.Ident) → Option (Chosen x.Ident x.Ident)
match_row d e ps = of_rules (rules_row d) None (λ r. matched r e ps)

abbrev pairs_row : t.Tree x.Ident → t.Tree x.Ident → List (x.Ident × x.Ident)
pairs_row d e = of_rules (rules_row d) [] (λ r. behind_head e [] (λ ts tail. compared (role_of names r) (dots_of names r) r.rules ts tail))

abbrev instance_of : Rules x.Ident → ℕ → Option (Chosen x.Ident x.Ident) → Option (Result (Built (t.Tree x.Ident)) (Fault x.Ident))
instance_of r left None = None
instance_of r left (Some m) = Some (build names r (λ i. x.Inserted i (n 0 1 0)) m.rule.template m.match.bindings left)

abbrev build_row : t.Tree x.Ident → t.Tree x.Ident → List (x.Ident × x.Ident) → ℕ → Option (Result (Built (t.Tree x.Ident)) (Fault x.Ident))
build_row d e ps left = of_rules (rules_row d) None (λ r. instance_of r left (matched r e ps))
"""

    def fits(self, row):
        return row.get("call", "").startswith("rules/")

    def lemma(self, row):
        call, argument, answer = row["call"].removeprefix("rules/"), row["argument"], row["answer"]
        if call == "check":
            return self.checked(read_tree(reader.data(argument)[0], 0), answer)
        rules, form = (read_tree(reader.data(text)[0], number) for number, text in enumerate(argument[:2]))
        asked = f"{tree_term(rules)} {tree_term(form)}"
        pairs = terms.many(f"{plain(i)}, {plain(j)}" for i, j in argument[2])
        if call == "pairs":
            return f"pairs_row {asked} ≡ ({terms.many(f'{ident(i)}, {ident(j)}' for i, j in answer)})", "refl"
        if call == "match":
            return f"match_row {asked} ({pairs}) ≡ {self.matched(rules, answer)}", "refl"
        return f"build_row {asked} ({pairs}) {argument[3]} ≡ {self.built(argument[3], answer)}", "refl"

    def checked(self, rules, answer):
        if answer[0] in [*RULE_FAULTS]:
            at = f" ({named(found_at(rules, answer[1]))})" if answer[1] else ""
            return f"rules_row {tree_term(rules)} ≡ Err ({RULE_FAULTS[answer[0]]}{at})", "refl"
        ellipsis = terms.optional(answer[0], ident)
        literals = rules[2][2 if answer[0] else 1][2]
        assert [it[2] for it in literals] == answer[1]
        own = terms.many(rule_term(["list", None, rule]) for rule in answer[2])
        return f"rules_row {tree_term(rules)} ≡ Ok (rs {ellipsis} ({terms.many(map(named, literals))}) ({own}))", "refl"

    def matched(self, rules, answer):
        if answer == "no rule":
            return "None"
        number, bindings, met = answer
        own = rules[2][(3 if rules[2][1][0] == "name" else 2):]
        bound = terms.many(f"b {ident(name)} {value_term(value)}" for name, value in bindings)
        return f"Some (c ({rule_term(own[number])}) ({bound}) ({terms.many(map(named, met))}))"

    def built(self, left, answer):
        if answer == "no rule":
            return "None"
        if isinstance(answer, str):
            return f"Some (Err {RULE_FAULTS[answer]})"
        return f"Some (Ok (built {tree_term(answer[1])} {left - answer[0]}))"


class Forms(kinds.Trees):
    """The last datum of a text, as a form of a unit."""

    module = "FormRows"
    says = "Texts by hand, and the trees that their last data are as forms of a unit."

    def fits(self, row):
        return row.get("call") == "trees/of"

    def lemma(self, row):
        text, unit, form = row["argument"]
        kinds.TOKENS[:] = reader.tokens(text)
        told = tree_term(row["answer"][2]).replace("(x.Written", "(i.Written")
        return f"form_of {unit} {form} ({datum(reader.data(text)[-1])}) ≡ {told}", "refl"


def bare(it):
    """A tree of the prelude, which has symbols for names and no places."""
    kind, _, *values = it
    if kind == "name":
        return f"(t.name {terms.utf8(values[0].removesuffix('@128'))} None)"
    if kind == "list":
        tail = f"(t.dotted {bare(values[1])})" if len(values) > 1 else "t.proper"
        return f"(t.list {trees([bare(part) for part in values[0]])} {tail} None)"
    return f"(t.atom {ATOMS[kind](values[0])} None)"


def names_of(names):
    return terms.many(map(terms.utf8, names))


class Standard(Kind):
    """The names of standard libraries, and the macros of the prelude."""

    module = "StandardRows"
    says = "The names of standard libraries (R7RS Appendix A), and the rules of the prelude's macros (R7RS 7.3)."
    unfolding = "base_names standard_libraries prelude"
    head = """
use Rattle.std.specs.Prelude.{◌≡◌, ℕ, true, false, List, [], ◌∷◌, Option, Some, None, codes, if◌then◌else◌, refl}
use Rattle.std.specs.Str.{bytes_eq}
use Rattle.scheme_model.specs.Trees as t
use Rattle.scheme_model.specs.Requirements.{Symbol, Digits}
use Rattle.scheme_model.specs.StandardNames.{base_names}
use Rattle.scheme_model.specs.StandardLibraries.{standard_libraries, names_in}
use Rattle.scheme_model.specs.Prelude.{PreludeMacro, prelude}

abbrev macro_in : List PreludeMacro → List ℕ → Option (t.Trees (List ℕ))
macro_in [] s = None
macro_in (m ∷ ms) s = if bytes_eq m.name s then Some m.parts else macro_in ms s
"""

    def fits(self, row):
        return row.get("call") == "standard/macro" or row.get("call") == "standard/names" and re.fullmatch(r"\(\S+( \S+)*\)", row["argument"])

    def lemma(self, row):
        name, answer = row["argument"], row["answer"]
        if row["call"] == "standard/names":
            parts = terms.many(f"{'Digits' if it.isdigit() else 'Symbol'} {terms.utf8(it)}" for it in name[1:-1].split(" "))
            return f"names_in standard_libraries ({parts}) ≡ {terms.optional(answer, lambda it: '(' + names_of(it) + ')')}", "refl"
        return f"macro_in prelude {terms.utf8(name)} ≡ {terms.optional(answer, self.rules)}", "refl"

    def rules(self, rules):
        ellipsis, literals, own = rules
        front = [["name", None, ellipsis]] if ellipsis else []
        literals = ["list", None, [["name", None, it] for it in literals]]
        return trees([bare(it) for it in [*front, literals, *(["list", None, rule] for rule in own)]])


class Links(Kind):
    """Given links, and the class of an occurrence."""

    module = "LinkRows"
    says = "Given links, whether they join an occurrence, its class with the prefixes of each member, and the class's standard names."
    head = """
use Rattle.std.specs.Prelude.{◌≡◌, ◌+◌, ℕ, zero, Bool, true, false, ◌&&◌, ◌||◌, ◌==◌, List, [], ◌∷◌, length, codes, refl}
use Rattle.std.specs.Str.{bytes_eq}
use Rattle.scheme_model.specs.declared.Occ.{Occ}
use Rattle.scheme_model.specs.Entries.{Source, At, StandardName}
use Rattle.scheme_model.specs.Spelling.{Link, is_joined, class_of, is_member, prefixes_of, has_prefix, standard_origins}

abbrev o : ℕ → ℕ → ℕ → Occ
o unit form token = record { unit = unit; form = form; token = token }

abbrev l : Source → Occ → List ℕ → Link
l origin target prefix = record { origin = origin; target = target; prefix = prefix }

-- how many prefixes the members have
abbrev sizes : List Link → List Occ → ℕ
sizes ls [] = zero
sizes ls (m ∷ ms) = length (prefixes_of ls m []) + sizes ls ms

-- each part is one of a member
abbrev are_parts : List Link → List Occ → List (Occ × List ℕ) → Bool
are_parts ls ms [] = true
are_parts ls ms (p ∷ ps) = is_member ms p.0 && has_prefix (prefixes_of ls p.0 []) p.1 && are_parts ls ms ps

-- the parts, all different, are those of the class
abbrev class_row : List Link → Occ → List (Occ × List ℕ) → Bool
class_row ls i ps = is_joined ls i && are_parts ls (class_of ls i) ps && (sizes ls (class_of ls i) == length ps)

abbrev names_among : List (List ℕ) → List (List ℕ) → Bool
names_among ss [] = true
names_among ss (t ∷ ts) = has_prefix ss t && names_among ss ts

-- the standard names of the class, in any order
abbrev names_row : List Link → Occ → List (List ℕ) → Bool
names_row ls i ss = let found = standard_origins ls (class_of ls i) in names_among ss found && names_among found ss
"""

    def fits(self, row):
        return row.get("call") == "classes/of"

    def lemma(self, row):
        links, at = row["argument"]
        is_joined, parts, names = row["answer"]
        told = terms.many(f"l {self.source(origin)} {self.place(target)} {terms.utf8(prefix) if prefix else '[]'}" for origin, target, prefix in links)
        asked = f"({told}) {self.place(at)}"
        if not is_joined:
            return f"is_joined {asked} ≡ false", "refl"
        listed = terms.many(f"{self.place(it)}, {terms.utf8(prefix) if prefix else '[]'}" for it, prefix in parts)
        return f"class_row {asked} ({listed}) && names_row {asked} ({names_of(names)}) ≡ true", "refl"

    def source(self, origin):
        return f"(StandardName {terms.utf8(origin)})" if isinstance(origin, str) else f"(At {self.place(origin)})"

    def place(self, it):
        return f"(o {' '.join(map(str, it))})"


KINDS = [*kinds.KINDS, Macros(), Forms(), Standard(), Links()]
