"""The kinds of rows: what a row says, and the lemma that says the same of a definition.

Each kind has the crate and the name of its module, the module's head, a test whether a row is of this kind, and the
lemma of a row: its statement and its proof. A row that a kind can't state gives None.
"""
import json
import re

import reader
import terms


class Kind:
    """A kind of rows."""

    crate = "model_laws"
    module = ""
    says = ""
    head = ""
    unfolding = ""

    def fits(self, row):
        raise NotImplementedError

    def lemma(self, row):
        raise NotImplementedError


def spot(s):
    return f"(s {s[0]} {s[1]} {s[2]})"


LEAVES = {
    "name": lambda v: f"(k.Name {terms.text(v[0])} {terms.boolean(v[1])})",
    "numeral": lambda v: f"(k.Numeral {terms.text(v[0])})",
    "string": lambda v: f"(k.Quoted {terms.text(v[0])})",
    "char": lambda v: f"(k.Character {ord(v[0])})",
    "bool": lambda v: f"(k.Truth {terms.boolean(v[0])})",
}
ALONE = {"(": "k.Paren", "#(": "k.VectorParen", "#u8(": "k.BytesParen", ")": "k.Close", ".": "k.Dot", "#;": "k.Skip"}
MARKS = {"'": "k.Quote", "`": "k.Quasi", ",": "k.Unquote", ",@": "k.Splice"}
SYMBOLS = {"quote": "k.Quote", "quasiquote": "k.Quasi", "unquote": "k.Unquote", "unquote-splicing": "k.Splice"}


def leaf(kind, values):
    return LEAVES[kind](values)


def token(t):
    kind, start, end, *values = t
    if kind in ALONE:
        written = ALONE[kind]
    elif kind in MARKS:
        written = f"(k.Marked {MARKS[kind]})"
    else:
        written = f"(k.Atomic {leaf(kind, values)})"
    return f"t {written} {start} {end}"


def gap(skips):
    out = "w.nothing"
    for at, before, datum in reversed(skips):
        out = f"(w.skipped {spot(at)} {gap(before)} {written(datum)} {out})"
    return out


def parts(items, last):
    out = f"(w.last {gap(last)})"
    for before, datum in reversed(items):
        out = f"(w.next {gap(before)} {written(datum)} {out})"
    return out


def byte_parts(items, last):
    out = f"(w.last_byte {gap(last)})"
    for before, datum in reversed(items):
        out = f"(w.byte {gap(before)} {spot(datum[1])} {terms.text(datum[2][1])} refl {out})"
    return out


def written(d):
    """How a datum is written, as a term."""
    if d[0] == "alone":
        kind, *values = d[2]
        return f"(w.alone {spot(d[1])} {leaf(kind, values)})"
    if d[0] == "abbreviated":
        return f"(w.abbreviated {spot(d[1])} {MARKS[d[2]]} {gap(d[3])} {written(d[4])})"
    if d[0] == "listed":
        return f"(w.listed {spot(d[1])} {parts(d[2], d[3])} {spot(d[4])})"
    if d[0] == "vectored":
        return f"(w.vectored {spot(d[1])} {parts(d[2], d[3])} {spot(d[4])})"
    if d[0] == "byted":
        return f"(w.byted {spot(d[1])} {byte_parts(d[2], d[3])} {spot(d[4])})"
    (first_gap, first), *more = d[2]
    return (f"(w.tailed {spot(d[1])} {gap(first_gap)} {written(first)} {parts(more, d[3])} {spot(d[4])}"
            f" {gap(d[5])} {written(d[6])} {gap(d[7])} {spot(d[8])})")


def place(p):
    return f"(p {p[0]} {p[1]} {p[2]} {p[3]})"


def datum(d):
    """A datum of a row, as a term; what an abbreviation implies has the place of its mark."""
    kind, at, *values = d
    if kind in LEAVES:
        if at is None or at[0] is None:
            return f"(d.atom {place(next(MARKED))} (d.implied {SYMBOLS[values[0]]}))"
        return f"(d.atom {place(at)} (d.spelled {leaf(kind, values)}))"
    if kind == "bytes":
        return f"(d.bytes {place(at)} ({terms.many(map(terms.text, values[0]))}))"
    inner = [datum(part) for part in values[0]]
    tail = values[1] if len(values) > 1 else None
    out = "d.none" if tail is None else f"(d.tail {datum(tail)})"
    for part in reversed(inner):
        out = f"(d.part {part} {out})"
    return f"(d.{kind} {place(at)} {out})"


# The places of the marks of the text at work, which rows don't tell, in the order of what they imply.
MARKED = iter(())


def datum_terms(text, data):
    """The data of a text, as terms."""
    global MARKED
    MARKED = iter(reader.mark_places(text))
    return terms.many([datum(d) for d in data])


class Written(Kind):
    """Texts with their tokens and data: the data as they are written are these tokens and mean these data."""

    module = "WrittenRows"
    says = ("Texts by their tokens and data, from outside: data as they are written are a relation, so each row gives how\n"
            "-- its data are written, which has these tokens and means these data.")
    head = """
use Rattle.std.specs.Prelude.{◌≡◌, ℕ, true, false, List, [], ◌∷◌, codes, refl}
use Rattle.scheme_model.specs.Kinds as k
use Rattle.scheme_model.specs.Data as d
use Rattle.scheme_model.specs.Numbered as n
use Rattle.scheme_model.specs.Written as w

abbrev s : ℕ → ℕ → ℕ → n.Spot
s number start end = record { number = number; start = start; end = end }

abbrev p : ℕ → ℕ → ℕ → ℕ → d.Place
p first last start end = record { first = first; last = last; start = start; end = end }

abbrev t : k.TokenKind → ℕ → ℕ → k.Token
t kind start end = record { kind = kind; start = start; end = end }

-- the tokens of data, and what the data mean
abbrev HasRow : w.Parts → List k.Token → List d.Datum → Type 0
HasRow ps ts ds = (w.parts_tokens ps [] ≡ n.number_from 0 ts) × (w.parts_meant ps ≡ ds)
"""

    def fits(self, row):
        return isinstance(row.get("data"), list) and isinstance(row.get("tokens"), list)

    def lemma(self, row):
        _, (items, last) = reader.written(row["text"])
        told = terms.many(map(token, row["tokens"]))
        data = datum_terms(row["text"], row["data"])
        return f"HasRow {parts(items, last)} ({told}) ({data})", "(refl, refl)"


def occ(o):
    return "None" if o is None else f"(Some (o {o[0]} {o[1]} {o[2]}))"


ATOMS = {
    "numeral": lambda v: f"(t.Numeral {terms.utf8(v)})",
    "string": lambda v: f"(t.Quoted {terms.utf8(v)})",
    "char": lambda v: f"(t.Character {ord(v)})",
    "bool": lambda v: f"(t.Boolean {terms.boolean(v)})",
    "bytes": lambda v: f"(t.Bytes {terms.utf8(v if isinstance(v, str) else ' '.join(v))})",
}


def trees(items):
    out = "t.no_trees"
    for item in reversed(items):
        out = f"(t.tree {item} {out})"
    return out


def tree_of(d, form, first):
    """A datum as the tree of a form, its symbols written in unit 0; places count from the form's first token."""
    kind, at, *values = d
    o = f"(Some (o 0 {form} {at[0] - first}))" if at else "None"
    if kind == "name":
        return f"(t.name (i.Written 0 {terms.utf8(values[0])}) {o})"
    if kind in ("list", "vector"):
        inner = trees([tree_of(x, form, first) for x in values[0]])
        if kind == "vector":
            return f"(t.vector {inner} {o})"
        tail = "t.proper" if values[1] is None else f"(t.dotted {tree_of(values[1], form, first)})"
        return f"(t.list {inner} {tail} {o})"
    return f"(t.atom {ATOMS[kind](values[0])} {o})"


def quoted(d):
    """A quoted datum of a row, its lists without places."""
    if d[0] == "symbol":
        return f"(t.name {terms.utf8(d[1])} {occ(d[2])})"
    if d[0] == "list":
        tail = f"(t.dotted {quoted(d[2])})" if len(d) > 2 and d[2] is not None else "t.proper"
        return f"(t.list {trees([quoted(x) for x in d[1]])} {tail} None)"
    if d[0] == "vector":
        return f"(t.vector {trees([quoted(x) for x in d[1]])} None)"
    return f"(t.atom {ATOMS[d[0]](d[1])} None)"


def number(n):
    """A number of a local or a use, which rows count from 1."""
    return f"(n {n[0]} {n[1]} {n[2] - 1})"


def ident(text):
    """`x@0` is the symbol x written in unit 0; `+u/f/c` behind it says which macro use inserted it."""
    uses = []
    while True:
        found = re.fullmatch(r"(.*)\+(\d+)/(\d+)/(\d+)", text, re.S)
        if not found:
            break
        uses.append([int(x) for x in found.groups()[1:]])
        text = found.group(1)
    symbol, unit = text.rsplit("@", 1)
    out = f"(x.Written {unit} {terms.utf8(symbol)})"
    for use in reversed(uses):
        out = f"(x.Inserted {out} {number(use)})"
    return out


def meaning(m):
    if m[0] == "local":
        return f"(m.Local {number(m[1:])})"
    if m[0] == "global":
        return f"(m.Global {m[1]} {ident(m[2])})"
    return f"(m.{'Standard' if m[0] == 'standard' else 'Free'} {terms.utf8(m[1])})"


def plain(symbol):
    return f"(x.Written 0 {terms.utf8(symbol)})"


def target(g):
    return f"(u {meaning(g[0])} {plain(g[1])} {occ(g[2])})"


def binder(b):
    bound = f"(c.Definition {b[0][1]} {b[0][2]})" if b[0][0] == "global" else f"(c.LocalNumber {number(b[0])})"
    return f"(b {bound} {plain(b[1])} {occ(b[2])})"


def some_binders(names, rest):
    return f"(bs ({terms.many(map(binder, names))}) {terms.boolean(rest)})"


def macro(g):
    leaves = terms.many(f"l {target(t)} {terms.boolean(literal)}" for t, literal in g[2])
    return f"(d {binder(g[1])} ({leaves}))"


def chain(word, empty, items):
    out = empty
    for item in reversed(items):
        out = f"({word} {item} {out})"
    return out


def cores(items):
    return chain("c.core", "c.no_cores", [core(x) for x in items])


def core(c):
    kind = c[0]
    if kind == "ref":
        return f"(c.Ref {target(c[1:])})"
    if kind == "const":
        return f"(c.Const {ATOMS[c[1][0]](c[1][1])})"
    if kind == "quote":
        return f"(c.Quote {quoted(c[1])})"
    if kind == "quasi":
        return f"(c.Quasi hole {cores(c[1])})"
    if kind == "lambda":
        names, rest, body = c[1]
        return f"(c.Lambda {some_binders(names, rest)} {core(body)})"
    if kind == "case-lambda":
        return f"(c.CaseLambda {chain('c.clause', 'c.no_clauses', [f'{some_binders(n, r)} {core(b)}' for n, r, b in c[1]])})"
    if kind == "if":
        return f"(c.If {cores(c[1])})"
    if kind == "set":
        return f"(c.Set {target(c[1])} {core(c[2])})"
    if kind == "call":
        return f"(c.Call {cores(c[1])})"
    if kind == "body":
        return f"(c.Body {parts_of(c[1])})"
    if kind == "let-syntax":
        return f"(c.LetSyntax ({terms.many(map(macro, c[1]))}) {core(c[2])})"
    raise ValueError(kind)


def part(p):
    kind = p[0]
    if kind == "expression":
        return f"(c.Expression {core(p[1])})"
    if kind == "define":
        return f"(c.Define {binder(p[1])} {core(p[2])})"
    if kind == "values":
        return f"(c.Values {some_binders(p[1], p[2])} {core(p[3])})"
    if kind == "syntax":
        return f"(c.Syntax {macro(p[1])})"
    _, names, fields, modified, used = p
    uses = terms.many(f"f {n} {occ(at)}" for n, at in used)
    return f"(c.Fields (r ({terms.many(map(binder, names))}) ({terms.many(map(binder, fields))}) ({terms.many(map(str, modified))}) ({uses})))"


def parts_of(items):
    return chain("c.part", "c.no_parts", [part(x) for x in items])


class Cores(Kind):
    """Programs with the cores, counts and faults of their forms."""

    crate = "model_laws"
    module = "CoreRows"
    says = "Programs, and what their forms expand to, from outside."
    unfolding = "base_names"
    head = """
use Rattle.std.specs.Prelude.{◌≡◌, ℕ, Bool, true, false, List, [], ◌∷◌, Option, Some, None, codes, refl}
use Rattle.scheme_model.specs.declared.Occ.{Occ}
use Rattle.scheme_model.specs.StandardNames.{base_names}
use Rattle.scheme_model.specs.Identifiers as i
use Rattle.scheme_model.specs.Identifiers.{Number}
use Rattle.scheme_model.specs.Ident as x
use Rattle.scheme_model.specs.Trees as t
use Rattle.scheme_model.specs.Meaning as m
use Rattle.scheme_model.specs.Cores as c
use Rattle.scheme_model.specs.Expression.{no_rules}
use Rattle.scheme_model.proofs.Shown.{hole, FaultRow, FormRow, program_rows}

abbrev o : ℕ → ℕ → ℕ → Occ
o unit form token = record { unit = unit; form = form; token = token }

abbrev n : ℕ → ℕ → ℕ → Number
n unit form count = record { unit = unit; form = form; count = count }

abbrev u : m.Meaning → x.Ident → Option Occ → c.Target
u meaning ident occ = record { meaning = meaning; ident = ident; occ = occ }

abbrev b : c.Bound → x.Ident → Option Occ → c.Binder
b bound ident occ = record { bound = bound; ident = ident; occ = occ }

abbrev bs : List c.Binder → Bool → c.Binders
bs names rest = record { names = names; rest = rest }

abbrev l : c.Target → Bool → c.RuleLeaf
l target literal = record { target = target; literal = literal }

abbrev d : c.Binder → List c.RuleLeaf → c.MacroDef
d binder leaves = record { binder = binder; rules = no_rules; leaves = leaves }

abbrev f : ℕ → Option Occ → c.FieldUse
f field occ = record { field = field; occ = occ }

abbrev r : List c.Binder → List c.Binder → List ℕ → List c.FieldUse → c.RecordType
r binders fields modified used = record { binders = binders; fields = fields; modified = modified; used = used }

abbrev w : c.Parts → ℕ → ℕ → Option FaultRow → List c.Target → FormRow
w items uses nodes fault keywords = record { items = items; uses = uses; nodes = nodes; fault = fault; keywords = keywords }

abbrev e : ℕ → Option Occ → List ℕ → Option FaultRow
e code at symbol = Some (record { code = code; at = at; symbol = symbol })
"""

    def fits(self, row):
        return "units" in row and len(row["units"]) == 1 and row["units"][0]["kind"] == "program"

    def lemma(self, row):
        (text,) = row["texts"].values()
        data = reader.data(text)
        imports = 0
        for x in data:
            if x[0] == "list" and x[2] and x[2][0][0] == "name" and x[2][0][2] == "import":
                imports += 1
            else:
                break
        forms = [tree_of(x, n, x[1][0]) for n, x in enumerate(data)][imports:]
        told = []
        for form in row["units"][0]["forms"][imports:]:
            fault = form["fault"]
            told_fault = "None" if fault is None else f"(e {fault['code']} {occ(fault['at'])} {terms.utf8(fault['name'] or '') if fault['name'] else '[]'})"
            keywords = terms.many(map(target, form["keywords"]))
            told.append(f"w {parts_of(form['items'])} {form['uses']} {form['count']} {told_fault} ({keywords})")
        more = terms.boolean("(scheme case-lambda)" in text)
        return f"program_rows {more} {imports} ({terms.many(forms)}) ≡ ({terms.many(told)})", "refl"


class Scoped(Cores):
    """The same programs, expanded by scopes."""

    module = "ScopedRows"
    says = "Programs, and what their forms expand to by scopes, from outside."
    head = Cores.head.replace("program_rows", "scoped_rows")

    def lemma(self, row):
        statement, proof = super().lemma(row)
        return statement.replace("program_rows", "scoped_rows"), proof


def documents(row):
    """A row's documents in the byte order of their uris, with their data and the bytes of their tokens."""
    for uri in sorted(row["texts"], key=str.encode):
        text = row["texts"][uri]
        try:
            yield uri, reader.tokens(text), reader.data(text)
        except reader.Unreadable:
            yield uri, [], None


def document_terms(row):
    data, spans = [], []
    for uri, toks, found in documents(row):
        data.append("None" if found is None else f"Some ({datum_terms(row['texts'][uri], found)})")
        spans.append(terms.many(f"s {t[1]} {t[2]}" for t in toks))
    return re.sub(r"\bd\.", "g.", f"({terms.many(data)})"), f"({terms.many(spans)})"


class Workspaces(Cores):
    """Documents with their units."""

    module = "WorkspaceRows"
    says = "Open documents, and what their units come to, from outside."
    unfolding = "base_names standard_libraries prelude encode_utf8"
    head = Cores.head.replace("{hole, FaultRow, FormRow, program_rows}", "{hole, FaultRow, FormRow, UnitRow, unit_rows}").replace(
        "abbrev o :", """use Rattle.std.specs.Char.{encode_utf8}
use Rattle.scheme_model.specs.StandardLibraries.{standard_libraries}
use Rattle.scheme_model.specs.Prelude.{prelude}
use Rattle.scheme_model.specs.Kinds as k
use Rattle.scheme_model.specs.Data as g
use Rattle.scheme_model.specs.Diagnostics.{Span}

abbrev s : ℕ → ℕ → Span
s start end = record { start = start; end = end }

abbrev p : ℕ → ℕ → ℕ → ℕ → g.Place
p first last start end = record { first = first; last = last; start = start; end = end }

abbrev v : Option ℕ → List FormRow → UnitRow
v broken forms = record { broken = broken; forms = forms }

abbrev o :""", 1)

    def fits(self, row):
        return "units" in row and "diagnostics" in row

    def lemma(self, row):
        data, _ = document_terms(row)
        told = []
        for u in row["units"]:
            forms = "[]" if u["broken"] else terms.many(form_row(f) for f in u["forms"])
            told.append(f"v {terms.optional(u['broken'], str)} ({forms})")
        return f"unit_rows {data} ≡ ({terms.many(told)})", "refl"


def form_row(form):
    fault = form["fault"]
    told_fault = "None" if fault is None else f"(e {fault['code']} {occ(fault['at'])} {terms.utf8(fault['name']) if fault['name'] else '[]'})"
    return f"w {parts_of(form['items'])} {form['uses']} {form['count']} {told_fault} ({terms.many(map(target, form['keywords']))})"


class Arrows(Workspaces):
    """Documents with their arrows."""

    module = "ArrowRows"
    says = "Open documents and their arrows, from outside."
    head = Workspaces.head.replace("{hole, FaultRow, FormRow, UnitRow, unit_rows}", "{ArrowRow, arrow_rows, diagnostic_rows}").replace("Diagnostics.{Span}", "Diagnostics.{Span, Bytes, Diagnostic}")
    head = head[:head.index("abbrev v :")] + """abbrev b : ℕ → ℕ → ℕ → Bytes
b document start end = record { document = document; span = record { start = start; end = end } }

abbrev a : Bytes → Bytes → ArrowRow
a binder target = record { binder = binder; target = target }

abbrev q : ℕ → ℕ → ℕ → ℕ → List ℕ → Diagnostic
q document start end code text = record { document = document; start = start; end = end; code = code; text = text }
"""

    def fits(self, row):
        return "arrows" in row

    def lemma(self, row):
        data, spans = document_terms(row)
        uris = [uri for uri, _, _ in documents(row)]
        told = terms.many(f"a (b {uris.index(x[0])} {x[1]} {x[2]}) (b {uris.index(y[0])} {y[1]} {y[2]})" for x, y, _ in row["arrows"])
        return f"arrow_rows {spans} {data} ≡ ({told})", "refl"


class Diagnostics(Arrows):
    """Documents with their diagnostics."""

    module = "DiagnosticRows"
    says = "Open documents and their diagnostics, from outside."

    def fits(self, row):
        return "diagnostics" in row

    def lemma(self, row):
        data, spans = document_terms(row)
        # The fault of a text that doesn't read isn't the program's.
        uris = [uri for uri, _, _ in documents(row)]
        read = [uri for uri, _, found in documents(row) if found is not None]
        told = terms.many(f"q {uris.index(uri)} {x[0]} {x[1]} {x[2]} {terms.utf8(x[4])}" for uri in read for x in row["diagnostics"].get(uri, []))
        return f"diagnostic_rows {spans} {data} ≡ ({told})", "refl"


ENCODINGS = {"utf-8": "e.Utf8", "utf-16": "e.Utf16", "utf-32": "e.Utf32"}


class Positions(Kind):
    """Positions of a text and their offsets in bytes, and the other way round."""

    crate = "ls_base"
    module = "PositionRows"
    says = "Positions and offsets, told by Python's codecs."
    head = """
use Rattle.std.specs.Prelude.{◌≡◌, ℕ, List, [], ◌∷◌, codes, refl}
use Rattle.ls_base.specs.declared.encoding.Encoding.TheVariants as e
use Rattle.ls_base.specs.declared.places.Pos.{Pos}
use Rattle.ls_base.specs.Positions.{units_of, lines_of, offset_in, position_in}

abbrev p : ℕ → ℕ → Pos
p line character = record { line = line; character = character }
"""

    def fits(self, row):
        return "offset" in row and "position" in row

    def lemma(self, row):
        text, encoding = terms.text(row["text"]), ENCODINGS[row["encoding"]]
        line, character = row["position"]
        if row["asks"] == "offset":
            return f"offset_in (units_of {encoding}) (lines_of {text}) {line} {character} ≡ {row['offset']}", "refl"
        return f"position_in (units_of {encoding}) (lines_of {text}) {row['offset']} ≡ p {line} {character}", "refl"


class Trees(Written):
    """Texts with their data: the tree of each datum as a form."""

    module = "TreeRows"
    says = "Texts by their data, from outside, and the trees that these are as forms of a unit."
    unfolding = "encode_utf8"
    head = Written.head.replace("use Rattle.scheme_model.specs.Kinds as k", """use Rattle.std.specs.Char.{encode_utf8}
use Rattle.scheme_model.specs.declared.Occ.{Occ}
use Rattle.scheme_model.specs.Identifiers as i
use Rattle.scheme_model.specs.Trees as t
use Rattle.scheme_model.specs.DataTrees.{form_of}
use Rattle.scheme_model.specs.Kinds as k""")
    head = head[:head.index("abbrev s :")] + """abbrev p : ℕ → ℕ → ℕ → ℕ → d.Place
p first last start end = record { first = first; last = last; start = start; end = end }

abbrev o : ℕ → ℕ → ℕ → Occ
o unit form token = record { unit = unit; form = form; token = token }

-- the forms of data, numbered from one on
abbrev forms_from : ℕ → List d.Datum → List (t.Tree i.Name)
forms_from n [] = []
forms_from n (x ∷ xs) = form_of 0 n x ∷ forms_from (suc n) xs
"""
    head = head.replace("use Rattle.scheme_model.specs.Numbered as n\n", "").replace("use Rattle.scheme_model.specs.Written as w\n", "").replace("{◌≡◌, ℕ, true, false,", "{◌≡◌, ℕ, suc, true, false, Option, Some, None,")

    def lemma(self, row):
        data = datum_terms(row["text"], row["data"])
        found = reader.data(row["text"])
        trees = terms.many(tree_of(d, n, d[1][0]) for n, d in enumerate(found))
        return f"forms_from 0 ({data}) ≡ ({trees})", "refl"


def change(c):
    where, text = c
    if where is None:
        return f"c None {terms.utf8(text)}"
    return f"c (Some (r {' '.join(map(str, where))})) {terms.utf8(text)}"


class Changes(Kind):
    """Changes of a document's text, of one line of ASCII."""

    module = "ChangeRows"
    says = ("Changes of a text of one line of ASCII characters, so that a position's character is its offset. The map of the\n"
            "-- documents doesn't compute; what events leave of it is shown by the rows of the store.")
    head = """
use Rattle.std.specs.Prelude.{◌≡◌, ℕ, List, [], ◌∷◌, Option, Some, None, Result, Ok, Err, codes, refl}
use Rattle.scheme_model.specs.Texts as x
use Rattle.scheme_model.specs.Texts.{Offsets, Span, Change, edits}

abbrev r : ℕ → ℕ → ℕ → ℕ → Span
r line character end_line end_character = record { start = record { line = line; character = character }; end = record { line = end_line; character = end_character } }

abbrev c : Option Span → List ℕ → Change
c range text = record { range = range; text = text }

abbrev offsets : Offsets
offsets encoding text position = position.character
"""

    def fits(self, row):
        return "changes" in row

    def lemma(self, row):
        told = f"Ok {terms.utf8(row['after'])}" if row["refusal"] is None else f"Err x.{row['refusal']}"
        return f"edits offsets x.Utf16 ({terms.many(map(change, row['changes']))}) {terms.utf8(row['before'])} ≡ {told}", "refl"


class Classes(Arrows):
    """Documents with the class of an occurrence."""

    module = "ClassRows"
    says = "Open documents, and the occurrences that are spelled together with one of them, each with its prefix."
    head = Arrows.head.replace("{ArrowRow, arrow_rows, diagnostic_rows}", "{PartRow, class_rows}").replace("{Span, Bytes, Diagnostic}", "{Span, Bytes}")
    head = head[:head.index("abbrev a :")] + """abbrev a : Bytes → List ℕ → PartRow
a place prefix = record { place = place; prefixes = prefix ∷ [] }

abbrev o : ℕ → ℕ → ℕ → Occ
o unit form token = record { unit = unit; form = form; token = token }
"""

    def fits(self, row):
        return "class" in row

    def lemma(self, row):
        data, spans = document_terms(row)
        uris = [uri for uri, _, _ in documents(row)]
        told = terms.many(f"a (b {uris.index(uri)} {start} {end}) {terms.utf8(prefix) if prefix else '[]'}" for uri, start, end, prefix in row["class"])
        return f"class_rows {spans} {data} (o {' '.join(map(str, row['at']))}) ≡ ({told})", "refl"


QUERIES = {"definition": "Definition", "references": "(References false)", "all references": "(References true)", "highlights": "Highlights", "prepare": "Prepare", "arrows": "Arrows"}


class Answers(Arrows):
    """Documents, and what is answered about an offset of one of them."""

    module = "AnswerRows"
    says = "Open documents, and what is answered about a place in one of them, from outside."
    head = Arrows.head.replace("{ArrowRow, arrow_rows, diagnostic_rows}", "{answer_rows}").replace("{Span, Bytes, Diagnostic}", "{Span, Bytes}")
    head = head[:head.index("abbrev a :")].replace("\n\nabbrev s :", "\nuse Rattle.scheme_model.specs.Session.{Definition, References, Highlights, Prepare, Arrows}\nuse Rattle.scheme_model.specs.Answers.{Answer, Nothing, Places, Lit, Prepared, Drawn}\nuse Rattle.std.specs.Prelude.{true, false}\n\nabbrev s :", 1)

    def fits(self, row):
        return "query" in row and "answer" in row

    def lemma(self, row):
        data, spans = document_terms(row)
        uris = [uri for uri, _, _ in documents(row)]

        def at(x):
            return f"b {uris.index(x[0])} {x[1]} {x[2]}"

        answer, query = row["answer"], row["query"]
        if query == "prepare":
            told = f"Prepared ({at(answer)})" if answer else "Nothing"
        elif query == "highlights":
            told = "Lit (" + terms.many(f"({at(x)}, {kind})" for x, kind in answer) + ")"
        elif query == "arrows":
            told = "Drawn (" + terms.many(f"({at(x)}, {at(y)})" for x, y in answer) + ")"
        else:
            told = "Places (" + terms.many(f"({at(x)})" for x in answer) + ")"
        uri, offset = row["asked"]
        return f"answer_rows {spans} {data} {uris.index(uri)} {offset} {QUERIES[query]} ≡ {told}", "refl"


class Edits(Arrows):
    """Documents, and what a rename of the identifier at a position edits in each, in bytes."""

    crate = "text_edits"
    module = "EditRows"
    says = "Open documents, and the edits by which an identifier gets a new name, from outside."
    unfolding = Arrows.unfolding + " chars spelled is_numeral is_identifier is_initial is_subsequent ucd_category"
    head = Arrows.head.replace("use Rattle.scheme_model.proofs.Shown.{ArrowRow, arrow_rows, diagnostic_rows}", "use Rattle.text_edits.proofs.Shown.{edit_rows}").replace("{Span, Bytes, Diagnostic}", "{Span}")
    head = head[:head.index("abbrev b :")].replace("\n\nabbrev s :", "\nuse Rattle.std.specs.Str.{chars}\nuse Rattle.scheme_tokens.specs.Lexical.{is_initial, is_subsequent}\nuse Rattle.scheme_tokens.specs.Mirror.Spelled.{spelled}\nuse Rattle.scheme_tokens.specs.Mirror.Words.{is_identifier, is_numeral}\nuse Rattle.text_edits.specs.Edits.{Edit}\nuse Rattle.unicode.proofs.CategoryComputing.{ucd_category}\n\nabbrev s :", 1) + """abbrev e : ℕ → ℕ → List ℕ → Edit
e start end text = record { start = start; end = end; text = text }
"""

    def fits(self, row):
        return "edits" in row and "at" in row

    def lemma(self, row):
        data, spans = document_terms(row)
        uris = [uri for uri, _, _ in documents(row)]
        uri, line, character = row["at"]
        offset = sum(len(it.encode()) for it in row["texts"][uri].splitlines(keepends=True)[:line]) + character
        texts = terms.many(terms.utf8(row["texts"][it]) for it in uris)
        told = terms.many(terms.many(f"e {start} {end} {terms.utf8(text)}" for start, end, text in row["edits"].get(it, [])) for it in uris)
        return f"edit_rows {spans} {data} ({texts}) {uris.index(uri)} {offset} {terms.utf8(row['symbol'] if 'symbol' in row else row['new'])} ≡ ({told})", "refl"


KINDS = [Written(), Trees(), Cores(), Scoped(), Workspaces(), Arrows(), Diagnostics(), Positions(), Changes(), Classes(), Answers(), Edits()]
