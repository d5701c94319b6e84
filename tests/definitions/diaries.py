"""A plain expander over environments, of core forms, macros, libraries and a few macros of the prelude (R7RS 4.1, 4.3, 5), by which each
form keeps a diary: what it asked of what is around it and what it was answered, in order. `carried.py` beside it compares diaries.
"""
import reader

CORE = "quote lambda if set! begin define define-syntax let-syntax letrec-syntax cond-expand".split()
MARKS = "syntax-rules else => ... _ unquote unquote-splicing".split()
PRELUDE_UNIT = -1
MOST_UNITS = 128
PRELUDE = """
(define-syntax let (syntax-rules () ((_ ((n v) ...) b0 b ...) ((lambda (n ...) b0 b ...) v ...))))
(define-syntax case (syntax-rules () ((_ k c0 c ...) (let ((x k)) (%case x c0 c ...)))))
(define-syntax %case (syntax-rules (else =>)
  ((_ x) #f)
  ((_ x (else => f)) (f x))
  ((_ x (else e0 e ...)) (begin e0 e ...))
  ((_ x ((d ...) => f) c ...) (if (memv x '(d ...)) (f x) (%case x c ...)))
  ((_ x ((d ...) e0 e ...) c ...) (if (memv x '(d ...)) (begin e0 e ...) (%case x c ...)))))
(define-syntax and (syntax-rules () ((_) #t) ((_ e) e) ((_ e f ...) (if e (and f ...) #f))))
(define-syntax or (syntax-rules () ((_) #f) ((_ e) e) ((_ e f ...) (let ((x e)) (if x x (or f ...))))))
(define-syntax when (syntax-rules () ((_ t e0 e ...) (if t (begin e0 e ...)))))
"""
OTHER_STANDARD = "list + - * car cdr cons memv".split()


class Fault(Exception):
    """A form is broken."""


def symbol(i):
    while i[0] == "inserted":
        i = i[1]
    return i[2]


def headed(d, word):
    return d[0] == "list" and d[2] and d[2][0][0] == "name" and d[2][0][2] == word


def is_proper(d):
    return d[0] == "list" and d[3] is None


def library_name(d):
    if is_proper(d) and d[2] and all(x[0] == "name" or (x[0] == "numeral" and x[2].isdigit()) for x in d[2]):
        return tuple(x[2] for x in d[2])
    return None


STANDARD = {("scheme", "base")}


class Scope:
    """Local binders around a place; outside them is nothing."""

    def __init__(self, parent):
        self.parent, self.binds = parent, {}


class Form:
    def __init__(self, number):
        self.number, self.uses, self.locals = number, 0, 0
        self.pass_diary, self.item_diary = [], []
        self.diary = self.pass_diary
        self.broken = False


class Unit:
    def __init__(self, number, uri, kind, name):
        self.number, self.uri, self.kind, self.name = number, uri, kind, name
        self.broken, self.data, self.declared, self.imports, self.exports = False, [], [], [], []
        self.defined, self.entries, self.forms, self.notes = {}, {}, {}, []

    def key(self):
        return self.uri, self.kind, self.name


class Workspace:
    """The units of texts, each worked on behind those that it imports."""

    def __init__(self, texts):
        self.macros = {}
        self.use_scopes = {}
        self.units = []
        self.prelude()
        found = []
        for uri in sorted(texts, key=str.encode):
            try:
                found.append((uri, reader.data(texts[uri])))
            except reader.Unreadable:
                pass
        self.known = STANDARD | {library_name(d[2][1]) for _, data in found for d in data if headed(d, "define-library") and len(d[2]) > 1}
        for uri, data in found:
            for d in data:
                if headed(d, "define-library"):
                    self.library(uri, d)
            rest = [d for d in data if not headed(d, "define-library")]
            if rest:
                self.program(uri, rest)
        self.break_units()
        todo = [u for u in self.units if not u.broken]
        while todo:
            unit = next(u for u in todo if not any(v in todo for v in self.imported(u)))
            todo.remove(unit)
            self.work(unit)

    # ---- units

    def new_unit(self, uri, kind, name):
        unit = Unit(len(self.units), uri, kind, name)
        self.units.append(unit)
        return unit

    def library(self, uri, d):
        name = library_name(d[2][1]) if len(d[2]) > 1 else None
        unit = self.new_unit(uri, "library", name)
        unit.broken = name is None or not all(self.declare(unit, x) for x in d[2][2:])

    def declare(self, unit, d):
        """A declaration of a library; false where it is bad."""
        if not is_proper(d):
            return False
        parts = d[2][1:]
        if headed(d, "begin"):
            for x in parts:
                self.add(unit, x, False)
            return True
        if headed(d, "cond-expand"):
            for clause in parts:
                if self.required(clause[2][0], None):
                    return all(self.declare(unit, x) for x in clause[2][1:])
            return True
        if headed(d, "export"):
            if not all(x[0] == "name" for x in parts):
                return False
            unit.exports += [x[2] for x in parts]
        elif headed(d, "import"):
            unit.imports += parts
        else:
            return False
        self.add(unit, d, True)
        return True

    def program(self, uri, data):
        unit = self.new_unit(uri, "program", None)
        leading = True
        for d in data:
            leading = leading and headed(d, "import") and is_proper(d)
            if leading:
                unit.imports += d[2][1:]
            self.add(unit, d, leading)
        if not unit.imports:
            unit.imports = [("list", None, [("name", None, "scheme"), ("name", None, "base")], None)]

    def add(self, unit, d, declared):
        unit.data.append(d)
        unit.declared.append(declared)

    def set_library(self, d):
        while d[2][0][2] in ("only", "except", "prefix", "rename") and len(d[2]) > 1 and d[2][1][0] == "list":
            d = d[2][1]
        return library_name(d)

    def first_named(self, name):
        """The unit that a library's name means."""
        if name in STANDARD:
            return None
        return next((u for u in self.units if u.name == name and not u.bad), None)

    def imported(self, unit):
        return [u for u in (self.first_named(self.set_library(d)) for d in unit.imports) if u is not None]

    def break_units(self):
        for u in self.units:
            u.bad = u.broken = u.broken or u.number >= MOST_UNITS
        for u in self.units:
            if not u.bad and u.name is not None and (u.name in STANDARD or self.first_named(u.name) is not u):
                u.broken = True
        for u in self.units:
            seen, todo = [], self.imported(u)
            while todo:
                v = todo.pop()
                if v not in seen:
                    seen.append(v)
                    todo += self.imported(v)
            if u in seen:
                u.broken = True

    # ---- imports and exports

    def gives(self, d):
        """The names of an import set."""
        word = d[2][0][2]
        if word in ("only", "except", "prefix", "rename") and d[2][1][0] == "list":
            inner = self.gives(d[2][1])
            if inner is None:
                return None
            if word == "only":
                return {x[2]: inner[x[2]] for x in d[2][2:]} if all(x[2] in inner for x in d[2][2:]) else {}
            if word == "except":
                return {n: m for n, m in inner.items() if n not in [x[2] for x in d[2][2:]]}
            if word == "prefix":
                return {d[2][2][2] + n: m for n, m in inner.items()}
            pairs = {x[2][0][2]: x[2][1][2] for x in d[2][2:]}
            return {pairs.get(n, n): m for n, m in inner.items()}
        name = library_name(d)
        if name in STANDARD:
            return {n: ("standard", n) for n in CORE + MARKS + self.prelude_names + OTHER_STANDARD}
        unit = self.first_named(name)
        return None if unit is None or unit.broken else unit.exported

    def work(self, unit):
        for d in unit.imports:
            for name, meaning in (self.gives(d) or {}).items():
                unit.entries.setdefault(name, meaning)
        passes = []
        for n, (d, declared) in enumerate(zip(unit.data, unit.declared)):
            if not declared:
                form = unit.forms[n] = Form(n)
                passes.append((form, self.guarded(form, lambda f=form, d=d, n=n: self.go_through(unit, f, [self.tree(unit, d, n, d[1][0])], None, unit.notes))))
        for form, items in passes:
            form.diary = form.item_diary
            if items is not None:
                self.guarded(form, lambda f=form, i=items: self.finish(unit, f, i))
        unit.exported = {}
        for name in unit.exports:
            m = self.at_root(("written", unit.number, name))
            if m[0] != "free" and name not in unit.exported:
                unit.exported[name] = m

    def guarded(self, form, work):
        try:
            return work()
        except Fault:
            form.broken = True
            return None

    def tree(self, unit, d, form, first):
        kind, at, *values = d
        occ = (unit.number, form, at[0] - first) if at and at[0] is not None else None
        if kind == "name":
            return ("name", ("written", unit.number, values[0]), occ)
        if kind == "list":
            return ("list", tuple(self.tree(unit, x, form, first) for x in values[0]), None if values[1] is None else self.tree(unit, values[1], form, first), occ)
        return ("atom", (kind, str(values[0])), occ)

    # ---- the prelude

    def prelude(self):
        self.prelude_names = []
        unit = Unit(PRELUDE_UNIT, None, "library", "prelude")
        self.prelude_unit = unit
        for d in reader.data(PRELUDE):
            name, rules = d[2][1][2], self.tree(unit, d[2][2], 0, 0)
            m = ("standard", name)
            if name.startswith("%"):
                i = ("written", PRELUDE_UNIT, name)
                unit.defined[i], m = 0, ("global", PRELUDE_UNIT, i)
            else:
                self.prelude_names.append(name)
            self.macros[m] = (self.rules_of(self.unplaced(rules)), None)

    def unplaced(self, t):
        if t[0] == "list":
            return ("list", tuple(map(self.unplaced, t[1])), t[2] and self.unplaced(t[2]), None)
        return (t[0], t[1], None)

    # ---- what identifiers mean

    def unit_at(self, n):
        return self.prelude_unit if n == PRELUDE_UNIT else self.units[n]

    def at_root(self, i):
        """What an identifier means outside all local binders."""
        if i[0] == "written":
            unit = self.unit_at(i[1])
            if i in unit.defined:
                return ("global", i[1], i)
            if i[1] == PRELUDE_UNIT:
                return ("standard", i[2])
            return unit.entries.get(i[2], ("free", i[2]))
        if i in self.unit_at(i[2][0]).defined:
            return ("global", i[2][0], i)
        return self.means(i[1], self.use_scopes[i[2]])

    def means(self, i, scope):
        while scope is not None:
            if i in scope.binds:
                return ("local", scope.binds[i])
            scope = scope.parent
        return self.at_root(i)

    def is_local(self, i, scope):
        return self.means(i, scope)[0] == "local"

    def kind(self, m):
        if m in self.macros:
            return ("macro", m)
        if m[0] == "standard" and m[1] in CORE:
            return ("core", m[1])
        if m[0] == "standard" and m[1] in MARKS:
            return ("mark", m[1])
        return None

    def look(self, form, i, scope):
        """A look-up, which goes into the diary with its answer, unless the form itself gives it."""
        m = self.means(i, scope)
        if m[0] != "local":
            form.diary.append(("look", i, m, m in self.macros))
        return m

    def head(self, form, i, scope):
        m = self.look(form, i, scope)
        return m, self.kind(m)

    # ---- rules

    def rules_of(self, t):
        """Literals and rules of a list headed by `syntax-rules`."""
        if len(t[1]) < 2 or t[2] is not None or t[1][1][0] != "list":
            raise Fault
        rules = []
        for r in t[1][2:]:
            if r[0] != "list" or len(r[1]) != 2 or r[1][0][0] != "list":
                raise Fault
            rules.append((("list", r[1][0][1][1:], r[1][0][2], None), r[1][1]))
        return tuple(t[1][1][1]), tuple(rules)

    def role(self, rules, i):
        if i in [x[1] for x in rules[0]]:
            return "literal"
        return {"...": "ellipsis", "_": "any"}.get(symbol(i), "variable")

    def is_dots(self, rules, t):
        return t[0] == "name" and self.role(rules, t[1]) == "ellipsis"

    def split(self, rules, pattern, form):
        """The parts of a list pattern beside those of a form that it can take by shape: pairs, and the row of its ellipsis."""
        if form[0] != "list" or form[2] is not None:
            return None
        ps, ts = list(pattern[1]), list(form[1])
        at = next((n for n, x in enumerate(ps) if self.is_dots(rules, x)), None)
        if at is None:
            return (list(zip(ps, ts)), None, []) if len(ps) == len(ts) else None
        behind = len(ps) - at - 1
        if len(ts) < at - 1 + behind:
            return None
        end = len(ts) - behind
        return list(zip(ps[:at - 1], ts[:at - 1])) + list(zip(ps[at + 1:], ts[end:])), ps[at - 1], ts[at - 1:end]

    def comparisons(self, rules, pattern, form):
        if pattern[0] == "name":
            return [(pattern[1], form[1])] if self.role(rules, pattern[1]) == "literal" and form[0] == "name" else []
        if pattern[0] != "list" or self.split(rules, pattern, form) is None:
            return []
        pairs, each, row = self.split(rules, pattern, form)
        return [c for p, t in pairs + [(each, t) for t in row] for c in self.comparisons(rules, p, t)]

    def match(self, rules, same, pattern, form, met):
        """What the variables stand for; None without a match."""
        if pattern[0] == "name":
            role = self.role(rules, pattern[1])
            if role == "literal":
                if form[0] != "name" or not same(pattern[1], form[1]):
                    return None
                met.append(form)
                return {}
            return {} if role == "any" else {pattern[1]: form}
        if pattern[0] == "atom":
            return {} if form[:2] == pattern[:2] else None
        found = self.split(rules, pattern, form)
        if found is None:
            return None
        out = {}
        for p, t in found[0]:
            one = self.match(rules, same, p, t, met)
            if one is None:
                return None
            out.update(one)
        if found[1] is not None:
            rows = [self.match(rules, same, found[1], t, met) for t in found[2]]
            if None in rows:
                return None
            for v in self.variables(rules, found[1]):
                out[v] = ("many", [r[v] for r in rows])
        return out

    def variables(self, rules, t):
        if t[0] == "name":
            return [t[1]] if self.role(rules, t[1]) == "variable" else []
        return [v for x in t[1] for v in self.variables(rules, x)] if t[0] == "list" else []

    def build(self, rules, t, bound, use):
        if t[0] == "name":
            return bound.get(t[1], ("name", ("inserted", t[1], use), t[2]))
        if t[0] == "atom":
            return ("atom", t[1], None)
        out = []
        for n, x in enumerate(t[1]):
            if self.is_dots(rules, x):
                continue
            if n + 1 < len(t[1]) and self.is_dots(rules, t[1][n + 1]):
                vs = [v for v in self.variables(rules, x) if v in bound and bound[v][0] == "many"]
                for k in range(len(bound[vs[0]][1])):
                    out.append(self.build(rules, x, {**bound, **{v: bound[v][1][k] for v in vs}}, use))
            else:
                out.append(self.build(rules, x, bound, use))
        return ("list", tuple(out), None, None)

    def use(self, unit, form, m, t, scope, notes):
        """The instance of a macro use, and the leaves that met a literal."""
        rules, around = self.macros[m]
        if m[0] != "local":
            form.diary.append(("rules", m, rules))
        parts = ("list", t[1][1:], t[2], None)
        same = lambda l, i: self.means(l, around) == self.means(i, scope)
        for pattern, _ in rules[1]:
            for l, i in self.comparisons(rules, pattern, parts):
                if not self.is_local(l, around) and not self.is_local(i, scope):
                    form.diary.append(("same", l, i, same(l, i)))
                if notes is not None:
                    notes.append(("compared", l, around, i, scope, same(l, i)))
        number = (unit.number, form.number, form.uses)
        form.uses += 1
        self.use_scopes[number] = around
        for pattern, template in rules[1]:
            met = []
            bound = self.match(rules, same, pattern, parts, met)
            if bound is not None:
                return self.build(rules, template, bound, number), met
        raise Fault

    # ---- definitions

    def define(self, unit, form, i, rules, scope, notes):
        """A definition in the unit, or in the body that a scope is."""
        if scope is None:
            table, m = unit.defined, ("global", unit.number, i)
        else:
            form.locals += 1
            table, m = scope.binds, ("local", (unit.number, form.number, form.locals))
        old, old_macro = table.get(i), self.macros.get(m)
        table[i] = m[1] if scope is not None else form.number
        if rules is not None:
            self.macros[m] = (rules, scope)
        refused = any(self.refuses(n, m, rules is not None) for n in notes)
        outcome = "redefines" if refused else "stood before" if old is not None else "stands"
        if scope is None:
            form.diary.append(("defines", i, outcome))
        if outcome != "stands":
            if old is None:
                del table[i]
            else:
                table[i] = old
            if rules is not None:
                del self.macros[m]
                if old_macro is not None:
                    self.macros[m] = old_macro
            raise Fault

    def refuses(self, note, m, is_keyword):
        if note[0] == "looked":
            _, i, scope, as_head, keyword = note
            return self.means(i, scope) == m and (keyword or (as_head and is_keyword))
        _, l, around, i, scope, held = note
        left, right = self.means(l, around), self.means(i, scope)
        return m in (left, right) and (left == right) != held

    def go_through(self, unit, form, todo, scope, notes):
        """Forms head-expanded in order: what they set aside, and what their uses met."""
        todo, items, met = list(todo), [], []
        while todo:
            t = todo.pop(0)
            if t[0] != "list" or not t[1] or t[1][0][0] != "name":
                items.append(("expression", t))
                continue
            m, kind = self.head(form, t[1][0][1], scope)
            notes.append(("looked", t[1][0][1], scope, True, kind is not None))
            parts = t[1][1:]
            if kind and kind[0] == "macro":
                tree, leaves = self.use(unit, form, m, t, scope, notes)
                todo.insert(0, tree)
                met += leaves
            elif kind == ("core", "begin"):
                todo[:0] = parts
            elif kind == ("core", "cond-expand"):
                todo[:0] = self.chosen(form, parts)
            elif kind == ("core", "define"):
                self.go_define(unit, form, parts, scope, notes, items)
            elif kind == ("core", "define-syntax"):
                if len(parts) != 2 or parts[0][0] != "name" or parts[1][0] != "list" or not parts[1][1] or parts[1][1][0][0] != "name":
                    raise Fault
                head = parts[1][1][0][1]
                _, rules_kind = self.head(form, head, scope)
                notes.append(("looked", head, scope, False, rules_kind is not None))
                if rules_kind != ("mark", "syntax-rules"):
                    raise Fault
                rules = self.rules_of(parts[1])
                self.define(unit, form, parts[0][1], rules, scope, notes)
                items.append(("macro", rules, scope))
            else:
                items.append(("expression", t))
        return [("met", met)] + items

    def go_define(self, unit, form, parts, scope, notes, items):
        if len(parts) < 2:
            raise Fault
        if parts[0][0] == "name":
            name, rest = parts[0], ("value", parts[1])
        else:
            name, rest = parts[0][1][0], ("procedure", parts[0][1][1:], parts[1:])
        if scope is None:
            again = unit.kind == "program" and name[1] in unit.defined and ("global", unit.number, name[1]) not in self.macros
            form.diary.append(("assigned", name[1], again))
            if again:
                items.append(("set", name, rest))
                return
        self.define(unit, form, name[1], None, scope, notes)
        items.append(rest)

    def required(self, r, form):
        if r[0] == "name":
            word = r[2] if isinstance(r[1], (tuple, type(None))) and isinstance(r[2], str) else symbol(r[1])
            return word in ("r7rs", "else")
        if form is None:
            return library_name(r[2][1]) in self.known
        name = tuple(symbol(x[1]) if x[0] == "name" else x[1][1] for x in r[1][1][1])
        form.diary.append(("library", name, name in self.known))
        return name in self.known

    def chosen(self, form, clauses):
        found = [c[1][1:] for c in clauses if (symbol(c[1][0][1]) in ("else", "r7rs") if c[1][0][0] == "name" else self.required(c[1][0], form))]
        return found[0] if found else ()

    # ---- what was set aside

    def finish(self, unit, form, items):
        for item in items:
            if item[0] == "met":
                for leaf in item[1]:
                    self.look(form, leaf[1], self.body_scope)
            elif item[0] == "expression":
                self.expression(unit, form, item[1], None)
            elif item[0] == "value":
                self.expression(unit, form, item[1], None)
            elif item[0] == "procedure":
                self.procedure(unit, form, item[1], item[2], None)
            elif item[0] == "set":
                self.look(form, item[1][1], None)
                self.rest(unit, form, item[2], None)
            else:
                self.leaves(form, item[1], None)

    body_scope = None

    def rest(self, unit, form, rest, scope):
        if rest[0] == "value":
            self.expression(unit, form, rest[1], scope)
        else:
            self.procedure(unit, form, rest[1], rest[2], scope)

    def leaves(self, form, rules, scope):
        """What the leaves of a macro mean where it is defined."""
        for l in rules[0]:
            self.look(form, l[1], scope)
        for pattern, template in rules[1]:
            bound = self.variables(rules, pattern)
            for t, literals in ((pattern, True), (template, False)):
                for i in self.names(t):
                    role = self.role(rules, i)
                    if role == "literal" if literals else (i not in bound and role != "ellipsis"):
                        self.look(form, i, scope)

    def names(self, t):
        return [t[1]] if t[0] == "name" else [i for x in t[1] for i in self.names(x)] if t[0] == "list" else []

    def procedure(self, unit, form, names, body, scope):
        inner = Scope(scope)
        for n in names:
            form.locals += 1
            inner.binds[n[1]] = (unit.number, form.number, form.locals)
        self.body(unit, form, body, inner)

    def body(self, unit, form, body, scope):
        inner = Scope(scope)
        for item in self.go_through(unit, form, body, inner, []):
            if item[0] == "met":
                for leaf in item[1]:
                    self.look(form, leaf[1], inner)
            elif item[0] == "expression":
                self.expression(unit, form, item[1], inner)
            elif item[0] == "macro":
                self.leaves(form, item[1], inner)
            else:
                self.rest(unit, form, item, inner)

    def expression(self, unit, form, t, scope):
        if t[0] == "name":
            if self.head(form, t[1], scope)[1]:
                raise Fault
            return
        if t[0] == "atom":
            return
        if not t[1]:
            raise Fault
        kind, m = None, None
        if t[1][0][0] == "name":
            m, kind = self.head(form, t[1][0][1], scope)
        if kind and kind[0] == "macro":
            tree, met = self.use(unit, form, m, t, scope, None)
            for leaf in met:
                self.look(form, leaf[1], scope)
            self.expression(unit, form, tree, scope)
        elif kind and kind[0] == "core":
            self.core(unit, form, kind[1], t[1][1:], scope)
        else:
            for x in t[1]:
                self.expression(unit, form, x, scope)

    def core(self, unit, form, word, parts, scope):
        if word == "quote":
            return
        if word == "lambda":
            self.procedure(unit, form, parts[0][1], parts[1:], scope)
        elif word == "if" and len(parts) not in (2, 3):
            raise Fault
        elif word in ("if", "begin"):
            for x in parts:
                self.expression(unit, form, x, scope)
        elif word == "set!":
            if self.head(form, parts[0][1], scope)[1]:
                raise Fault
            self.expression(unit, form, parts[1], scope)
        elif word in ("let-syntax", "letrec-syntax"):
            self.local_macros(unit, form, word, parts, scope)
        elif word == "cond-expand":
            for x in self.chosen(form, parts):
                self.expression(unit, form, x, scope)
        else:
            raise Fault

    def local_macros(self, unit, form, word, parts, scope):
        inner = Scope(scope)
        around = scope if word == "let-syntax" else inner
        made = []
        for b in parts[0][1]:
            form.locals += 1
            inner.binds[b[1][0][1]] = (unit.number, form.number, form.locals)
            made.append((("local", inner.binds[b[1][0][1]]), b[1][1]))
        for _, r in made:
            if self.head(form, r[1][0][1], around)[1] != ("mark", "syntax-rules"):
                raise Fault
        for m, r in made:
            self.macros[m] = (self.rules_of(r), around)
            self.leaves(form, self.macros[m][0], around)
        self.body(unit, form, parts[1:], inner)
