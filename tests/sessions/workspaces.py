"""Random workspaces of Scheme documents, made from a seed: libraries that import one another, programs, macros, and few names for
much, so that a new name often is another's."""
import random

NAMES = "a", "b", "f", "g", "k", "t", "x", "y"
MACROS = "m", "n", "my-or", "swap", "d"
# What the rules of a macro say that is used as an expression or as a definition, with names of the unit in the places of {0} and {1}.
VALUES = (
    "((_ p q) (let (({0} p)) (if {0} {0} q)))",
    "((_ p q) (let ((p q)) (list p {0})))",
    "((_ p q) (list '(p {0}) q))",
    "((_ p q) (list p q {0} {1}))",
    "((_ p) p) ((_ p q ...) (lambda ({0}) (list {0} p q ... {1})))",
    "((_ p q) (let loop ((p q)) (if p (loop {0}) {1})))",
)
DEFINERS = (
    "((_ p q) (define (p {0}) (list {0} q {1})))",
    "((_ p q) (begin (define {0} q) (define p {0})))",
    "((_ p q) (define-values (p {0}) (values q '{1})))",
)


class Unit:
    """A unit that is being written: its names of values, of macros for expressions and of macros for definitions. OWN it defines."""

    def __init__(self, dice):
        self.dice, self.own = dice, []
        self.values, self.macros, self.definers = ["list", "car"], [], []

    def fresh(self, names):
        """A name that stands for nothing yet, or none."""
        free = [it for it in names if it not in self.own and it not in self.values + self.macros + self.definers]
        return self.dice.choice(free) if free else None

    def expression(self, depth, scope):
        dice, sub = self.dice, lambda *more: self.expression(depth - 1, [*scope, *more])
        names = [*self.values, *scope, *scope, *scope]
        kind = dice.randrange(13) if depth else dice.randrange(3)
        taken, other = dice.sample(NAMES, 2)
        if kind < 2:
            return dice.choice(names)
        if kind == 2:
            return dice.choice(("1", "'" + taken, f"'({taken} 2)", '"s"'))
        if kind == 3:
            return f"(lambda ({taken} {other}) {sub(taken, other)})"
        if kind == 4:
            return f"(let (({taken} {sub()}) ({other} {sub()})) {sub(taken, other)})"
        if kind == 5:
            return f"(let {taken} ((i 0)) {sub(taken, 'i')})"
        if kind == 6:
            return f"(if {sub()} {sub()} {sub()})"
        if kind == 7 and scope:
            return f"(begin (set! {dice.choice(scope)} {sub()}) {sub()})"
        if kind == 8:
            return f"(let () (define {taken} {sub(taken)}) {sub(taken)})"
        if kind == 9:
            return f"(let-syntax (({dice.choice(MACROS)} (syntax-rules () ((_ p) (list p {dice.choice(names)}))))) {sub()})"
        if kind == 10:
            return f"`({taken} ,{sub()})"
        macros = [it for it in self.macros if it not in scope]
        return f"({dice.choice(macros) if macros and kind == 11 else dice.choice(names)} {dice.choice(scope or self.values)} {sub()})"

    def form(self):
        """A form of the top, mostly a definition."""
        dice = self.dice
        kind = dice.randrange(10)
        if kind < 4 and (name := self.fresh(MACROS)):
            listed, rules = (self.definers, DEFINERS) if kind == 0 else (self.macros, VALUES)
            names = dice.choices([*self.values, *NAMES], k=2)
            self.own.append(name)
            listed.append(name)
            return f"(define-syntax {name} (syntax-rules () {dice.choice(rules).format(*names)}))"
        if kind == 9 or not (name := self.fresh(NAMES)):
            return self.expression(3, [])
        self.own.append(name)
        value = self.expression(3, [])
        self.values.append(name)
        if self.definers and dice.random() < 0.5:
            return f"({dice.choice(self.definers)} {name} {value})"
        if kind == 8:
            return f"(define-record-type {name} (make-{name} {name}) {name}? ({name} {name}-{name}))"
        if kind > 5:
            taken = dice.choice(NAMES)
            return f"(define ({name} {taken}) {self.expression(3, [taken])})"
        return f"(define {name} {value})"

    def imports(self, name, exports):
        """An import set of a library, whose exports are names and what they stand for; None where a name would have two meanings."""
        dice, kind = self.dice, self.dice.randrange(5)
        given, text = dict(exports), name
        one = dice.choice(list(exports))
        if kind == 0:
            front = dice.choice(("p:", "a"))
            given, text = {front + it: exports[it] for it in exports}, f"(prefix {name} {front})"
        elif kind == 1:
            new = dice.choice(NAMES)
            given, text = {new if it == one else it: exports[it] for it in exports}, f"(rename {name} ({one} {new}))"
        elif kind == 2:
            given, text = {one: exports[one]}, f"(only {name} {one})"
        elif kind == 3:
            given, text = {f"q.{it}": exports[it] for it in exports if it != one}, f"(prefix (except {name} {one}) q.)"
        if len(given) < len(exports) - (kind == 3) and kind != 2 or any(it in self.values + self.macros + self.definers for it in given):
            return None
        for it, listed in given.items():
            getattr(self, listed).append(it)
        return text

    def exports(self):
        """The specs of exports, and the names that they give with what these stand for."""
        dice, given, specs = self.dice, {}, []
        for name in dice.sample(self.own, dice.randrange(1, len(self.own) + 1)):
            new = dice.choice(NAMES) if dice.random() < 0.2 else name
            if new not in given:
                given[new] = next(it for it in ("values", "macros", "definers") if name in getattr(self, it))
                specs.append(name if new == name else f"(rename {name} {new})")
        return specs, given


def workspace(seed):
    """Documents by their uris."""
    dice, libraries, documents = random.Random(seed), [], {}

    def sets(unit):
        return " ".join(["(scheme base)", *filter(None, (unit.imports(*it) for it in libraries if dice.random() < 0.7))])

    for number in range(dice.randrange(1, 4)):
        unit = Unit(dice)
        imported = sets(unit)
        forms = [f"(define {dice.choice(NAMES)}0 1)"] + [unit.form() for _ in range(dice.randrange(2, 5))]
        unit.own.append(forms[0].split()[1])
        unit.values.append(unit.own[-1])
        specs, given = unit.exports()
        documents[f"file:///l{number}.sld"] = (f"(define-library (l{number})\n  (export {' '.join(specs)})\n  (import {imported})\n  (begin\n    "
                                               + "\n    ".join(forms) + "))\n")
        libraries.append((f"(l{number})", given))
    for number in range(dice.randrange(1, 3)):
        unit = Unit(dice)
        lines = [f"(import {sets(unit)})"] + [unit.form() for _ in range(dice.randrange(2, 7))]
        documents[f"file:///m{number}.scm"] = "\n".join([*lines, ""])
    return documents
