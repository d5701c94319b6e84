"""Writes values as terms of the definitions' language."""
import re

PLAIN = re.compile(r"[A-Za-z0-9 !$%&*/:<=>?^_~+.@#(),;'-]+")


def many(items, empty="[]"):
    """A list of terms."""
    return "".join(f"({item}) ∷ " for item in items) + empty


def text(characters):
    """The codes of characters."""
    if PLAIN.fullmatch(characters):
        return f'(codes "{characters}")'
    return "(" + "".join(f"{ord(c)} ∷ " for c in characters) + "[])"


def utf8(characters):
    """The bytes of characters."""
    if PLAIN.fullmatch(characters):
        return f'(codes "{characters}")'
    return "(" + "".join(f"{b} ∷ " for b in characters.encode()) + "[])"


def optional(value, write):
    return "None" if value is None else f"(Some {write(value)})"


def boolean(value):
    return "true" if value else "false"


def integer(n):
    return f"(pos {n})" if n >= 0 else f"(neg_ℤ (pos {-n}))"
