"""The constants of a source file as Python's values: numbers, texts, bytes, lists, tuples, and variants with what they hold."""
import dataclasses
import functools
import re

TOKEN = re.compile(r"""\s*(?:
    (?P<bytes>b"(?:[^"\\]|\\.)*") | (?P<byte>b'(?:[^'\\]|\\.)*') | (?P<text>"(?:[^"\\]|\\.)*")
    | (?P<number>0x[0-9a-fA-F_]+|\d[\d_]*) (?:[ui](?:8|16|32|64|size))?
    | (?P<name>[A-Za-z_]\w*(?:::[A-Za-z_]\w*)*) | (?P<mark>[][(){},:;&*]))""", re.VERBOSE | re.DOTALL)
CONSTANT = re.compile(r"^(?:pub(?:\(crate\))? )?(?:const|static) (\w+): [^=]*?=\s*", re.MULTILINE)
IMPORT = re.compile(r"^use crate::(\w+)::(?:\{([^}]*)\}|(\w+));", re.MULTILINE)
COMMENT = re.compile(r"^\s*//.*$|\s//[^\"\n]*$", re.MULTILINE)
ESCAPE = re.compile(r"\\(?:x([0-9a-fA-F]{2})|(.))", re.DOTALL)
ESCAPED = {"0": "\0", "n": "\n", "r": "\r", "t": "\t", "\n": ""}
KNOWN = {"true": True, "false": False, "None": None, "u32::MAX": 2**32 - 1}


@dataclasses.dataclass(frozen=True)
class Variant:
    """A variant, or a struct: the last word of its name, and what it holds, by name or in order."""

    word: str
    holds: object

    def __getattr__(self, field):
        try:
            return self.holds[field]
        except (KeyError, TypeError):
            raise AttributeError(field) from None


def unescaped(text):
    return ESCAPE.sub(lambda found: chr(int(found[1], 16)) if found[1] else ESCAPED.get(found[2], found[2]), text)


class Reader:
    """Reads one expression after another of a text."""

    def __init__(self, text, at, constant):
        self.text, self.at, self.constant = text, at, constant

    def next(self):
        found = TOKEN.match(self.text, self.at)
        self.at = found.end()
        return found.lastgroup, found[found.lastgroup]

    def peek(self):
        found = TOKEN.match(self.text, self.at)
        return found[found.lastgroup]

    def skips(self, mark):
        """Whether this mark comes next, which is then passed over."""
        if self.peek() != mark:
            return False
        self.next()
        return True

    def until(self, end):
        """The expressions up to this mark."""
        values = []
        while not self.skips(end):
            values.append(self.value())
            self.skips(",")
        return values

    def value(self):
        kind, word = self.next()
        if kind == "number":
            return int(word.replace("_", ""), 0)
        if kind in ("bytes", "byte", "text"):
            inner = unescaped(word.lstrip("b")[1:-1])
            return {"bytes": lambda: inner.encode("latin-1"), "byte": lambda: ord(inner), "text": lambda: inner}[kind]()
        if word in "&*":
            return self.value()
        if word == "(":
            return tuple(self.until(")"))
        if word == "[":
            return self.list()
        return self.named(word)

    def list(self):
        if self.skips("]"):
            return []
        first = self.value()
        if self.skips(";"):
            count = self.value()
            self.skips("]")
            return [first] * count
        self.skips(",")
        return [first, *self.until("]")]

    def named(self, word):
        if word in KNOWN:
            return KNOWN[word]
        last = word.rsplit("::", 1)[-1]
        if self.skips("("):
            held = self.until(")")
            return held[0] if last == "Some" else Variant(last, tuple(held))
        if self.skips("{"):
            fields = {}
            while not self.skips("}"):
                name = self.next()[1]
                fields[name] = self.value() if self.skips(":") else self.constant(name)
                self.skips(",")
            return Variant(last, fields)
        return Variant(last, ()) if "::" in word else self.constant(word)


class Source:
    """A source file, whose constants are read when they are asked for."""

    def __init__(self, path):
        self.path, self.text = path, COMMENT.sub("", path.read_text(encoding="utf-8"))
        self.places = {found[1]: found.end() for found in CONSTANT.finditer(self.text)}
        self.imports = {}
        for module, names, name in IMPORT.findall(self.text):
            self.imports |= {part.strip(): module for part in (names or name).split(",") if part.strip()}

    @functools.cache
    def constant(self, name):
        if name in self.places:
            return Reader(self.text, self.places[name], self.constant).value()
        if name in self.imports:
            return source(self.path.with_name(f"{self.imports[name]}.rt")).constant(name)
        raise KeyError(f"{self.path}: no constant {name}")


@functools.cache
def source(path):
    return Source(path)
