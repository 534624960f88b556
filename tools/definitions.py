"""What clauses and definitions rest on: which definition names which other one, across the crates of this repository."""
import functools
import pathlib
import re

TOP = pathlib.Path(__file__).resolve().parent.parent
CRATES = TOP / "crates"

IMPORT = re.compile(r"^\s*(?:ghost |pub )?use Rattle\.(\w+)\.specs\.(\w+)(?:\.\{([^}]*)\}| as (\w+))", re.MULTILINE)
PASSED_ON = re.compile(r"^pub use Rattle\.(\w+)\.specs\.(\w+)\.\{([^}]*)\}", re.MULTILINE)
OWNER = re.compile(r"^(?:pub )?(?:impl|trait)\b(?:<.*?>)?\s*(?:.*\bfor )?(?:\w+::)*(\w+)")
FUNCTION = re.compile(r"^(\s*)(pub |pub\(crate\) )?(?:const )?fn (\w+)")
CLAUSE = re.compile(r"^\s*ensures\*?\s*(\w*)\s*(\{.*)$")
DEFINITION = re.compile(r"^(?:abbrev |unfoldable )?(?:pub )?(?:(record|data) )?(\w+)\b")
WORD = re.compile(r"\w+(?:\.\w+)*")


def file_of(crate, module):
    return CRATES / crate / "specs" / f"{module}.antt"


def each_name(names):
    """What a list of imported names calls what: pairs of the name here and the one there."""
    for name in filter(None, (part.strip() for part in names.split(","))):
        given, _, known = name.partition(" as ")
        yield known or given, given


class Text:
    """A file of definitions or of code, and what its imports call what."""

    def __init__(self, path):
        text = path.read_text(encoding="utf-8")
        self.lines, self.names, self.files, self.passed_on = text.splitlines(), {}, {}, {}
        for crate, module, names, alias in IMPORT.findall(text):
            if alias:
                self.files[alias] = file_of(crate, module)
            self.names |= {known: (file_of(crate, module), given) for known, given in each_name(names)}
        for crate, module, names in PASSED_ON.findall(text):
            self.passed_on |= {known: (file_of(crate, module), given) for known, given in each_name(names)}

    def rests_on(self, text):
        """The definitions that these words name, as a file and a name."""
        for word in WORD.findall(text):
            first, _, rest = word.partition(".")
            if first in self.files:
                yield self.files[first], rest.split(".")[0]
            elif first in self.names:
                yield self.names[first]


@functools.cache
def definitions(file):
    """The definitions of a file: of each its text and what it rests on. None where the repository has no such file."""
    if not file.is_file():
        return {}
    text, parts = Text(file), {}
    for line in text.lines:
        found = DEFINITION.match(line)
        if found and not line.startswith(("--", "use ", "pub use ")):
            name = found[2]
        elif not line[:1].isspace():
            continue
        parts.setdefault(name, []).append(line)
    whole = {name: "\n".join(lines) for name, lines in parts.items()}
    rests = {name: (body, rests_on(file, text, whole, body)) for name, body in whole.items()}
    return rests | {known: ("", {there}) for known, there in text.passed_on.items()}


def rests_on(file, text, whole, body):
    return {(file, word) for word in WORD.findall(body) if word in whole} | set(text.rests_on(body))


def cases(file, name, words):
    """What a definition by cases rests on in those cases whose first argument is one of these variants."""
    text, chosen = Text(file), []
    whole = definitions(file)
    is_chosen = False
    for line in whole[name][0].splitlines():
        found = re.match(rf"{name} \(?(\w+)\b[^=]*=", line)
        is_chosen = found[1].lower() in words if found else is_chosen and line[:1].isspace()
        chosen += [line] * is_chosen
    return rests_on(file, text, whole, "\n".join(chosen)) - {(file, name)}


def reached(start, by_cases=None):
    """All definitions that are reached from these, each as a file and a name. Of the definition by cases that `by_cases` names with
    variants, what those cases rest on is."""
    found, left = set(), list(start)
    while left:
        file, name = left.pop()
        if (file, name) in found or name not in definitions(file):
            continue
        found.add((file, name))
        if by_cases and by_cases[0] == name:
            left += cases(file, name, by_cases[1])
        else:
            left += definitions(file)[name][1]
    return found


class Function:
    """A public function: its clauses, each by its name with what it rests on. One without a name has the name ''."""

    def __init__(self):
        self.clauses = {}

    def start(self, names=None):
        """What the clauses of these names rest on, or all clauses."""
        return set().union(*(rests for name, rests in self.clauses.items() if names is None or name in names))


def clause_text(lines, at):
    """The text of a clause, up to the brace that closes it."""
    text = CLAUSE.match(lines[at])[2]
    while text.count("{") > text.count("}"):
        at += 1
        text += "\n" + lines[at]
    return text


@functools.cache
def functions(crate):
    """The public functions of a crate, and those of its traits, by their names."""
    found = {}
    for path in sorted((CRATES / crate / "src").rglob("*.rt")):
        text, owner, is_trait, function = Text(path), None, False, None
        for at, line in enumerate(text.lines):
            if OWNER.match(line):
                owner, is_trait = OWNER.match(line)[1], line.startswith("pub trait") or " for " in line
            elif FUNCTION.match(line):
                space, public, name = FUNCTION.match(line).groups()
                function = Function()
                if public == "pub " or (space and is_trait):
                    found.setdefault(f"{owner}::{name}" if space else name, function)
            elif CLAUSE.match(line):
                rests = set(text.rests_on(clause_text(text.lines, at)))
                function.clauses.setdefault(CLAUSE.match(line)[1], set()).update(rests)
    return found
