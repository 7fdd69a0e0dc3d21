"""Reads the definitions of crates/*/specs, and the clauses of worked rows, as trees with the place of each part in its text. What it cannot read, as
statements that are not computed, it leaves out and says so (`Module.skipped`)."""
import functools
import glob
import os
import re

ROOT = os.path.dirname(os.path.dirname(os.path.dirname(os.path.abspath(__file__))))
TOKEN = re.compile(
    r"\s*(?:(0x[0-9a-fA-F]+|\d+)|(«?[A-Za-z_][A-Za-z0-9_]*(?:-[A-Za-z_][A-Za-z0-9_]*)*»?)"
    r"|(\[\]|\+\+|==|&&|\|\||∷|[λ(){};,.=+\-*/%^→:≡×≤<¬⊎↔≢⊤⊥])|\s*(\S))"
)
KEYWORDS = {"if", "then", "else", "let", "in", "record", "where"}
# how tightly each operator binds, and to which side it groups
OPERATORS = {
    "→": (10, "r"), "×": (15, "r"), "≡": (20, "n"), "≤": (22, "n"), "<": (22, "n"), "||": (30, "l"), "&&": (35, "l"), "==": (40, "n"),
    "+": (65, "l"), "-": (65, "l"), "++": (65, "l"), "∷": (67, "r"), "*": (70, "l"), "/": (70, "l"), "%": (70, "l"), "^": (75, "r"),
}  # fmt: skip


class Unread(Exception):
    """A text that is no expression of these, or a name that is not known."""


def tokens(text):
    """Kind ('n' number, 'i' name, 'o' operator), value, whether it stands close behind the one before, and its place."""
    found, at = [], 0
    while at < len(text):
        part = TOKEN.match(text, at)
        if not part:
            break
        group = next(g for g in (1, 2, 3, 4) if part.group(g))
        begin = part.start(group)
        value = int(part.group(1), 0) if group == 1 else part.group(group)
        found.append(("nio?"[group - 1], value, begin > 0 and not text[begin - 1].isspace(), begin, part.end(group)))
        at = part.end()
    return found


class Parser:
    """Of an expression each node is a tuple: its kind, its place in the text, and its parts."""

    def __init__(self, found):
        self.tokens = found
        self.at = 0

    def peek(self, ahead=0):
        return self.tokens[self.at + ahead] if self.at + ahead < len(self.tokens) else ("end", "", False, -1, -1)

    def next(self):
        token = self.peek()
        self.at += 1
        return token

    def stands(self, word, ahead=0):
        return self.peek(ahead)[1] == word and self.peek(ahead)[0] in "oi"

    def want(self, word):
        token = self.next()
        if token[1] != word or token[0] == "n":
            raise Unread(f"{word} wanted, and {token[1]} stands there")

    def place(self, begin):
        return begin, self.tokens[self.at - 1][4]

    def whole(self):
        tree = self.expression()
        if self.at != len(self.tokens):
            raise Unread(f"more stands behind it: {self.peek()[1]}")
        return tree

    def expression(self, bound=0):
        begin = self.peek()[3]
        if self.stands("λ"):
            return self.function(begin)
        if self.stands("let"):
            return self.let(begin)
        if self.stands("if"):
            self.next()
            test = self.expression()
            self.want("then")
            yes = self.expression()
            self.want("else")
            no = self.expression(5)
            return "if", self.place(begin), test, yes, no
        left = self.application()
        while self.peek()[0] == "o" and self.peek()[1] in OPERATORS:
            binds, side = OPERATORS[self.peek()[1]]
            if binds < bound:
                break
            sign = self.next()
            last = any(self.stands(word) for word in ("λ", "let", "if"))
            right = self.expression(0 if last else binds if side == "r" else binds + 1)
            left = "operator", self.place(begin), sign[1], left, right, sign[3:]
        return left

    def function(self, begin):
        self.next()
        names = []
        while not self.stands("."):
            name = self.next()[1]
            if name == "(":
                name, depth = self.next()[1], 1
                while depth:
                    word = self.next()[1]
                    depth += (word == "(") - (word == ")")
            names.append(name)
        self.next()
        body = self.expression()
        return "function", self.place(begin), names, body

    def let(self, begin):
        self.next()
        name = self.next()[1]
        while not self.stands("="):
            self.next()
        self.want("=")
        value = self.expression()
        self.want("in")
        body = self.expression()
        return "let", self.place(begin), name, value, body

    def begins_atom(self):
        kind, value = self.peek()[:2]
        return kind == "n" or (kind == "i" and (value not in KEYWORDS or value == "record")) or (kind == "o" and value in ("(", "[]", "⊤", "⊥"))

    def application(self):
        begin = self.peek()[3]
        head = self.atom()
        arguments = []
        while self.begins_atom():
            arguments.append(self.atom())
        return ("apply", self.place(begin), head, arguments) if arguments else head

    def atom(self):
        begin = self.peek()[3]
        kind, value = self.next()[:2]
        if kind == "n":
            tree = "number", self.place(begin), value
        elif value == "[]":
            tree = "empty", self.place(begin)
        elif value == "(":
            parts = [self.expression()]
            while self.stands(","):
                self.next()
                parts.append(self.expression())
            self.want(")")
            tree = ("brackets", self.place(begin), parts[0]) if len(parts) == 1 else ("tuple", self.place(begin), parts)
        elif kind == "i" and value == "record":
            tree = self.record(begin)
        elif kind == "i" or value in ("⊤", "⊥"):
            tree = "name", self.place(begin), value.strip("«»")
        else:
            raise Unread(f"{value} begins no value")
        while self.stands(".") and self.peek()[2] and self.peek(1)[2] and self.peek(1)[0] in "ni":
            self.next()
            field = self.next()
            tree = "field", self.place(begin), tree, field[1], field[3:]
        return tree

    def record(self, begin):
        base = None if self.stands("{") else self.atom()
        self.want("{")
        fields = []
        while not self.stands("}"):
            start = self.peek()[3]
            name = self.next()[1]
            self.want("=")
            value = self.expression()
            if self.stands(";"):
                self.next()
            fields.append((name, value, self.place(start)))
        self.want("}")
        return "record", self.place(begin), base, fields

    def pattern(self):
        kind, value = self.next()[:2]
        if kind == "n":
            return "number", value
        if value == "[]":
            return "built", "[]", []
        if value == "(":
            inner = self.inner_pattern()
            self.want(")")
            return inner
        while self.stands(".") and self.peek()[2]:
            self.next()
            value += "." + self.next()[1]
        return "name", value

    def inner_pattern(self):
        parts = [self.pattern()]
        while not any(self.stands(word) for word in (")", "∷", ",")):
            parts.append(self.pattern())
        head = ("built", parts[0][1], parts[1:]) if len(parts) > 1 else parts[0]
        if self.stands("∷"):
            self.next()
            return "built", "∷", [head, self.inner_pattern()]
        if self.stands(","):
            self.next()
            rest = self.inner_pattern()
            return "tuple", [head] + (rest[1] if rest[0] == "tuple" else [rest])
        return head


def clause(text):
    """The name, the patterns and the body of a clause of a definition."""
    found, depth, sign = tokens(text), 0, None
    for at, (kind, value, *_) in enumerate(found):
        if kind == "o":
            depth += (value in ("(", "{")) - (value in (")", "}"))
            if value == "=" and depth == 0:
                sign = at
                break
    if sign is None:
        raise Unread("no = stands there")
    head = Parser(found[:sign])
    name, patterns = head.next()[1], []
    while head.at < sign:
        patterns.append(head.pattern())
    return name, patterns, Parser(found[sign + 1 :]).whole()


class Module:
    """A file of definitions, or of rows: what its names mean, and its definitions as clauses (patterns, body, place of the text, text)."""

    def __init__(self, path):
        self.path = path
        self.names, self.aliases = {}, {}
        self.definitions, self.types = {}, {}
        self.records, self.data = {}, {}
        self.skipped = []

    def use(self, line):
        path, names, alias = re.match(r"(?:pub |ghost )*use (\S+?)(?:\.\{(.*)\})?(?: as (\w+))?;?$", " ".join(line.split())).groups()
        if names is None and alias is None:
            return
        meaning = meanings(path)
        if alias:
            self.aliases[alias] = meaning
        for item in filter(None, map(str.strip, (names or "").split(","))):
            name, _, other_name = item.partition(" as ")
            self.names[other_name or name] = meaning(name)

    def meant(self, name):
        """What a name means: ('constructor', name), ('definition', module, name), ('library', name), ('type', name), or None."""
        if "." in name:
            alias, _, rest = name.partition(".")
            found = self.aliases[alias](rest) if alias in self.aliases else None
        else:
            found = self.names.get(name)
        while found and found[0] == "of":
            found = found[1].names.get(found[2])
        return found

    def read(self, text, at=0):
        """Reads the items of a text that begins at this place of the file."""
        for begin, item in items(text):
            try:
                self.item(item, at + begin)
            except Unread as why:
                self.skipped.append((item.split("\n", 1)[0], str(why)))

    def item(self, text, at):
        words = text.split()
        if re.match(r"(pub |ghost )*use ", text):
            self.use(text)
        elif words[:2] == ["pub", "data"]:
            built = re.findall(r"^\s+(\w+) : (.*)$", text, re.M)
            self.data[words[2]] = built
            self.names.update({name: ("constructor", f"{words[2]}.{name}") for name, _ in built})
        elif words[:2] == ["pub", "record"]:
            fields = re.findall(r"^\s+pub (\w+) : ((?:.|\n(?!\s+pub ))*)", text, re.M)
            self.records[words[2]] = [(name, " ".join(kind.split())) for name, kind in fields]
            self.names.setdefault(words[2], ("type", words[2]))
        elif words[:2] == ["pub", "mod"] or words[0] == "infix":
            return
        elif signature := re.match(r"(?:(?:abbrev|unfoldable|pub)\s+)+([\w-]+) : ((?:.|\n)*)", text):
            self.types[signature[1]] = " ".join(signature[2].split())
        else:
            self.define(text, at)

    def define(self, text, at):
        text, _, inner = text.partition("\n  where")
        if inner:
            self.read_inner(inner, at + len(text) + len("\n  where"))
        name, patterns, body = clause(text)
        self.definitions.setdefault(name, []).append((patterns, body, at, text))
        self.names[name] = "definition", self, name

    def read_inner(self, text, at):
        """The definitions behind a `where`; none of them here rests on a variable of the outer one."""
        begin = 0
        for part in re.split(r"(?<=\n)(?=    [^\s}])", text):
            shift = len(part) - len(part.lstrip())
            inner = part.strip()
            if signature := re.match(r"([\w-]+) : ((?:.|\n)*)$", inner):
                self.types[signature[1]] = " ".join(signature[2].split())
            elif inner:
                self.define(inner, at + begin + shift)
            begin += len(part)


def items(text):
    """The items of a file of definitions with their places; each of its comments is made blank, so that places stay."""
    blank = re.sub(r"(?m)(^|(?<=\s))--.*$", lambda comment: " " * len(comment[0]), text)
    found, at = [], 0
    for line in blank.split("\n"):
        if line.strip() and not line[0].isspace() and line[0] != "}":
            found.append([at, at + len(line)])
        elif line.strip() and found:
            found[-1][1] = at + len(line)
        at += len(line) + 1
    return [(begin, blank[begin:end]) for begin, end in found]


def meanings(path):
    """What each name that a path has means."""
    if path.endswith(".TheVariants"):
        kind = path.split(".")[-2]
        return lambda name: ("constructor", f"{kind}.{name}")
    if ".declared." in path:
        return lambda name: ("type", name)
    if (file := file_of(path)) is not None:
        other = module(file)
        return lambda name: ("of", other, name)
    return lambda name: ("library", name)


def file_of(path):
    """The file of a path of definitions, where it is one of the repository's."""
    words = path.split(".")
    if len(words) < 4 or words[0] != "Rattle" or words[2] != "specs":
        return None
    file = os.path.join(ROOT, "crates", words[1], "specs", *words[3:]) + ".antt"
    return file if os.path.exists(file) else None


@functools.cache
def module(file):
    """The module of a file of definitions, read once."""
    made = Module(file)
    with open(file, encoding="utf-8") as text:
        made.read(text.read())
    return made


def rows(file):
    """The clauses of the functions of a file of rows: the module, and of each the function, the clause's name and its text."""
    with open(file, encoding="utf-8") as source:
        text = re.sub(r"//[^\n]*", "", source.read())
    made = Module(file)
    for line in re.findall(r"ghost use [^;]*;", text):
        made.use(line)
    found = []
    for function in re.finditer(r"pub fn (\w+)[^{]*?\(\)", text):
        at = function.end()
        while part := re.compile(r"\s*ensures\s*(\w*)\s*\{").match(text, at):
            at, depth = part.end(), 1
            while depth:
                depth += (text[at] == "{") - (text[at] == "}")
                at += 1
            found.append((function[1], part[1], " ".join(text[part.end() : at - 1].split())))
    return made, found


def files_of_rows():
    """The crate and the file of all rows."""
    for crate, pattern in (
        ("nv_model", "src/rows/**/*.rt"),
        ("nv_world_model", "src/rows/**/*.rt"),
        ("nv_examples", "src/**/*.rt"),
        ("nv_examples_host", "src/**/*.rt"),
    ):
        for file in sorted(glob.glob(os.path.join(ROOT, "crates", crate, pattern), recursive=True)):
            yield crate, file
