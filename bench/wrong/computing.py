"""Makes Python of the definitions that compute, and runs worked rows with it. It proves nothing: the checker decides. Where both sides of each row
come out the same, and no row comes out wrong that the checker passes, it is of use to ask many wrong definitions in little time."""
import functools
import os
import re

import reading
from reading import Unread

VALUES = {}  # the Python function of each definition
CONSTANTS = {}  # values of definitions without parameters, within one row
ASKED = set()  # which definitions a row has used
MOST = 2_000_000  # of a list that is made at once


class NoClause(Exception):
    """No clause of a definition meets its arguments; a right definition has one always."""


class TooMuch(Exception):
    """A list that is too long to be made."""


class Built:
    """A constructor with its arguments."""

    __slots__ = ("name", "parts")

    def __init__(self, name, parts=()):
        self.name, self.parts = name, parts

    def __eq__(self, other):
        return isinstance(other, Built) and self.name == other.name and self.parts == other.parts


class Fields:
    """A record."""

    __slots__ = ("of",)

    def __init__(self, of):
        self.of = of

    def __eq__(self, other):
        return isinstance(other, Fields) and self.of == other.of


class Pair:
    """A pair or a longer tuple; lists are Python's tuples."""

    __slots__ = ("parts",)

    def __init__(self, parts):
        self.parts = parts

    def __eq__(self, other):
        return isinstance(other, Pair) and self.parts == other.parts


class Function:
    """A function of so many parameters, some of which are given. What it is at a number is kept, since a memory is a tower of such functions, and
    what lies below is asked again and again."""

    __slots__ = ("count", "code", "given", "kept")

    def __init__(self, count, code, given=()):
        self.count, self.code, self.given, self.kept = count, code, given, None

    def __eq__(self, other):
        if self is other:
            return True
        raise TypeError("two functions are not compared")


def applied(value, *arguments):
    for argument in arguments:
        if type(value) is Built:
            value = Built(value.name, value.parts + (argument,))
        elif len(value.given) + 1 < value.count:
            value = Function(value.count, value.code, value.given + (argument,))
        elif type(argument) is int:
            if value.kept is None:
                value.kept = {}
            if argument not in value.kept:
                value.kept[argument] = value.code(*value.given, argument)
            value = value.kept[argument]
        else:
            value = value.code(*value.given, argument)
    return value


def constant(name):
    if name not in CONSTANTS:
        CONSTANTS[name] = VALUES[name]()
    return CONSTANTS[name]


def divided(a, b):
    """Quotient and rest; by 0 these are 0 and the whole."""
    return divmod(a, b) if b else (0, a)


def updated(record, fields):
    return Fields({**record.of, **fields})


def few(count):
    if count > MOST:
        raise TooMuch
    return count


NONE = Built("None")


def some(value):
    return Built("Some", (value,))


# the words of the library that the definitions use: how many parameters, and what they are
LIBRARY = {
    "suc": (1, lambda n: n + 1),
    "not": (1, lambda b: not b),
    "nat_le": (2, lambda a, b: a <= b),
    "nat_lt": (2, lambda a, b: a < b),
    "min": (2, min),
    "max": (2, max),
    "length": (1, len),
    "sum": (1, sum),
    "count_by": (2, lambda f, xs: sum(1 for x in xs if applied(f, x))),
    "sum_by": (2, lambda f, xs: sum(applied(f, x) for x in xs)),
    "map": (2, lambda f, xs: tuple(applied(f, x) for x in xs)),
    "flat_map": (2, lambda f, xs: tuple(y for x in xs for y in applied(f, x))),
    "filter": (2, lambda f, xs: tuple(x for x in xs if applied(f, x))),
    "filter_map": (2, lambda f, xs: tuple(y for x in xs for y in applied(f, x).parts)),
    "find": (2, lambda f, xs: next((some(x) for x in xs if applied(f, x)), NONE)),
    "list_any": (2, lambda f, xs: any(applied(f, x) for x in xs)),
    "list_all": (2, lambda f, xs: all(applied(f, x) for x in xs)),
    "take": (2, lambda n, xs: xs[:n]),
    "drop": (2, lambda n, xs: xs[n:]),
    "remove": (2, lambda xs, i: xs[:i] + xs[i + 1 :]),
    "replicate": (2, lambda n, x: (x,) * few(n)),
    "range_with_len": (2, lambda first, n: tuple(range(first, first + few(n)))),
    "enumerate_from": (2, lambda n, xs: tuple(Pair((n + i, x)) for i, x in enumerate(xs))),
    "slice_get": (2, lambda xs, i: some(xs[i]) if i < len(xs) else NONE),
    "slice_index": (2, lambda xs, i: xs[i] if i < len(xs) else 0),
    "slice_index_or": (3, lambda xs, i, otherwise: xs[i] if i < len(xs) else otherwise),
    "slice_set": (3, lambda xs, i, x: xs[:i] + (x,) + xs[i + 1 :] if i < len(xs) else xs),
    "slice_range": (3, lambda xs, a, b: xs[a:b]),
    "little_from": (3, lambda at, n, xs: sum((xs[at + k] if at + k < len(xs) else 0) << (8 * k) for k in range(n))),
    "little_bytes": (2, lambda n, x: tuple((x >> (8 * k)) & 255 for k in range(n))),
    "is_none": (1, lambda o: o.name == "None"),
    "is_some": (1, lambda o: o.name == "Some"),
    "option_to_list": (1, lambda o: o.parts),
    "option_map": (2, lambda f, o: some(applied(f, o.parts[0])) if o.parts else NONE),
    "option_map_or": (3, lambda f, o, otherwise: applied(f, o.parts[0]) if o.parts else otherwise),
    "unwrap_or": (2, lambda o, otherwise: o.parts[0] if o.parts else otherwise),
}
WORDS = {"Built": Built, "Fields": Fields, "Pair": Pair, "Function": Function, "NoClause": NoClause, "ASKED": ASKED, "VALUES": VALUES}
WORDS |= {"applied": applied, "constant": constant, "divided": divided, "updated": updated, "NONE": NONE}
WORDS |= {f"word_{name}": code for name, (_, code) in LIBRARY.items()}


def key(module, name):
    """How a definition is called among all: crate/file/name."""
    crate, _, file = os.path.relpath(module.path, os.path.join(reading.ROOT, "crates")).split(os.sep)
    return f"{crate}/{file.removesuffix('.antt')}/{name}"


class Writer:
    """Writes an expression of a module as one of Python's."""

    def __init__(self, module):
        self.module = module
        self.count = 0

    def fresh(self, name="t"):
        self.count += 1
        return f"{re.sub(r'[^a-z]', '', name.lower())}_{self.count}"

    def meant(self, name):
        found = self.module.meant(name)
        if name in ("Some", "None", "Ok", "Err") and (found is None or found[0] == "library"):
            return "constructor", name
        # a word that was put into a definition need not be imported there
        if found is None and name in LIBRARY:
            return "library", name
        if found is None or found[0] == "type":
            raise Unread(f"{name} is not known as a value")
        if found[0] == "library" and found[1] not in LIBRARY:
            raise Unread(f"{name} of the library is not known")
        return found

    def value(self, found):
        """What is meant, as a value by itself."""
        kind = found[0]
        if kind == "constructor":
            return f"Built({found[1]!r})"
        if kind == "library":
            return f"Function({LIBRARY[found[1]][0]}, word_{found[1]})"
        name, count = key(*found[1:]), len(found[1].definitions[found[2]][0][0])
        return f"constant({name!r})" if count == 0 else f"Function({count}, lambda *a: VALUES[{name!r}](*a))"

    def named(self, tree, bound):
        """The name that a tree is, where it is one that no variable has."""
        if tree[0] == "brackets":
            return self.named(tree[2], bound)
        if tree[0] == "name" and tree[2] not in bound:
            return tree[2]
        if tree[0] == "field" and tree[2][0] == "name" and tree[2][2] not in bound and tree[2][2] in self.module.aliases:
            return f"{tree[2][2]}.{tree[3]}"
        return None

    def write(self, tree, bound):
        return getattr(self, f"write_{tree[0]}")(tree, bound)

    def write_number(self, tree, bound):
        return str(tree[2])

    def write_empty(self, tree, bound):
        return "()"

    def write_brackets(self, tree, bound):
        return self.write(tree[2], bound)

    def write_tuple(self, tree, bound):
        return f"Pair(({','.join(self.write(part, bound) for part in tree[2])},))"

    def write_name(self, tree, bound):
        if tree[2] in bound:
            return bound[tree[2]]
        plain = {"true": "True", "false": "False", "zero": "0"}
        return plain[tree[2]] if tree[2] in plain else self.value(self.meant(tree[2]))

    def write_field(self, tree, bound):
        if (name := self.named(tree, bound)) is not None:
            return self.value(self.meant(name))
        inner = self.write(tree[2], bound)
        return f"{inner}.parts[{tree[3]}]" if isinstance(tree[3], int) else f"{inner}.of[{tree[3]!r}]"

    def write_apply(self, tree, bound):
        arguments = [self.write(argument, bound) for argument in tree[3]]
        name = self.named(tree[2], bound)
        if name is None:
            return f"applied({self.write(tree[2], bound)}, {','.join(arguments)})"
        found = self.meant(name)
        if found[0] == "constructor":
            return f"Built({found[1]!r}, ({','.join(arguments)},))"
        if found[0] == "library":
            count, called = LIBRARY[found[1]][0], f"word_{found[1]}"
        else:
            count, called = len(found[1].definitions[found[2]][0][0]), f"VALUES[{key(*found[1:])!r}]"
        if count and len(arguments) >= count:
            done = f"{called}({','.join(arguments[:count])})"
            return done if len(arguments) == count else f"applied({done}, {','.join(arguments[count:])})"
        return f"applied({self.value(found)}, {','.join(arguments)})"

    def write_operator(self, tree, bound):
        sign = tree[2]
        if sign in ("≡", "×", "→", "≤", "<"):
            raise Unread("a statement is not computed")
        a, b = self.write(tree[3], bound), self.write(tree[4], bound)
        other = {"&&": f"({a} and {b})", "||": f"({a} or {b})", "-": f"max(0, {a} - {b})", "^": f"({a} ** {b})", "∷": f"(({a},) + {b})"}
        other |= {"/": f"divided({a}, {b})[0]", "%": f"divided({a}, {b})[1]", "++": f"({a} + {b})"}
        return other.get(sign, f"({a} {sign} {b})")

    def write_if(self, tree, bound):
        return f"({self.write(tree[3], bound)} if {self.write(tree[2], bound)} else {self.write(tree[4], bound)})"

    def write_let(self, tree, bound):
        name = self.fresh(tree[2])
        return f"(lambda {name}: {self.write(tree[4], {**bound, tree[2]: name})})({self.write(tree[3], bound)})"

    def write_function(self, tree, bound):
        names = [self.fresh(name) for name in tree[2]]
        inner = {**bound, **{name: new for name, new in zip(tree[2], names) if name != "_"}}
        return f"Function({len(names)}, lambda {','.join(names)}: {self.write(tree[3], inner)})"

    def write_record(self, tree, bound):
        fields = f"{{{','.join(f'{name!r}: {self.write(value, bound)}' for name, value, _ in tree[3])}}}"
        return f"updated({self.write(tree[2], bound)}, {fields})" if tree[2] else f"Fields({fields})"

    # ---- patterns

    def match(self, pattern, value, lines, bound):
        """Adds the tests and the names of a pattern: ('if', test) or ('let', name, value)."""
        if pattern[0] == "number":
            lines.append(("if", f"{value} == {pattern[1]}"))
        elif pattern[0] == "tuple":
            for at, part in enumerate(pattern[1]):
                self.match(part, f"{value}.parts[{at}]", lines, bound)
        else:
            self.match_name(pattern[1], pattern[2] if pattern[0] == "built" else [], value, lines, bound)

    def match_name(self, name, parts, value, lines, bound):
        tests = {"zero": f"{value} == 0", "true": f"{value} is True", "false": f"{value} is False", "[]": f"not {value}"}
        if name == "_":
            return
        if name in tests:
            lines.append(("if", tests[name]))
        elif name in ("suc", "∷"):
            lines.append(("if", f"{value}"))
            inner = [f"{value} - 1"] if name == "suc" else [f"{value}[0]", f"{value}[1:]"]
            self.match_parts(parts, inner, lines, bound)
        elif (found := self.meant_pattern(name)) is not None:
            lines.append(("if", f"{value}.name == {found!r}"))
            self.match_parts(parts, [f"{value}.parts[{at}]" for at in range(len(parts))], lines, bound)
        else:
            bound[name] = self.fresh(name)
            lines.append(("let", bound[name], value))

    def match_parts(self, parts, values, lines, bound):
        for part, value in zip(parts, values):
            name = self.fresh()
            lines.append(("let", name, value))
            self.match(part, name, lines, bound)

    def meant_pattern(self, name):
        try:
            found = self.meant(name)
        except Unread:
            return None
        return found[1] if found[0] == "constructor" else None


def source(module, name, clauses):
    """The Python text of a definition."""
    writer, called = Writer(module), key(module, name)
    lines = [f"def made({','.join(f'a{at}' for at in range(len(clauses[0][0])))}):", f" ASKED.add({called!r})"]
    for patterns, body, *_ in clauses:
        steps, bound = [], {}
        for at, pattern in enumerate(patterns):
            writer.match(pattern, f"a{at}", steps, bound)
        indent = " "
        for step in steps:
            lines.append(f"{indent}if {step[1]}:" if step[0] == "if" else f"{indent}{step[1]} = {step[2]}")
            indent += " " if step[0] == "if" else ""
        lines.append(f"{indent}return {writer.write(body, bound)}")
    return "\n".join([*lines, f" raise NoClause({called!r})"])


def make(module, name, clauses):
    """The function of a definition with these clauses."""
    space = dict(WORDS)
    exec(compile(source(module, name, clauses), key(module, name), "exec"), space)
    return space["made"]


def make_all():
    """Makes all that was read and computes. A definition that was not read is missing, and a row that asks for it is left out."""
    for module in modules():
        for name, clauses in module.definitions.items():
            try:
                VALUES[key(module, name)] = make(module, name, clauses)
            except Unread as why:
                module.skipped.append((name, str(why)))
    give_fast_forms(None)


@functools.cache
def modules():
    """All files of definitions of the repository that rows lead to."""
    seen, left = [], [reading.rows(file)[0] for _, file in reading.files_of_rows()]
    while left:
        one = left.pop()
        meanings = [*one.names.values(), *(alias("any") for alias in one.aliases.values())]
        for other in [meaning[1] for meaning in meanings if meaning[0] == "of"]:
            if other not in seen:
                seen.append(other)
                left.append(other)
    return seen


# ---- five definitions that copy their list at each step, in a faster form


def scattered(memory, places, values):
    ASKED.update(("nv_model/Memory/scattered", "nv_model/Memory/stored"))
    last = {place.parts[0]: value for place, value in zip(places, values) if place.name == "Place.At"}
    return Function(1, lambda at: last[at] if at in last else applied(memory, at))


def bytes_from(memory, first, count):
    ASKED.add("nv_model/Memory/bytes_from")
    return tuple(applied(memory, first + at) for at in range(few(count)))


def everywhere(test, first, count):
    ASKED.add("nv_mem/GuestMap/everywhere")
    return all(applied(test, first + at) for at in range(count - 1, -1, -1))


def fit_behind(end, addresses):
    ASKED.add("nv_prp/Fits/fit_behind")
    for address in addresses:
        if not VALUES["nv_prp/Fits/may_follow"](end, address):
            return False
        end = some(address + 1)
    return end.name == "Some"


def differs(xs, ys):
    ASKED.add("nv_model/Private/differs")
    return xs != ys


# the fast form of each, and what it stands for besides itself
FAST = {
    "nv_model/Memory/scattered": (scattered, ("nv_model/Memory/stored",)),
    "nv_model/Memory/bytes_from": (bytes_from, ()),
    "nv_mem/GuestMap/everywhere": (everywhere, ()),
    "nv_prp/Fits/fit_behind": (fit_behind, ()),
    "nv_model/Private/differs": (differs, ()),
}
PLAIN = {}


def give_fast_forms(changed):
    """Puts the fast forms in their places, but for those that stand for a definition that is changed."""
    for name, (form, others) in FAST.items():
        PLAIN.setdefault(name, VALUES[name])
        if name != changed:
            VALUES[name] = PLAIN[name] if changed in others else form


class Row:
    """A clause of a worked row whose sides compute."""

    def __init__(self, crate, module, function, name, text):
        self.crate, self.function, self.name = crate, function, name
        self.file = os.path.relpath(module.path, reading.ROOT)
        writer = Writer(module)
        sides = []
        self.equations(reading.Parser(reading.tokens(text)).whole(), writer, sides)
        self.code = eval(compile(f"lambda: ({','.join(sides)},)", self.file, "eval"), WORDS)
        self.seconds, self.asks = 0.0, frozenset()

    def equations(self, tree, writer, sides):
        if tree[0] == "brackets":
            self.equations(tree[2], writer, sides)
        elif tree[:1] + tree[2:3] == ("operator", "×"):
            self.equations(tree[3], writer, sides)
            self.equations(tree[4], writer, sides)
        elif tree[:1] + tree[2:3] == ("operator", "≡"):
            sides.append(f"lambda: {writer.write(tree[3], {})} == {writer.write(tree[4], {})}")
        else:
            raise Unread("the row is a statement that is not computed")

    def holds(self):
        try:
            return all(side() for side in self.code())
        finally:
            CONSTANTS.clear()

    def __str__(self):
        return f"{self.crate} {os.path.basename(self.file).removesuffix('.rt')}::{self.function} {self.name}"
