"""What type each part of a definition has, as far as its words tell, so that a wrong part of the same type can stand in its place."""
import re

import computing
import reading

# of library words that a definition applies to all their arguments
RESULTS = {
    "nat_lt": "Bool", "nat_le": "Bool", "not": "Bool", "is_some": "Bool", "is_none": "Bool", "list_any": "Bool", "list_all": "Bool", "min": "ℕ",
    "max": "ℕ", "length": "ℕ", "sum": "ℕ", "sum_by": "ℕ", "suc": "ℕ", "little_from": "ℕ", "slice_index": "ℕ", "little_bytes": "List ℕ",
    "range_with_len": "List ℕ",
}  # fmt: skip
# types of the code, whose fields and constructors the definitions use
CODE_RECORDS = {"Region": [("guest", "ℕ"), ("host", "ℕ"), ("len", "ℕ")]}
CODE_PARTS = {"Piece.Run": ["ℕ", "ℕ"], "Piece.Bucket": ["ℕ"]}


def plain(kind):
    kind = " ".join(kind.split())
    while kind.startswith("(") and closing(kind) == len(kind) - 1 and not re.match(r"\([\w «»-]+ : ", kind):
        kind = kind[1:-1].strip()
    return kind


def closing(text):
    """Where the bracket closes that a text begins with."""
    depth = 0
    for at, sign in enumerate(text):
        depth += (sign == "(") - (sign == ")")
        if depth == 0:
            return at
    return -1


def signature(kind):
    """The types of the parameters, and of the result."""
    parts, depth, part = [], 0, ""
    for sign in " ".join(kind.split()):
        depth += (sign in "({") - (sign in ")}")
        if sign == "→" and depth == 0:
            parts.append(part.strip())
            part = ""
        else:
            part += sign
    parameters = []
    for one in parts:
        # (a b : ℕ) (c : Bool) are three
        named = re.findall(r"\(([\w «»-]+) : ((?:[^()]|\((?:[^()]|\([^()]*\))*\))*)\)", one)
        rest = re.sub(r"\(([\w «»-]+) : ((?:[^()]|\((?:[^()]|\([^()]*\))*\))*)\)", "", one).strip()
        parameters += [plain(k) for names, k in named for _ in names.split()] if named and not rest else [plain(one)]
    return parameters, plain(part)


class Kinds:
    """The types that are told in all modules that were read."""

    def __init__(self, modules):
        self.records, self.parts, self.variants = dict(CODE_RECORDS), dict(CODE_PARTS), {}
        for module in modules:
            self.records |= {name: [(f, plain(k)) for f, k in fields] for name, fields in module.records.items()}
            for kind, built in module.data.items():
                self.parts |= {f"{kind}.{name}": signature(k)[0] for name, k in built}
                self.variants.setdefault(kind, set()).update(f"{kind}.{name}" for name, _ in built)
            # of the code's enumerations those that some file of definitions has
            for name in module.names:
                found = module.meant(name)
                if found and found[0] == "constructor" and "." in found[1]:
                    self.variants.setdefault(found[1].split(".")[0], set()).add(found[1])

    def of_definition(self, found):
        kind = found[1].types.get(found[2])
        return signature(kind) if kind else None

    def bind(self, module, pattern, kind, bound):
        """Adds the names of a pattern with their types, or None where these are not told."""
        if pattern[0] == "tuple":
            for part in pattern[1]:
                self.bind(module, part, None, bound)
        if pattern[0] not in ("name", "built") or pattern[1] in ("_", "true", "false", "zero", "[]"):
            return
        name, parts = pattern[1], pattern[2] if pattern[0] == "built" else []
        built = computing.Writer(module).meant_pattern(name)
        if name == "suc":
            kinds = ["ℕ"]
        elif name == "∷":
            kinds = [plain(kind[5:]) if kind and kind.startswith("List ") else None, kind]
        elif built == "Some":
            kinds = [plain(kind[7:]) if kind and kind.startswith("Option ") else None]
        elif built:
            kinds = self.parts.get(built)
        else:
            bound[name] = kind
            return
        for at, part in enumerate(parts):
            self.bind(module, part, kinds[at] if kinds and at < len(kinds) else None, bound)

    def of(self, module, tree, bound):
        """The type of a tree, or None."""
        return getattr(self, f"of_{tree[0]}")(module, tree, bound)

    def of_number(self, module, tree, bound):
        return "ℕ"

    def of_empty(self, module, tree, bound):
        return None

    def of_tuple(self, module, tree, bound):
        return None

    def of_function(self, module, tree, bound):
        return None

    def of_brackets(self, module, tree, bound):
        return self.of(module, tree[2], bound)

    def of_let(self, module, tree, bound):
        return self.of(module, tree[4], {**bound, tree[2]: self.of(module, tree[3], bound)})

    def of_if(self, module, tree, bound):
        return self.of(module, tree[3], bound) or self.of(module, tree[4], bound)

    def of_name(self, module, tree, bound):
        if tree[2] in bound:
            return bound[tree[2]]
        return "Bool" if tree[2] in ("true", "false") else self.of_word(module, tree[2], 0)

    def of_word(self, module, name, count):
        """Of a word that is applied to so many arguments."""
        try:
            found = computing.Writer(module).meant(name)
        except reading.Unread:
            return None
        if found[0] == "constructor":
            return found[1].split(".")[0] if "." in found[1] and len(self.parts.get(found[1], [None] * count)) == count else None
        if found[0] == "library":
            return RESULTS.get(found[1]) if count == computing.LIBRARY[found[1]][0] else None
        told = self.of_definition(found)
        if not told or count > len(told[0]):
            return None
        return " → ".join([*told[0][count:], told[1]])

    def of_apply(self, module, tree, bound):
        name = computing.Writer(module).named(tree[2], bound)
        count = len(tree[3])
        if name is None:
            told = self.of(module, tree[2], bound)
            parameters, result = signature(told) if told else ([], None)
            return " → ".join([*parameters[count:], result]) if result and count <= len(parameters) else None
        if name == "Some":
            inner = self.of(module, tree[3][0], bound)
            return f"Option {inner if ' ' not in inner else f'({inner})'}" if inner else None
        if name in ("take", "drop", "filter") and count == 2:
            return self.of(module, tree[3][1], bound)
        if name == "slice_get" and count == 2:
            inner = self.of(module, tree[3][0], bound)
            return f"Option {inner[5:]}" if inner and inner.startswith("List ") else None
        return self.of_word(module, name, count)

    def of_operator(self, module, tree, bound):
        if tree[2] in ("==", "&&", "||"):
            return "Bool"
        if tree[2] not in ("++", "∷"):
            return "ℕ"
        if tree[2] == "++":
            return self.of(module, tree[3], bound) or self.of(module, tree[4], bound)
        if (told := self.of(module, tree[4], bound)) is not None:
            return told
        inner = self.of(module, tree[3], bound)
        return f"List {inner if ' ' not in inner else f'({inner})'}" if inner else None

    def of_record(self, module, tree, bound):
        if tree[2]:
            return self.of(module, tree[2], bound)
        names = {name for name, _, _ in tree[3]}
        told = [kind for kind, fields in self.records.items() if {name for name, _ in fields} == names]
        return told[0] if len(told) == 1 else None

    def of_field(self, module, tree, bound):
        if (name := computing.Writer(module).named(tree, bound)) is not None:
            return self.of_word(module, name, 0)
        told = self.of(module, tree[2], bound)
        if told is None:
            return None
        if isinstance(tree[3], int):
            parts = [plain(part) for part in told.split(" × ")]
            return parts[tree[3]] if tree[3] < len(parts) else None
        return dict(self.records.get(told.split(" ")[0], [])).get(tree[3])
