#!/usr/bin/env python3
"""by_rule.py [--of AT/ALL] [--seconds S] [--each S] [CRATE/specs/FILE | NAME ..]: makes wrong definitions by rule of all that the contracts of
`World::new` and `World::run` rest on, or of these, and runs the worked rows that use each, until one is wrong. Prints a line for each that no row
tells apart, and the sums. Such a one is the same in other words, or a row is wanted, or something that is no computed row refuses it: a statement,
a law, a contract.

--of 0/3 takes the first of every three definitions, so that three processes share the work. --seconds leaves out rows that take longer than
that; --each ends with a wrong definition once the rows that it went through take that long together with the right one ("undecided"). The rows run
in Python (computing.py), which is not the checker: what it tells of a row that is left whole is no proof."""
import argparse
import itertools
import os
import signal
import sys
import time

import computing
import kinds
import reading

sys.path.insert(0, os.path.join(reading.ROOT, "bench"))
import believed

sys.setrecursionlimit(1_000_000)
# words of the library that are the other's near neighbour
NEIGHBOURS = [("nat_lt", "nat_le"), ("is_some", "is_none"), ("list_any", "list_all"), ("take", "drop"), ("min", "max")]


class Late(Exception):
    """A row takes much longer than with the right definition."""


class Rules:
    """Of one clause of a definition: all wrong ones, each of the type that stood there."""

    def __init__(self, known, module, name, clause):
        self.known, self.module, self.name = known, module, name
        self.patterns, self.body, _, self.text = clause
        self.found = {}

    def all(self):
        """What each is, with the clause's text."""
        told = self.known.of_definition(("definition", self.module, self.name))
        parameters, result = told or ([], None)
        bound = {}
        for at, pattern in enumerate(self.patterns):
            self.known.bind(self.module, pattern, parameters[at] if at < len(parameters) else None, bound)
        self.visit(self.body, bound)
        self.whole(self.body, bound, " → ".join([*parameters[len(self.patterns) :], result]) if result else None)
        return [(what, text) for text, what in self.found.items()]

    def words(self, tree):
        return self.text[tree[1][0] : tree[1][1]]

    def atom(self, tree):
        words = self.words(tree)
        return words if tree[0] in ("name", "number", "empty", "brackets", "tuple", "field") else f"({words})"

    def put(self, what, place, words):
        text = self.text[: place[0]] + words + self.text[place[1] :]
        if text != self.text:
            self.found.setdefault(text, f"{what}: {' '.join(self.text[place[0] : place[1]].split())} -> {' '.join(words.split()) or 'nothing'}")

    def whole(self, tree, bound, kind):
        """The whole clause is what says least."""
        least = {"Bool": ["true", "false"], "ℕ": ["0", f"({self.words(tree)} + 1)"]}.get(kind, [])
        if kind and kind.startswith("Option "):
            least = ["None"]
        if kind and kind.startswith("List "):
            least = ["[]"]
        for words in least:
            self.put("the least", tree[1], words)

    def visit(self, tree, bound):
        getattr(self, f"visit_{tree[0]}")(tree, bound)
        if tree[0] in ("apply", "record", "if", "operator"):
            kind = self.known.of(self.module, tree, bound)
            for name in [name for name, other in bound.items() if kind and other == kind][:3]:
                self.put("a parameter", tree[1], name)

    def visit_number(self, tree, bound):
        self.put("a number", tree[1], str(tree[2] + 1))
        if tree[2] > 0:
            self.put("a number", tree[1], str(tree[2] - 1))

    def visit_empty(self, tree, bound):
        pass

    def visit_brackets(self, tree, bound):
        self.visit(tree[2], bound)

    def visit_tuple(self, tree, bound):
        for part in tree[2]:
            self.visit(part, bound)

    def visit_let(self, tree, bound):
        self.visit(tree[3], bound)
        self.visit(tree[4], {**bound, tree[2]: self.known.of(self.module, tree[3], bound)})

    def visit_function(self, tree, bound):
        self.visit(tree[3], {**bound, **{name: None for name in tree[2]}})

    def visit_name(self, tree, bound):
        name = tree[2]
        if name in ("true", "false"):
            self.put("a truth", tree[1], "false" if name == "true" else "true")
        elif name in bound:
            for other, kind in bound.items():
                if other != name and kind and kind == bound[name]:
                    self.put("a variable", tree[1], other)
        else:
            self.other_word(tree, name, 0)

    def visit_field(self, tree, bound):
        if (name := computing.Writer(self.module).named(tree, bound)) is not None:
            self.other_word(tree, name, 0)
            return
        kind = self.known.of(self.module, tree[2], bound)
        fields = self.known.records.get(kind.split(" ")[0], []) if kind else []
        for name, other in fields:
            if name != tree[3] and other == dict(fields).get(tree[3]):
                self.put("a field", tree[4], name)
        self.visit(tree[2], bound)

    def visit_if(self, tree, bound):
        test, yes, no = map(self.words, tree[2:])
        self.put("always", tree[1], f"({yes})")
        self.put("never", tree[1], f"({no})")
        self.put("turned", tree[1], f"(if {test} then ({no}) else ({yes}))")
        for part in tree[2:]:
            self.visit(part, bound)

    def visit_record(self, tree, bound):
        kind = self.known.of(self.module, tree, bound)
        fields = dict(self.known.records.get(kind, [])) if kind else {}
        for (one, a, _), (other, b, _) in itertools.combinations(tree[3], 2):
            if fields.get(one) and fields.get(one) == fields.get(other):
                between = self.text[a[1][1] : b[1][0]]
                self.put("two values", (a[1][0], b[1][1]), self.words(b) + between + self.words(a))
        if tree[2]:
            for _, _, place in tree[3]:
                self.put("a field kept", *((tree[1], self.atom(tree[2])) if len(tree[3]) == 1 else (place, "")))
            self.visit(tree[2], bound)
        for _, value, _ in tree[3]:
            self.visit(value, bound)

    def visit_operator(self, tree, bound):
        sign, place, a, b = tree[2], tree[1], self.atom(tree[3]), self.atom(tree[4])
        others = {
            "&&": [a, b, f"({a} || {b})"],
            "||": [a, b, f"({a} && {b})"],
            # to be 0 and to be at most 0 are the same
            "==": [*([] if b == "0" or set(b) <= {"0", "x"} else [f"(nat_le {a} {b})"]), f"(nat_le {b} {a})", "true", "false"],
            "+": [a, b, f"({a} - {b})"],
            "-": [a, f"({a} + {b})"],
            "*": [a, b, f"({a} + {b})"],
            "/": [a],
            "%": [a],
            "++": [a, b, f"({b} ++ {a})"],
            "∷": [b] if tree[4][0] == "empty" else [b, f"({a} ∷ [])"],
        }
        for words in others.get(sign, []):
            self.put("an operator", place, words)
        self.visit(tree[3], bound)
        self.visit(tree[4], bound)

    def visit_apply(self, tree, bound):
        arguments = tree[3]
        name = computing.Writer(self.module).named(tree[2], bound)
        if name is None:
            self.visit(tree[2], bound)
        else:
            self.word(tree, name, [self.atom(argument) for argument in arguments])
        for argument in arguments:
            self.visit(argument, bound)

    def word(self, tree, name, arguments):
        """A word that is applied."""
        for pair in NEIGHBOURS:
            if name in pair:
                self.put("a neighbour", tree[2][1], pair[1 - pair.index(name)])
        if name in ("nat_lt", "nat_le") and len(arguments) == 2:
            self.put("always", tree[1], "true")
            self.put("never", tree[1], "false")
        if name in ("not", "suc") or (name in ("take", "drop", "filter", "min", "max") and len(arguments) == 2):
            self.put("left out", tree[1], arguments[-1])
        if name in ("min", "max") and len(arguments) == 2:
            self.put("left out", tree[1], arguments[0])
        if name == "Some":
            self.put("none", tree[1], "None")
        found = self.module.meant(name)
        if found and found[0] == "definition" and (told := self.known.of_definition(found)):
            for one, other in itertools.combinations(range(min(len(arguments), len(told[0]))), 2):
                if told[0][one] == told[0][other]:
                    turned = list(arguments)
                    turned[one], turned[other] = turned[other], turned[one]
                    self.put("arguments", tree[1], " ".join([self.words(tree[2]), *turned]))
        self.other_word(tree[2], name, len(arguments))

    def other_word(self, tree, name, count):
        """Another constructor of the same type, or another definition that the file names."""
        found = self.module.meant(name)
        if found and found[0] == "constructor" and "." in found[1] and count == 0:
            all_others = sorted(self.known.variants.get(found[1].split(".")[0], set()) - {found[1]})
            others = [spelled for other in all_others if not self.known.parts.get(other) and (spelled := self.spelled(other))]
            for other in others[:2]:
                self.put("a constructor", tree[1], other)
        if found and found[0] == "definition" and (told := self.known.of_definition(found)):
            alike = [other for other in self.module.names if other not in (name, self.name) and self.is_alike(other, found, told)]
            for other in alike[:3]:
                self.put("a definition", tree[1], other)

    def is_alike(self, name, found, told):
        other = self.module.meant(name)
        return other is not None and other[0] == "definition" and other != found and self.known.of_definition(other) == told

    def spelled(self, constructor):
        """How the file names a constructor, where it can."""
        for name in self.module.names:
            if self.module.meant(name) == ("constructor", constructor):
                return name
        kind, _, last = constructor.partition(".")
        for alias, meaning in self.module.aliases.items():
            if meaning(last) == ("constructor", constructor):
                return f"{alias}.{last}"
        return None


def ready_rows(longest):
    """All rows that compute, each with what it asks for and how long it takes."""
    rows = []
    for crate, file in reading.files_of_rows():
        module, clauses = reading.rows(file)
        for function, name, text in clauses:
            try:
                row = computing.Row(crate, module, function, name, text)
                computing.ASKED.clear()
                begun = time.process_time()
                if not row.holds():
                    sys.exit(f"{row} does not hold of the definitions as they stand")
                row.seconds, row.asks = time.process_time() - begun, frozenset(computing.ASKED)
            except (reading.Unread, KeyError):
                continue
            if row.seconds <= longest:
                rows.append(row)
    return rows


def tells(row):
    """Whether a row is wrong now; it is, too, where a definition has no clause for what it meets."""
    signal.setitimer(signal.ITIMER_VIRTUAL, 1 + 30 * row.seconds)
    try:
        return not row.holds()
    except computing.NoClause:
        return True
    finally:
        signal.setitimer(signal.ITIMER_VIRTUAL, 0)


def spread(rows):
    """The rows in turns, one of each function and then the next of each, since those of one function see much the same."""
    functions = {}
    for row in sorted(rows, key=lambda row: row.seconds):
        functions.setdefault((row.file, row.function), []).append(row)
    return [row for turn in itertools.zip_longest(*functions.values()) for row in turn if row]


def verdict(rows, told_before, most):
    """The row that refuses what stands now, or why none does."""
    late, spent = [], 0.0
    for row in sorted(rows, key=lambda row: -told_before.get(row, 0)):
        spent += row.seconds
        if spent > most:
            return "undecided", None
        try:
            if tells(row):
                told_before[row] = told_before.get(row, 0) + 1
                return "refused", row
        except (Late, computing.TooMuch, RecursionError):
            late.append(row)
            if len(late) > 2:
                break
        except (TypeError, AttributeError, KeyError, IndexError):
            return "of another type", row
    return ("late", late[0]) if late else ("through", None)


def try_definition(known, rows, module, name, sums, most):
    called = computing.key(module, name)
    own, told_before = spread([row for row in rows if called in row.asks]), {}
    clauses = module.definitions[name]
    right = computing.VALUES.get(called)
    for at, clause in enumerate(clauses):
        for what, text in Rules(known, module, name, clause).all():
            try:
                wrong = (*reading.clause(text)[1:], clause[2], text)
                computing.VALUES[called] = computing.make(module, name, [*clauses[:at], wrong, *clauses[at + 1 :]])
                computing.give_fast_forms(called)
                answer, row = verdict(own, told_before, most)
            except reading.Unread:
                answer, row = "unread", None
            sums[answer] = sums.get(answer, 0) + 1
            if answer in ("through", "late", "undecided"):
                print(called, f"[{at}]", what, f"({answer}{f': {row}' if row else ''}, {len(own)} rows use it)", flush=True)
    computing.VALUES[called] = right
    computing.give_fast_forms(None)


def main():
    words = argparse.ArgumentParser(description=__doc__, formatter_class=argparse.RawDescriptionHelpFormatter)
    words.add_argument("--of", default="0/1")
    words.add_argument("--seconds", type=float, default=1e9)
    words.add_argument("--each", type=float, default=1e9)
    words.add_argument("names", nargs="*")
    words = words.parse_args()
    own, among = map(int, words.of.split("/"))
    signal.signal(signal.SIGVTALRM, late)
    computing.make_all()
    known = kinds.Kinds(computing.modules())
    rows = ready_rows(words.seconds)
    files = believed.read()
    # of a file that is named all definitions are asked about, also those that the world does not rest on
    named = [(file, list(files[file].lines)) for file in words.names if file in files]
    rested_on = sorted(believed.rests_on(files, [(file, name) for file, names in [*believed.WORLD, *named] for name in names]))
    by_file = {module.path: module for module in computing.modules()}
    sums, asked = {}, 0
    for at, (file, name) in enumerate(rested_on):
        module = by_file.get(os.path.join(reading.ROOT, "crates", f"{file}.antt"))
        if at % among != own or (words.names and not {file, name} & set(words.names)):
            continue
        if module and name in module.definitions and computing.key(module, name) in computing.VALUES:
            asked += 1
            try_definition(known, rows, module, name, sums, words.each)
    print(f"{asked} definitions, {len(rows)} rows;", ", ".join(f"{count} {answer}" for answer, count in sorted(sums.items())))


def late(*_):
    raise Late


if __name__ == "__main__":
    main()
