#!/usr/bin/env python3
"""A second, plain implementation of what qmlstage draws and notes today, to compare the program with.

usage: tools/reference.py MAIN SCRIPT > frames.ppm 2> notes

It shares nothing with the program: documents are read by a small parser of their own into dictionaries and tuples,
objects are made of them with all that their types bring, slots are brought up to date by plain recursion (what items
show of their geometry by the equations of reference_geometry.py), handlers run as functions that call each other, and
each rectangle is painted over the pixels row by row. Notes go to standard error as the program writes them. A document
that is refused is told as the program tells it, with exit status 4; the grammar's faults are those of
reference_parser.py. A script of another form ends it with an error.
"""
import bisect
import re
import sys
import threading
from typing import NamedTuple

import reference_geometry
import reference_parser
from reference_geometry import SIDED, Line

WIDTH, HEIGHT = 640, 480
MOST_OBJECTS, MOST_LEVELS = 99_999, 256
MOST_HANDLERS, MOST_STATEMENTS = 64, 100_000
MOST_CALLS, MOST_NODES = 64, 100_000
MOST_BYTES = 65_536
TOKEN = re.compile(
    r"""(?:[ \t\r\n]|//[^\n]*|/\*.*?\*/)*
        (?:(?P<name>[A-Za-z_]\w*)|(?P<decimal>\d+\.\d+)|(?P<number>0x[0-9a-fA-F]+|\d+)
          |(?P<text>"(?:[^"\\\n]|\\.)*"|'(?:[^'\\\n]|\\.)*')
          |(?P<mark>[=!]==?|[<>]=?|&&|\|\||\+\+|--|[+\-*/]=|[{}():;,.?+\-*/%!=])|(?P<end>$))""",
    re.DOTALL | re.VERBOSE | re.ASCII,
)
ESCAPES = {"n": "\n", "t": "\t", "r": "\r", "\\": "\\", '"': '"', "'": "'"}
COLORS = dict(
    black=0x000000, white=0xFFFFFF, red=0xFF0000, lime=0x00FF00, green=0x008000, blue=0x0000FF, yellow=0xFFFF00,
    cyan=0x00FFFF, aqua=0x00FFFF, magenta=0xFF00FF, fuchsia=0xFF00FF, gray=0x808080, grey=0x808080, silver=0xC0C0C0,
    maroon=0x800000, olive=0x808000, navy=0x000080, purple=0x800080, teal=0x008080, orange=0xFFA500,
    lightgray=0xD3D3D3, darkgray=0xA9A9A9, pink=0xFFC0CB, brown=0xA52A2A, gold=0xFFD700, tomato=0xFF6347,
    steelblue=0x4682B4, lightsteelblue=0xB0C4DE,
)  # fmt: skip


def value_of_text(spelled):
    """The value of a text between its quotes."""
    return re.sub(
        r"\\(u[0-9a-fA-F]{4}|.)",
        lambda m: chr(int(m[1][1:], 16)) if len(m[1]) == 5 else ESCAPES[m[1]],
        spelled[1:-1],
    )


def color_of(text):
    """The colour that a text spells, as 0xAARRGGBB, or None."""
    digits = re.fullmatch(r"#([0-9a-fA-F]{3}|[0-9a-fA-F]{6}|[0-9a-fA-F]{8})", text)
    if not digits:
        if text.lower() == "transparent":
            return 0
        return 0xFF000000 | COLORS[text.lower()] if text.lower() in COLORS else None
    spelled = digits[1]
    if len(spelled) == 3:
        spelled = "".join(2 * digit for digit in spelled)
    return int(spelled, 16) | (0xFF000000 if len(spelled) == 6 else 0)


class Reader:
    """A document's tokens, read from the first to the last."""

    def __init__(self, path):
        with open(path, encoding="utf-8", newline="") as file:
            self.text = file.read()
        self.place = 1 if self.text.startswith("\ufeff") else 0
        self.lines = [0] + [match.end() for match in re.finditer("\n", self.text)]
        self.step()

    def step(self):
        """Gives the token, and goes on to the next one."""
        match, last = TOKEN.match(self.text, self.place), getattr(self, "token", None)
        if not match:
            raise ValueError(f"no token at character {self.place}")
        self.kind = match.lastgroup
        self.token, self.begins = match[self.kind], match.start(self.kind)
        self.on_a_later_line = "\n" in self.text[self.place : self.begins]
        self.place = match.end()
        return last

    def at(self):
        """The line and the column of the token, in bytes."""
        line = bisect.bisect_right(self.lines, self.begins)
        return line, len(self.text[self.lines[line - 1] : self.begins].encode()) + 1

    def is_mark(self, *marks):
        return self.kind == "mark" and self.token in marks

    def take(self, *wanted):
        if self.token not in wanted:
            raise ValueError(f"{self.token!r} stands in place of {wanted} before character {self.place}")
        return self.step()

    def document(self):
        while self.token == "import":
            while self.kind != "decimal":
                self.step()
            self.step()
            self.end()
        at = self.at()
        root = self.object(self.step(), at)
        if self.kind != "end":
            raise ValueError("something stands behind the root object")
        return root

    def end(self):
        if self.is_mark(";"):
            self.step()

    def object(self, type_name, at):
        """The object whose type's name has been read, at that place."""
        self.take("{")
        found = {"type": type_name, "at": at, "id": None, "set": {}, "declared": {}, "fixed": set(), "members": []}
        found |= {"signals": {}, "methods": {}, "handlers": [], "told": []}
        while not self.is_mark("}"):
            self.member(found)
        self.step()
        return found

    def member(self, found):
        at, first = self.at(), self.step()
        if first == "id" and self.token == ":":
            self.step()
            at = self.at()
            found["id"] = self.step()
            found["told"].append(("id", at, found["id"]))
            self.end()
        elif first in ("property", "readonly"):
            if first == "readonly":
                self.take("property")
            kind_at, kind = self.at(), self.step()
            at, name = self.at(), self.step()
            found["told"].append(("property", at, name, (kind, kind_at), first == "readonly", self.token == ":"))
            self.declared(found, kind, name, at, first == "readonly")
        elif first == "signal":
            at = self.at()
            self.signal(found, self.step(), at)
        elif first == "function":
            at, name = self.at(), self.step()
            params = self.names()
            found["told"].append(("method", at, name, [], params))
            found["methods"][name] = [param for param, _ in params], self.block()
        elif self.token == ":" or self.token == ".":
            self.initialiser(found, first, at)
        elif first[0].isupper():
            found["members"].append((None, self.object(first, at)))
            found["told"].append(("child", at, found["members"][-1][1]))
        else:
            self.group(found, first)

    def declared(self, found, kind, name, at, is_fixed):
        found["declared"][name] = kind
        if is_fixed:
            found["fixed"].add(name)
        if self.token == ":":
            self.initialiser(found, name, at)
        else:
            self.end()

    def signal(self, found, name, at):
        params, kinds, names = [], [], []
        if self.is_mark("("):
            self.step()
            while not self.is_mark(")"):
                kinds.append((self.token, self.at()))
                kind = self.step()
                names.append((self.token, self.at()))
                params.append((kind, self.step()))
                if not self.is_mark(")"):
                    self.take(",")
            self.step()
        found["signals"][name] = params
        found["told"].append(("signal", at, name, kinds, names))
        self.end()

    def names(self):
        """The names of a method's parameters, with their places."""
        names = []
        self.take("(")
        while not self.is_mark(")"):
            names.append((self.token, self.at()))
            self.step()
            if not self.is_mark(")"):
                self.take(",")
        self.step()
        return names

    def initialiser(self, found, path, at):
        last = path
        if self.token == ".":
            self.step()
            last = self.step()
            path += "." + last
        self.take(":")
        if re.match("on[A-Z]", last):
            found["told"].append(("handler", at, path))
            found["handlers"].append((path, self.statement(), at))
        else:
            self.value(found, path, at)
        self.end()

    def group(self, found, group):
        self.take("{")
        while not self.is_mark("}"):
            at = self.at()
            self.initialiser(found, f"{group}.{self.step()}", at)
        self.step()

    def value(self, found, path, at):
        before = self.place, self.kind, self.token, self.begins, self.on_a_later_line
        if self.kind == "name" and self.token[0].isupper():
            place, name = self.at(), self.step()
            if self.is_mark("{"):
                found["set"][path] = None
                found["members"].append((path, self.object(name, place)))
                found["told"].append(("init", at, path, None, found["members"][-1][1]))
                return
            self.place, self.kind, self.token, self.begins, self.on_a_later_line = before
        found["set"][path] = self.expression(), at
        literal = (found["set"][path][0][1], self.literal_at) if found["set"][path][0][0] == "value" else None
        found["told"].append(("init", at, path, literal, None))

    # Statements are tuples: what they are, and their parts.
    def block(self):
        """The statements between braces."""
        statements = []
        self.take("{")
        while not self.is_mark("}"):
            statements.append(self.statement())
        self.step()
        return statements

    def statement(self):
        if self.is_mark("{"):
            return "block", self.block()
        if self.is_mark(";"):
            self.step()
            return ("empty",)
        forms = {"if": self.if_statement, "while": self.while_statement, "for": self.for_statement}
        if self.kind == "name" and self.token in forms:
            return forms[self.step()]()
        if self.kind == "name" and self.token == "return":
            self.step()
            none_follows = self.on_a_later_line or self.is_mark(";", "}")
            statement = "return", None if none_follows else self.expression()
        else:
            statement = self.simple()
        self.end()
        return statement

    def simple(self):
        """A declaration, an assignment, a step or an expression."""
        if self.kind == "name" and self.token in ("var", "let", "const"):
            word, name = self.step(), self.step()
            if not self.is_mark("="):
                return "local", word, name, None
            self.step()
            return "local", word, name, self.expression()
        target = self.expression()
        if self.is_mark("=", "+=", "-=", "*=", "/="):
            operator = self.step()
            return "assign", target, operator[:-1], self.expression()
        if self.is_mark("++", "--") and not self.on_a_later_line:
            return "assign", target, self.step()[0], ("value", 1)
        return "do", target

    def condition(self):
        self.take("(")
        condition = self.expression()
        self.take(")")
        return condition

    def if_statement(self):
        condition, first, otherwise = self.condition(), self.statement(), None
        if self.kind == "name" and self.token == "else":
            self.step()
            otherwise = self.statement()
        return "if", condition, first, otherwise

    def while_statement(self):
        condition = self.condition()
        return "loop", None, condition, None, self.statement()

    def for_statement(self):
        self.take("(")
        first = None if self.is_mark(";") else self.simple()
        self.take(";")
        condition = None if self.is_mark(";") else self.expression()
        self.take(";")
        step = None if self.is_mark(")") else self.simple()
        self.take(")")
        return "loop", first, condition, step, self.statement()

    # Expressions are tuples: what they are, and their parts.
    LEVELS = [["||"], ["&&"], ["==", "===", "!=", "!=="], ["<", "<=", ">", ">="], ["+", "-"], ["*", "/", "%"]]

    def expression(self):
        condition = self.binary(0)
        if self.token != "?" or self.kind != "mark":
            return condition
        self.step()
        first = self.expression()
        self.take(":")
        return "choice", condition, first, self.expression()

    def binary(self, level):
        if level == len(self.LEVELS):
            return self.unary()
        left = self.binary(level + 1)
        while self.kind == "mark" and self.token in self.LEVELS[level]:
            operator = self.step()
            left = "binary", operator, left, self.binary(level + 1)
        return left

    def unary(self):
        if self.kind == "mark" and self.token in ("!", "-", "+"):
            operator = self.step()
            return "unary", operator, self.unary()
        found = self.primary()
        while self.kind == "mark" and self.token in (".", "("):
            if self.step() == ".":
                found = "member", found, self.step()
                continue
            arguments = []
            while self.token != ")":
                arguments.append(self.expression())
                if self.token != ")":
                    self.take(",")
            self.step()
            found = "call", found, arguments
        return found

    def primary(self):
        if self.kind == "mark" and self.token == "(":
            self.step()
            inner = self.expression()
            self.take(")")
            return inner
        self.literal_at = self.at()
        if self.kind == "number":
            return "value", int(self.step(), 0)
        if self.kind == "text":
            return "value", value_of_text(self.step())
        words = {"true": True, "false": False, "null": None, "undefined": UNDEFINED}
        name = self.step()
        return ("value", words[name]) if name in words else ("name", name)


UNDEFINED = object()


class Color(int):
    """A colour, as 0xAARRGGBB."""


class Sense(NamedTuple):
    """What a name stands for that is no value: a global, one of its functions, a group, a signal or a method."""

    what: str
    of: object
    name: str


class Fault(Exception):
    """An expression has no value, or a statement can't be done; with the fault's text."""


class Stopped(Exception):
    """The evaluation of this place is given up."""


class Returned(Exception):
    """A handler or a method has ended."""


class Halted(Exception):
    """A limit was met, which ends all that runs."""


class Types:
    """The built-in types with their slots, read-only ones, signals and methods, to judge documents by."""

    BASIC = ("int", "real", "double", "bool", "string", "url", "color", "var", "variant")

    def __init__(self):
        item, lines = dict(SLOTS["Item"]), set(EDGES) | {"parent"}
        lines |= {f"childrenRect.{name}" for name in ("x", "y", "width", "height")}
        implicit = lines | {"implicitWidth", "implicitHeight"}
        loader = {"active": "bool", "asynchronous": "bool", "source": "string", "sourceComponent": "Component"}
        loader |= {"status": "int", "item": "object"}
        mouse = {"pressed": "bool", "mouseX": "int", "mouseY": "int"}
        timer = {"interval": "int", "repeat": "bool", "running": "bool", "triggeredOnStart": "bool"}
        self.known = {}
        self.add("QtObject", SLOTS["QtObject"])
        self.add("Item", item, lines)
        self.add("Rectangle", SLOTS["Rectangle"], lines)
        self.add("Row", item | {"spacing": "int", "layoutDirection": "int"}, implicit)
        self.add("Column", item | {"spacing": "int"}, implicit)
        self.add("MouseArea", item | mouse, lines | set(mouse), ["pressed", "released", "clicked"])
        self.add("Timer", SLOTS["QtObject"] | timer, (), ["triggered"], ["start", "stop", "restart"])
        self.add("Loader", item | loader, implicit | {"status", "item"}, ["loaded"])
        self.add("Component", SLOTS["QtObject"])
        self.built_in = set(self.known)

    def add(self, name, slots, read_only=(), signals=(), methods=(), base=None):
        self.known[name] = dict(
            slots=dict(slots), read_only=set(read_only), signals=list(signals), methods=list(methods), base=base or name
        )


# What is told first of several faults at one place.
WORSE_FIRST = ("unsupported", "unknown type", "unknown property", "bad id", "duplicate id", "duplicate name")
WORSE_FIRST += ("wrong literal", "read only")


class Judge:
    """The first fault of the main document's unit, or the first place that does not run."""

    def __init__(self, main):
        self.main, self.types, self.roots, self.mentions = main, Types(), {}, {}

    def fault(self):
        """As the program tells it behind its own name, or None."""
        return self.load() or self.cycle() or self.compile_all() or self.unrun()

    def load(self):
        """Reads all documents, breadth first; or says why it can't."""
        listed = [(self.main, f"{self.main}: missing")]
        for number, (file, missing) in enumerate(listed):
            if number == 256:
                return "too many documents"
            try:
                with open(file, "rb") as document:
                    text = document.read()
            except FileNotFoundError:
                return missing
            if len(text) > 1 << 20:
                return f"{file}: too long"
            said, _ = reference_parser.judge(text)
            if said != "ok":
                return f"{file}: {said}" if said.startswith("not UTF-8") else f"{file}:{said}"
            self.roots[file] = Reader(file).document()
            self.mentions[file] = []
            for name, (line, column) in self.named(self.roots[file]):
                other = f"{name}.qml"
                if name not in self.types.built_in and other not in self.mentions[file]:
                    self.mentions[file].append(other)
                    if other not in [listed_file for listed_file, _ in listed]:
                        listed.append((other, f"{file}:{line}:{column}: unknown type"))
        return None

    def named(self, item):
        """The types that an object and what stands in it name, with their places, in the order of the text."""
        found = [(item["type"], item["at"])]
        for entry in item["told"]:
            if entry[0] == "child" or (entry[0] == "init" and entry[4]):
                found += self.named(entry[2] if entry[0] == "child" else entry[4])
            elif entry[0] in ("property", "signal"):
                kinds = [entry[3]] if entry[0] == "property" else entry[3]
                found += [kind for kind in kinds if kind[0][0].isupper()]
        return found

    def cycle(self):
        for file in self.roots:
            seen, pending = set(), list(self.mentions[file])
            while pending:
                other = pending.pop()
                if other not in seen:
                    seen.add(other)
                    pending += self.mentions[other]
            if file in seen:
                return f"{file}: cycle"
        return None

    def compile_all(self):
        """Judges each document behind those that it mentions."""
        done = set()

        def judged(file):
            for other in self.mentions[file]:
                if other not in done and (found := judged(other)):
                    return found
            done.add(file)
            return self.compile(file)

        return judged(self.main)

    def compile(self, file):
        faults = []
        tell = lambda at, what: faults.append((at, WORSE_FIRST.index(what)))
        root = self.roots[file]
        self.component(root, tell)
        if faults:
            (line, column), what = min(faults)
            return f"{file}:{line}:{column}: {WORSE_FIRST[what]}"
        whole = self.with_declared(root)
        self.types.known[file.removesuffix(".qml")] = whole
        return None

    def with_declared(self, item):
        """What an object has, with what it declares. A property of a kind that there is not takes all."""
        base = self.types.known[item["type"]]
        whole = {key: value.copy() for key, value in base.items() if key != "base"} | {"base": base["base"]}
        for what, _, name, *rest in item["told"]:
            if what == "property" and name not in whole["slots"]:
                is_kind = rest[0][0] in Types.BASIC or rest[0][0] in self.types.known
                whole["slots"][name] = KNOWN_KINDS.get(rest[0][0], rest[0][0]) if is_kind else "var"
                if rest[1]:
                    whole["read_only"].add(name)
            elif what in ("signal", "method"):
                whole[what + "s"].append(name)
        return whole

    def component(self, item, tell):
        """Judges the objects of a component, which has ids of its own."""
        self.object(item, tell, set())

    def object(self, item, tell, ids):
        base = self.types.known[item["type"]]
        whole = self.with_declared(item)
        names = {name.partition(".")[0] for name in base["slots"]} | set(base["signals"]) | set(base["methods"])
        given, own_ids, children = set(), 0, 0
        is_component = base["base"] == "Component"
        for what, at, *rest in item["told"]:
            if what == "id":
                self.id(rest[0], at, own_ids, tell, ids)
                own_ids += 1
            elif what in ("property", "signal", "method"):
                if rest[0] in names:
                    tell(at, "duplicate name")
                names.add(rest[0])
                self.declaration(what, rest, tell)
            elif what == "init":
                self.init(item, whole, rest, at, given, tell, ids)
            elif what == "handler" and not self.is_handled(rest[0], whole):
                tell(at, "unknown property")
            elif what == "child":
                children += 1
                if is_component and (children > 1 or item["type"] != "Component"):
                    tell(at, "duplicate name")
                self.component(rest[0], tell) if is_component else self.object(rest[0], tell, ids)
        if item["type"] == "Component" and children == 0:
            tell(item["at"], "unknown property")

    @staticmethod
    def id(name, at, own_ids, tell, ids):
        if name[0].isupper():
            tell(at, "bad id")
        if name in ids or own_ids > 0:
            tell(at, "duplicate id")
        ids.add(name)

    def declaration(self, what, rest, tell):
        """The kinds and the names of parameters."""
        for kind, at in [rest[1]] if what == "property" else rest[1]:
            if kind not in Types.BASIC and kind not in self.types.known:
                tell(at, "unknown type")
        seen = set()
        for name, at in [] if what == "property" else rest[2]:
            if name in seen:
                tell(at, "duplicate name")
            seen.add(name)

    def init(self, item, whole, rest, at, given, tell, ids):
        path, literal, value = rest
        kind = whole["slots"].get(path)
        is_declared = any(entry[0] == "property" and entry[1] == at for entry in item["told"])
        if kind is None:
            tell(at, "unknown property")
        elif path in whole["read_only"] and not is_declared:
            tell(at, "read only")
        if path in given:
            tell(at, "duplicate name")
        given.add(path)
        if literal and kind and not self.is_taken(kind, literal[0]):
            tell(literal[1], "wrong literal")
        if value:
            if kind in ("int", "bool", "string", "color", "line"):
                tell(value["at"], "wrong literal")
            is_wrapped = kind == "Component" and self.types.known[value["type"]]["base"] != "Component"
            self.component(value, tell) if is_wrapped else self.object(value, tell, ids)

    @staticmethod
    def is_taken(kind, literal):
        if kind in ("int", "bool", "string", "color", "var"):
            takes = {"int": (int,), "bool": (bool,), "string": (str, int, bool), "color": (str,)}
            return kind == "var" or type(literal) in takes[kind]
        if kind == "Component":
            return literal is None
        if kind == "line":
            return literal is UNDEFINED
        return literal is None or literal is UNDEFINED

    @staticmethod
    def is_handled(path, whole):
        first, _, second = path.partition(".")
        if second:
            return first == "Component" and second in ("onCompleted", "onDestruction")
        names = {first[2:], first[2].lower() + first[3:]}
        changes = {name + "Changed" for name in whole["slots"] if "." not in name}
        return bool(names & (set(whole["signals"]) | changes))

    # ---- what does not run yet
    def unrun(self):
        for file, root in self.roots.items():
            places = self.unrun_in(root)
            if places:
                line, column = min(places)
                return f"{file}:{line}:{column}: unsupported"
        return None

    def unrun_in(self, item):
        """The places of an object and what stands in it that do not run yet."""
        base = self.types.known[item["type"]]["base"]
        places = [] if item["type"] not in self.types.built_in or base in SLOTS else [item["at"]]
        slots = self.with_declared(item)["slots"]
        for path, inner in item["members"]:
            is_wrapped = slots.get(path) == "Component" and self.types.known[inner["type"]]["base"] != "Component"
            places += [inner["at"]] if is_wrapped else self.unrun_in(inner)
        return places


class Unit:
    """The main document, and those that its types name, as they are asked for."""

    def __init__(self, main):
        self.main = self.read(main)
        self.documents = {}
        self.sizes = {}

    @staticmethod
    def read(path):
        root = Reader(path).document()
        root["file"] = path
        return root

    def of(self, type_name):
        """The root object of a type that is a document's."""
        if type_name not in self.documents:
            self.documents[type_name] = self.read(f"{type_name}.qml")
        return self.documents[type_name]

    def size(self, item):
        """How many objects an object makes, and on how many levels."""
        objects, levels = 1, 1
        if item["type"] not in SLOTS:
            if item["type"] not in self.sizes:
                self.sizes[item["type"]] = self.size(self.of(item["type"]))
            objects, levels = self.sizes[item["type"]]
        for _, child in item["members"]:
            more, deeper = self.size(child)
            objects, levels = objects + more, max(levels, deeper + 1)
        return objects, levels


class Context:
    """One use of a document: its file, its ids, and its root."""

    def __init__(self, file):
        self.file, self.ids, self.root = file, {}, None


class Scope(NamedTuple):
    """Where names are looked up: of an object, as a document sees it, with locals, in so many calls."""

    node: "Node"
    context: Context
    locals: dict
    calls: int


class Evaluation:
    """One evaluation: the place for which it is made, if it is for one, and the nodes that it visited."""

    def __init__(self, reader=None):
        self.reader, self.nodes = reader, 0

    def count(self):
        self.nodes += 1
        if self.nodes > MOST_NODES:
            raise Fault("too much")


class Job(NamedTuple):
    """What is run: statements, where names are looked up, and where its notes stand."""

    statements: list
    scope: Scope
    site: tuple


KNOWN_KINDS = {"real": "int", "double": "int", "url": "string", "variant": "var"}
FIRST = {"int": 0, "bool": False, "string": "", "color": Color(0xFF000000), "var": UNDEFINED, "line": UNDEFINED}


class Node:
    """An object that runs: its slots, what they are bound to, what its documents declare, and what it owns."""

    def __init__(self, kind, owner, serial):
        self.kind, self.owner, self.serial, self.children = kind, owner, serial, []
        self.kinds, self.bound, self.values, self.settled = dict(SLOTS[kind]), {}, {}, {}
        self.given, self.read_only, self.signals, self.methods, self.handlers = set(), set(), {}, {}, []
        self.type_at = None
        for name in self.kinds:
            self.begin(name)

    def begin(self, name):
        """The slot has its first value."""
        value = FIRST.get(self.kinds[name])
        if name in self.values_of_type():
            value = self.values_of_type()[name]
        for side in ("set", "shown") if self.has_sides(name) else ("shown",):
            self.values[name, side] = value

    def values_of_type(self):
        lines = {edge: Line(self, edge) for edge in EDGES}
        own = {"color": Color(0xFFFFFFFF), "border.width": 1} if self.kind == "Rectangle" else {}
        return {} if self.kind == "QtObject" else {"visible": True, "enabled": True} | lines | own

    def has_sides(self, name):
        return name in SIDED and self.kind != "QtObject"

    def declare(self, name, kind, is_fixed):
        self.kinds[name] = KNOWN_KINDS.get(kind, kind)
        if is_fixed:
            self.read_only.add(name)
        self.values[name, "shown"] = FIRST.get(self.kinds[name])

    def groups(self):
        return {name.partition(".")[0] for name in self.kinds if "." in name}

    def refuses(self, name):
        """Documents can't write the slot."""
        built_in = name in EDGES or name == "parent" or name.startswith("childrenRect.")
        return self.owner is None or name in self.read_only or (built_in and self.kind != "QtObject")


EDGES = ("left", "right", "top", "bottom", "horizontalCenter", "verticalCenter")
MARGINS = ("margins", "leftMargin", "rightMargin", "topMargin", "bottomMargin")
MARGINS += ("horizontalCenterOffset", "verticalCenterOffset")
SLOTS = {"QtObject": {"objectName": "string"}}
SLOTS["Item"] = SLOTS["QtObject"] | {"parent": "object", "x": "int", "y": "int", "z": "int"}
SLOTS["Item"] |= dict.fromkeys(("width", "height", "implicitWidth", "implicitHeight"), "int")
SLOTS["Item"] |= dict.fromkeys(("visible", "enabled", "clip"), "bool") | dict.fromkeys(EDGES, "line")
SLOTS["Item"] |= {f"anchors.{edge}": "line" for edge in EDGES} | {"anchors.fill": "object", "anchors.centerIn": "object"}
SLOTS["Item"] |= {f"anchors.{margin}": "int" for margin in MARGINS}
SLOTS["Item"] |= {f"childrenRect.{name}": "int" for name in ("x", "y", "width", "height")}
SLOTS["Rectangle"] = SLOTS["Item"] | {"color": "color", "border.width": "int", "border.color": "color"}

GLOBALS = ("Qt", "Math", "console", "Loader")
FUNCTIONS = dict(min=2, max=2, abs=1, floor=1, ceil=1, round=1)
CONSTANTS = {("Qt", "LeftToRight"): 0, ("Qt", "RightToLeft"): 1}
CONSTANTS |= {("Loader", name): number for number, name in enumerate(("Null", "Ready", "Loading", "Error"))}


class Stage:
    """All objects, made in order, the settling of their slots by demand, and the handlers that run."""

    def __init__(self, unit):
        self.unit, self.nodes = unit, []
        self.content = Node("Item", None, 1)
        for name, size in (("width", WIDTH), ("height", HEIGHT)):
            self.content.values[name, "set"] = self.content.values[name, "shown"] = size
        self.state, self.suspended, self.marks, self.ignored = {}, set(), {}, set()
        self.loops, self.faults = [], []
        self.left = MOST_STATEMENTS

    def start(self):
        """The main document's root, made and settled, when the handlers of all completions have run."""
        root = self.make(self.unit.main, self.content, Context(self.unit.main["file"]))
        if root.kind != "QtObject":
            root.values["parent", "shown"] = self.content
        for node in self.nodes:
            node.settled = {name: node.values[name, "shown"] for name in node.kinds}
        self.settle()
        try:
            for node in self.nodes:
                self.run_handlers(node, lambda path: path == "Component.onCompleted", {}, MOST_HANDLERS)
        except Halted:
            pass
        return root

    def make(self, item, owner, context):
        """An object of the document of that context, with all that its type brings."""
        outer = context
        if item["type"] in SLOTS:
            node = Node(item["type"], owner, len(self.nodes) + 2)
            self.nodes.append(node)
        else:
            document = self.unit.of(item["type"])
            node = self.make(document, owner, Context(document["file"]))
        node.type_at = outer.file, item["at"]
        if outer.root is None:
            outer.root = node
        if item["id"]:
            outer.ids[item["id"]] = node
        for name, kind in item["declared"].items():
            node.declare(name, kind, name in item["fixed"])
        node.signals |= item["signals"]
        node.methods |= {name: (params, body, outer) for name, (params, body) in item["methods"].items()}
        node.handlers += [(path, body, outer, at) for path, body, at in item["handlers"]]
        for path, given in item["set"].items():
            node.begin(path)
            node.given.add(path)
            node.bound[path] = given and (given[0], outer, given[1])
        for path, member in item["members"]:
            made = self.make(member, node, outer)
            if path:
                node.values[path, "shown"] = made
                node.bound.pop(path, None)
            else:
                node.children.append(made)
                if made.kind != "QtObject" and node.kind != "QtObject":
                    made.values["parent", "shown"] = node
        return node

    # ---- settling
    def settle(self, written=()):
        """All places are brought up to date, what went wrong is noted, and the slots that changed are given."""
        self.state, self.loops, self.faults, touched = {}, [], [], set(written)
        for node in self.nodes:
            for name in node.kinds:
                for side in ("set", "shown") if node.has_sides(name) else ("shown",):
                    if self.is_native(node, name, side) or node.bound.get(name):
                        self.visit(node, name, side)
                        touched.add((node, name))
        order = lambda place: (place[0].serial, list(place[0].kinds).index(place[1]), place[2])
        for place in sorted(self.loops, key=order):
            self.note_at(self.origin(place), f'Binding loop detected for property "{place[1]}"')
        for place in sorted(self.faults, key=order):
            self.note_at(self.origin(place), f"evaluation fault: {self.marks[place]}")
        self.note_ignored()
        changed = []
        for node, name in touched:
            value = node.values[name, "shown"]
            if not are_same(node.settled[name], value):
                node.settled[name] = value
                changed.append((node, name, "shown"))
        return sorted(changed, key=order)

    def note_ignored(self):
        """The anchors that count for nothing are noted, but for those that did so before."""
        before, self.ignored = self.ignored, set()
        for node in self.nodes:
            for name, what in reference_geometry.ignored(node):
                self.ignored.add((node, name))
                if (node, name) not in before:
                    self.note_at(node.type_at, f"{what}: {name}")

    @staticmethod
    def is_native(node, name, side):
        return side == "shown" and reference_geometry.has_equation(node, name)

    def origin(self, place):
        """Where notes on a place stand."""
        node, name, _ = place
        if self.is_native(*place):
            return node.type_at
        _, context, at = node.bound[name]
        return context.file, at

    def visit(self, node, name, side):
        """The value of a place, brought up to date."""
        place = node, name, side
        native = self.is_native(*place)
        if node is self.content or (not native and node.bound.get(name) is None) or self.state.get(place) == "done":
            return node.values[name, side]
        if place in self.suspended:
            return node.values[name, side]
        if place in self.state:
            self.state[place] = "stopped"
            return node.values[name, side]
        self.state[place] = "under way"
        try:
            node.values[name, side] = self.evaluated(place, native)
            self.marks.pop(place, None)
        except Fault as fault:
            if self.marks.get(place) != fault.args[0]:
                self.faults.append(place)
            self.marks[place] = fault.args[0]
        except Stopped:
            self.suspended.add(place)
            self.loops.append(place)
        self.state[place] = "done"
        return node.values[name, side]

    def evaluated(self, place, native):
        node, name, _ = place
        evaluation = Evaluation(place)
        if native:
            ask = lambda *asked: self.read(evaluation, *asked)
            value = reference_geometry.Equations(node, ask).shown(name)
            return value if isinstance(value, bool) else fitting(value)
        expression, context, _ = node.bound[name]
        return taken(node.kinds[name], self.value(evaluation, expression, Scope(node, context, {}, 0)))

    def read(self, evaluation, node, name, side="shown"):
        if evaluation.reader is None:
            return node.values[name, side]
        value = self.visit(node, name, side)
        if self.state[evaluation.reader] == "stopped":
            raise Stopped
        return value

    # ---- names and expressions
    def found(self, evaluation, name, scope):
        """What a name stands for: a value; or a place that isn't read yet, as a pair; or else a Sense."""
        if name in scope.locals:
            return scope.locals[name][0]
        if name in scope.context.ids:
            return scope.context.ids[name]
        for node in (scope.node, scope.context.root):
            of_it = self.of_object(node, name)
            if of_it is not None:
                return of_it
        if name in GLOBALS:
            return Sense("global", None, name)
        raise Fault("unknown name")

    @staticmethod
    def of_object(node, name):
        """A place, a group, a signal or a method of an object, or None."""
        if name in node.kinds:
            return "place", node, name
        for what, names in (("group", node.groups()), ("signal", node.signals), ("method", node.methods)):
            if name in names:
                return Sense(what, node, name)
        return None

    def member(self, of, name):
        """What a member of a value or of a Sense is, as `found` gives it."""
        if isinstance(of, Sense) and of.what == "global":
            if of.name == "Math" and name in FUNCTIONS:
                return Sense("function", None, name)
            if of.name == "console" and name == "log":
                return Sense("log", None, name)
            if (of.name, name) in CONSTANTS:
                return CONSTANTS[of.name, name]
            raise Fault("unknown name")
        if isinstance(of, Sense) and of.what == "group":
            if f"{of.name}.{name}" in of.of.kinds:
                return "place", of.of, f"{of.name}.{name}"
            raise Fault("unknown name")
        if of is None:
            raise Fault("member of null")
        if not isinstance(of, Node):
            raise Fault("wrong kind")
        found = self.of_object(of, name)
        if found is None:
            raise Fault("unknown name")
        return found

    def value(self, evaluation, expression, scope):
        found = self.sense(evaluation, expression, scope)
        if isinstance(found, Sense):
            raise Fault("wrong kind")
        return found

    def sense(self, evaluation, expression, scope):
        """A value, or a Sense."""
        found = self.meant(evaluation, expression, scope)
        if type(found) is tuple:
            return self.read(evaluation, found[1], found[2])
        return found

    def meant(self, evaluation, expression, scope):
        """A value; or a place that isn't read yet, as a tuple; or a Sense."""
        evaluation.count()
        part = lambda inner: self.value(evaluation, inner, scope)
        match expression:
            case "value", value:
                return value
            case "name", name:
                return self.found(evaluation, name, scope)
            case "member", inner, name:
                return self.member(self.sense(evaluation, inner, scope), name)
            case "call", callee, arguments:
                return self.call(evaluation, self.sense(evaluation, callee, scope), arguments, scope)
            case "unary", "!", inner:
                return not truth(part(inner))
            case "unary", operator, inner:
                value = whole(part(inner))
                return fitting(-value if operator == "-" else value)
            case "binary", ("&&" | "||") as operator, left, right:
                value = part(left)
                return value if truth(value) == (operator == "||") else part(right)
            case "binary", operator, left, right:
                first = part(left)
                return of_two(operator, first, part(right))
            case "choice", condition, first, second:
                return part(first if truth(part(condition)) else second)

    def arguments(self, evaluation, count, arguments, scope):
        if count is not None and len(arguments) != count:
            raise Fault("wrong kind")
        return [self.value(evaluation, argument, scope) for argument in arguments]

    def call(self, evaluation, called, arguments, scope):
        """The value of a call within an expression."""
        match called:
            case Sense("function", _, name):
                return of_math(name, self.arguments(evaluation, FUNCTIONS[name], arguments, scope))
            case Sense("method", node, name):
                params, body, context = node.methods[name]
                match body:
                    case [("return", expression)] if expression is not None:
                        values = self.arguments(evaluation, len(params), arguments, scope)
                        if scope.calls == MOST_CALLS:
                            raise Fault("too much")
                        inner = Scope(node, context, with_locals(params, values), scope.calls + 1)
                        return self.value(evaluation, expression, inner)
        raise Fault("wrong kind")

    # ---- notes
    def note(self, text):
        sys.stderr.buffer.write(text.encode() + b"\n")
        sys.stderr.buffer.flush()

    def note_at(self, site, text):
        file, (line, column) = site
        self.note(f"{file}:{line}:{column}: {text}")

    # ---- handlers
    def run_handlers(self, node, handles, values, room):
        """The handlers of an object whose path passes the test, one after another."""
        for path, body, context, at in [handler for handler in node.handlers if handles(handler[0])]:
            self.run(Job([body], Scope(node, context, dict(values), 0), (context.file, at)), room)

    def emit(self, node, signal, values, room):
        """The handlers of a signal, or of the change of a property, run."""
        handles = lambda path: path[:2] == "on" and signal in (path[2:], path[2:3].lower() + path[3:])
        self.run_handlers(node, handles, values, room)

    def run(self, job, room):
        """A handler or a method, where so many may still nest in each other."""
        if room == 0:
            self.note_at(job.site, "handler limit")
            raise Halted
        try:
            for statement in job.statements:
                self.statement(statement, job, room - 1)
        except Fault as fault:
            self.note_at(job.site, f"evaluation fault: {fault.args[0]}")
        except Returned:
            pass

    def write(self, node, name, value, room):
        """A write takes the place of what the slot was bound to; all is settled, and what has changed is handled."""
        side = "set" if node.has_sides(name) else "shown"
        node.values[name, side] = value
        node.given.add(name)
        node.bound.pop(name, None)
        self.marks.pop((node, name, side), None)
        self.suspended -= {place for place in self.suspended if place[0] is node}
        for changed, of_it, _ in self.settle([(node, name)]):
            self.emit(changed, of_it + "Changed", {}, room)

    def statement(self, statement, job, room):
        if self.left == 0:
            self.note_at(job.site, "statement limit")
            raise Halted
        self.left -= 1
        of = lambda expression: self.value(Evaluation(), expression, job.scope)
        match statement:
            case "local", word, name, expression:
                job.scope.locals[name] = (UNDEFINED if expression is None else of(expression), word == "const")
            case "assign", target, operator, expression:
                self.assign(target, operator, expression, job, room)
            case "do", ("call", callee, arguments):
                self.call_statement(callee, arguments, job, room)
            case "do", expression:
                of(expression)
            case "block", statements:
                for inner in statements:
                    self.statement(inner, job, room)
            case "if", condition, first, otherwise:
                chosen = first if truth(of(condition)) else otherwise
                if chosen:
                    self.statement(chosen, job, room)
            case "loop", first, condition, step, body:
                self.loop(first, condition, step, body, job, room)
            case "return", expression:
                if expression is not None:
                    of(expression)
                raise Returned

    def loop(self, first, condition, step, body, job, room):
        if first:
            self.statement(first, job, room)
        while condition is None or truth(self.value(Evaluation(), condition, job.scope)):
            self.statement(body, job, room)
            if step:
                self.statement(step, job, room)

    def assign(self, target, operator, expression, job, room):
        """The target is found first, then the old value is read where one is wanted, then the right side."""
        right = lambda: self.value(Evaluation(), expression, job.scope)
        combined = lambda old: of_two(operator, old, right()) if operator else right()
        held = job.scope.locals
        match target:
            case "name", name if name in held:
                value, is_fixed = combined(held[name][0]), held[name][1]
                if is_fixed:
                    raise Fault("read only")
                held[name] = value, False
                return
        aim = self.meant(Evaluation(), target, job.scope)
        if type(aim) is not tuple:
            raise Fault("wrong kind")
        _, node, name = aim
        value = combined(node.values[name, "shown"])
        if node.refuses(name):
            raise Fault("read only")
        self.write(node, name, taken(node.kinds[name], value), room)

    def call_statement(self, callee, arguments, job, room):
        evaluation = Evaluation()
        evaluation.count()
        called = self.sense(evaluation, callee, job.scope)
        values = lambda count: self.arguments(evaluation, count, arguments, job.scope)
        match called:
            case Sense("log"):
                self.note("qml: " + short(" ".join(text_of(value) for value in values(None))))
            case Sense("signal", node, name):
                params, given = node.signals[name], values(len(node.signals[name]))
                given = [taken(KNOWN_KINDS.get(kind, kind), value) for (kind, _), value in zip(params, given)]
                self.emit(node, name, with_locals([param for _, param in params], given), room)
            case Sense("method", node, name):
                params, body, context = node.methods[name]
                scope = Scope(node, context, with_locals(params, values(len(params))), 0)
                self.run(Job(body, scope, job.site), room)
            case _:
                self.call(evaluation, called, arguments, job.scope)


def with_locals(names, values):
    """Parameters with their arguments, as locals that may be written."""
    return {name: (value, False) for name, value in zip(names, values)}


def is_number(value):
    return isinstance(value, int) and not isinstance(value, (bool, Color))


def whole(value):
    if not is_number(value):
        raise Fault("wrong kind")
    return value


def fitting(number):
    if not -(1 << 31) <= number < 1 << 31:
        raise Fault("overflow")
    return number


def short(text):
    if len(text.encode()) > MOST_BYTES:
        raise Fault("text too long")
    return text


def truth(value):
    if isinstance(value, Color):
        return True
    return bool(value) if isinstance(value, (bool, int, str)) else isinstance(value, (Node, Line))


def text_of(value):
    if isinstance(value, bool):
        return "true" if value else "false"
    if isinstance(value, Color):
        return f"#{value & 0xFFFFFF:06x}" if value >> 24 == 255 else f"#{value:08x}"
    if value is None or value is UNDEFINED:
        return "null" if value is None else "undefined"
    if isinstance(value, Line):
        return "line"
    return "object" if isinstance(value, Node) else str(value)


def kind_of(value):
    if value is UNDEFINED:
        return Line
    return Node if value is None else type(value)


def are_same(left, right):
    return kind_of(left) == kind_of(right) and left == right


def of_two(operator, left, right):
    if operator in ("==", "===", "!=", "!=="):
        return are_same(left, right) == (operator[0] == "=")
    if operator == "+" and (isinstance(left, str) or isinstance(right, str)):
        return short(text_of(left) + text_of(right))
    a, b = whole(left), whole(right)
    if operator in ("/", "%"):
        if b == 0:
            raise Fault("zero divisor")
        quotient = abs(a) // abs(b) * (1 if (a < 0) == (b < 0) else -1)
        return fitting(quotient) if operator == "/" else a - b * quotient
    if operator in ("+", "-", "*"):
        return fitting({"+": a + b, "-": a - b, "*": a * b}[operator])
    return {"<": a < b, "<=": a <= b, ">": a > b, ">=": a >= b}[operator]


def of_math(name, arguments):
    numbers = [whole(argument) for argument in arguments]
    if name in ("min", "max"):
        return min(numbers) if name == "min" else max(numbers)
    return fitting(abs(numbers[0])) if name == "abs" else numbers[0]


def taken(kind, value):
    """A value as a slot of that kind takes it."""
    if kind == "var":
        return value
    if kind == "string" and isinstance(value, (bool, int, str)):
        return text_of(value)
    if kind == "color" and isinstance(value, str) and color_of(value) is not None:
        return Color(color_of(value))
    if kind == "color" and isinstance(value, Color):
        return value
    if (kind == "int" and is_number(value)) or (kind == "bool" and isinstance(value, bool)):
        return value
    if kind == "line" and (value is UNDEFINED or isinstance(value, Line)):
        return value
    if kind not in ("int", "bool", "string", "color", "line"):
        if value is UNDEFINED:
            return None
        if value is None or isinstance(value, Node):
            return value
    raise Fault("wrong kind")


def rectangles(node):
    """What a Rectangle covers by itself, each with its colour; with a border where its group was written."""
    width, height, color = (node.values[name, "shown"] for name in ("width", "height", "color"))
    edge, edge_color = node.values["border.width", "shown"], node.values["border.color", "shown"]
    if width <= 0 or height <= 0:
        return []
    if edge <= 0 or not node.given & {"border.width", "border.color"}:
        return [(0, 0, width, height, color)]
    if 2 * edge >= min(width, height):
        return [(0, 0, width, height, edge_color)]
    inside, across, down = (edge, edge, width - 2 * edge, height - 2 * edge, color), width - edge, height - edge
    edges = [(0, 0, width, edge), (0, down, width, edge), (0, edge, edge, height - 2 * edge)]
    edges.append((across, edge, edge, height - 2 * edge))
    return [inside] + [place + (edge_color,) for place in edges]


def cover(pixels, rectangle, left, top, window):
    """A rectangle's colour over the pixels that it has in the window: its edges left, top, right and bottom."""
    x, y, width, height, color = rectangle
    alpha, channels = color >> 24, [color >> shift & 255 for shift in (16, 8, 0)]
    blends = [bytes((channel * alpha + d * (255 - alpha) + 127) // 255 for d in range(256)) for channel in channels]
    begin, end = max(left + x, window[0]), min(left + x + width, window[2])
    for row in range(max(top + y, window[1]), min(top + y + height, window[3])) if begin < end else []:
        for k in range(3):
            part = slice(3 * (row * WIDTH + begin) + k, 3 * (row * WIDTH + end) + k, 3)
            pixels[part] = pixels[part].translate(blends[k])


def paint(pixels, node, left, top, window):
    if node.kind == "QtObject" or not node.values["visible", "shown"]:
        return
    shown = lambda name: node.values[name, "shown"]
    left, top = left + shown("x"), top + shown("y")
    if shown("clip"):
        edges = left, top, left + shown("width"), top + shown("height")
        window = *map(max, window[:2], edges[:2]), *map(min, window[2:], edges[2:])
    children = [child for child in node.children if child.kind != "QtObject"]
    children.sort(key=lambda child: child.values["z", "shown"])
    below = [child for child in children if child.values["z", "shown"] < 0]
    for child in below:
        paint(pixels, child, left, top, window)
    for rectangle in rectangles(node) if node.kind == "Rectangle" else []:
        cover(pixels, rectangle, left, top, window)
    for child in children[len(below) :]:
        paint(pixels, child, left, top, window)


def main():
    fault = Judge(sys.argv[1]).fault()
    sys.setrecursionlimit(1_000_000)
    if fault:
        sys.stderr.write(f"qmlstage: {fault}\n")
        return 4
    unit = Unit(sys.argv[1])
    with open(sys.argv[2], encoding="utf-8") as file:
        lines = file.read().split("\n")
    if lines[-1] == "":
        lines.pop()
    if any(line != "frame" for line in lines):
        raise ValueError("a line of the script is not `frame`")
    pixels = bytearray(b"\xff" * (3 * WIDTH * HEIGHT))
    stage = Stage(unit)
    objects, levels = unit.size(unit.main)
    if objects > MOST_OBJECTS or levels > MOST_LEVELS:
        stage.note_at((sys.argv[1], (1, 1)), "object limit" if objects > MOST_OBJECTS else "depth limit")
    else:
        paint(pixels, stage.start(), 0, 0, (0, 0, WIDTH, HEIGHT))
    image = b"P6\n%d %d\n255\n" % (WIDTH, HEIGHT) + bytes(pixels)
    for _ in lines:
        sys.stdout.buffer.write(image)
    return 0


def with_room(run):
    """Runs it where calls may nest deep, and exits with what it gives, or with 1 where it ends with an error."""
    ended = []
    threading.stack_size(1 << 29)
    thread = threading.Thread(target=lambda: ended.append(run()))
    thread.start()
    thread.join()
    sys.exit(ended[0] if ended else 1)


if __name__ == "__main__":
    with_room(main)
