"""Random documents for tools/check_parser: whole ones, changed ones, and ones near the limits."""
import pathlib
import re

from reference_parser import BINARY_TIERS, MOST_LEVELS, MOST_NODES, judge

# Pieces of a document beside its tokens: an end of a member or statement, and a gap without a line end.
END = object()
SAME_LINE = object()

PLAIN_NAMES = "a b c foo parent width anchors border x _ _a1 on onX component".split()
UPPER_NAMES = "A B Item Component Qt Math".split()
WORDS = (
    "id property readonly signal function default enum required alias import as else if while for return var let"
    " const true false null undefined switch do break continue try throw new delete typeof instanceof in void"
    " with class this"
).split()
LITERALS = ["0", "1", "42", "2147483647", "0x0", "0x00fF", '"t"', "'t'", '""', '"\\n\\u00e9"', "'\"é'", '"//"']
LITERALS += ["true", "false", "null", "undefined"]
HANDLERS = ["onClicked", "onXChanged", "onA"]
BINARY = sorted(set.union(*BINARY_TIERS))
ASSIGNMENTS = ["=", "+=", "-=", "*=", "/="]
MARKS = "{ } ( ) [ ] ; : , . ? + - * / % ! < > <= >= == != === !== && || = += -= *= /= ++ --".split()
BAD_TOKENS = ["00", "0x", "0X1", "0x1g", "1x", "1.5px", "2147483648", "0x80000000", "&", "@", '"', "'a\\q'"]
BAD_TOKENS += ['"\\ud800"', '"\\u12g4"', '"a\\\nb"', "/*", "/*/", "é", "\ufeff", "\x00", "\f", "|"]
ODD_TOKENS = ["1.5", "00.5", "2.15", "2.0", "2.16", "QtQuick", "A.B", "a.B", "A.b", "a.b", "A.b.C", "//", "onX"]
VOCABULARY = PLAIN_NAMES + UPPER_NAMES + WORDS + LITERALS + HANDLERS + ASSIGNMENTS + 2 * MARKS + ODD_TOKENS

GAPS_IN_LINE = [" "] * 6 + ["  ", "\t", "\r", " /* c */ ", " /**/", ' /* " * / */']
GAPS_OF_LINES = ["\n"] * 4 + ["\r\n", "\n\n    ", " // c\n", " /* c\n */ ", " //\r\n", "\n/***/", " // é\n"]

# Rows of random tokens: the tokens of which most of one are made, and the frames in which it is put at the `@`.
ROWS = [
    (
        'import QtQuick QtQuick2 Window Foo . . 2.15 2.05 2.16 3.15 02.0 2 1 as as Q ; ; "a.js" Item { }',
        ["@", "import @\nItem { }", "import QtQuick @\nItem { }", "import QtQuick.@ Item { }"]
        + ["import Foo @\nItem { }", "import QtQuick 2.15@ Item { }"],
    ),
    (
        "A A B Component a _a . . . { } on : onX foo alias true",
        ["@", "@ { }", "Item { @ }", "Item { @ { } }", "Item { A@: 1 }", "Item { @ on b }", "Item { x: @ { } }"]
        + ["Item { a { @ } }", "Item { a { b: @ { } } }", "Item { property @ x }", "Item { property A.@ x }"]
        + ["Item { signal s(@ a) }", "Item { onX: @ { } }", "Item { onX: { @ { } } }"],
    ),
    (
        "id property property readonly signal function default enum required alias else on import if a b A onX"
        " : : : ; ; , ( ) { } { } . 1 a x int var",
        ["Item { @ }", "Item { id: a\n@\n}", "Item { x: A\n@ }", "Item { a { @ } }", "Item { Component.@ }"]
        + ["Item { property @ }", "Item { readonly @ }", "Item { signal @ }", "Item { signal s(@) }", "Item { } @"]
        + ["Item { function @ { } }", "Item { function f(@) { } }", "Item { onX: if (a) b\n@: 1 }"]
        + ["Item { onX: return\n@: 1 }"],
    ),
    (
        "a a b a.b true null if if else else while for var let const return switch delete function this { } ; ; ( )"
        " ( ) = += ++ -- - + . 1 , ? :",
        ["Item { onX: @ }", "Item { onX: { @ } }", "Item { onX: { a\n@ } }", "Item { onX: { a@\n++ } }"]
        + ["Item { onX: { var @ } }", "Item { onX: { return@ } }", "Item { onX: if (a) @ }"]
        + ["Item { onX: if (a) b; @ }", "Item { onX: if (a) @\nelse b }", "Item { onX: { if (a) b\n@\nelse c } }"]
        + ["Item { onX: for (@) a }", "Item { onX: for (;@;) a }", "Item { onX: for (;;@) a }"]
        + ["Item { onX: for (;;) @ }", "Item { function f() { @ } }"],
    ),
    (
        "a b a true undefined 1 'a' ( ) ( ) . . , ? : ? : - + ! * % == === < && || { [ in void if function ++ = 1.5",
        ["Item { x: @\n}", "Item { x: a\n@\n}", "Item { x: f(@) }", "Item { x: (@) }", "Item { x: a ? @ : c }"]
        + ["Item { x: - @\n}", "Item { onX: if (@) a }", "Item { onX: @ = 1 }"],
    ),
]

# Documents that turn on one rule each, one per line, with `\n` for a line end; an empty one and a blank are added.
SINGLE_RULES = (pathlib.Path(__file__).parent / "single_rules.txt").read_text().splitlines()
SINGLE_RULES = [line.replace("\\n", "\n") for line in SINGLE_RULES] + ["", " "]


class Writer:
    """Writes one random document as pieces: tokens, `END` and `SAME_LINE`."""

    def __init__(self, source):
        self.source = source
        self.pieces = []

    def put(self, *pieces):
        self.pieces.extend(pieces)

    def pick(self, *choices):
        return self.source.choice(choices)

    def chance(self, share):
        return self.source.random() < share

    def some(self, most):
        return range(self.source.randint(0, most))

    def name(self):
        """A name where each word may be one."""
        return self.source.choice(self.pick(PLAIN_NAMES, PLAIN_NAMES, UPPER_NAMES, WORDS))

    def lower_name(self):
        return self.source.choice(PLAIN_NAMES[:7])

    def type_name(self):
        return self.source.choice(UPPER_NAMES)

    def listed(self, most, write):
        self.put("(")
        for place in self.some(most):
            if place > 0:
                self.put(",")
            write()
        self.put(")")

    def document(self):
        for _ in self.some(2):
            self.put("import", "QtQuick", f"2.{self.pick('0', '2', '15', '05', '007')}", END)
        self.put("Item")
        self.body(self.source.randint(1, 4))
        return self.pieces

    def body(self, room):
        self.put("{")
        for _ in self.some(4):
            self.member(room)
        self.put("}")

    # Members; `room` bounds how deep they nest

    def member(self, room):
        forms = [self.id, self.property, self.signal, self.method, self.initialiser, self.initialiser, self.handler]
        forms += [self.handler, self.group, self.child]
        self.source.choice(forms)(room)

    def id(self, _room):
        self.put("id", ":", self.name(), END)

    def property(self, room):
        if self.chance(0.3):
            self.put("readonly")
        self.put("property", self.pick("int", "var", "A", "if", "on"), self.name())
        if self.chance(0.7):
            self.put(":")
            self.value(room)
        self.put(END)

    def signal(self, _room):
        self.put("signal", self.name())
        if self.chance(0.7):
            self.listed(3, lambda: self.put(self.name(), self.name()))
        self.put(END)

    def method(self, room):
        self.put("function", self.name())
        self.listed(3, lambda: self.put(self.name()))
        self.block(room)

    def initialiser(self, room):
        self.put(self.pick(self.lower_name(), "if", "this", "import", "alias", "A"))
        if self.chance(0.4):
            self.put(".", self.pick(self.lower_name(), "true", "B", "id"))
        self.put(":")
        self.value(room)
        self.put(END)

    def handler(self, room):
        if self.chance(0.2):
            self.put("Component", ".")
        self.put(self.source.choice(HANDLERS), ":")
        self.statement(room)
        self.put(END)

    def group(self, room):
        self.put(self.lower_name().replace("_", "z"), "{")
        for _ in self.some(3):
            self.put(self.name().replace("onX", "on"), ":")
            self.value(room)
            self.put(END)
        self.put("}")

    def child(self, room):
        self.put(self.type_name())
        if room > 0:
            self.body(room - 1)
        else:
            self.put("{", "}")

    def value(self, room):
        if room > 0 and self.chance(0.2):
            self.child(room - 1)
        else:
            self.expression(self.nodes())

    # Statements

    def block(self, room):
        self.put("{")
        for _ in self.some(3):
            self.statement(room)
        self.put("}")

    def statement(self, room):
        forms = [self.local, self.assignment, self.step, self.call, self.returned, self.empty]
        if room > 0:
            forms += [self.block, self.choice, self.choice, self.repetition, self.counted]
        self.source.choice(forms)(room - 1)

    def empty(self, _room):
        self.put(";")

    def local(self, _room):
        self.put(self.pick("var", "let", "const"), self.name())
        if self.chance(0.6):
            self.put("=")
            self.expression(self.nodes())
        self.put(END)

    def target(self):
        self.put(self.lower_name())
        for _ in self.some(2):
            self.put(".", self.name())

    def assigned(self):
        self.target()
        self.put(self.source.choice(ASSIGNMENTS))
        self.expression(self.nodes())

    def stepped(self):
        self.target()
        self.put(SAME_LINE, self.pick("++", "--"))

    def assignment(self, _room):
        self.assigned()
        self.put(END)

    def step(self, _room):
        self.stepped()
        self.put(END)

    def call(self, _room):
        self.expression(self.nodes())
        self.put(END)

    def returned(self, _room):
        self.put("return")
        if self.chance(0.6):
            self.put(SAME_LINE)
            self.expression(self.nodes())
        self.put(END)

    def condition(self):
        self.put("(")
        self.expression(self.nodes())
        self.put(")")

    def choice(self, room):
        self.put("if")
        self.condition()
        self.statement(room)
        if self.chance(0.5):
            self.put("else")
            self.statement(room)

    def repetition(self, room):
        self.put("while")
        self.condition()
        self.statement(room)

    def counted(self, room):
        self.put("for", "(")
        self.part()
        self.put(";")
        if self.chance(0.7):
            self.expression(self.nodes())
        self.put(";")
        self.part()
        self.put(")")
        self.statement(room)

    def part(self):
        form = self.source.randrange(4)
        if form == 0:
            self.put("var", self.name(), "=")
            self.expression(self.nodes())
        elif form == 1:
            self.assigned()
        elif form == 2:
            self.stepped()

    # Expressions; each joining of tokens is lawful, whatever it binds

    def nodes(self):
        return self.source.choice([1, 1, 2, 3, 5, 9])

    def operand(self):
        self.put(self.source.choice(self.pick(PLAIN_NAMES, UPPER_NAMES, LITERALS)))

    def expression(self, nodes, room=20):
        """An expression of so many nodes, in which at most `room` levels nest."""
        forms = [self.binary, self.binary, self.operation_at_end]
        if room > 0:
            forms += [self.unary, self.conditional, self.called, self.parenthesised]
        if nodes == 1:
            self.operand()
        else:
            self.source.choice(forms)(nodes, room)

    def binary(self, nodes, room):
        if nodes < 3:
            self.operation_at_end(nodes, room)
            return
        left = self.source.randint(1, nodes - 2)
        self.expression(left, room)
        self.put(self.source.choice(BINARY))
        self.expression(nodes - 1 - left, room)

    def operation_at_end(self, nodes, room):
        self.expression(nodes - 1, room)
        self.put(".", self.name())

    def unary(self, nodes, room):
        self.put(self.pick("-", "+", "!"))
        self.expression(nodes - 1, room - 1)

    def conditional(self, nodes, room):
        if nodes < 4:
            self.unary(nodes, room)
            return
        first = self.source.randint(1, nodes - 3)
        second = self.source.randint(1, nodes - 2 - first)
        self.expression(first, room - 1)
        self.put("?")
        self.expression(second, room - 1)
        self.put(":")
        self.expression(nodes - 1 - first - second, room - 1)

    def called(self, nodes, room):
        callee = self.source.randint(1, nodes - 1)
        rest = nodes - 1 - callee
        self.expression(callee, room - 1)
        self.put("(")
        while rest > 0:
            argument = self.source.randint(1, rest)
            rest -= argument
            self.expression(argument, room - 1)
            self.put(*([","] if rest > 0 else []))
        self.put(")")

    def parenthesised(self, nodes, room):
        self.put("(")
        self.expression(nodes, room - 1)
        self.put(")")


# From pieces to bytes


def must_part(left, right):
    """Whether two tokens without a blank between them would be read as others."""
    if (left[-1:] + right[:1]).replace("_", "a").isalnum() and left and right:
        return True
    if left == "." and right[:1].isdigit():
        return True
    return left[-1:] in set("+-*/%!<>=&|") and right[:1] in set("+-*/%!<>=&|")


def chosen_end(source, left, right):
    """How a member or statement ends between two tokens: by a `;`, by a line end, or by nothing."""
    if right in ("(", "-", "+", "."):
        return ";"
    if right == "}" or left in ("}", ";"):
        return source.choice(["", "", "\n", ";"])
    return source.choice(["\n", "\n", ";"])


def spelled(source, pieces):
    """The tokens of the pieces, each with the gap before it; `dense` is how many tokens stand without one."""
    words, left, ended, same_line = [], "", "", False
    tokens_ahead = [piece for piece in pieces if isinstance(piece, str)][::-1]
    dense = source.random()
    for piece in pieces:
        if piece is SAME_LINE:
            same_line = True
        elif piece is END:
            ended = chosen_end(source, left, tokens_ahead[-1] if tokens_ahead else "}")
            if ended == ";":
                words.append((source.choice(["", "", " ", "\n"]), ";"))
                left, ended = ";", ""
        else:
            if ended == "\n" or not same_line and source.random() < 0.1:
                gap = source.choice(GAPS_OF_LINES)
            elif source.random() < dense and not must_part(left, piece):
                gap = ""
            else:
                gap = source.choice(GAPS_IN_LINE)
            words.append((gap, piece))
            tokens_ahead.pop()
            left, ended, same_line = piece, "", False
    return words


def mutated(source, words):
    """The words with one token deleted, doubled, swapped, replaced or put in."""
    words = list(words)
    place = source.randrange(len(words))
    form = source.randrange(6)
    other = source.choice(BAD_TOKENS if source.random() < 0.15 else VOCABULARY)
    if form == 0:
        del words[place]
    elif form == 1:
        words.insert(place, words[place])
    elif form == 2:
        second = source.randrange(len(words))
        (gap, token), (second_gap, second_token) = words[place], words[second]
        words[place], words[second] = (gap, second_token), (second_gap, token)
    elif form == 3:
        words[place] = (words[place][0] or " ", other)
    elif form == 4:
        words.insert(place, (source.choice([" ", "\n", ""]), other))
    else:
        words[place] = (source.choice(["", " ", "\n"]), words[place][1])
    return words


def with_changed_bytes(source, document):
    """The document with a byte replaced or put in, or cut off anywhere."""
    place = source.randrange(len(document) + 1)
    form = source.randrange(4)
    byte = source.choice([bytes([source.randrange(256)]), source.choice(VOCABULARY + BAD_TOKENS).encode()[:2]])
    if form == 0:
        return document[:place]
    if form == 1:
        return document[:place] + byte + document[place:]
    return document[:place] + byte + document[place + 1 :]


def joined(words):
    return "".join(gap + token for gap, token in words)


# The kinds of documents

# What opens levels from a place of one kind: the kind, the levels, the text before, the kind inside, the text behind.
DESCENTS = {
    "member": [
        (1, "A { ", "member", " }"),
        (1, "x: A { ", "member", " }"),
        (1, "a { b: ", "value", "\n}"),
        (0, "x: ", "value", "\n"),
        (0, "onX: ", "statement", "\n"),
        (1, "function f() { ", "statement", " }"),
    ],
    "value": [(1, "A { ", "member", " }"), (0, "", "expression", "")],
    "statement": [
        (1, "{ ", "statement", "\n}"),
        (1, "if (a) ", "statement", "\n"),
        (1, "if (a) b; else ", "statement", "\n"),
        (1, "while (a) ", "statement", "\n"),
        (1, "for (;;) ", "statement", "\n"),
        (0, "if (", "expression", ") a\n"),
        (0, "for (a = ", "expression", ";;) b\n"),
        (0, "for (; ", "expression", ";) b\n"),
        (0, "return ", "expression", "\n"),
        (0, "var a = ", "expression", "\n"),
        (0, "a.b += ", "expression", "\n"),
        (0, "", "expression", "\n"),
    ],
    "expression": [
        (1, "(", "expression", ")"),
        (1, "a ? ", "expression", " : b"),
        (1, "a ? b : ", "expression", ""),
        (0, "a + ", "operand", " * b"),
        (0, "(a) * ", "operand", " ? b : c"),
        (0, "", "operand", ""),
    ],
    "operand": [
        (1, "(", "expression", ")"),
        (1, "f(", "expression", ")"),
        (1, "f(a, ", "expression", ", b)"),
        (1, "- ", "operand", ""),
        (1, "!", "operand", ""),
        (1, "+ ", "operand", ".b"),
    ],
}
INNERMOST = {"member": "", "value": "1", "statement": "a", "expression": "1", "operand": "a"}
INNERMOST_ODD = ["this", "function", "else", "[", "1.5", "(", "- 1", "f()", "{ }", "A { }", "a { }", "a ? b : c"]


def nested_document(source):
    """A document with about as many levels as are allowed, opened by some of the forms that open one."""
    wanted = MOST_LEVELS + source.randint(-1, 2)
    chosen = {kind: source.sample(forms, source.randint(1, len(forms))) for kind, forms in DESCENTS.items()}
    kind, levels, before, behind = "member", 1, "Item { ", " }"
    patience = source.choice([0, 5, 30, 70])
    for _ in range(4 * MOST_LEVELS):
        opened, text, inside, closing = source.choice(chosen[kind] if source.random() < 0.95 else DESCENTS[kind])
        if levels < patience and inside == "expression" != kind or levels + opened > wanted:
            continue
        kind, levels, before, behind = inside, levels + opened, before + text, closing + behind
        if levels == wanted and source.random() < 0.7:
            break
    inner = source.choice([INNERMOST[kind]] * 3 + [source.choice(VOCABULARY), source.choice(INNERMOST_ODD)])
    return (before + inner + behind).encode()


# Where expressions (E) and targets (T) stand that are long.
LONG_PLACES = [
    "x: E",
    "property int p: E",
    "a { b: E\n}",
    "x: (E).b",
    "onX: E",
    "onX: f(E)",
    "onX: return E",
    "onX: var a = E",
    "onX: a = E",
    "onX: T = E",
    "onX: T++",
    "x: T",
    "x: T.B { }",
    "onX: if (E) T = 1",
    "onX: while (E) E",
    "onX: for (var a = E; E; a.b += E) E",
    "onX: for (T = 1; T; T++) T -= 1",
    "function f() { if (E) E; else E; return E }",
]


def long_expression(source):
    """A document with expressions of about as many nodes as are allowed; in one of its places at most are more."""
    place = source.choice(LONG_PLACES)
    longest = source.randrange(sum(map(place.count, "ET")))
    text = ""
    for letter in f"Item {{ {place} }}":
        if letter not in "ET":
            text += letter
            continue
        nodes = MOST_NODES + (source.randint(-1, 2) if longest == 0 else source.randint(-90, 0))
        longest -= 1
        text += long_target(nodes) if letter == "T" else long_row(source, nodes)
    return text.encode()


def long_target(nodes):
    return "a" + ".b" * (nodes - 1)


def long_row(source, nodes):
    writer = Writer(source)
    writer.expression(nodes, room=source.choice([3, 20, 60]))
    (_, first), *words = spelled(source, writer.pieces)
    return first + joined(words)


def whole_document(source):
    return joined(spelled(source, Writer(source).document())).encode()


def mutated_document(source):
    words = spelled(source, Writer(source).document())
    for _ in range(source.choice([1, 1, 1, 2, 3])):
        words = mutated(source, words) or [("", "Item")]
    document = joined(words).encode()
    return with_changed_bytes(source, document) if source.random() < 0.2 else document


def row_of_tokens(source):
    """A row of tokens in a frame. Up to the last one they are drawn so that the reference finds no fault before."""
    tokens, frames = source.choice(ROWS)
    tokens = tokens.split()
    text, behind = source.choice(frames).split("@")
    for _ in range(source.randint(0, 7)):
        for _ in range(9):
            longer = with_token(source, text, tokens)
            answer, _ = judge(longer.encode())
            if answer == "ok" or answer == f"{place_behind(longer)}: syntax":
                text = longer
                break
    if source.random() < 0.8:
        text = with_token(source, text, tokens)
    return (text + behind).encode()


def with_token(source, text, tokens):
    gap = source.choice([" ", " ", " ", "\n", ""])
    return text + gap + source.choice(tokens if source.random() < 0.9 else VOCABULARY)


def place_behind(text):
    lines = text.encode().split(b"\n")
    return f"{len(lines)}:{len(lines[-1]) + 1}"


def document_of_one_rule(source):
    words = re.findall(r"(\s*)(\w+|[^\w\s]|$)", source.choice(SINGLE_RULES))
    if source.random() < 0.8:
        words = mutated(source, words)
    return joined(words).encode()


def row_of_bytes(source):
    """Bytes that make numbers, texts, comments and marks, with or without blanks between them."""
    parts = ["0", "1", "9", "x", "0x", "f", "_", ".", "'", '"', "\\", "\\u00e9", "\\n", "\\", "/", "*", "/*", "*/"]
    parts += ["//", "\n", "\r", " ", "=", "!", "<", "&", "|", "+", "-", "é", "\u20ac", "2147483647", "\x00", "a"]
    row = "".join(source.choice(parts) for _ in range(source.randint(1, 9))).encode()
    if source.random() < 0.1:
        place = source.randrange(len(row) + 1)
        wrong = source.choice([b"\xff", b"\xc3", b"\xed\xa0\x80", b"\xe2\x82", b"\xf4\x90\x80\x80"])
        row = row[:place] + wrong + row[place:]
    before, behind = source.choice([("", ""), ("Item { x: ", "\n}"), ("Item { x: a", "b }"), ("\ufeff", "")])
    return before.encode() + row + behind.encode()


def row_of_text(source):
    """A text of lawful and unlawful parts."""
    parts = ["a", "b", " ", "//", "/*", "é", "\u20ac", "'", '"', "\r", "\t", "\x00", "\x7f", "\\\\", "\\'", '\\"']
    parts += ["\\n", "\\r", "\\t", "\\u0000", "\\u00E9", "\\uD7ff", "\\ue000"] * 2
    odd = ["\n", "\\b", "\\0", "\\x41", "\\/", "\\é", "\\\n", "\\\r", "\\u", "\\u12", "\\u12g4", "\\U0041"]
    odd += ["\\ud800", "\\uDFFF"]
    row = [source.choice(odd if source.random() < 0.08 else parts) for _ in range(source.randint(0, 6))]
    quote = source.choice("'\"")
    return f"Item {{ x: {quote}{''.join(row)}{source.choice([quote] * 9 + [''])} }}".encode()


def huge_document(source):
    """Names and texts of about as many bytes as are allowed."""
    size = 65536 + source.randint(-1, 1)
    value = source.choice(["n" * size, f'"{"t" * size}"', '"' + "\\u20ac" * 21845 + "t" * (size - 65535) + '"'])
    return f"Item {{ x: {value} }}".encode()


def random_document(source):
    """The bytes of a document of one of the kinds, made from `source`, a `random.Random`."""
    makers = [whole_document] * 8 + [mutated_document] * 14 + [row_of_tokens] * 24 + [document_of_one_rule] * 20
    makers += [row_of_bytes] * 5 + [row_of_text] * 3 + [nested_document] * 8 + [long_expression] * 6
    document = source.choice(makers)(source)
    share = source.random()
    if share < 0.02:
        return b"\xef\xbb\xbf" + document
    if share < 0.07:
        return with_changed_bytes(source, document)
    return huge_document(source) if share > 0.998 else document
