#!/usr/bin/env python3
"""A second, plain implementation of the grammar that qmlstage reads, to compare the program with.

usage: tools/reference_parser.py DOCUMENT

It prints `ok`, or the first fault of the document as qmlstage tells it behind the document's name:
`not UTF-8 at byte N`, or `L:C: ` and one of `bad token`, `syntax`, `too deep` and `unsupported`. The exit
status is 0 for `ok` and 1 for a fault.

It was written from the grammar alone and shares nothing with the program: a tokeniser, then recursive
descent with a function for each production. A token that no document can have at its place is a fault as
soon as it is met, and nothing is guessed behind it; only a dotted type name is looked for ahead.
"""
import re
import string
import sys
from collections import namedtuple
from contextlib import contextmanager

MOST_LEVELS = 64
MOST_NODES = 200
MOST_BYTES = 65536
GREATEST_INTEGER = 2147483647

BYTE_ORDER_MARK = b"\xef\xbb\xbf"
NAME = re.compile(rb"[A-Za-z_][A-Za-z0-9_]*")
HEXADECIMAL = re.compile(rb"0x[0-9A-Fa-f]+")
DECIMAL = re.compile(rb"[0-9]+\.[0-9]+")
INTEGER = re.compile(rb"0|[1-9][0-9]*")
LETTER = re.compile(rb"[A-Za-z0-9_]")
MARKS = sorted(
    b"{ } ( ) [ ] ; : , . ? + - * / % ! < > <= >= == != === !== && || = += -= *= /= ++ --".split(),
    key=len,
    reverse=True,
)
ESCAPES = b"ntr\\\"'"

# Words that are no names where an expression or a statement begins.
STATEMENT_WORDS = set("var let const if else while for return".split())
LITERAL_WORDS = set("true false null undefined".split())
# Words of QML that are read nowhere in the place of an expression or a statement.
UNSUPPORTED_WORDS = set(
    "function switch do break continue try throw new delete typeof instanceof in void with class this".split()
)
UNSUPPORTED_MEMBERS = {"default", "enum", "required"}

UNARY = {"-", "+", "!"}
BINARY_TIERS = [
    {"||"},
    {"&&"},
    {"==", "!=", "===", "!=="},
    {"<", "<=", ">", ">="},
    {"+", "-"},
    {"*", "/", "%"},
]
ASSIGNMENTS = {"=", "+=", "-=", "*=", "/="}
STEPS = {"++", "--"}

# `kind` is name, integer, decimal, text, mark or end; `line` and `column` count from 1, columns in bytes.
Token = namedtuple("Token", "kind word line column")


class Fault(Exception):
    """The first fault of a document, as one line without the document's name."""


def fault_at(token, what):
    return Fault(f"{token.line}:{token.column}: {what}")


# Tokens


def tokens_of(document):
    """The tokens of a document, the last one of kind `end`; or its first fault of encoding or of a token."""
    try:
        document.decode("utf-8")
    except UnicodeDecodeError as error:
        raise Fault(f"not UTF-8 at byte {error.start}") from None
    tokens = []
    at = len(BYTE_ORDER_MARK) if document.startswith(BYTE_ORDER_MARK) else 0
    line, line_start, counted = 1, 0, 0
    while True:
        at, closed = end_of_blanks(document, at)
        line += document.count(b"\n", counted, at)
        line_start = document.rfind(b"\n", 0, at) + 1
        counted = at
        if closed and at == len(document):
            tokens.append(Token("end", "", line, at - line_start + 1))
            return tokens
        kind, end = kind_and_end(document, at) if closed else (None, at)
        token = Token(kind, document[at:end].decode("utf-8", "replace"), line, at - line_start + 1)
        if kind is None:
            raise fault_at(token, "bad token")
        tokens.append(token)
        at = end


def end_of_blanks(document, at):
    """Where the blanks and comments from `at` on end, and whether all of these comments are closed."""
    while at < len(document):
        if document[at] in b" \t\r\n":
            at += 1
        elif document.startswith(b"//", at):
            line_end = document.find(b"\n", at)
            at = len(document) if line_end < 0 else line_end
        elif document.startswith(b"/*", at):
            close = document.find(b"*/", at + 2)
            if close < 0:
                return at, False
            at = close + 2
        else:
            break
    return at, True


def kind_and_end(document, at):
    """The kind of the longest token at `at` and where it ends; the kind is None where there is no token."""
    first = document[at : at + 1]
    if match := NAME.match(document, at):
        return ("name" if len(match[0]) <= MOST_BYTES else None), match.end()
    if first.isdigit():
        return number_and_end(document, at)
    if first in (b'"', b"'"):
        return text_and_end(document, at)
    for mark in MARKS:
        if document.startswith(mark, at):
            return "mark", at + len(mark)
    return None, at


def number_and_end(document, at):
    for kind, form in (("decimal", DECIMAL), ("integer", HEXADECIMAL), ("integer", INTEGER)):
        if match := form.match(document, at):
            break
    if LETTER.match(document, match.end()):
        return None, at
    base = 16 if match[0].startswith(b"0x") else 10
    if kind == "integer" and number(match[0].decode(), base) > GREATEST_INTEGER:
        return None, at
    return kind, match.end()


def number(digits, base=10):
    """The value of digits, or some greater number than any that is asked for where there are many of them."""
    digits = digits.removeprefix("0x").lstrip("0")
    return int(digits[:20] or "0", base)


def text_and_end(document, at):
    quote, size = document[at], 0
    place = at + 1
    while place < len(document):
        byte = document[place]
        if byte == quote:
            return ("text" if size <= MOST_BYTES else None), place + 1
        if byte == 0x0A:
            break
        if byte != 0x5C:
            size, place = size + 1, place + 1
        elif document[place + 1 : place + 2] == b"u":
            digits = document[place + 2 : place + 6].decode("latin-1")
            if len(digits) < 4 or not set(digits) <= set(string.hexdigits):
                break
            if 0xD800 <= int(digits, 16) <= 0xDFFF:
                break
            size, place = size + len(chr(int(digits, 16)).encode()), place + 6
        elif document[place + 1 : place + 2] and document[place + 1] in ESCAPES:
            size, place = size + 1, place + 2
        else:
            break
    return None, at


# Names


def begins_upper(word):
    return word[0] in string.ascii_uppercase


def begins_lower(word):
    return word[0] in string.ascii_lowercase


def names_handler(word):
    return word.startswith("on") and word[2:3] != "" and begins_upper(word[2:])


class Parser:
    """Reads the tokens of one document from the first to the last. Each reading function begins at the first
    token of its form, ends behind the last one, and raises a Fault at the first token that cannot stand there."""

    def __init__(self, tokens):
        self.tokens = tokens
        self.index = 0
        self.levels = 0
        self.nodes = 0

    # Single tokens

    @property
    def token(self):
        return self.tokens[self.index]

    @property
    def previous(self):
        return self.tokens[self.index - 1]

    def at(self, *words):
        return self.token.word in words

    def is_name(self, ahead=0):
        place = self.index + ahead
        return place < len(self.tokens) and self.tokens[place].kind == "name"

    def word(self, ahead):
        place = self.index + ahead
        return self.tokens[place].word if place < len(self.tokens) else ""

    def is_on_same_line(self):
        return self.token.line == self.previous.line

    def take(self):
        self.index += 1
        return self.previous

    def expect(self, word):
        if not self.at(word):
            self.refuse()
        return self.take()

    def name(self):
        if not self.is_name():
            self.refuse()
        return self.take()

    def refuse(self):
        """The token can't stand here. Some can stand nowhere, which is told first."""
        if self.at("[") or self.token.kind == "decimal":
            raise fault_at(self.token, "unsupported")
        raise fault_at(self.token, "syntax")

    def unsupported(self):
        raise fault_at(self.token, "unsupported")

    # Limits

    @contextmanager
    def level(self):
        """A level that the token here opens."""
        if self.levels == MOST_LEVELS:
            raise fault_at(self.token, "too deep")
        self.levels += 1
        yield
        self.levels -= 1

    def node(self):
        """A node of the expression that the token here begins."""
        if self.nodes == MOST_NODES:
            raise fault_at(self.token, "too deep")
        self.nodes += 1

    # Documents

    def document(self):
        """Reads the whole document and gives the token of the root's type name."""
        while self.at("import"):
            self.import_()
        root = self.token
        if not self.is_name() or not begins_upper(root.word):
            self.refuse()
        self.refuse_dotted_type("{")
        self.take()
        self.object_body()
        if self.token.kind != "end":
            self.refuse()
        return root

    def import_(self):
        self.expect("import")
        if self.token.kind == "text":
            self.unsupported()
        module = self.name()
        if module.word != "QtQuick":
            raise fault_at(module, "unsupported")
        if self.at("."):
            self.take()
            self.name()
            raise fault_at(module, "unsupported")
        if self.token.kind != "decimal":
            self.refuse()
        major, minor = (number(part) for part in self.take().word.split("."))
        if major != 2 or minor > 15:
            raise fault_at(module, "unsupported")
        if self.at("as"):
            self.unsupported()
        self.end()

    def end(self):
        """What ends an import, a member or a statement."""
        if self.at(";"):
            self.take()
        elif not (
            self.at("}")
            or self.token.kind == "end"
            or not self.is_on_same_line()
            or self.previous.word in ("}", ";")
        ):
            self.refuse()

    def refuse_dotted_type(self, *followers):
        """Refuses names joined by dots that are a type's, where one of the followers comes behind them."""
        ahead = 0
        while self.word(ahead + 1) == "." and self.is_name(ahead + 2):
            ahead += 2
        if ahead == 0 or self.word(ahead + 1) not in followers or not self.is_name():
            return
        if begins_upper(self.token.word) and begins_upper(self.word(ahead)):
            self.unsupported()

    def object_body(self):
        if not self.at("{"):
            self.refuse()
        with self.level():
            self.take()
            while not self.at("}"):
                self.member()
            self.take()

    # Members

    def member(self):
        if not self.is_name() or self.at("else"):
            self.refuse()
        if self.token.word in UNSUPPORTED_MEMBERS:
            self.unsupported()
        read = {
            "id": self.id,
            "property": self.property_,
            "readonly": self.property_,
            "signal": self.signal,
            "function": self.method,
        }.get(self.token.word, self.member_of_path)
        read()

    def id(self):
        self.expect("id")
        self.expect(":")
        self.name()
        self.end()

    def property_(self):
        if self.at("readonly"):
            self.take()
        self.expect("property")
        if self.at("alias"):
            self.unsupported()
        self.kind()
        self.name()
        if self.at(":"):
            self.take()
            self.value()
        self.end()

    def kind(self):
        if self.is_name() and begins_upper(self.token.word) and self.word(1) == "." and self.is_name(2):
            self.unsupported()
        self.name()

    def signal(self):
        self.expect("signal")
        self.name()
        if self.at("("):
            self.take()
            self.listed(self.parameter)
        self.end()

    def parameter(self):
        self.kind()
        self.name()

    def method(self):
        self.expect("function")
        self.name()
        self.expect("(")
        self.listed(self.name)
        self.block()

    def listed(self, read):
        """Things parted by commas, or none, up to the closing parenthesis."""
        if not self.at(")"):
            read()
            while self.at(","):
                self.take()
                read()
        self.expect(")")

    def member_of_path(self):
        """A child object, a grouped form, an initialiser or a handler."""
        self.refuse_dotted_type("{", "on")
        first = last = self.take()
        if self.at("{"):
            self.child_or_group(first)
            return
        if self.at("on") and begins_upper(first.word):
            self.unsupported()
        if self.at("."):
            self.take()
            if self.is_name() and names_handler(self.token.word) and first.word != "Component":
                self.refuse()
            last = self.name()
        self.expect(":")
        if names_handler(last.word):
            self.statement()
        else:
            self.value()
        self.end()

    def child_or_group(self, first):
        if begins_upper(first.word):
            self.object_body()
        elif begins_lower(first.word):
            self.group_body()
        else:
            self.refuse()

    def group_body(self):
        with self.level():
            self.take()
            while not self.at("}"):
                if self.is_name() and names_handler(self.token.word):
                    self.refuse()
                self.name()
                self.expect(":")
                self.value()
                self.end()
            self.take()

    def value(self):
        self.refuse_dotted_type("{")
        if self.is_name() and begins_upper(self.token.word) and self.word(1) == "{":
            self.take()
            self.object_body()
        else:
            self.expression()

    # Statements

    def block(self):
        if not self.at("{"):
            self.refuse()
        with self.level():
            self.take()
            while not self.at("}"):
                self.statement()
            self.take()

    def statement(self):
        self.refuse_unsupported_word()
        if self.at("{"):
            self.block()
        elif self.at(";"):
            self.take()
        elif self.at("if"):
            self.if_()
        elif self.at("while"):
            self.take()
            self.condition()
            self.nested_statement()
        elif self.at("for"):
            self.for_()
        elif self.at("var", "let", "const"):
            self.local()
        elif self.at("return"):
            self.return_()
        else:
            self.assignment_or_expression()

    def refuse_unsupported_word(self):
        if self.token.word in UNSUPPORTED_WORDS:
            self.unsupported()

    def nested_statement(self):
        """The statement inside an `if`, `else`, `while` or `for`: its first token opens a level."""
        self.refuse_unsupported_word()
        begins = (
            self.at("{", ";", "(")
            or self.token.word in UNARY
            or self.token.kind in ("name", "integer", "text")
        )
        if not begins or self.at("else"):
            self.refuse()
        with self.level():
            self.statement()

    def condition(self):
        self.expect("(")
        self.expression()
        self.expect(")")

    def if_(self):
        self.take()
        self.condition()
        self.nested_statement()
        if self.at("else"):
            self.take()
            self.nested_statement()

    def for_(self):
        self.take()
        self.expect("(")
        if not self.at(";"):
            self.part_of_for()
        self.expect(";")
        if not self.at(";"):
            self.expression()
        self.expect(";")
        if not self.at(")"):
            self.part_of_for()
        self.expect(")")
        self.nested_statement()

    def part_of_for(self):
        """The first or third part of a `for`. Its target is an expression by itself."""
        if self.at("var"):
            self.take()
            self.name()
            self.expect("=")
            self.expression()
            return
        self.refuse_unsupported_word()
        if not self.is_name() or self.token.word in STATEMENT_WORDS | LITERAL_WORDS:
            self.refuse()
        self.nodes = 0
        self.node()
        self.take()
        while self.at("."):
            self.node()
            self.take()
            self.name()
        if not self.assignment_or_step():
            self.refuse()

    def local(self):
        self.take()
        self.name()
        if self.at("="):
            self.take()
            self.expression()
        self.end()

    def return_(self):
        self.take()
        if not self.at(";", "}") and self.token.kind != "end" and self.is_on_same_line():
            self.expression()
        self.end()

    def assignment_or_expression(self):
        start = self.index
        self.expression()
        if is_target(self.tokens[start : self.index]):
            self.assignment_or_step()
        self.end()

    def assignment_or_step(self):
        """What follows a target, and whether it was there."""
        if self.token.word in ASSIGNMENTS:
            self.take()
            self.expression()
        elif self.token.word in STEPS and self.is_on_same_line():
            self.take()
        else:
            return False
        return True

    # Expressions

    def expression(self):
        """An outermost expression: its nodes are counted together, those of arguments too."""
        self.nodes = 0
        self.choice()

    def choice(self):
        self.chain(0)
        if self.at("?"):
            self.node()
            with self.level():
                self.take()
                self.choice()
                self.expect(":")
                self.choice()

    def chain(self, tier):
        if tier == len(BINARY_TIERS):
            self.unary()
            return
        self.chain(tier + 1)
        while self.token.word in BINARY_TIERS[tier]:
            self.node()
            self.take()
            self.chain(tier + 1)

    def unary(self):
        if self.token.word not in UNARY:
            self.postfix()
            return
        self.node()
        with self.level():
            self.take()
            self.unary()

    def postfix(self):
        self.primary()
        while self.at(".", "("):
            self.node()
            if self.at("."):
                self.take()
                self.name()
            else:
                with self.level():
                    self.take()
                    self.listed(self.choice)

    def primary(self):
        self.refuse_unsupported_word()
        if self.at("{"):
            self.unsupported()
        if self.at("("):
            with self.level():
                self.take()
                self.choice()
                self.expect(")")
            return
        if self.token.kind not in ("name", "integer", "text") or self.token.word in STATEMENT_WORDS:
            self.refuse()
        self.node()
        self.take()


def is_target(tokens):
    names, dots = tokens[0::2], tokens[1::2]
    return (
        len(tokens) % 2 == 1
        and all(token.kind == "name" for token in names)
        and all(token.word == "." for token in dots)
        and names[0].word not in LITERAL_WORDS
    )


def judge(document):
    """`ok` and the place `L:C` of the root's type name; or the first fault and None."""
    sys.setrecursionlimit(10000)
    try:
        root = Parser(tokens_of(document)).document()
    except Fault as fault:
        return str(fault), None
    return "ok", f"{root.line}:{root.column}"


def main():
    if len(sys.argv) != 2:
        sys.exit("usage: tools/reference_parser.py DOCUMENT")
    with open(sys.argv[1], "rb") as file:
        answer, _ = judge(file.read())
    print(answer)
    sys.exit(answer != "ok")


if __name__ == "__main__":
    main()
