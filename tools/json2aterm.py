#!/usr/bin/env python3
"""Translate JSON to an annotated term, or with --back an annotated term to JSON.

  JSON                           annotated term
  null, true, false              null, true, false
  an integer from -2147483648    the integer
    to 2147483647, but not -0
  another number, like 1.50      number("1.50"), with the digits of the text
  a string                       a quoted name without arguments, whose bytes are its UTF-8 text;
                                 a lone surrogate such as \\ud800 is three bytes (0xED 0xA0 0x80)
  an array [a,b]                 the list [a,b]
  an object {"k":a,"l":b}        object([pair("k",a),pair("l",b)]), in the order of the text;
                                 a key that occurs twice has two pairs

The term is printed in its printed text, on one line, as `recw aterm` prints it. Nothing is lost but
layout and the way in which characters of strings are escaped. Both directions take a text of any depth;
`recw` itself reads terms of up to 16777216 bytes.

With --back each term of the right column gives the JSON text of the left one, without layout, in UTF-8.
Other terms are rejected, and so are annotations unless --drop-annotations is given, which leaves them
out wherever they are.
"""

import argparse
import json
import os
import re
import sys
from typing import NamedTuple

EXAMPLE = """
Example: echo '{"a":[1,2.50,"x"]}' | tools/json2aterm.py

prints `object([pair("a",[1,number("2.50"),"x"])])`, and so does

  echo '{"a":[1,2.50,"x"]}' | tools/json2aterm.py | tools/json2aterm.py --back | tools/json2aterm.py

Exit status: 0 done, 1 the text is rejected, 2 wrong arguments, 4 a read or a write failed.
"""

# Layout is the same in both languages.
LAYOUT = re.compile(rb"[ \t\n\r]*")
JSON_TOKEN = re.compile(
    rb'(?P<string>"(?:[^"\\\x00-\x1f]|\\["\\/bfnrt]|\\u[0-9A-Fa-f]{4})*")'
    rb"|(?P<number>-?(?:0|[1-9][0-9]*)(?:\.[0-9]+)?(?:[eE][+-]?[0-9]+)?)"
    rb"|(?P<literal>null|true|false)"
    rb"|(?P<mark>[\[\]{},:])"
)
NUMBER = re.compile(r"-?(?:0|[1-9][0-9]*)(?:\.[0-9]+)?(?:[eE][+-]?[0-9]+)?")
INTEGER = re.compile(r"0|-?[1-9][0-9]{0,9}")
ATERM_TOKEN = re.compile(
    rb"(?P<integer>-?[0-9]+)"
    rb"|(?P<name>[A-Za-z_][A-Za-z0-9_\-+*$.]*)"
    rb'|(?P<quoted>"(?:[^"\\]|\\[ntr\\"]|\\[0-3][0-7][0-7])*")'
    rb"|(?P<mark>[()\[\]{}<>,])"
)
ESCAPES = {10: "\\n", 9: "\\t", 13: "\\r", 34: '\\"', 92: "\\\\"}
BYTES = {b"n": b"\n", b"t": b"\t", b"r": b"\r"}
CLOSING = {"(": ")", "[": "]", "{": "}", "<": ">"}


class InputError(Exception):
    """A text that is rejected: the offset of the error and what is wrong."""

    def __init__(self, offset, message):
        super().__init__(message)
        self.offset, self.message = offset, message


class Token(NamedTuple):
    """A token: its kind, or the mark itself; `end` at the end."""

    offset: int
    kind: str
    text: bytes


def is_small(digits):
    """Whether a number of JSON is an integer of annotated terms, which has one spelling only."""
    return bool(INTEGER.fullmatch(digits)) and -(2**31) <= int(digits) < 2**31


def tokens_of(text, token):
    """The tokens of a text."""
    at = LAYOUT.match(text).end()
    while at < len(text):
        found = token.match(text, at)
        if not found:
            raise InputError(at, "no token begins here, or it does not end")
        yield Token(at, found[0].decode() if found.lastgroup == "mark" else found.lastgroup, found[0])
        at = LAYOUT.match(text, found.end()).end()
    yield Token(len(text), "end", b"")


class Tokens:
    """Tokens that are taken one by one."""

    def __init__(self, text, token):
        self.tokens = tokens_of(text, token)
        self.next = next(self.tokens)

    def take(self):
        taken = self.next
        self.next = next(self.tokens, taken)
        return taken

    def takes(self, kind):
        return self.next.kind == kind and bool(self.take())

    def need(self, *kinds):
        if self.next.kind not in kinds:
            raise InputError(self.next.offset, f"expected {' or '.join(kinds)}")
        return self.take()


# From JSON


def quoted(data):
    """The printed text of a quoted name."""
    return '"' + "".join(ESCAPES.get(it) or (chr(it) if 32 <= it < 127 else f"\\{it:03o}") for it in data) + '"'


def string_term(text):
    """The quoted name of a string of JSON."""
    return quoted(json.loads(text).encode("utf-8", "surrogatepass"))


def atomic_term(token):
    """The term of a value without parts, or None."""
    if token.kind == "string":
        return string_term(token.text)
    text = token.text.decode()
    if token.kind == "number":
        return text if is_small(text) else f'number("{text}")'
    return text if token.kind == "literal" else None


def term_of(text):
    """The printed text of the term of a JSON text."""
    tokens = Tokens(text, JSON_TOKEN)
    pieces, unfinished = [], []
    while True:
        token = tokens.need("string", "number", "literal", "[", "{")
        piece = atomic_term(token)
        if piece:
            pieces.append(piece)
        else:
            pieces.append("[" if token.kind == "[" else "object([")
            unfinished.append(token.kind)
            if not tokens.takes(CLOSING[token.kind]):
                begin_item(tokens, unfinished, pieces)
                continue
            pieces.append("]" if unfinished.pop() == "[" else "])")
        if not goes_on(tokens, unfinished, pieces):
            tokens.need("end")
            return "".join(pieces)


def begin_item(tokens, unfinished, pieces):
    """Takes the key of a pair, if an object is read."""
    if unfinished[-1] == "{":
        pieces.append(f"pair({string_term(tokens.need('string').text)},")
        tokens.need(":")


def goes_on(tokens, unfinished, pieces):
    """Takes what follows a value, up to the next one; false after the whole text."""
    while unfinished:
        is_object = unfinished[-1] == "{"
        pieces.append(")" if is_object else "")
        if tokens.need(",", "}" if is_object else "]").kind == ",":
            pieces.append(",")
            begin_item(tokens, unfinished, pieces)
            return True
        pieces.append("])" if is_object else "]")
        unfinished.pop()
    return False


# To JSON


class Tree:
    """A term: the kind of its first token or mark, the text of that token, and its parts."""

    def __init__(self, token):
        self.offset, self.kind, self.text = token
        self.parts, self.annotations, self.has_annotations = [], [], False

    def is_name(self, name, count):
        return self.kind == "name" and self.text == name and len(self.parts) == count


def read_body(tokens):
    """The beginning of a term, and the mark that closes it, if one is open then."""
    tree = Tree(tokens.need("integer", "name", "quoted", "(", "[", "<"))
    if tree.kind == "integer" and not -(2**31) <= int(tree.text) < 2**31:
        raise InputError(tree.offset, "the integer is out of range")
    if tree.kind in ("name", "quoted"):
        return tree, tokens.takes("(") and ")"
    return tree, CLOSING.get(tree.kind)


def read_term(text):
    """The tree of an annotated term, of any depth."""
    tokens = Tokens(text, ATERM_TOKEN)
    unfinished = []
    while True:
        tree, closing = read_body(tokens)
        if closing:
            unfinished.append((tree, tree.parts, closing))
            if closing == ">" or not tokens.takes(closing):
                continue
            unfinished.pop()
        tree, is_open = after_body(tokens, tree, unfinished)
        if not is_open:
            tokens.need("end")
            return tree


def after_body(tokens, tree, unfinished):
    """Takes what follows a body: whether another term is read then, and else the whole tree."""
    while True:
        if not tree.has_annotations and tokens.takes("{"):
            tree.has_annotations = True
            if not tokens.takes("}"):
                unfinished.append((tree, tree.annotations, "}"))
                return tree, True
        if not unfinished:
            return tree, False
        owner, parts, closing = unfinished[-1]
        parts.append(tree)
        if closing != ">" and tokens.takes(","):
            return owner, True
        tokens.need(closing)
        unfinished.pop()
        tree = owner


def unquoted(text):
    """The bytes of a quoted name."""

    def item(found):
        return bytes([int(found[1], 8)]) if len(found[1]) == 3 else BYTES.get(found[1], found[1])

    return re.sub(rb'\\([0-3][0-7][0-7]|[ntr\\"])', item, text[1:-1])


def json_string(tree):
    """The JSON text of a quoted name."""
    if tree.kind != "quoted" or tree.parts:
        raise InputError(tree.offset, "expected a quoted name without arguments")
    data = unquoted(tree.text)
    try:
        value = data.decode("utf-8", "surrogatepass")
    except UnicodeDecodeError as error:
        raise InputError(tree.offset, "the bytes of this name are not UTF-8") from error
    # a pair of surrogates is another text for one character
    if re.search("[\ud800-\udbff][\udc00-\udfff]", value):
        raise InputError(tree.offset, "the bytes of this name are not UTF-8")
    text = json.dumps(value, ensure_ascii=False)
    return re.sub("[\ud800-\udfff]", lambda it: f"\\u{ord(it[0]):04x}", text)


def json_number(tree):
    """The JSON text of number("..")."""
    (digits,) = tree.parts
    text = unquoted(digits.text).decode("latin-1") if digits.kind == "quoted" and not digits.parts else ""
    if not NUMBER.fullmatch(text) or is_small(text):
        raise InputError(digits.offset, "expected a number of JSON in quotes that is no integer of 32 bits")
    return text


def json_pieces(tree):
    """The pieces of the JSON text of a term: texts and trees."""
    if tree.kind == "quoted":
        return [json_string(tree)]
    if tree.kind == "integer":
        return [str(int(tree.text))]
    if tree.kind == "[":
        items = [piece for part in tree.parts for piece in (",", part)]
        return ["[", *items[1:], "]"]
    if any(tree.is_name(it, 0) for it in (b"null", b"true", b"false")):
        return [tree.text.decode()]
    if tree.is_name(b"number", 1):
        return [json_number(tree)]
    if tree.is_name(b"object", 1) and tree.parts[0].kind == "[":
        items = [piece for part in tree.parts[0].parts for piece in (",", *json_pair(part))]
        return ["{", *items[1:], "}"]
    raise InputError(tree.offset, "this term has no JSON text")


def json_pair(tree):
    if not tree.is_name(b"pair", 2):
        raise InputError(tree.offset, 'expected pair("..",VALUE)')
    return json_string(tree.parts[0]), ":", tree.parts[1]


def check_annotations(tree):
    """Rejects the first term with annotations."""
    rest = [tree]
    while rest:
        tree = rest.pop()
        if tree.annotations:
            raise InputError(tree.offset, "JSON has no annotations; --drop-annotations leaves them out")
        rest.extend(reversed(tree.parts))


def json_of(tree):
    """The JSON text of a term."""
    pieces, rest = [], [tree]
    while rest:
        it = rest.pop()
        if isinstance(it, str):
            pieces.append(it)
        else:
            rest.extend(reversed(json_pieces(it)))
    return "".join(pieces)


def arguments():
    how = {"epilog": EXAMPLE, "formatter_class": argparse.RawDescriptionHelpFormatter}
    parser = argparse.ArgumentParser(description=__doc__, **how)
    parser.add_argument("file", nargs="?", default="-", help="the text; `-`, the default, is standard input")
    parser.add_argument("--back", action="store_true", help="read an annotated term and print JSON")
    drop = "with --back: leave annotations out"
    parser.add_argument("--drop-annotations", action="store_true", help=drop)
    options = parser.parse_args()
    if options.drop_annotations and not options.back:
        parser.error("--drop-annotations needs --back")
    return options


def translated(data, options):
    """The text for these bytes."""
    if options.back:
        tree = read_term(data)
        if not options.drop_annotations:
            check_annotations(tree)
        return json_of(tree)
    try:
        data.decode("utf-8")
    except UnicodeDecodeError as error:
        raise InputError(error.start, "the text is not UTF-8") from error
    return term_of(data)


def main():
    options, data = arguments(), b""
    name = "<stdin>" if options.file == "-" else options.file
    try:
        with open(0 if options.file == "-" else options.file, "rb") as file:
            data = file.read()
        sys.stdout.buffer.write(translated(data, options).encode("utf-8") + b"\n")
        sys.stdout.flush()
    except InputError as error:
        before = data[: error.offset].split(b"\n")
        sys.stderr.write(f"{name}:{len(before)}:{len(before[-1]) + 1}: error: {error.message}\n")
        return 1
    except OSError as error:
        if not isinstance(error, BrokenPipeError):
            sys.stderr.write(f"json2aterm.py: {error.filename or options.file}: {error.strerror}\n")
        # what is left in the buffer of a closed pipe is not written at exit
        os.dup2(os.open(os.devnull, os.O_WRONLY), 1)
        return 4
    return 0


if __name__ == "__main__":
    sys.exit(main())
