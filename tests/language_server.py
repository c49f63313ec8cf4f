"""Tests of editors/recw-lsp for tests/editors.py: a client with all requests, whose answers follow from the text; the
words of all examples by the reader of tools/rec2maude.py; programs that hang, die or flood; and Neovim as a client."""

import collections
import glob
import importlib.util
import json
import os
import queue
import random
import re
import shutil
import subprocess
import sys
import threading
import time

from common import TOP, program, run, same

SERVER = f"{TOP}/editors/recw-lsp"
URI = "file:///tmp/some%20folder/text.rec"
TYPES = ["comment", "keyword", "operator", "type", "enumMember", "function", "variable"]

SPEC = """\
REC-SPEC Add          % sums: é, 𝄞
SORTS Nat             % numbers
CONS
  z : -> Nat          % zero
  s : Nat -> Nat
OPNS
  % the sum
  plus : Nat Nat -> Nat
VARS X Y : Nat
RULES
  plus(z,Y) -> Y      % é
  plus(s(X),Y) -> s(plus(X,Y)) if X -><- X
EVAL
  plus(s(z),s(z))
  s(
    z) z
END-SPEC
"""


class Client:
    """A client of the server: it sends messages, and keeps the answers and the diagnostics."""

    def __init__(self, recw=None, encodings=None, documents=(), python=sys.executable, options=None):
        words = [python, SERVER, *(["--recw", recw or program()] if options is None else [])]
        self.process = subprocess.Popen(words, stdin=subprocess.PIPE, stdout=subprocess.PIPE)
        self.answers, self.arrived = {}, threading.Condition()
        self.published, self.shown = queue.Queue(), []
        self.number = 0
        self.version = collections.Counter()
        threading.Thread(target=self.read, daemon=True).start()
        able = {"general": {"positionEncodings": encodings}} if encodings else {}
        able["textDocument"] = {"hover": {"contentFormat": ["plaintext"]}, **dict(documents)}
        self.about = self.ask("initialize", {"capabilities": able, "initializationOptions": options})
        self.tell("initialized", {})

    def read(self):
        while True:
            head = self.process.stdout.readline()
            if not head:
                return
            self.process.stdout.readline()
            message = json.loads(self.process.stdout.read(int(head.split(b":")[1])))
            if message.get("method") == "textDocument/publishDiagnostics":
                self.published.put((time.monotonic(), message["params"]))
            elif "method" in message:
                self.shown.append(message["params"]["message"])
            else:
                with self.arrived:
                    self.answers[message["id"]] = message
                    self.arrived.notify_all()

    def send(self, message):
        data = json.dumps({"jsonrpc": "2.0", **message}).encode()
        self.process.stdin.write(b"Content-Length: %d\r\n\r\n" % len(data) + data)
        self.process.stdin.flush()

    def tell(self, method, params):
        self.send({"method": method, "params": params})

    def begin(self, method, params):
        self.number += 1
        self.send({"id": self.number, "method": method, "params": params})
        return self.number

    def end(self, number, seconds=20):
        """The answer to a request: its result, or its error."""
        with self.arrived:
            self.arrived.wait_for(lambda: number in self.answers, seconds)
            answer = self.answers.pop(number, {"error": "no answer"})
        return answer["result"] if "result" in answer else answer

    def ask(self, method, params=None):
        return self.end(self.begin(method, params))

    def about_text(self, method, uri=URI, **more):
        return self.ask(f"textDocument/{method}", {"textDocument": {"uri": uri}, **more})

    def at(self, method, position, uri=URI, **more):
        return self.about_text(method, uri, position=position, **more)

    def open(self, text, uri=URI):
        self.version[uri] = 1
        about = {"uri": uri, "languageId": "rec", "version": 1, "text": text}
        self.tell("textDocument/didOpen", {"textDocument": about})

    def change(self, *changes, uri=URI):
        """Sends a change: a whole text, or a begin, an end and a text for them."""
        self.version[uri] += 1
        sent = []
        for it in changes:
            if isinstance(it, str):
                sent.append({"text": it})
            else:
                sent.append({"range": {"start": it[0], "end": it[1]}, "text": it[2]})
        about = {"uri": uri, "version": self.version[uri]}
        self.tell("textDocument/didChange", {"textDocument": about, "contentChanges": sent})

    def diagnostics(self, uri=URI, seconds=20):
        """The diagnostics of the newest text, once they are there."""
        return self.checked(uri, seconds)[1]

    def checked(self, uri=URI, seconds=20):
        """When the diagnostics of the newest text came, and these."""
        until = time.monotonic() + seconds
        while time.monotonic() < until:
            try:
                at, params = self.published.get(timeout=0.05)
            except queue.Empty:
                continue
            if params["uri"] == uri and params.get("version") == self.version[uri]:
                return at, params["diagnostics"]
        return None, "no diagnostics"

    def close(self):
        """Ends the server, and returns its status."""
        answer = self.ask("shutdown")
        self.tell("exit", None)
        self.process.stdin.close()
        return answer, self.process.wait(10)


def position(line, character):
    return {"line": line, "character": character}


def span(line, character, end):
    return {"start": position(line, character), "end": position(line, end)}


def spots(text, word):
    """The ranges of a word in an ASCII part of a text, comments left out, in order."""
    found = []
    for line, part in enumerate(text.split("\n")):
        for it in re.finditer(rf"(?<![\w'-]){re.escape(word)}(?![\w'-])", part.partition("%")[0]):
            found.append(span(line, it.start(), it.end()))
    return found


def decoded(data):
    """The semantic tokens: line, character, length, type, whether it is a declaration."""
    tokens, line, character = [], 0, 0
    for lines, characters, length, kind, modifiers in zip(*[iter(data)] * 5):
        line, character = line + lines, (0 if lines else character) + characters
        tokens.append((line, character, length, TYPES[kind], modifiers))
    return tokens


def write_program(path, text):
    with open(path, "w", encoding="utf-8") as file:
        file.write(f"#!/bin/sh\n{text}")
    os.chmod(path, 0o755)
    return path


# All requests on one text.


def try_capabilities():
    client = Client()
    found = client.about["capabilities"]
    same("server: positions", "utf-16", found["positionEncoding"])
    same("server: synchronisation", {"openClose": True, "change": 2}, found["textDocumentSync"])
    named = ["hover", "definition", "references", "documentHighlight", "rename", "documentSymbol", "completion"]
    named += ["codeLens", "semanticTokens", "signatureHelp", "codeAction"]
    same("server: requests", [], [it for it in named if f"{it}Provider" not in found])
    code = client.ask("textDocument/formatting", {"textDocument": {"uri": URI}})["error"]["code"]
    same("server: a request that it has not", -32601, code)
    same("server: a text that is not open", -32602, client.about_text("hover")["error"]["code"])
    same("server: the end", (None, 0), client.close())


def try_hover(client):
    operator = "operator plus : Nat Nat -> Nat\ndeclared on line 8\nthe sum"
    rows = [
        ("plus", 1, operator),
        ("plus", 0, operator),
        ("z", 1, "constructor z : -> Nat\ndeclared on line 4\nzero"),
        ("s", 0, "constructor s : Nat -> Nat\ndeclared on line 5"),
        ("X", 1, "variable X : Nat\ndeclared on line 9"),
        ("Nat", 3, "sort Nat\ndeclared on line 2\nnumbers"),
    ]
    for word, number, wanted in rows:
        place = spots(SPEC, word)[number]
        found = client.at("hover", place["start"])
        same(f"server: hover, {word}", (wanted, place), (found["contents"]["value"], found["range"]))
        same(f"server: hover behind {word}", found, client.at("hover", place["end"]))
    for word in ("RULES", "Add", "if"):
        same(f"server: hover, {word}", None, client.at("hover", spots(SPEC, word)[0]["start"]))
    same("server: hover, a comment", None, client.at("hover", position(6, 6)))
    same("server: hover, behind the text", None, client.at("hover", position(99, 0)))


def try_places(client):
    for word in ("plus", "z", "s", "X", "Y", "Nat"):
        all_of = spots(SPEC, word)
        first = all_of[0]
        for place in all_of:
            found = client.at("definition", place["start"])
            same(f"server: definition of {word}", {"uri": URI, "range": first}, found)
            found = client.at("references", place["start"], context={"includeDeclaration": True})
            same(f"server: references of {word}", [{"uri": URI, "range": it} for it in all_of], found)
        found = client.at("references", first["start"], context={"includeDeclaration": False})
        same(f"server: uses of {word}", [{"uri": URI, "range": it} for it in all_of[1:]], found)
        found = client.at("documentHighlight", all_of[-1]["start"])
        wanted = [{"range": it, "kind": 2 if it != first else 3} for it in all_of]
        same(f"server: highlights of {word}", wanted, found)
    same("server: definition of a section", None, client.at("definition", position(9, 2)))


def try_rename(client):
    place = spots(SPEC, "plus")[1]
    found = client.at("prepareRename", place["start"])
    same("server: what is renamed", {"range": place, "placeholder": "plus"}, found)
    for new in ("add", "a-b'", "007", "Nat", "if-x"):
        edits = [{"range": it, "newText": new} for it in spots(SPEC, "plus")]
        same(f"server: plus as {new}", {"changes": {URI: edits}}, client.at("rename", place["start"], newName=new))
    for new, why in (
        ("", "no word"),
        ("a b", "no word"),
        ("a-", "no word"),
        ("-a", "no word"),
        ("a--b", "no word"),
        ("é", "no word"),
        ("a%", "no word"),
        ("'a", "no word"),
        ("RULES", "reserved"),
        ("and-if", "reserved"),
        ("z", "declared on line 4"),
        ("X", "declared on line 9"),
    ):
        found = client.at("rename", place["start"], newName=new)
        same(f"server: plus as {new}: {found}", True, why in found.get("error", {}).get("message", ""))
    sort = spots(SPEC, "Nat")[0]["start"]
    edits = [{"range": it, "newText": "plus"} for it in spots(SPEC, "Nat")]
    same("server: a sort as a symbol", {"changes": {URI: edits}}, client.at("rename", sort, newName="plus"))
    same("server: a rename of a section", True, "error" in client.at("prepareRename", position(9, 2)))
    same("server: a rename of a comment", True, "error" in client.at("rename", position(6, 5), newName="w"))


def try_symbols():
    able = {"documentSymbol": {"hierarchicalDocumentSymbolSupport": True}}
    wanted = [
        ("SORTS", [("Nat", None)]),
        ("CONS", [("z", "-> Nat"), ("s", "Nat -> Nat")]),
        ("OPNS", [("plus", "Nat Nat -> Nat")]),
        ("VARS", [("X", "Nat"), ("Y", "Nat")]),
        ("RULES", [("plus(z,Y)", None), ("plus(s(X),Y)", None)]),
        ("EVAL", [("plus(s(z),s(z))", None), ("s( z)", None), ("z", None)]),
    ]
    for documents in (able, {}):
        client = Client(documents=documents)
        client.open(SPEC)
        found = client.about_text("documentSymbol")
        if documents:
            shown = [(it["name"], [(one["name"], one.get("detail")) for one in it["children"]]) for it in found]
            same("server: symbols", wanted, shown)
            rule = found[4]["children"][1]["range"]
            same("server: the range of a rule", span(11, 2, 42), rule)
            same("server: the range of EVAL", {"start": position(12, 0), "end": position(15, 8)}, found[5]["range"])
        else:
            names = [name for _, inner in wanted for name, _ in inner]
            same("server: symbols without a tree", names, [it["name"] for it in found])
            same("server: the place of a symbol", {"uri": URI, "range": span(1, 6, 9)}, found[0]["location"])
        client.close()


def try_tokens(client, unit):
    """The kinds of the tokens of two lines, with a comment of other letters."""
    found = decoded(client.about_text("semanticTokens/full")["data"])
    comment = len("% sums: é, 𝄞".encode("utf-16-le")) // 2 if unit == "utf-16" else len("% sums: é, 𝄞".encode())
    same(f"server: tokens of line 1, {unit}", [(0, 0, 8, "keyword", 0), (0, 22, comment, "comment", 0)], found[:2])
    rule = [
        (10, 2, 4, "function", 0),
        (10, 7, 1, "enumMember", 0),
        (10, 9, 1, "variable", 0),
        (10, 12, 2, "operator", 0),
        (10, 15, 1, "variable", 0),
        (10, 22, 3 if unit == "utf-16" else 4, "comment", 0),
    ]
    same(f"server: tokens of a rule, {unit}", rule, [it for it in found if it[0] == 10])
    same("server: tokens of VARS", ["keyword", "variable", "variable", "type"], [it[3] for it in found if it[0] == 8])
    same("server: declarations of VARS", [0, 1, 1, 0], [it[4] for it in found if it[0] == 8])
    part = {"start": position(10, 5), "end": position(11, 0)}
    found = decoded(client.about_text("semanticTokens/range", range=part)["data"])
    same(f"server: tokens of a range, {unit}", rule[1:], found)


def completed(client, line, character):
    found = client.at("completion", position(line, character))
    return {it["label"]: (it.get("detail"), it["textEdit"]["range"]) for it in found}


def try_completion(client):
    found = completed(client, 11, 7)
    names = {"z", "s", "plus", "X", "Y"}
    same("server: completion of an argument", names, set(found))
    same("server: completion of an argument, plus", (": Nat Nat -> Nat", span(11, 7, 7)), found["plus"])
    found = completed(client, 11, 4)
    same("server: completion in a rule", {*names, "if", "and-if", "EVAL", "END-SPEC"}, set(found))
    same("server: completion within a word", span(11, 2, 4), found["plus"][1])
    found = completed(client, 13, 2)
    same("server: completion of a term", {"z", "s", "plus", "END-SPEC"}, set(found))
    same("server: completion of a sort", True, "Nat" in completed(client, 7, 13))
    same("server: no terms among sorts", False, "z" in completed(client, 7, 13))
    same("server: completion of a variable's sort", True, "Nat" in completed(client, 8, 11))
    same("server: completion in a comment", {}, completed(client, 6, 6))
    same("server: completion of the name", {}, completed(client, 0, 9))
    same("server: completion at the begin", {"REC-SPEC"}, set(completed(client, 0, 0)))


def try_lenses(client):
    wanted = [
        ("= s(s(z))  (2 steps)", span(13, 2, 17)),
        ("= s(z)  (0 steps)", {"start": position(14, 2), "end": position(15, 6)}),
        ("= z  (0 steps)", span(15, 7, 8)),
    ]
    found = client.about_text("codeLens")
    same("server: values", wanted, [(it["command"]["title"], it["range"]) for it in found])
    endless = SPEC.replace("-> Y  ", "-> plus(z,Y)").replace("s(\n", "plus(z,z)\n s(")
    client.open(endless, "file:///endless.rec")
    found = [it["command"]["title"] for it in client.about_text("codeLens", "file:///endless.rec")]
    limit = "no value within 100,000 steps"
    same("server: values of endless terms", [limit, limit, "= s(z)  (0 steps)", "= z  (0 steps)"], found)
    wide = SPEC.replace("plus(s(z),s(z))", "s(" * 150 + "z" + ")" * 150)
    client.open(wide, "file:///wide.rec")
    title = client.about_text("codeLens", "file:///wide.rec")[0]["command"]["title"]
    is_cut = title.startswith("= s(s(s(") and title.split("  ")[0].endswith("...") and len(title) < 220
    same(f"server: a long value: {title}", True, is_cut or title == "a value of more than 200 bytes")
    client.open(SPEC.replace("z : ->", "z : "), "file:///wrong.rec")
    same("server: values of a rejected text", [], client.about_text("codeLens", "file:///wrong.rec"))


def try_requests():
    for unit in ("utf-16", "utf-8"):
        client = Client(encodings=["utf-32", unit])
        same("server: the unit of positions", unit, client.about["capabilities"]["positionEncoding"])
        client.open(SPEC)
        same("server: no diagnostics", [], client.diagnostics())
        try_hover(client)
        try_places(client)
        try_rename(client)
        try_tokens(client, unit)
        try_completion(client)
        try_lenses(client)
        same("server: the end", (None, 0), client.close())
    try_symbols()


# Diagnostics.


def brief(found):
    return [(it["code"], it["severity"], it["range"]) for it in found]


def try_diagnostics():
    client = Client()
    client.open(SPEC.replace("plus(z,Y)", "plus(zero,Y)").replace("plus(s(z)", "plu(s(z)"))
    wanted = [("S5", 1, span(10, 7, 11)), ("S5", 1, span(13, 2, 5))]
    same("server: errors", wanted, brief(client.diagnostics()))
    client.change(SPEC.replace("X Y :", "X Y Z :"))
    found = client.diagnostics()
    same("server: a warning", [("W4", 2, span(8, 9, 10))], brief(found))
    same("server: an unnecessary word", [1], found[0].get("tags"))
    client.change(SPEC.replace("Y) -> Y  ", "Y) => Y  "))
    found = client.diagnostics()
    same("server: a bad token", [("G", 1, span(10, 12, 14))], brief(found))
    same(f"server: what is expected: {found}", True, "expected `->`; did you mean `->`?" in found[0]["message"])
    client.change(SPEC.replace("RULES", "RULS"))
    found = client.diagnostics()
    same("server: a wrong section", [("G", 1, span(10, 6, 7))], brief(found))
    hint = "; 10:1: not a section; did you mean RULES?"
    same(f"server: what is meant: {found}", True, hint in found[0]["message"])
    client.change(SPEC.replace("END-SPEC\n", ""))
    same("server: the end of the text", [("G", 1, span(16, 0, 0))], brief(client.diagnostics()))
    client.change(SPEC)
    same("server: mended", [], client.diagnostics())
    client.tell("textDocument/didClose", {"textDocument": {"uri": URI}})
    client.version[URI] = None
    same("server: closed", [], client.diagnostics())
    client.close()


# Objects that a program prints, and the diagnostics that they mean in the text "REC-SPEC é\nab cd\n".
OBJECTS = (
    (
        '"line":2,"column":1,"end_line":2,"end_column":3,"severity":"error","code":"S5","message":"undeclared: ab",'
        '"expected":[],"suggestion":"abc"',
        ("S5", 1, span(1, 0, 2), "undeclared: ab; did you mean `abc`?"),
    ),
    (
        '"line":1,"column":10,"end_line":1,"end_column":12,"severity":"error","code":"G","message":"syntax error",'
        '"expected":["an identifier","`:`","`(`"],"suggestion":null',
        ("G", 1, span(0, 9, 10), "syntax error; expected an identifier, `:` or `(`"),
    ),
    (
        '"line":2,"column":4,"end_line":2,"end_column":6,"severity":"warning","code":"W1","message":"never tried",'
        '"expected":[],"suggestion":null',
        ("W1", 2, span(1, 3, 5), "never tried"),
    ),
    (
        '"line":3,"column":1,"end_line":3,"end_column":1,"severity":"error","code":"G","message":"the end",'
        '"expected":["`EVAL`"],"suggestion":null',
        ("G", 1, span(2, 0, 0), "the end; expected `EVAL`"),
    ),
)


def try_uses(room):
    """What `recw uses` prints decides what a word names, once the text was checked."""
    plus = "operator plus: 8:3: Nat Nat -> Told"
    lines = [f"8:3: {plus}", f"11:3: {plus}", "11:8: undeclared z: -"]
    text = f"""case "$*" in
check*) ;;
"uses -") printf '%s\\n' {' '.join(f'"<stdin>:{it}"' for it in lines)} ;;
*) exit 2
esac
"""
    client = Client(write_program(f"{room}/uses", text))
    client.open(SPEC)
    client.diagnostics()
    for _ in range(100):
        found = client.at("hover", position(10, 3))["contents"]["value"]
        if "Told" in found:
            break
        time.sleep(0.05)
    same("server: uses, a sort", "operator plus : Nat Nat -> Told", found.split("\n")[0])
    found = client.at("references", position(10, 3), context={"includeDeclaration": True})
    same("server: uses, references", [span(7, 2, 6), span(10, 2, 6)], [it["range"] for it in found])
    same("server: uses, undeclared", "z is not declared", client.at("hover", position(10, 7))["contents"]["value"])
    client.change(SPEC + "%")
    same("server: uses, the next text", [], client.diagnostics())
    client.close()


def try_objects(room):
    lines = "\n".join(f'{{"file":"<stdin>",{it}}}' for it, _ in OBJECTS)
    text = f"""case "$*" in
"check --format json -") cat <<'END'
{lines}
END
exit 1 ;;
*) exit 2
esac
"""
    client = Client(write_program(f"{room}/objects", text))
    client.open("REC-SPEC é\nab cd\n")
    found = client.diagnostics()
    wanted = [it for _, it in OBJECTS]
    same("server: objects", wanted, [(*one, it["message"]) for one, it in zip(brief(found), found)])
    client.close()


# Texts outside the grammar, and texts that change.


def try_outside():
    """A word names the same after a section word is misspelt, or a text is half written."""
    client = Client()
    client.open(SPEC)
    same("server: no diagnostics", [], client.diagnostics())
    shown = {"plus": "operator plus : Nat Nat -> Nat", "X": "variable X : Nat", "z": "constructor z : -> Nat"}
    for right, wrong in (("VARS", "VAR"), ("OPNS", "OPERATIONS"), ("RULES", "rules"), ("CONS", "CON")):
        text = SPEC.replace(right, wrong, 1)
        client.change(text)
        same(f"server: {wrong} is wrong", "G", client.diagnostics()[0]["code"])
        for word, sorts in shown.items():
            places = spots(text, word)
            last = places[-1]["start"]
            found = client.at("hover", last)
            same(f"server: {wrong}: {word}", sorts, found and found["contents"]["value"].split("\n")[0])
            same(f"server: {wrong}: {word} is at", places[0], client.at("definition", last)["range"])
            found = client.at("references", last, context={"includeDeclaration": True})
            same(f"server: {wrong}: uses of {word}", places, [it["range"] for it in found])
    client.change(SPEC)
    client.diagnostics()
    # a declaration and a rule are written, and a parenthesis is missing
    text = SPEC.replace("VARS", "  twice : Nat -> Nat\nVARS").replace("EVAL", "  twice(X) -> plus(X,\nEVAL")
    client.change(text)
    same("server: half a rule", "G", client.diagnostics()[0]["code"])
    for word, number, wanted in (("twice", 1, "operator twice : Nat -> Nat"), ("plus", 3, shown["plus"])):
        found = client.at("hover", spots(text, word)[number]["start"])
        same(f"server: {word} in half a rule", wanted, found and found["contents"]["value"].split("\n")[0])
    # bytes above 127 before a word of the line
    text = SPEC.replace("plus(z,Y) -> Y ", "é𝄞 plus(z,Y) -> Y ")
    client.change(text)
    same("server: other letters", [("G", 1, span(10, 2, 3))], brief(client.diagnostics()))
    found = client.at("hover", position(10, 7))
    same("server: a word behind other letters", span(10, 6, 10), found["range"])
    found = client.at("rename", position(10, 7), newName="add")["changes"][URI]
    same("server: a rename behind other letters", [7, 10, 11, 11, 13], [it["range"]["start"]["line"] for it in found])
    client.close()
    # a text that never was in the grammar, and none at all
    client = Client()
    client.open("SORTS Nat\nCONS z : -> Nat\nRULES f(z")
    found = client.at("hover", position(2, 8))
    same("server: no head", "constructor z : -> Nat", found["contents"]["value"].split("\n")[0])
    found = client.at("hover", position(2, 6))
    same("server: an unknown word", "f is not declared", found["contents"]["value"])
    same("server: no definition of an unknown word", None, client.at("definition", position(2, 6)))
    client.open("", "file:///empty.rec")
    same("server: the empty text", [("G", 1, span(0, 0, 0))], brief(client.diagnostics("file:///empty.rec")))
    for method in ("documentSymbol", "codeLens"):
        same(f"server: {method} of the empty text", [], client.about_text(method, "file:///empty.rec"))
    client.close()


def some_place(chance, text):
    """An offset of a text, and its position in UTF-16."""
    at = chance.randint(0, len(text))
    line = text.count("\n", 0, at)
    return at, position(line, len(text[:at].rpartition("\n")[2].encode("utf-16-le")) // 2)


def plain_tokens(client, uri):
    """The tokens whose kind does not depend on declarations."""
    found = decoded(client.about_text("semanticTokens/full", uri)["data"])
    return [it for it in found if it[3] in ("comment", "keyword", "operator")]


def try_edits():
    """A text that was changed in many places has the tokens of the same text when it is opened."""
    chance = random.Random(75)
    client = Client()
    text = SPEC
    client.open(text)
    parts = ["", "", "x", "é", "𝄞", "% ", "\n", "plus(z", "VARS ", ") -> Y\n", "END-SPEC"]
    for number in range(60):
        changes = []
        for _ in range(chance.randint(1, 3)):
            (begin, first), (end, last) = sorted((some_place(chance, text) for _ in range(2)), key=lambda it: it[0])
            if chance.random() < 0.7 or end - begin > 60:
                end, last = begin, first
            new = chance.choice(parts)
            text = text[:begin] + new + text[end:]
            changes.append((first, last, new))
        client.change(*changes)
        uri = f"file:///opened{number}.rec"
        client.open(text, uri)
        same(f"server: edits, {number}", plain_tokens(client, uri), plain_tokens(client, URI))
        client.tell("textDocument/didClose", {"textDocument": {"uri": uri}})
    client.change("SORTS\r\nA\rB % \r C\r\nEND-SPEC")
    wanted = [(0, 0, 5, "keyword"), (1, 0, 1, "type"), (2, 0, 1, "type"), (2, 2, 2, "comment"), (4, 0, 8, "keyword")]
    same("server: ends of lines", wanted, [it[:4] for it in decoded(client.about_text("semanticTokens/full")["data"])])
    client.close()


# The words of the examples, by a reader of the grammar.


def reader():
    spec = importlib.util.spec_from_file_location("rec2maude", f"{TOP}/tools/rec2maude.py")
    module = importlib.util.module_from_spec(spec)
    spec.loader.exec_module(module)
    return module


def words_of(text):
    """The words of a specification by its grammar: offset, kind, the offset of the declaration, and sorts."""
    tool = reader()

    class Words(tool.Spec):
        """Keeps each word that is read."""

        def __init__(self, text):
            self.places, self.sort_words, self.group = {}, [], []
            super().__init__(text)

        def declare(self, names, others, value):
            offset = self.tokens[self.at].offset
            name = super().declare(names, others, value)
            self.places[name, names is self.sorts] = offset
            return name

        def sort(self):
            self.sort_words.append((self.tokens[self.at].offset, self.tokens[self.at].text))
            return super().sort()

        def check_term(self, term, variables):
            pass

        def check_rule(self, rule):
            pass

    spec = Words(text)
    found = {at: ("sort", spec.places[name, True], "") for at, name in spec.sort_words}
    found.update({spec.places[name, True]: ("sort", spec.places[name, True], "") for name in spec.sorts})
    kinds = {}
    for kind, names in (("constructor", spec.constructors), ("operator", spec.operators)):
        for name, it in names.items():
            kinds[name] = (kind, spec.places[name, False], " ".join([*it.arguments, "->", it.sort]))
    for name, sort in spec.variables.items():
        kinds[name] = ("variable", spec.places[name, False], sort)
    for name, it in kinds.items():
        found[it[1]] = it
    terms = [*spec.terms]
    for rule in spec.rules:
        terms += [rule.left, rule.right, *(side for it in rule.conditions for side in (it.left, it.right))]
    for term in terms:
        found.update({it.offset: kinds[it.name] for it in tool.subterms(term)})
    return found


def try_examples():
    client = Client()
    types = {"sort": "type", "constructor": "enumMember", "operator": "function", "variable": "variable"}
    count = 0
    for path in sorted(glob.glob(f"{TOP}/examples/**/*.rec", recursive=True)):
        with open(path, encoding="ascii") as file:
            text = file.read()
        if "broken" in path or "/join/" in path:
            continue
        name, wanted = os.path.relpath(path, TOP), words_of(text)
        begins = [0, *(it.end() for it in re.finditer("\n", text))]
        client.open(text, uri := f"file://{path}")
        tokens = decoded(client.about_text("semanticTokens/full", uri)["data"])
        found = {begins[it[0]] + it[1]: it[3:] for it in tokens if it[3] in types.values()}
        due = {at: (types[kind], int(at == first)) for at, (kind, first, _) in wanted.items()}
        same(f"server: the words of {name}", due, found)
        for at, (kind, first, sorts) in wanted.items():
            if at != first:
                continue
            word = re.compile(r"[\w'-]+").match(text, at)[0]
            place = position(text.count("\n", 0, at), at - text.rfind("\n", 0, at) - 1)
            shown = f"{kind} {word}" + (f" : {sorts}" if sorts else "")
            value = client.at("hover", place, uri)["contents"]["value"].split("\n")[0]
            same(f"server: {name}, {word}", shown, value)
            told = client.at("references", place, uri, context={"includeDeclaration": True})
            uses = [begins[it["range"]["start"]["line"]] + it["range"]["start"]["character"] for it in told]
            same(f"server: {name}, uses of {word}", sorted(it for it, of in wanted.items() if of[1] == at), uses)
            count += 1
    client.close()
    same(f"server: declared words of the examples, {count}", True, count > 300)


def evaluated(text):
    """The status of a check of a text, and its values."""
    ran = [
        subprocess.run([program(), it, "-"], input=text, stdout=subprocess.PIPE, text=True, check=False)
        for it in ("check", "eval")
    ]
    return ran[0].returncode, ran[1].stdout


def try_renames():
    """After a rename, a specification has the values of before with the new name."""
    chance = random.Random(75)
    client = Client()
    new = "renamed-1"
    for name in ("add", "derive", "lambda", "tautology", "while", "tutorial/decimal"):
        with open(f"{TOP}/examples/{name}.rec", encoding="ascii") as file:
            text = file.read()
        status, values = evaluated(text)
        client.open(text, uri := f"file:///{name}")
        declared = sorted({(kind, at) for kind, at, _ in words_of(text).values()})
        for kind, at in chance.sample(declared, 5):
            old = re.compile(r"[\w'-]+").match(text, at)[0]
            spelled = old if re.fullmatch(r"[A-Za-z_][\w-]*", old) else f'"{old}"'
            place = position(text.count("\n", 0, at), at - text.rfind("\n", 0, at) - 1)
            edits = client.at("rename", place, uri, newName=new)["changes"][uri]
            lines = text.split("\n")
            for it in reversed(edits):
                (line, begin), end = it["range"]["start"].values(), it["range"]["end"]["character"]
                lines[line] = lines[line][:begin] + new + lines[line][end:]
            wanted = values
            if kind in ("constructor", "operator"):
                words = re.compile(r'"[^"]*"|[A-Za-z_][\w+*$.-]*')
                wanted = words.sub(lambda it, of=spelled: new if it[0] == of else it[0], values)
            same(f"server: values of {name} with {new} for {old}", (status, wanted), evaluated("\n".join(lines)))
    client.close()


# Programs that hang or die, and requests that are not wanted any more.


def try_trouble(room):
    """A program that hangs, dies, floods or is not there is said, and does not hold up the other requests."""
    for name, text, why in (
        ("hangs", "while :; do :; done\n", "did not end within 1 s"),
        ("waits", "sleep 1000 & wait\n", "did not end within 1 s"),
        ("dies", "kill -SEGV $$\n", "ended by signal 11"),
        ("floods", "exec yes\n", "8388608 bytes|did not end"),
        ("refuses", "exit 2\n", "status 2"),
        ("none", None, "is not found"),
    ):
        path = write_program(f"{room}/{name}", text) if text else f"{room}/none"
        client = Client(path)
        client.open(SPEC)
        began = time.monotonic()
        lenses = client.begin("textDocument/codeLens", {"textDocument": {"uri": URI}})
        found = client.at("hover", position(10, 3))
        value = found.get("contents", {}).get("value", "").split("\n")[0]
        same(f"server: a program that {name}: hover", "operator plus : Nat Nat -> Nat", value)
        took = time.monotonic() - began
        same(f"server: a program that {name}: hover took {took:.2f} s", True, took < 0.5)
        found = client.diagnostics(seconds=6)
        said = [(it["severity"], it["range"], bool(re.search(why, it["message"]))) for it in found]
        same(f"server: a program that {name}: {found}", [(3, span(0, 0, 0), True)], said)
        same(f"server: a program that {name}: shown", 1, len(client.shown))
        answer = client.end(lenses, 6)
        titles = [it["command"]["title"] for it in answer] if isinstance(answer, list) else answer
        same(f"server: a program that {name}: values, {titles}", 3, len(titles))
        began = time.monotonic()
        same(f"server: a program that {name}: the end", (None, 0), client.close())
        same(f"server: a program that {name}: ends at once", True, time.monotonic() - began < 3)
    once = f'case "$*" in check*) test -e {room}/was || {{ touch {room}/was; exec sleep 1000; }} ;; esac\n'
    client = Client(write_program(f"{room}/once", f"{once}exit 0\n"))
    client.open(SPEC)
    same("server: a program that hung once", ([], []), (client.diagnostics(), client.shown))
    client.close()
    left = run(["ps", "-eo", "args"])
    same("server: what it started is ended", [], [it for it in left.splitlines() if "sleep 1000" in it or room in it])


def try_cancel(room):
    """Later edits end earlier checks, and requests are cancelled."""
    log = f"{room}/log"
    text = f"""case "$*" in
check*) text=$(cat); echo "$text" >>{log}; case "$text" in *SLOW*) exec sleep 0.9 ;; *) exit 0 ;; esac ;;
eval*) exec sleep 0.9 ;;
esac
"""
    client = Client(write_program(f"{room}/slow", text))
    client.open(SPEC + "% SLOW")
    time.sleep(0.3)
    began = time.monotonic()
    client.change(SPEC)
    same("server: a later text is checked at once", [], client.diagnostics())
    took = time.monotonic() - began
    same(f"server: a later text took {took:.2f} s", True, took < 0.5)
    time.sleep(0.9)
    same("server: nothing is said of an earlier text", True, client.published.empty())
    began = time.monotonic()
    number = client.begin("textDocument/codeLens", {"textDocument": {"uri": URI}})
    time.sleep(0.1)
    client.tell("$/cancelRequest", {"id": number})
    same("server: a cancelled request", -32800, client.end(number)["error"]["code"])
    number = client.begin("textDocument/codeLens", {"textDocument": {"uri": URI}})
    time.sleep(0.1)
    client.change(SPEC + "%")
    same("server: values of an earlier text", -32801, client.end(number)["error"]["code"])
    took = time.monotonic() - began
    same(f"server: cancelled requests took {took:.2f} s", True, took < 0.8)
    client.send({"id": 7000, "method": "textDocument/hover", "params": {}})
    same("server: a request without parameters", -32602, client.end(7000)["error"]["code"])
    client.process.stdin.write(b"Content-Length: 3\r\n\r\n{a}")
    client.send({"id": 7001, "method": "unknown"})
    same("server: after what is no JSON", -32601, client.end(7001)["error"]["code"])
    client.close()


# A specification of 1,000 lines.


def long_text():
    """1,000 lines: a head, and rules of 300 operators over 3 constructors."""
    lines = ["REC-SPEC Long", "SORTS N", "CONS z : -> N", "  s : N -> N", "  p : N N -> N", "OPNS"]
    count = 321
    lines += [f"  f{it} : N N -> N" for it in range(count)]
    lines += ["VARS X Y Z : N", "RULES"]
    for it in range(count):
        lines.append(f"  f{it}(z,Y) -> Y")
        lines.append(f"  f{it}(s(X),Y) -> s(f{(it + 1) % count}(X,Y))")
    lines += [f"  f{it}(p(X,Y),Z) -> f{it}(X,f{it}(Y,Z))" for it in range(count)]
    lines = lines[:997]
    return "\n".join([*lines, "EVAL", "  f0(s(s(z)),z)", "END-SPEC", ""])


def seconds_of(process):
    """The processor time of a process and of its children that ended."""
    with open(f"/proc/{process.pid}/stat", encoding="ascii") as file:
        ticks = file.read().rpartition(")")[2].split()[11:15]
    return sum(map(int, ticks)) / os.sysconf("SC_CLK_TCK")


def try_pace():
    """A keystroke in a text of 1,000 lines: in a comment, and in a rule that is not complete."""
    for name, keys in (("a comment", "%   x" * 4), ("half a rule", "f1(s(X),f2(Y,p(X,Y),")):
        try_keys(name, keys)


def try_keys(name, keys):
    """What a key takes: the least of twenty times, or the processor time if other programs take the processors."""
    client = Client()
    text = long_text()
    same("server: a long text has 1,000 lines", 1000, text.count("\n"))
    client.open(text)
    client.diagnostics()
    place = position(400, len(text.split("\n")[400]))
    count, checks, answers = len(keys), [], []
    before = seconds_of(client.process)
    for key in keys:
        began = time.monotonic()
        client.change((place, place, key))
        client.at("hover", position(400, 3))
        client.at("completion", position(400, 2))
        answers.append(time.monotonic() - began)
        checks.append((client.checked()[0] or began + 20) - began)
        place = {**place, "character": place["character"] + 1}
    took = (seconds_of(client.process) - before) / count
    for what, times in (("diagnostics", checks), ("hover and completion", answers)):
        is_fast = min(times) < 0.1 or (os.getloadavg()[0] > os.cpu_count() and took < 0.1)
        same(f"server: {what} in {name} took {min(times):.3f} s at least", True, is_fast)
    checks, answers = ([f"{it * 1000:.0f}" for it in sorted(them)] for them in (checks, answers))
    print(
        f"server: a key in {name} of 1,000 lines takes {took * 1000:.0f} ms of processor time;"
        f" hover and completion came in {answers[0]} to {answers[-1]} ms, half of them in {answers[count // 2]},"
        f" diagnostics in {checks[0]} to {checks[-1]}, half of them in {checks[count // 2]}"
    )
    client.close()


# Neovim as a client.

LUA = r"""
local env, found = vim.env, {}
local function open(file)
  vim.cmd('edit ' .. file)
  local cmd = { env.PYTHON, env.SERVER, '--recw', env.RECW }
  local id = vim.lsp.start_client({ name = 'recw', cmd = cmd, root_dir = '.' })
  vim.lsp.buf_attach_client(0, id)
  vim.wait(10000, function() return vim.lsp.buf_get_clients(0)[id] ~= nil end, 20)
end
local function ask(method, more)
  local params = vim.tbl_extend('error', vim.lsp.util.make_position_params(0, 'utf-16'), more or {})
  for _, it in pairs(vim.lsp.buf_request_sync(0, method, params, 5000) or {}) do return it.result or it.error end
end
local function diagnostics(count)
  vim.wait(10000, function() return #vim.diagnostic.get(0) == count end, 20)
  local brief = function(it) return { it.lnum, it.col, it.end_col, it.code or '', it.severity } end
  return vim.tbl_map(brief, vim.diagnostic.get(0))
end
open(env.WRONG)
found.diagnostics = diagnostics(1)
open(env.SPEC)
vim.api.nvim_win_set_cursor(0, { 12, 3 })
found.hover = ask('textDocument/hover')
found.definition = ask('textDocument/definition')
found.references = ask('textDocument/references', { context = { includeDeclaration = true } })
vim.lsp.buf.definition()
vim.wait(5000, function() return vim.api.nvim_win_get_cursor(0)[1] == 8 end, 20)
found.cursor = vim.api.nvim_win_get_cursor(0)
vim.lsp.buf.rename('add')
vim.wait(5000, function() return vim.api.nvim_buf_get_lines(0, 10, 11, false)[1]:find('add') ~= nil end, 20)
found.lines = vim.api.nvim_buf_get_lines(0, 0, -1, false)
vim.api.nvim_buf_set_lines(0, 10, 11, false, { '  add(z,Q) -> Q % é' })
found.typed = diagnostics(2)
vim.fn.writefile({ vim.fn.json_encode(found) }, env.FOUND)
vim.cmd('qa!')
"""


# Neovim as a user sets it up by editors/README.md, with the keys and the values above EVAL terms.

LUA_SETUP = r"""
local env, found = vim.env, {}
vim.cmd('filetype plugin on')
vim.cmd('luafile ' .. env.SETUP)
vim.cmd('edit ' .. env.SPEC)
local function values()
  local told = {}
  for _, it in ipairs(vim.lsp.codelens.get(0)) do table.insert(told, it.command.title) end
  return told
end
local function shown(count)
  vim.wait(10000, function() return #values() == count end, 20)
  return values()
end
found.values = shown(3)
found.keys = {}
for _, it in ipairs(vim.api.nvim_buf_get_keymap(0, 'n')) do table.insert(found.keys, it.lhs) end
found.omnifunc = vim.bo.omnifunc
vim.api.nvim_buf_set_lines(0, 13, 14, false, { '  plus(s(s(z)),z)' })
vim.cmd('doautocmd InsertLeave')
vim.wait(10000, function() return values()[1] == '= s(s(z))  (3 steps)' end, 20)
found.later = values()
vim.fn.writefile({ vim.fn.json_encode(found) }, env.FOUND)
vim.cmd('qa!')
"""


def try_setup(room):
    """The set-up of the documents: the block for versions before 0.11, or else the one from there on."""
    if not shutil.which("nvim"):
        return
    with open(f"{TOP}/editors/README.md", encoding="utf-8") as file:
        blocks = re.findall(r"```lua\n(.*?)```", file.read(), re.DOTALL)
    numbers = re.search(r"v(\d+)\.(\d+)", run(["nvim", "--version"])).groups()
    is_old = tuple(map(int, numbers)) < (0, 11)
    for name, text in {"setup.rec": SPEC, "setup.lua": blocks[is_old], "user.lua": LUA_SETUP}.items():
        with open(f"{room}/{name}", "w", encoding="utf-8") as file:
            file.write(text)
    folder = f"{room}/neovim"
    os.mkdir(folder)
    write_program(f"{folder}/recw-lsp", f'exec "{sys.executable}" "{SERVER}" --recw "{program()}"\n')
    named = {"PATH": f"{folder}:{os.environ['PATH']}", "HOME": room, "XDG_STATE_HOME": room}
    named.update({"SPEC": f"{room}/setup.rec", "SETUP": f"{room}/setup.lua", "FOUND": f"{room}/setup.json"})
    words = ["nvim", "--headless", "-n", "-u", "NONE", "-c", f"set runtimepath^={TOP}/editors/vim"]
    words += ["-c", f"luafile {room}/user.lua", "-c", "qa!"]
    said = run(words, env={**os.environ, **named}, stderr=subprocess.STDOUT, stdin=subprocess.DEVNULL, timeout=90)
    if not os.path.exists(named["FOUND"]):
        same("neovim as set up: it ran", "", said)
        return
    with open(named["FOUND"], encoding="utf-8") as file:
        found = json.load(file)
    values = ["= s(s(z))  (2 steps)", "= s(z)  (0 steps)", "= z  (0 steps)"]
    same("neovim as set up: values", values, found["values"])
    same("neovim as set up: values later", ["= s(s(z))  (3 steps)", *values[1:]], found["later"])
    if is_old:
        same("neovim as set up: keys", ["K", "gd", "gra", "grn", "grr"], sorted(found["keys"]))
        same("neovim as set up: completion", "v:lua.vim.lsp.omnifunc", found["omnifunc"])


def try_neovim(room):
    if not shutil.which("nvim"):
        print("not tried: neovim is not here")
        return
    given = {"spec.rec": SPEC, "wrong.rec": SPEC.replace("plus(z,Y)", "plus(zero,Y)"), "client.lua": LUA}
    for name, text in given.items():
        with open(f"{room}/{name}", "w", encoding="utf-8") as file:
            file.write(text)
    named = {"SERVER": SERVER, "RECW": program(), "PYTHON": sys.executable, "FOUND": f"{room}/found.json"}
    named.update({"SPEC": f"{room}/spec.rec", "WRONG": f"{room}/wrong.rec", "HOME": room, "XDG_STATE_HOME": room})
    words = ["nvim", "--headless", "-n", "-u", "NONE", "-c", f"luafile {room}/client.lua", "-c", "qa!"]
    said = run(words, env={**os.environ, **named}, stderr=subprocess.STDOUT, stdin=subprocess.DEVNULL, timeout=90)
    if not os.path.exists(named["FOUND"]):
        same("neovim: it ran", "", said)
        return
    with open(named["FOUND"], encoding="utf-8") as file:
        found = json.load(file)
    uri = f"file://{room}/spec.rec"
    same("neovim: diagnostics", [[10, 7, 11, "S5", 1]], found["diagnostics"])
    same("neovim: hover", True, "operator plus : Nat Nat -> Nat" in found["hover"]["contents"]["value"])
    places = spots(SPEC, "plus")
    same("neovim: definition", {"uri": uri, "range": places[0]}, found["definition"])
    same("neovim: references", [{"uri": uri, "range": it} for it in places], found["references"])
    same("neovim: the cursor at the declaration", [8, 2], found["cursor"])
    same("neovim: rename", re.sub(r"\bplus\b", "add", SPEC).split("\n")[:-1], found["lines"])
    same("neovim: while one types", [[10, 8, 9, "S5", 1], [10, 14, 15, "S5", 1]], found["typed"])


# Emacs with eglot as a client, set up as editors/README.md has it.

LISP = r"""
(setq eglot-sync-connect t eglot-connect-timeout 60)
(find-file (getenv "WRONG"))
(apply #'eglot (eglot--guess-contact))
(let ((tries 0))
  (while (and (< tries 300) (null (flymake-diagnostics)))
    (accept-process-output nil 0.05) (flymake-start) (setq tries (1+ tries))))
(setq diagnostics (mapcar (lambda (it) (list (flymake-diagnostic-beg it) (flymake-diagnostic-end it)))
                          (flymake-diagnostics)))
(goto-char (point-min)) (search-forward "plus(s(X)") (backward-char 6)
(setq place (xref-item-location (car (xref-backend-definitions 'eglot "plus"))))
(eglot-rename "add")
(setq text (buffer-substring-no-properties (point-min) (point-max)) mode (symbol-name major-mode))
(with-temp-file (getenv "FOUND")
  (insert (json-encode (list (cons 'mode mode) (cons 'diagnostics (vconcat diagnostics))
                             (cons 'line (xref-location-line place)) (cons 'text text)))))
"""


def try_emacs(room):
    eglot = ["emacs", "--batch", "--eval", "(require 'eglot)"]
    if not shutil.which("emacs") or subprocess.run(eglot, stderr=subprocess.DEVNULL, check=False).returncode:
        print("not tried: emacs with eglot is not here")
        return
    with open(f"{TOP}/editors/README.md", encoding="utf-8") as file:
        setup = re.search(r"```elisp\n(.*?)```", file.read(), re.DOTALL)[1]
    given = {"emacs.rec": SPEC.replace("plus(z,Y)", "plus(zero,Y)"), "setup.el": setup, "client.el": LISP}
    for name, text in given.items():
        with open(f"{room}/{name}", "w", encoding="utf-8") as file:
            file.write(text)
    folder = f"{room}/emacs"
    os.mkdir(folder)
    write_program(f"{folder}/recw-lsp", f'exec "{sys.executable}" "{SERVER}" --recw "{program()}"\n')
    named = {"PATH": f"{folder}:{os.environ['PATH']}", "HOME": folder}
    named.update({"WRONG": f"{room}/emacs.rec", "FOUND": f"{room}/emacs.json"})
    words = ["emacs", "--batch", "-l", "eglot", "-l", f"{room}/setup.el", "-l", f"{room}/client.el"]
    said = run(words, env={**os.environ, **named}, stderr=subprocess.STDOUT, stdin=subprocess.DEVNULL, timeout=90)
    if not os.path.exists(named["FOUND"]):
        same("emacs: it ran", "", said)
        return
    with open(named["FOUND"], encoding="utf-8") as file:
        found = json.load(file)
    at = given["emacs.rec"].index("zero,") + 1
    wanted = {
        "mode": "rec-mode",
        "diagnostics": [[at, at + 4]],
        "line": 8,
        "text": re.sub(r"\bplus\b", "add", given["emacs.rec"]),
    }
    same("emacs: diagnostics, definition, rename", wanted, found)


# The extension of Visual Studio Code as a client, in a stand-in for that editor.

def try_code(room):
    if not shutil.which("node"):
        print("not tried: the client of the extension, since there is no node")
        return
    with open(f"{room}/code.rec", "w", encoding="utf-8") as file:
        file.write(SPEC)
    words = ["node", f"{TOP}/tests/code_client.js", f"{TOP}/editors/vscode", SERVER, program(), f"{room}/code.rec"]
    found = json.loads(run(words, timeout=90) or "{}")
    plus = [(it["start"]["line"], it["start"]["character"]) for it in spots(SPEC, "plus")]
    wrong = [["S5", 0, {"start": position(11, 2), "end": position(11, 5)}]]
    wanted = {
        "first": [],
        "hover": "```rec\noperator plus : Nat Nat -> Nat\n```\n\ndeclared on line 8\n\nthe sum",
        "none": True,
        "definition": position(7, 2),
        "references": [line for line, _ in plus],
        "highlights": [2, 1, 1, 1, 1],
        "prepared": "plus",
        "edits": [[*it, "add"] for it in plus],
        "refused": "`z` is declared on line 4 already",
        "symbols": [["SORTS", 1], ["CONS", 2], ["OPNS", 1], ["VARS", 2], ["RULES", 2], ["EVAL", 3]],
        "lenses": ["= s(s(z))  (2 steps)", "= s(z)  (0 steps)", "= z  (0 steps)"],
        "second": wrong,
        "third": wrong,
        "shown": [],
        "status": 0,
    }
    same("extension: the client", wanted, {it: found.get(it) for it in wanted})
    known = {
        "help": ["plus : Nat Nat -> Nat", "the sum", [[7, 10], [11, 14]], 1],
        "actions": [["Write `plus`", "quickfix"]],
        "mended": [[11, 2, "plus"]],
        "related": [["this parenthesis is not closed", position(10, 6)]],
    }
    same("extension: signatures, fixes", known, {it: found.get(it) for it in known})
    same("extension: completion", ["s", 19], next((it for it in found["completion"] if it[0] == "s"), None))
    same("extension: tokens", True, found["tokens"] > 0 and found["tokens"] % 5 == 0)


def try_server(room):
    if len(sys.argv) < 2:
        print("not tried: the language server, since no program is named")
        return
    try_capabilities()
    try_requests()
    try_diagnostics()
    try_objects(room)
    try_uses(room)
    try_outside()
    try_edits()
    try_examples()
    try_renames()
    try_trouble(room)
    try_cancel(room)
    try_pace()
    try_neovim(room)
    try_setup(room)
    try_emacs(room)
    try_code(room)
