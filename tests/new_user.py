"""A user who writes a specification of sixty rules from nothing, with the language server, and makes mistakes: what is
shown at each step. What is expected follows from the text of evaluator.rec."""

from common import TOP, same
from language_server import Client, position, span

URI = "file:///evaluator.rec"
ABLE = {
    "publishDiagnostics": {"relatedInformation": True},
    "signatureHelp": {"signatureInformation": {"parameterInformation": {"labelOffsetSupport": True}}},
}
SKELETON = "REC-SPEC Name\nSORTS\nCONS\nOPNS\nVARS\nRULES\nEVAL\nEND-SPEC\n"
VALUES = [
    "= ok(number(s(s(s(z)))))  (8 steps)",
    "= ok(number(s(s(s(s(z))))))  (19 steps)",
    "= unbound(y)  (3 steps)",
    "= ok(truth(true))  (9 steps)",
    "= ok(list(cons(s(z),cons(s(s(z)),nil))))  (18 steps)",
]

# Mistakes: what is written in place of what, where an error is, its code, a part of its message, the location that it
# leads to, and the fixes that are offered. A location is a part of the mistaken text, whose first character is meant.
MISTAKES = (
    ("length : Nats", "length : Nts", ("Nts", "S4", "did you mean `Nats`?", None),
        ["Write `Nats`", "Write `Nat`", "Add `Nts` to SORTS"]),
    ("B C : Bool", "B C : bool", ("bool", "S4", "did you mean `Bool`?", None),
        ["Write `Bool`", "Add `bool` to SORTS"]),
    ("times(z,N) -> z", "times(z,P) -> z", ("P) -> z", "S5", "declare it in VARS", None), ["Add `P : Nat` to VARS"]),
    ("onto(L,cons(N,K))", "onot(L,cons(N,K))", ("onot", "S5", "did you mean `onto`?", None),
        ["Write `onto`", "Write `not`"]),
    ("s(plus(M,N))", "s(plus(M))", ("plus(M))", "S6", "plus takes 2 arguments, found 1", None), []),
    ("s(plus(M,N))", "s(plus(M,N,N))", ("plus(M,N,N)", "S6", "plus takes 2 arguments, found 3", None), []),
    ("number(times(M,N))", "times(M,N)", ("times(M,N))\n  apply-less", "S7", "expected Value, found Nat", None), []),
    ("not : Bool", "plus : Nat Nat -> Nat\n  not : Bool",
        ("plus : Nat Nat -> Nat\n  not", "S2", "already declared", "  plus : Nat"), []),
    # the next line is read on as a part of the rule
    ("if M ->/<- N", "if", ("-> false\n  not(false)", "G", "the rule starts on line", "equal(M,N) -> false"), []),
    ("if M ->/<- N", "if M ->/<-", ("-> false\n  not(false)", "G", "the rule starts on line", "equal(M,N) ->"), []),
    ("if below(N,M) -><- true", "if below(N,M)",
        ("insert(M,cons(N,L)) -> cons(M", "G", "the rule starts on line", "insert(M,cons(N,L)) -> cons(N"), []),
    ("if M ->/<- N", "if M != N", ("!=", "G", "did you mean `->/<-`?", None), ["Write `->/<-`"]),
    ("plus(N,times(M,N))", "plus(N,times(M,N)",
        ("below(M,z)", "G", "this parenthesis is not closed", "(N,times(M,N)\n"), []),
    ("plus(N,times(M,N))", "plus(N,times(M,N)))",
        (")\n  below(M,z)", "G", "no parenthesis is open", ")\n  below(M,z)"), []),
    ("run(var(y))", "run(var(y)", ("run(choose(", "G", "this parenthesis is not closed", "(var(y)\n"), []),
    ("plus(z,N) -> N", "plus(z,N) => N", ("=>", "G", "did you mean `->`?", None), ["Write `->`"]),
)


def place_of(text, part):
    """The position of the first character of a part of a text."""
    at = text.index(part)
    return position(text.count("\n", 0, at), at - text.rfind("\n", 0, at) - 1)


def errors(client):
    return [it for it in client.diagnostics(URI) if it["severity"] == 1]


def written(client, text):
    """The lines are written below their sections, which were put in at first; none is told to be wrong."""
    client.open("", URI)
    found = {it["label"]: it for it in client.at("completion", position(0, 0), URI)}
    same("new user: at the beginning", ["REC-SPEC", "REC-SPEC ... END-SPEC"], sorted(found))
    same("new user: all sections", SKELETON, found["REC-SPEC ... END-SPEC"]["textEdit"]["newText"])
    same("new user: nothing is there", ["G"], [it["code"] for it in errors(client)])
    lines = text.split("\n")
    begin = lines.index("REC-SPEC Evaluator")
    now = SKELETON.replace("Name", "Evaluator").split("\n")
    client.change("\n".join(now), uri=URI)
    same("new user: sections", [], client.diagnostics(URI))
    at = 1
    for line in lines[begin + 1 : lines.index("END-SPEC")]:
        if not line.startswith(" "):
            at = now.index(line) + 1
            continue
        client.change((position(at, 0), position(at, 0), f"{line}\n"), uri=URI)
        now.insert(at, line)
        at += 1
        same(f"new user: {line}", [], errors(client))
    same("new user: the text", lines[begin:], now)
    found = client.about_text("codeLens", URI)
    same("new user: values", VALUES, [it["command"]["title"] for it in found])


def without_end(client, text):
    """Without END-SPEC, that is told at the end; and other errors, and values, are shown as with it."""
    text = text.replace("END-SPEC\n", "")
    end = position(text.count("\n"), 0)
    client.change(text, uri=URI)
    found = errors(client)
    same("new user: no END-SPEC", [("G", {"start": end, "end": end})], [(it["code"], it["range"]) for it in found])
    fixes = client.about_text("codeAction", URI, range=found[0]["range"], context={"diagnostics": found})
    same("new user: END-SPEC is offered", ["Add `END-SPEC`"], [it["title"] for it in fixes])
    found = client.about_text("codeLens", URI)
    same("new user: values without END-SPEC", VALUES, [it["command"]["title"] for it in found])
    client.change(text.replace("length : Nats", "length : Nts"), uri=URI)
    same("new user: no END-SPEC and a misspelt sort", ["G", "S4"], [it["code"] for it in errors(client)])
    half = text[: text.index("insert(N,nil)") + len("insert(N,")].replace("times(z,N) -> z", "times(z,P) -> z")
    client.change(half, uri=URI)
    same("new user: half a text", ["G", "S5"], [it["code"] for it in errors(client)])


def mistakes(client, text):
    """Each mistake has its message, and the fixes; one that ends the reading hides no other error."""
    other = text.replace("  less : Expr", "  less : Epxr")
    for before, after, (part, code, message, leads), fixes in MISTAKES:
        same(f"new user: {before} is there", True, before in text)
        wrong = text.replace(before, after, 1)
        client.change(wrong, uri=URI)
        place = place_of(wrong, part)
        found = errors(client)
        of_place = [it for it in found if it["range"]["start"] == place]
        same(f"new user: {after}: {found}", [code], [it["code"] for it in of_place])
        same(f"new user: {after}: {of_place}", True, bool(of_place) and message in of_place[0]["message"])
        if not of_place:
            continue
        related = [it["location"]["range"]["start"]["line"] for it in of_place[0].get("relatedInformation", [])]
        same(f"new user: {after} leads to", [place_of(wrong, leads)["line"]] if leads else [], related)
        given = client.about_text("codeAction", URI, range=of_place[0]["range"], context={"diagnostics": of_place})
        same(f"new user: fixes of {after}", sorted(fixes), sorted(it["title"] for it in given))
        others = {"diagnostics": of_place, "only": ["refactor"]}
        given_else = client.about_text("codeAction", URI, range=of_place[0]["range"], context=others)
        same(f"new user: no refactorings of {after}", [], given_else)
        if fixes and message.startswith("did"):
            mended(client, wrong, given[0])
        if code == "G":
            client.change(other.replace(before, after, 1), uri=URI)
            same(f"new user: {after} with a misspelt sort", ["G", "S4"], [it["code"] for it in errors(client)])


def mended(client, wrong, action):
    """The first fix, whose title is what is meant, leaves no error."""
    [edit] = action["edit"]["changes"][URI]
    lines, begin, end = wrong.split("\n"), edit["range"]["start"], edit["range"]["end"]
    line = lines[begin["line"]]
    lines[begin["line"]] = line[: begin["character"]] + edit["newText"] + line[end["character"] :]
    client.change("\n".join(lines), uri=URI)
    same(f"new user: {action['title']}", [], errors(client))


def added(client, text):
    """What is added elsewhere: a sort, a variable, the end. It leaves no error."""
    for before, after in (("times(z,N) -> z", "times(z,P) -> z"), ("  Bool Nat ", "  Nat "), ("END-SPEC\n", "")):
        client.change(text.replace(before, after), uri=URI)
        found = errors(client)
        given = client.about_text("codeAction", URI, range=found[0]["range"], context={"diagnostics": found})
        [edit] = [it for it in given if it["title"].startswith("Add")][0]["edit"]["changes"][URI]
        client.change((edit["range"]["start"], edit["range"]["end"], edit["newText"]), uri=URI)
        same(f"new user: {given[-1]['title']}", [], errors(client))


def helped(client, text):
    """While an application is written its sorts are shown, and words of the sort that is expected come first."""
    client.change(text, uri=URI)
    client.diagnostics(URI)
    rule = "  times(s(M),N) -> plus(N,times(M,N))"
    row = text.split("\n").index(rule)
    client.change((position(row + 1, 0), position(row + 1, 0), "  times(plus(M,N),\n"), uri=URI)
    same("new user: half a rule", ["G"], [it["code"] for it in errors(client)])
    shown = "times : Nat Nat -> Nat"
    for character, number in ((8, 0), (13, 0), (19, 1)):
        found = client.at("signatureHelp", position(row + 1, character), URI)
        label = "plus : Nat Nat -> Nat" if character == 13 else shown
        place = (found["signatures"][0]["label"], found["activeParameter"]) if found else None
        same(f"new user: what is applied at {character}", (label, number), place)
    signature = client.at("signatureHelp", position(row + 1, 19), URI)["signatures"][0]
    same("new user: its arguments", [[8, 11], [12, 15]], [it["label"] for it in signature["parameters"]])
    same("new user: nothing is applied", None, client.at("signatureHelp", position(row + 1, 3), URI))
    found = sorted(client.at("completion", position(row + 1, 19), URI), key=lambda it: it["sortText"])
    first = [it["label"] for it in found if it["sortText"].startswith("0")]
    same("new user: what is a Nat", ["M", "N", "length", "plus", "s", "times", "z"], first)
    reserved = [it["label"] for it in found if it["label"] in ("if", "EVAL")]
    same("new user: no reserved word in an application", [], reserved)
    client.change((position(row + 1, 19), position(row + 1, 19), "N,M"), uri=URI)
    found = client.at("signatureHelp", position(row + 1, 22), URI)
    same("new user: one argument too many", [], found["signatures"][0]["parameters"])
    found = client.at("hover", position(row, 3), URI)["contents"]["value"].split("\n")[0]
    same("new user: hover", "operator times : Nat Nat -> Nat", found)
    same("new user: hover of what is not declared", "onot is not declared", hover_of(client, text))


def hover_of(client, text):
    wrong = text.replace("onto(L,cons(N,K))", "onot(L,cons(N,K))")
    client.change(wrong, uri=URI)
    return client.at("hover", place_of(wrong, "onot"), URI)["contents"]["value"]


def renamed(client, text):
    """A symbol is renamed while a rule is half written: with all its uses, and no others."""
    half = text.replace("equal(M,N) -> false if M ->/<- N", "equal(M,N) -> false if M ->/<-")
    client.change(half, uri=URI)
    client.diagnostics(URI)
    found = client.at("rename", place_of(half, "onto(nil"), URI, newName="reverse-onto")
    lines = [it["range"]["start"]["line"] for it in found["changes"][URI]]
    wanted = [row for row, line in enumerate(half.split("\n")) for _ in range(line.count("onto"))]
    same("new user: a rename", wanted, lines)
    found = client.at("rename", place_of(half, "onto(nil"), URI, newName="insert")
    same("new user: a rename to a name that is there", True, "declared on line" in found["error"]["message"])


def try_new_user():
    with open(f"{TOP}/tests/evaluator.rec", encoding="ascii") as file:
        text = file.read()
    client = Client(documents=ABLE)
    for part in (written, without_end, mistakes, added, helped, renamed):
        part(client, text)
    same("new user: nothing is told otherwise", [], client.shown)
    same("new user: the end", (None, 0), client.close())
