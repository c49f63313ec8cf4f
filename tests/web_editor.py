"""What tests/web.py has Chromium do in the editors of the page, with its limits, and with what it saves and copies."""

import glob
import itertools
import re
import shlex
import time

from common import TOP, same, text_of

CONTROL, SHIFT, ESCAPE = "\ue009", "\ue008", "\ue00c"
ENTER, TAB, SPACE = "\ue007", "\ue004", " "
LEFT, RIGHT, DOWN, HOME, END, PAGE_DOWN = "\ue012", "\ue014", "\ue015", "\ue011", "\ue010", "\ue00f"
SAID = "return document.getElementById('said').textContent"
TEXT = "return editors[arguments[0]].text"
# A text that is pasted over all that is in an editor. To paste nothing changes nothing, so then all is deleted.
PASTE = """const it = editors[arguments[0]], data = new DataTransfer();
it.select({from: 0, to: it.text.length}); data.setData('text/plain', arguments[1]);
if (arguments[1] === '') it.putSelection('');
else it.area.dispatchEvent(new ClipboardEvent('paste', {clipboardData: data, bubbles: true, cancelable: true}));
return [it.sheet.scrollTop, it.text === arguments[1]][1]"""
CARET = "const it = editors[arguments[0]]; it.select({from: arguments[1], to: arguments[2] ?? arguments[1]})"
SELECTED = """const it = editors[arguments[0]], {anchor, head} = it.selection;
return it.text.slice(Math.min(anchor, head), Math.max(anchor, head))"""
LIMIT = """const it = document.getElementById(arguments[0]);
it.value = arguments[1]; it.dispatchEvent(new Event('input'));"""
# What the page saves and copies is kept here, and workers are counted.
KEEP = """window.failures = [];
addEventListener('error', (it) => failures.push(it.message));
addEventListener('unhandledrejection', (it) => failures.push(String(it.reason)));
window.saved = {}; window.copied = null; window.workers = 0;
const create = URL.createObjectURL, click = HTMLAnchorElement.prototype.click;
let blob = null;
URL.createObjectURL = (it) => { blob = it; return create.call(URL, it); };
HTMLAnchorElement.prototype.click = function () {
  const {download} = this;
  if (download) blob.text().then((it) => { window.saved[download] = it; });
};
Object.defineProperty(navigator, 'clipboard', {value: {writeText: async (it) => { window.copied = it; }}});
window.Worker = class extends Worker { constructor(...it) { super(...it); window.workers += 1; } };"""
MARKS = """return [...document.querySelectorAll('#' + arguments[0] + ' .' + arguments[1] + '-place')]
    .map((it) => it.textContent).join(' ')"""
# What a select has under a name is chosen, as by hand.
CHOOSE = """const it = document.getElementById(arguments[0]);
it.value = [...it.options].find((one) => one.textContent === arguments[1]).value;
it.dispatchEvent(new Event('change'));"""
# Whether a limit is told to be wrong, in which words, and whether it is red.
WRONG = """const it = document.getElementById(arguments[0]), by = it.getAttribute('aria-describedby');
const red = getComputedStyle(document.documentElement).getPropertyValue('--bad').match(/\\w\\w/g);
const isRed = getComputedStyle(it).borderTopColor === `rgb(${red.map((one) => parseInt(one, 16)).join(', ')})`;
return [it.getAttribute('aria-invalid'), by && document.getElementById(by).textContent, isRed]"""
# What a table of uses tells of each: where the word is and what it names; and so of what declares it.
USES = """const told = ({from, kind, name, declared, of}) => [from, kind, name, declared?.from ?? null, of];
return usesOf(arguments[0])?.map(told) ?? null"""
TOLD = "return document.querySelector('.told:not([hidden])')?.innerText.trim()"
RENAMING = """const it = document.querySelector('#spec .rename');
return it.hidden ? null : it.querySelector('[role=status]').textContent"""
MOST_A_KEY = 50           # milliseconds of the page's thread for a key
MOST_TO_PUT = 1000        # milliseconds


def paste(browser, editor, text):
    same(f"{editor} has what is pasted", True, browser.do(PASTE, editor, text))


def said(browser, part):
    """Waits until the page says something with this part of a run over what is there now, and gives all of it."""
    is_busy = str(part == "Evaluating…").lower()
    return browser.wait(f"""const it = document.getElementById('said').textContent;
return !pause && document.body.getAttribute('aria-busy') === '{is_busy}' && it.includes({part!r}) && it""")


def limits(browser):
    """A limit that is no number within its range is marked, with a sentence, and nothing is run."""
    paste(browser, "terms", "")
    paste(browser, "spec", text_of("examples/add.rec"))
    said(browser, "1 line")
    for name, least, most in (("steps", 0, 10**18), ("cells", 1, 2**30), ("memo", 0, 2**20), ("reclaim", 1, 2**30)):
        usual = browser.do("return document.getElementById(arguments[0]).value", name)
        sentence = f"{name.capitalize()} is a whole number from {least:,} to {most:,}."
        for wrong in ("", "x", "-1", "1.5", "1e3", str(most + 1), *["0"] * least):
            browser.do("window.workers = 0")
            browser.do(LIMIT, name, wrong)
            words = f"Nothing was run: correct the limit {name.capitalize()}."
            same(f"{name} of {wrong!r} is told", words, said(browser, "Nothing was run"))
            same(f"{name} of {wrong!r} is marked", ["true", sentence, True], browser.do(WRONG, name))
            browser.do("document.getElementById('run').click()")
            same(f"nothing is run with {name} of {wrong!r}", 0, browser.do("return window.workers"))
        browser.do(LIMIT, name, str(most))
        said(browser, "1 line")
        same(f"{name} of {most} is good", ["false", None, False], browser.do(WRONG, name))
        browser.do(LIMIT, name, usual)
    memo_reaches_the_run(browser)


def memo_reaches_the_run(browser):
    """Without a memo table it has no hits; with the usual one examples/lambda.rec has some. So with collections."""
    paste(browser, "spec", text_of("examples/lambda.rec"))
    paste(browser, "terms", text_of("examples/lambda.trm"))
    browser.do("document.getElementById('tab-profile').click()")
    hits = "return /([1-9][0-9,]*) hits? of/.exec(document.getElementById('profile-said').textContent)?.[1]"
    same("the memo table is used", True, browser.wait(hits) is not None)
    browser.do(LIMIT, "memo", "0")
    none = "return document.getElementById('profile-said').textContent.includes(' 0 hits ')"
    same("a memo of none is not", True, browser.wait(none))
    browser.do(LIMIT, "memo", "65536")
    browser.wait(hits)
    told = "/([0-9,]+) garbage collections?/.exec(document.getElementById('profile-said').textContent)?.[1]"
    for reclaim, how in (("1073741824", "== 0"), ("100", "!= 0"), ("262144", "")):
        browser.do(LIMIT, "reclaim", reclaim)
        found = browser.wait(f"const it = {told}; return it && it {how}")
        same(f"collections with a reclaim of {reclaim}", True, found is not None)
    rules = "return [...document.querySelectorAll('#profile tbody tr')].map((it) => it.textContent)"
    first, *_ = browser.do(rules)
    same("the first rule", True, first.startswith("60:3 evaluate(M) -> result(type(M, nothing), M)"))
    browser.do("document.querySelectorAll('#profile th button')[1].click()")
    counts = [int(it) for it in browser.text("#profile tbody [data-head=Matched]").split("|")]
    same("rules by their matches", sorted(counts, reverse=True), counts)
    browser.do("document.querySelector('#profile tbody button').click()")
    same("one goes to a rule", True, "->" in browser.do(SELECTED, "spec"))
    browser.do("document.getElementById('tab-values').click()")
    paste(browser, "terms", "")


def choose(browser, title):
    browser.do(CHOOSE, "examples", title)


def examples(browser):
    """An example takes the place of another one at once, and of what was typed if that is wanted; it can be undone."""
    opened = "return document.getElementById('replace').open"
    browser.do("showExample(data.examples[0])")
    choose(browser, "a set")
    same("an example is shown at once", text_of("examples/tutorial/set.rec"), browser.do(TEXT, "spec"))
    same("and nothing is asked", False, browser.do(opened))
    paste(browser, "terms", "[add(z,nil)]")
    browser.do(CARET, "spec", 0)
    browser.press("%")
    mine = browser.do(TEXT, "spec")
    same("it was typed", True, mine.startswith("%%"))
    for way in ("document.getElementById('replace-no').click()", None):
        choose(browser, "derivatives")
        same("it is asked before", True, browser.do(opened))
        same("nothing is replaced before", [mine, "[add(z,nil)]"], [browser.do(TEXT, it) for it in ("spec", "terms")])
        browser.do(way) if way else browser.press(ESCAPE)
        same("the text is kept", [mine, False, ""], [browser.do(TEXT, "spec"), browser.do(opened),
            browser.do("return document.getElementById('examples').value")])
    choose(browser, "derivatives")
    browser.do("document.getElementById('replace-yes').click()")
    same("it is replaced", [text_of("examples/derive.rec"), text_of("examples/derive.trm")],
        [browser.do(TEXT, it) for it in ("spec", "terms")])
    browser.do("editors.spec.area.focus()")
    browser.press(CONTROL, "z")
    same("undo restores both", [mine, "[add(z,nil)]"], [browser.do(TEXT, it) for it in ("spec", "terms")])
    browser.press(CONTROL, "y")
    same("redo too", text_of("examples/derive.trm"), browser.do(TEXT, "terms"))
    paste(browser, "terms", "")


def typing(browser):
    """What keys do in an editor whose area has only a window of the text."""
    lines = [f"% line {i:05}" for i in range(5000)]
    paste(browser, "spec", "\n".join(lines))
    same("the area has a part", True, browser.do("return editors.spec.area.value.length < 20000"))
    middle = 13 * 2500
    browser.do(CARET, "spec", middle)
    browser.press("x")
    browser.press(ENTER)
    browser.press("\ue003")
    browser.press("y")
    lines[2500] = f"xy{lines[2500]}"
    same("keys in the middle", True, browser.do(TEXT, "spec") == "\n".join(lines))
    browser.press(CONTROL, END)
    browser.press("z")
    same("at the end", True, browser.do(TEXT, "spec") == "\n".join([*lines[:-1], f"{lines[-1]}z"]))
    browser.do("editors.spec.sheet.scrollTop = 0")
    time.sleep(0.2)
    browser.press("w")
    same("a key comes to the caret", True, browser.do(TEXT, "spec").endswith("zw"))
    same("and shows it", True, browser.do("return editors.spec.sheet.scrollTop > 90000"))
    browser.press(CONTROL, HOME)
    for _ in range(3):
        browser.press(PAGE_DOWN)
    browser.press(SHIFT, DOWN)
    row = browser.do("return editors.spec.model.rowOf(editors.spec.selection.head)")
    same("pages go down", True, 15 < row < 200)
    same("a selection by keys", f"{lines[row - 1]}\n", browser.do(SELECTED, "spec"))
    browser.press(CONTROL, "a")
    same("all is selected", len("\n".join(lines)) + 2, len(browser.do(SELECTED, "spec")))
    copied = browser.do("""const data = new DataTransfer();
editors.spec.area.dispatchEvent(new ClipboardEvent('copy', {clipboardData: data, cancelable: true}));
return data.getData('text/plain').length""")
    same("and copied", len("\n".join(lines)) + 2, copied)
    browser.press("q")
    same("and typed over", "q", browser.do(TEXT, "spec"))
    browser.press(CONTROL, "z")
    same("and undone", len("\n".join(lines)) + 2, len(browser.do(TEXT, "spec")))


def long_lines(browser):
    """A long line is shown in rows, which are no lines of the text."""
    line = "[" + ",".join(["s(z)"] * 1000) + "]"
    paste(browser, "terms", line)
    same("rows", 11, browser.do("return editors.terms.model.rows"))
    numbers = "return document.querySelector('#terms .numbers').textContent.trim()"
    same("one line", "\n".join(["1", *"··········"]), browser.do(numbers))
    browser.do(CARET, "terms", 500)
    browser.press("\ue003")
    same("before a row", line[:499] + line[500:], browser.do(TEXT, "terms"))
    browser.press("0")
    same("a key at the end of a row", line[:499] + "0" + line[500:], browser.do(TEXT, "terms"))
    shown = browser.do("return editors.terms.area.value.replaceAll('\\n', '')")
    same("the area has it", line[:499] + "0" + line[500:], shown)
    paste(browser, "terms", "")


def brackets(browser):
    paste(browser, "spec", "REC-SPEC B % ( \nEVAL f(a,g(b))\nEND-SPEC")
    begin = browser.do(TEXT, "spec").index("f(")
    browser.do(CARET, "spec", begin + 2)
    same("the pair is marked", "( )", browser.do(MARKS, "spec", "pair"))
    browser.press(RIGHT)
    same("and not elsewhere", True, browser.wait("return document.querySelector('#spec .pair-place') === null"))
    browser.do(CARET, "spec", begin + 9)
    browser.press("\ue003")
    browser.do(CARET, "spec", begin + 2)
    same("one that is alone", "(", browser.do(MARKS, "spec", "lone"))
    paste(browser, "spec", text_of("examples/add.rec"))


def find(browser):
    """All places are counted and marked; keys go from one to the next, also in a text that the area has in part."""
    text = "\n".join(f"% {i} needle" if i % 1000 == 0 else f"% {i}" for i in range(5000))
    paste(browser, "spec", text)
    browser.press(CONTROL, HOME)
    browser.press(CONTROL, "f")
    same("the bar has the focus", "Find", browser.do("return document.activeElement.ariaLabel"))
    for it in "needle":
        browser.press(it)
    told = "return document.querySelector('#spec .find [role=status]').textContent"
    same("places are counted", "1 of 5", browser.do(told))
    for number in (2, 3, 4, 5, 1):
        browser.press(ENTER)
        same("the next place", [f"{number} of 5", "needle"], [browser.do(told), browser.do(SELECTED, "spec")])
    browser.press(SHIFT, ENTER)
    same("the place before", "5 of 5", browser.do(told))
    same("it is marked", "needle", browser.wait("return document.querySelector('#spec .sought-place')?.textContent"))
    browser.press("s")
    same("nothing", "not found", browser.do(told))
    browser.press(ESCAPE)
    closed = "return [document.querySelector('#spec .find').hidden, document.activeElement === editors.spec.area]"
    same("the bar closes", [True, True], browser.do(closed))
    paste(browser, "spec", text_of("examples/add.rec"))
    said(browser, "1 line")


def completion(browser):
    text = text_of("examples/tutorial/sort.rec")
    paste(browser, "spec", text)
    said(browser, "1 line")
    at = text.index("insert(X, nil) ")
    browser.do(CARET, "spec", at)
    browser.press("l")
    browser.press("e")
    browser.press(CONTROL, SPACE)
    same("the only one is put in", text[:at] + "less" + text[at:], browser.do(TEXT, "spec"))
    for _ in range(4):
        browser.press("\ue003")
    browser.press("s")
    browser.press(CONTROL, SPACE)
    offers = "return [...document.querySelectorAll('#spec .offers li')].map((it) => it.textContent)"
    same("some are offered", ["sort : List -> List operator", "SORTS  reserved"], browser.do(offers))
    browser.press(DOWN)
    chosen = browser.do("return document.querySelector('#spec .offers [aria-selected=true] b').textContent")
    browser.press(ENTER)
    same("one is chosen", text[:at] + chosen + text[at:], browser.do(TEXT, "spec"))
    browser.press(CONTROL, SPACE)
    browser.press(ESCAPE)
    same("none is", text[:at] + chosen + text[at:], browser.do(TEXT, "spec"))
    paste(browser, "spec", text)


# The tokens of a specification: comments, words and marks.
TOKENS = re.compile(r"%[^\n]*|([A-Za-z0-9_](?:[A-Za-z0-9_']|-(?=[A-Za-z0-9_]))*)|->/<-|-><-|->|[:(),]")
SECTIONS = ("SORTS", "CONS", "OPNS", "VARS", "RULES", "EVAL")


def words_of(text):
    """The words of a good specification but its title and the reserved ones: section, offset, word, and how it stands:
    `sort`, `name` where it is declared, or `use`."""
    section, is_after_colon, is_last, found = None, False, False, []
    for it in TOKENS.finditer(text):
        token, word = it[0], it[1]
        if word in SECTIONS:
            section, is_after_colon = word, False
        elif word and section and word not in ("END-SPEC", "if", "and-if"):
            is_sort = section == "SORTS" or is_after_colon
            how = "sort" if is_sort else "name" if section in ("CONS", "OPNS", "VARS") else "use"
            found.append((section, it.start(), word, how))
            # a sort ends a group of variables, and the one behind an arrow a declaration
            is_after_colon = is_after_colon and section != "VARS" and not is_last
            is_last = False
        elif section in ("CONS", "OPNS", "VARS"):
            is_after_colon, is_last = is_after_colon or token == ":", token == "->"
    return found


def uses_of(text):
    """What each word names: its offset, kind, name, the offset of its declaration, and the sorts there."""
    words, sorts, names = words_of(text), {}, {}
    kinds = {"CONS": "constructor", "OPNS": "operator", "VARS": "variable"}
    for number, (section, at, word, how) in enumerate(words, 1):
        if section == "SORTS":
            sorts.setdefault(word, at)
        elif how == "name":
            behind = itertools.dropwhile(lambda it: it[0] == "VARS" and it[3] == "name", words[number:])
            *first, own = [it[2] for it in itertools.takewhile(lambda it: it[3] == "sort", behind)]
            of = own if section == "VARS" else " ".join([*first, "->", own])
            names.setdefault(word, (kinds[section], at, of))
    found = []
    for _, at, word, how in words:
        of_sort, of_name = ("sort", sorts.get(word), ""), names.get(word, ("undeclared", None, ""))
        kind, declared, of = of_sort if how == "sort" else of_name
        found.append([at, kind, word, declared, of])
    return found


def uses(browser):
    """The table of uses, of each example and of an undeclared word, beside a second description."""
    texts = [text_of(it[len(TOP) + 1 :]) for it in sorted(glob.glob(f"{TOP}/examples/**/*.rec", recursive=True))]
    texts.append(text_of("examples/add.rec").replace("plus(X,Y))", "minus(X,Q))").replace("Y : Nat", "Y : Not"))
    counts = 0
    for text in texts:
        found = browser.do(USES, text)
        if found is not None:
            same(f"uses of {text[:60]!r}", uses_of(text), found)
            counts += len(found)
    same("of all examples", True, counts > 3000)
    same("none outside of the grammar", None, browser.do(USES, "REC-SPEC A EVAL f( END-SPEC"))


def point_at(browser, at):
    """Brings the mouse onto a character of the specification, from beside it."""
    browser.point(1, 1)
    browser.do("editors.spec.reveal({from: arguments[0]})", at)
    time.sleep(0.2)
    box = browser.do("return editors.spec.boxOf(arguments[0])", at)
    browser.point(box["left"] + 3, (box["top"] + box["bottom"]) / 2)


def hover(browser):
    """The pointer on a word shows what it names, its sorts, and where it is declared."""
    text = text_of("examples/add.rec").replace("plus(X,Y))", "plus(X,Q))").replace("REC-SPEC", "% plus\nREC-SPEC")
    paste(browser, "spec", text)
    for word, at, wanted in (
        ("plus", text.index("plus(s"), "operator plus : Nat Nat -> Nat\ndeclared at line 8, column 3; 5 locations"),
        ("z", text.index("z : "), "constructor z : -> Nat\ndeclared at line 5, column 3; 4 locations"),
        ("Nat", text.index("Nat ->"), "sort Nat\ndeclared at line 3, column 7; 8 locations"),
        ("Y", text.index("-> Y") + 3, "variable Y : Nat\ndeclared at line 10, column 5; 4 locations"),
        ("Q", text.index("Q"), "Q\nnot declared"),
    ):
        point_at(browser, at)
        same(f"what {word} names", wanted, browser.wait(TOLD))
        browser.press(ESCAPE)
        same(f"what {word} names goes", None, browser.do(TOLD))
    for it in ("plus", "Add", "EVAL"):
        # in a comment, the title, and a reserved word
        point_at(browser, text.index(it))
        time.sleep(1)
        same(f"{it} names nothing", None, browser.do(TOLD))
    point_at(browser, text.index("plus(z"))
    browser.wait(TOLD)
    browser.press("%")
    same("a key hides it", None, browser.do(TOLD))
    paste(browser, "spec", text_of("examples/add.rec"))


def renamed(browser, at, word):
    """Opens the bar for a word, and types another name."""
    browser.do(CARET, "spec", at)
    browser.press("\ue032")
    same("the bar has the focus", "New name", browser.do("return document.activeElement.ariaLabel"))
    told = browser.wait(RENAMING)
    browser.press(CONTROL, "a")
    for it in word:
        browser.press(it)
    browser.press(ENTER)
    return told


def rename(browser):
    """All places that name the same are changed at once, and no other; values stay."""
    text = text_of("examples/while.rec")
    paste(browser, "spec", text)
    paste(browser, "terms", "")
    said(browser, "3 lines")
    for before, after in (("below", "less-than"), ("Store", "M0"), ("zero", "0"), ("run", "Some_run'")):
        text = browser.do(TEXT, "spec")
        table = uses_of(text)
        use = next(it for it in reversed(table) if it[2] == before)
        told = renamed(browser, use[0] + 1, after)
        same(f"{before} is told", True, f" {before}" in (told or "") and "declared at line" in told)
        wanted = text
        for place, *_, declared, _ in reversed(table):
            if declared == use[3]:
                wanted = wanted[:place] + after + wanted[place + len(before) :]
        changed = browser.wait(f"const it = editors.spec.text; return it !== {text!r} && it")
        same(f"{before} is {after}", wanted, changed)
        same(f"the values with {after}", True, said(browser, "3 lines") is not None)
        browser.press(CONTROL, "z")
        same(f"{after} is undone", text, browser.do(TEXT, "spec"))
        browser.press(CONTROL, "y")
    same("uses of renamed words", uses_of(browser.do(TEXT, "spec")), browser.do(USES, browser.do(TEXT, "spec")))
    browser.do("document.getElementById('run').click()")
    said(browser, "3 lines")
    refused_names(browser)


def refused_names(browser):
    """No plain word, a reserved one, one that is declared; and where there is nothing to rename."""
    text = text_of("examples/add.rec")
    paste(browser, "spec", text)
    at = text.index("plus(z")
    for word, wanted in (
        ("a b", "A name consists of ASCII letters, digits, _, ' and single -."),
        ("x-", "A name consists of ASCII letters, digits, _, ' and single -."),
        ("EVAL", "EVAL is a reserved word."),
        ("s", "s is already declared."),
        ("X", "X is already declared."),
    ):
        renamed(browser, at, word)
        same(f"{word} is refused", wanted, browser.wait(f"{RENAMING} === {wanted!r} && {wanted!r}"))
        same(f"nothing is {word}", text, browser.do(TEXT, "spec"))
        browser.press(ESCAPE)
    paste(browser, "spec", text.replace("-> Y", "-> Q"))
    told = renamed(browser, text.index("-> Y") + 3, "W")
    same("what is not declared is told", "Q, not declared", told)
    refused = "return document.querySelector('#spec .rename input').getAttribute('aria-invalid') === 'true'"
    same("and is not renamed", [True, 1], [browser.wait(refused), browser.do(TEXT, "spec").count("Q")])
    browser.press(ESCAPE)
    paste(browser, "spec", text)
    focus = "return [document.querySelector('#spec .rename').hidden, document.activeElement === editors.spec.area]"
    same("the bar closes", [True, True], browser.do(focus))
    browser.do(CARET, "spec", text.index("Add"))
    browser.do("document.getElementById('rename').click()")
    script = "return document.querySelector('#spec .rename [role=status]').textContent"
    same("a title is no name", True, browser.wait(f"{script} === 'There is no name at the caret.'"))
    browser.press(ESCAPE)
    paste(browser, "spec", f"{text} f(")
    browser.do("document.getElementById('rename').click()")
    words = "The specification is outside the grammar: correct it first."
    same("nor is there one outside of the grammar", True, browser.wait(f"{script} === {words!r}"))
    browser.press(ESCAPE)
    paste(browser, "spec", text)
    said(browser, "1 line")


def saved(browser, name):
    return browser.wait(f"return window.saved[{name!r}]")


def kept(browser):
    """A value is copied, and traces and pictures are saved."""
    paste(browser, "spec", text_of("examples/add.rec"))
    paste(browser, "terms", "[s(z),plus(s(z),z)]")
    said(browser, "3 lines")
    browser.do("document.querySelectorAll('#values .copy button')[2].click()")
    same("a value is copied", "s(z)", browser.wait("return window.copied"))
    browser.do("document.querySelector('#values .copy button').focus()")
    browser.press(DOWN)
    focus = browser.do("return document.activeElement.ariaLabel || document.activeElement.getAttribute('aria-label')")
    same("keys go from one to the next", "Copy value 2", focus)
    reached = "return [...document.querySelectorAll('#values .copy button')].map((it) => it.tabIndex)"
    same("Tab comes to one", [-1, 0, -1], browser.do(reached))
    browser.do("document.getElementById('tab-firings').click()")
    browser.wait("return document.getElementById('firings-said').textContent.includes('Rewrite 1 of 3')")
    browser.do("document.getElementById('firings-save').click()")
    trace = "12:3: plus(s(s(z)),s(z)) -> s(plus(s(z),s(z)))\t1\n12:3: plus(s(z),s(z)) -> s(plus(z,s(z)))\t2\n"
    same("a trace is saved", True, (saved(browser, "trace.txt") or "").startswith(trace))
    browser.do("document.getElementById('tab-graph').click()")
    browser.wait("return document.querySelector('.node')")
    browser.do("document.getElementById('graph-save').click()")
    picture = saved(browser, "graph.svg") or ""
    same("a picture is saved", [True, True], ["<svg" in picture[:5], 'xmlns="http://www.w3.org/2000/svg"' in picture])
    same("with its own colours", False, "var(" in picture)
    browser.do("document.getElementById('tab-values').click()")
    paste(browser, "terms", "")


def large_spec(kilobytes):
    """A specification of about so many kilobytes, with a rule for each of its operators."""
    count = kilobytes * 1000 // 54
    operators = [f"  op{i} : N N -> N" for i in range(count)]
    rules = [f"  op{i}(s(X),Y) -> s(op{(7 * i + 1) % count}(X,Y))" for i in range(count)]
    head, middle = "REC-SPEC Large\nSORTS N\nCONS\n  z : -> N\n  s : N -> N\nOPNS", "VARS\n  X Y : N\nRULES"
    return "\n".join([head, *operators, middle, *rules, "EVAL", "  op1(s(z),z)", "END-SPEC", ""])


def speed(browser):
    """How long the page's thread is busy with a key in a large specification, and with large input terms."""
    spec = large_spec(540)
    same("540 KB", True, len(spec) > 540000)
    paste(browser, "spec", spec)
    said(browser, "1 line")
    browser.do(CARET, "spec", spec.index("RULES") + 3000)
    time.sleep(1)
    browser.devtools("Performance.enable", {"timeDomain": "threadTicks"})
    keys = 20
    begin = busy(browser)
    for i in range(keys):
        browser.press("% x"[i % 3])
        time.sleep(0.05)
    each = (busy(browser) - begin) / keys
    same(f"a key takes {each:.0f} ms", True, each < MOST_A_KEY)
    browser.do("editors.spec.text = arguments[0]; editors.spec.tell()", text_of("examples/add.rec"))
    said(browser, "1 line")
    for what, between in (("line", ","), ("lines", ",\n")):
        terms = "[" + between.join(["s(s(s(z)))"] * 250000) + "]"
        begin = busy(browser)
        paste(browser, "terms", terms)
        took = busy(browser) - begin
        same(f"{len(terms):,} bytes in {what} take {took:.0f} ms", True, took < MOST_TO_PUT)
        print(f"browser: {len(terms):,} bytes of terms in {what} are put in within {took:.0f} ms of the page's thread")
    print(f"browser: a key in {len(spec):,} bytes takes {each:.0f} ms of the page's thread")
    paste(browser, "terms", "")


def busy(browser):
    """For how many milliseconds of its own the page's thread has been busy."""
    measured = browser.devtools("Performance.getMetrics", {})["metrics"]
    return next(it["value"] for it in measured if it["name"] == "TaskDuration") * 1000


# Options of commands of the tutorial that the page does not show.
ELSEWHERE = {"--symbol", "--sizes", "--to-table", "--dot"}


def tutorial(browser):
    """Each specification of the tutorial is an example of the page, in which the commands over files show what the
    tutorial shows: values, errors, traces and checks."""
    blocks = re.findall(r"```(?:rec)?\n((?:%[^\n]*\n)?REC-SPEC.*?)```", text_of("docs/TUTORIAL.md"), re.S)
    shown = browser.do("return data.examples.map((it) => it.spec)")
    same("specifications of the tutorial", [], [it for it in blocks if it not in shown])
    shows = {"eval": tutorial_values, "trace": tutorial_trace, "check": tutorial_check}
    tried, written = {it: 0 for it in shows}, {}
    for line, wanted in re.findall(r"^\$ ([^\n]*)\n(.*?)(?=^\$|^```)", text_of("docs/TUTORIAL.md"), re.M | re.S):
        program, command, *words = shlex.split(line.removesuffix(" 2>&1"))
        if program == "printf":
            name = words[-1].lstrip(">")
            written[name] = written.get(name, "") + command.encode().decode("unicode_escape")
        files = [it for it in words if it.startswith("examples/") or it in written]
        if program != "recw" or ELSEWHERE.intersection(words) or not files:
            continue
        given = [words[i + 1] for i, it in enumerate(words) if it == "-e"]
        if files[0] in written:
            paste(browser, "terms", "")
            paste(browser, "spec", written[files[0]])
        else:
            show_files(browser, files)
        if given:
            paste(browser, "terms", f"[{','.join(given)}]")
        shows[command](browser, line, words, wanted.splitlines())
        tried[command] += 1
    same("of the tutorial are tried", {"eval": 13, "trace": 1, "check": 2}, tried)
    browser.do("document.getElementById('tab-values').click()")
    paste(browser, "terms", "")


def show_files(browser, files):
    spec, terms = text_of(files[0]), text_of(files[1]) if files[1:] else ""
    number = "return data.examples.findIndex((it) => it.spec === arguments[0] && it.terms === arguments[1])"
    at = browser.do(number, spec, terms)
    same(f"{files} is an example", True, at >= 0)
    browser.do("showExample(data.examples[arguments[0]]); editors.spec.tell()", at)


def tutorial_values(browser, line, words, wanted):
    limit = words[words.index("--steps") + 1] if "--steps" in words else None
    if limit:
        browser.do(LIMIT, "steps", limit)
        wanted = [f"over the limit of {limit} steps"]
    lines = [it.split("\t")[0] for it in wanted if not it.startswith("stuck: ")]
    if lines[0].startswith("!"):
        same(line, True, said(browser, f": {lines[0].split()[1]}, ") is not None)
    else:
        values = "[...document.querySelectorAll('#values [data-head=Value]')].map((it) => it.textContent).join('|')"
        same(line, True, browser.wait(f"return {values} === {'|'.join(lines)!r}"))
    if limit:
        browser.do(LIMIT, "steps", "1000000")


def tutorial_trace(browser, line, _, wanted):
    """The steps tell the same rules, redexes and what these become."""
    said(browser, "1 line")
    # what is said there is of the trace before
    browser.do("document.getElementById('firings-said').textContent = ''")
    browser.do("document.getElementById('tab-firings').click()")
    browser.wait(f"return document.getElementById('firings-said').textContent === 'Rewrite 1 of {len(wanted) - 1}'")
    for it in wanted[:-1]:
        place, row, column = re.match(r"((\d+):(\d+)): ", it).groups()
        shown = browser.text("#firing-place, #firing-redex, #firing-contractum").split("|")
        redex, contractum = it[len(place) + 2 :].split(" -> ")
        same(f"{line}: {it}", [f"Rule at line {row}, column {column}", redex, contractum], shown)
        browser.do("document.getElementById('firings-forth').click()")
    same(line, True, browser.text("#firings-end").endswith(f" the value is {wanted[-1]}"))
    browser.do("document.getElementById('tab-values').click()")


def tutorial_check(browser, line, _, wanted):
    browser.do("document.getElementById('tab-found').click()")
    lines = []
    for it in wanted:
        row, column, words, code = re.fullmatch(r"[^:]*:(\d+):(\d+): (?:error|warning): (.*) \[(\w+)\]", it).groups()
        lines.append(f"{code}Line {row}, column {column} {words}")
    shown = "[...document.querySelectorAll('.message')].map((it) => it.textContent).join('|')"
    same(line, True, browser.wait(f"return {shown} === {'|'.join(lines)!r}"))
    browser.do("document.getElementById('tab-values').click()")


def leads(browser, button, code):
    """A code that is told is a button that leads to its explanation."""
    browser.wait(f"return document.querySelector({button!r})?.textContent === {code!r}")
    browser.do("document.querySelector(arguments[0])?.click()", button)
    same(f"{code} leads to its explanation", f"code-{code}", browser.do("return document.activeElement.id"))


def helps(browser):
    """Each code has an explanation, to which it leads; the language fits on one screen."""
    known = set(browser.do("return Object.keys(data.refusals)")) | {f"W{i}" for i in range(1, 6)}
    same("all codes are explained", sorted(known), sorted(browser.text("#codes dt").split("|")))
    browser.look(1400, 900, "light")
    browser.do("document.getElementById('help-open').click()")
    height = """const [first, second] = document.querySelectorAll('#help h2');
return [second.getBoundingClientRect().top, innerHeight, document.documentElement.scrollTop]"""
    bottom, screen, _ = browser.do(height)
    same("the language is on one screen", True, bottom < screen)
    for editor, text, code in (
        ("terms", "[q]", "T4"), ("terms", "[z,", "A"), ("terms", "", None),
        ("spec", "REC-SPEC", "G"), ("spec", text_of("examples/add.rec").replace("-> Y", "-> Q"), "S5"),
    ):
        browser.do("document.getElementById('tab-values').click()")
        paste(browser, editor, text)
        if code:
            leads(browser, "#values button.code", code)
    all_codes = """return data.codes.map(({code}) => { codeButton(code).click(); return document.activeElement.id; })"""
    codes = browser.text("#codes dt").split("|")
    same("each code leads to its own", [f"code-{it}" for it in codes], browser.do(all_codes))
    seen = """const places = [document.activeElement, document.getElementById('help')];
const [it, all] = places.map((one) => one.getBoundingClientRect());
return it.top >= all.top && it.bottom <= all.bottom"""
    same("which is seen", True, browser.do(seen))
    paste(browser, "spec", text_of("examples/add.rec"))
    browser.do("document.getElementById('tab-values').click()")
    said(browser, "1 line")


def go_through(browser):
    browser.do("editors.spec.area.focus()")
    for part in (limits, examples, typing, long_lines, brackets, find, completion, uses, hover, rename, kept, tutorial,
        helps, speed):
        part(browser)
    same("no script failed", [], browser.do("return window.failures"))
