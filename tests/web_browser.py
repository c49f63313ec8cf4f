"""What tests/web.py has Chromium do in the page."""

import itertools
import os
import time

import web_editor
from common import same, text_of
from web_editor import said
from webdriver import Browser

CONTROL, ENTER, TAB = "\ue009", "\ue007", "\ue004"
LEFT, UP, RIGHT, DOWN, HOME, END = "\ue012", "\ue013", "\ue014", "\ue015", "\ue011", "\ue010"
# The cells of a row of values, but for its button.
CELLS = "#values tr:nth-child({}) td[data-head]"
SAID = "return document.getElementById('said').textContent"
# A text that is put into an editor as if it had been typed at once; that works where the area has all that was there.
PUT = """const area = document.querySelector(arguments[0] + ' textarea');
area.value = arguments[1]; area.dispatchEvent(new Event('input', {bubbles: true}));
return editors[arguments[0].slice(1)].text === arguments[1]"""
NARROW = "return document.documentElement.scrollWidth <= innerWidth"
# A limit that is typed.
LIMIT = """const it = document.getElementById(arguments[0]);
it.value = arguments[1]; it.dispatchEvent(new Event('input'));"""
# A text with a part that an element comes to have.
TEXT_WITH = "const it = document.getElementById({!r}).textContent; return it.includes({!r}) && it"
NAMES = ["term", "pattern", "args"]
# Input terms of a specification with an error: its code, the part that is marked and its location, and what is said.
TERM_ERRORS = {
    "add": [
        ("A", "[z,]", "]", (1, 4), "found “]”; expected an integer, a name, “(”, “[” or “<”"),
        ("A", "[z,s(", "␃", (1, 6), "unexpected end of text; expected an integer, a name, “(”, “)”, “[” or “<”"),
        ("T1", "z", "z", (1, 1), "write brackets around it"),
        ("T1", "[z]{a}", "{", (1, 4), "remove the annotations of the list"),
        ("T2", "[z,plus(z,[1])]", "[", (1, 11), "element 2 of the list; found a list"),
        ("T2", "[s(3)]", "3", (1, 4), "element 1 of the list; found the integer 3"),
        ("T3", "[z{a},s(z{a})]", "z", (1, 9), "element 2 of the list; found on z"),
        ("T4", "[z,s(q)]", "q", (1, 6), "element 2 of the list; q"),
        ("T5", "[plus(z,z),plus(z)]", "plus", (1, 12), "element 2 of the list; plus takes 2 arguments, found 1"),
    ],
    "tutorial/sort": [
        ("T6", "[nil,\n sort(z)]", "z", (2, 7), "element 2 of the list; expected List, found Nat"),
    ],
}
# Specifications outside of the grammar, as changes of examples/add.rec: where it is said, and what.
SYNTAX_ERRORS = [
    ("-> s(plus", "-> é(plus", (12, 19), "found “é”; expected an identifier."),
    ("-> Y", "->", (12, 16), "found “->”; expected an identifier, “EVAL”, “END-SPEC” or “if”."),
    ("END-SPEC", "", (16, 1), "unexpected end of text; expected an identifier or “END-SPEC”."),
    ("plus(z,Y) ->", "plus(z,Y ->", (11, 12), "found “->”; expected “(”, “)” or “,”."),
]
SELECTED = "const it = document.activeElement; return it.value.slice(it.selectionStart, it.selectionEnd)"
FOCUSED = "return document.activeElement.id"
# What a select has is chosen, as by hand.
CHOOSE = """const it = document.getElementById(arguments[0]);
it.selectedIndex = arguments[1]; it.dispatchEvent(new Event('change'));"""
# The labels of the nodes with a class.
NODES = """return [...document.querySelectorAll('.node' + arguments[0])].map((it) => it.textContent).sort().join(' ')"""
SHOWN = "const it = document.getElementById('pattern-shown').textContent; return it.startsWith('yes') && it"
REQUESTS = """return performance.getEntriesByType('resource').map((it) => it.name)
    .filter((it) => !/^(blob|data):/.test(it))"""
# Whether two buttons of a trace have the same colours.
ALIKE = """const of = (it) => getComputedStyle(document.getElementById(`firings-${it}`));
const [one, other] = [...arguments].map(of);
return one.backgroundColor === other.backgroundColor && one.color === other.color"""
QUESTION = """const {left, right} = document.getElementById('replace').getBoundingClientRect();
return [left, innerWidth - right]"""
NAMELESS = """return [...document.querySelectorAll('button, input, select, textarea')].filter((it) => !it.hidden
    && !it.textContent && !it.labels?.length && !it.ariaLabel && !it.getAttribute('aria-labelledby'))
    .map((it) => it.outerHTML)"""


def put(browser, editor, text):
    same(f"{editor} has what is put in", True, browser.do(PUT, editor, text))


def first_value(browser, address):
    """The page loads, and shows the first values."""
    browser.open(address)
    said(browser, "line")
    same("values", ["plus(s(s(z)),s(z))", "s(s(s(z)))", "3"], browser.text(CELLS.format(1)).split("|"))
    marked = browser.do("const it = performance.getEntriesByName('value')[0]; return it ? it.startTime : null")
    same("the first value is marked", True, marked is not None)
    print(f"browser: first value after {marked:.0f} ms, {os.path.getsize(address[7:]):,} bytes")
    put(browser, "#terms", "[plus(z,s(z))]")
    said(browser, "2 lines")
    same("input terms", ["plus(z,s(z))", "s(z)", "1"], browser.text(CELLS.format(2)).split("|"))
    put(browser, "#terms", "")
    said(browser, "1 line")


def rule_is_changed(browser):
    """A rule is typed over: what was there goes, and the new value comes without a click."""
    spec = text_of("examples/add.rec").replace("plus(z,Y) -> Y", "plus(z,Y) -> s(Y)")
    browser.do("document.querySelector('#spec textarea').select()")
    browser.keys("#spec textarea", spec)
    found = browser.wait("return document.querySelector('#values td:nth-child(2)')?.textContent === 's(s(s(s(z))))'")
    same("a rule is changed and seen", True, found)


def refusal(browser):
    spec = text_of("examples/add.rec")
    for before, after, (line, column), words in reversed(SYNTAX_ERRORS):
        put(browser, "#spec", spec.replace(before, after))
        found = said(browser, "rejected") or ""
        begin = f"The specification is rejected at line {line}, column {column}: G, "
        same(f"an error of {after!r} is said", begin, found[: len(begin)])
        same(f"what was found and expected at {after!r}", words, found[-len(words) :])
    same("it is marked", ["é", str(line)], [browser.text("#spec .bad-place"), browser.text("#spec .numbers .bad")])
    browser.do("document.querySelector('.refusal > button').click()")
    same("one goes there", "é", browser.do(SELECTED))
    put(browser, "#spec", spec.replace("RULES", "RULSE"))
    same("a misspelled word", True, "did you mean RULES?" in (browser.wait(TEXT_WITH.format("values", "RULES?")) or ""))
    for name, all_of in TERM_ERRORS.items():
        put(browser, "#terms", "")
        put(browser, "#spec", text_of(f"examples/{name}.rec"))
        for code, terms, marked, (line, column), words in all_of:
            put(browser, "#terms", terms)
            begin = f"The input terms are rejected at line {line}, column {column}: {code}, "
            told = said(browser, begin) or ""
            same(f"{code} of {terms!r} is told: {told}", True, f"; {words}" in told)
            same(f"what has {code} in {terms!r}", marked, browser.text("#terms .bad-place"))
            web_editor.leads(browser, "#values button.code", code)
            show_tab(browser, "values")
    put(browser, "#terms", "")
    put(browser, "#spec", spec)
    said(browser, "1 line")


def stopped(browser):
    """A run that would never end leaves the page answering, and is stopped; a later one is made.

    The limit is there before the text, and is not told of: a run with the usual one could end by itself."""
    said(browser, "1 line")
    browser.do("document.getElementById('steps').value = arguments[0]", str(10**18))
    put(browser, "#spec", text_of("examples/rows/loop.rec"))
    same("it runs on", True, said(browser, "Evaluating…") is not None)
    begin = time.monotonic()
    same("the page answers", 4, browser.do("return 2 + 2"))
    same("at once", True, time.monotonic() - begin < 2)
    browser.do("document.getElementById('stop').click()")
    same("it is stopped", "Stopped.", browser.do(SAID))
    put(browser, "#spec", text_of("examples/add.rec"))
    same("a later run is made", True, said(browser, "1 line") is not None)


def out_of_cells(browser):
    put(browser, "#spec", text_of("examples/add.rec"))
    browser.do(LIMIT, "cells", "3")
    same("want of cells is told", True, said(browser, "out of cells") is not None)
    browser.do(LIMIT, "cells", "16777216")
    said(browser, "1 line")


def link(browser):
    put(browser, "#spec", text_of("examples/dup.rec"))
    put(browser, "#terms", "[p(z,z){n}]")
    said(browser, "2 lines")
    shown, address = browser.text("#values td"), browser.do("return location.href")
    browser.open(address)
    same("a link is opened again", True, said(browser, "2 lines") is not None)
    same("with the same values", shown, browser.text("#values td"))


def keyboard(browser):
    """The keys alone run, and go from tab to tab."""
    browser.do("document.querySelector('#terms textarea').focus()")
    put(browser, "#terms", "[]")
    browser.press(CONTROL, ENTER)
    same("Ctrl-Enter runs", True, said(browser, "1 line") is not None)
    browser.press(TAB)
    same("Tab leaves the editor", "steps", browser.do(FOCUSED))
    browser.do("document.querySelector('[role=tab]').focus()")
    browser.press(RIGHT)
    same("an arrow goes to the next tab", "a term", browser.do("return document.activeElement.textContent"))
    same("a term is matched", "yes\n1\n[[2,3],g(a,a)]\n[note]\n", browser.wait(SHOWN))
    same("and made", "f(7,a,b)\n", browser.text("#args-shown"))
    browser.do("document.querySelector('[role=tab]').click()")


def show_tab(browser, name):
    browser.do("document.getElementById(arguments[0]).click()", f"tab-{name}")


def text_with(browser, place, part):
    """Waits until an element has a text with this part, and gives all of it."""
    return browser.wait(TEXT_WITH.format(place, part))


def tower(levels, top):
    return "s(" * levels + top + ")" * levels


def is_firing(browser, number, of_all, redex, around):
    """This firing is shown: what is rewritten is marked within so many levels of the whole term, and its rule is."""
    text_with(browser, "firings-said", f"Rewrite {number} of {of_all}")
    line = 11 if redex.startswith("plus(z") else 12
    same(f"whole term {number}", tower(around, redex), browser.text("#firing-before"))
    same(f"redex {number}", [redex, redex], [browser.text("#firing-redex"), browser.text("#firing-before mark")])
    same(f"what firing {number} makes", browser.text("#firing-contractum"), browser.text("#firing-after mark"))
    same(f"rule of firing {number}", str(line), browser.text("#spec .numbers .here"))
    begin = "plus(z,Y) -> Y" if line == 11 else "plus(s(X),Y) -> s(plus(X,Y))"
    marked = browser.text("#spec .here-place").replace("|", "")
    same(f"its text {number}", [begin, begin], [browser.text("#firing-rule"), marked])


def steps(browser):
    """A sum of twelve and one: twelve times the rule in line 12, then that in line 11. Ten firings forth, and back."""
    put(browser, "#terms", "")
    put(browser, "#spec", text_of("examples/add.rec").replace("s(s(z)),s(z))", f"{tower(12, 'z')},s(z))"))
    said(browser, "1 line")
    show_tab(browser, "firings")
    redexes = [f"plus({tower(12 - it, 'z')},s(z))" for it in range(13)]
    for number in range(1, 12):
        is_firing(browser, number, 13, redexes[number - 1], number - 1)
        browser.do("document.getElementById('firings-forth').click()")
    browser.do("document.getElementById('firings').focus()")
    for number in range(12, 1, -1):
        is_firing(browser, number, 13, redexes[number - 1], number - 1)
        browser.press(LEFT)
    is_firing(browser, 1, 13, redexes[0], 0)
    browser.press(END)
    is_firing(browser, 13, 13, redexes[12], 12)
    same("forth leads no further", True, browser.do("return document.getElementById('firings-forth').disabled"))
    same("and looks like last, which leads no further", True, browser.do(ALIKE, "forth", "last"))
    browser.press(HOME)
    is_firing(browser, 1, 13, redexes[0], 0)
    same("forth leads on, and looks like it", False, browser.do(ALIKE, "forth", "last"))
    same("its end", f"After 13 steps the value is {tower(13, 'z')}", browser.text("#firings-end"))
    browser.do("document.getElementById('firing-go').click()")
    same("one goes to the rule", "plus(s(X),Y) -> s(plus(X,Y))", browser.do(SELECTED))
    other_traces(browser)


def other_traces(browser):
    """An input term to which no rule applies; an error; and terms of which the beginning or nothing is shown."""
    put(browser, "#terms", "[s(z){note}]")
    script = "return document.querySelectorAll('#firings-term option').length === 2"
    same("an input term is there", True, browser.wait(script))
    browser.do(CHOOSE, "firings-term", 1)
    same("no rule applies", "No rule applies.", text_with(browser, "firings-said", "No rule"))
    same("it is its value", "After 0 steps the value is s(z){note}", browser.text("#firings-end"))
    put(browser, "#terms", "[q]")
    same("an error has no trace", True, text_with(browser, "firings-said", "A rejected text has no trace") is not None)
    put(browser, "#terms", "")
    put(browser, "#spec", text_of("examples/rows/loop.rec"))
    same("a long trace is cut", True, text_with(browser, "firings-end", "The trace ends after 5,000 steps") is not None)
    words = "All 5,000 steps were spent inside conditions, whose rewrites a trace does not show."
    same("where the steps went", words, browser.text("#firings-said"))
    browser.do(LIMIT, "steps", "3")
    same("a limit is told", True, text_with(browser, "firings-end", "The limit of 3 steps is reached.") is not None)
    browser.do(LIMIT, "steps", "1000000")
    show_tab(browser, "values")
    same("no rule is marked elsewhere", "", browser.text("#spec .numbers .here"))


def graph(browser):
    """f(a,a) has five cells. Both cells of its list of arguments refer to a; a and the last cell refer to the end."""
    put(browser, "#terms", "")
    put(browser, "#spec", text_of("examples/add.rec"))
    browser.wait("return document.querySelector('#values td:nth-child(2)')?.textContent === 's(s(s(z)))'")
    browser.do("document.getElementById('term-text').value = 'f(a,a)'")
    show_tab(browser, "graph")
    text_with(browser, "graph-said", "cell")
    browser.do(CHOOSE, "graph-of", browser.do("return document.getElementById('graph-of').options.length - 1"))
    same("five nodes", "5 cells.", text_with(browser, "graph-said", "5 cells"))
    same("their labels", ". . [] a f", browser.do(NODES, ""))
    same("six edges", 6, browser.do("return document.querySelectorAll('.edge').length"))
    browser.do("document.querySelector('.node').focus()")
    same("the first is lit", ["f", ""], [browser.do(NODES, ".lit"), browser.do(NODES, ".naming")])
    browser.press(DOWN)
    browser.press(DOWN)
    same("arrows lead down", ["a", ". ."], [browser.do(NODES, ".lit"), browser.do(NODES, ".naming")])
    same("two edges lead there", 2, browser.do("return document.querySelectorAll('.edge.lit').length"))
    words = "a (3); arguments [] (5); referred to by . (2) as head, . (4) as head"
    same("it is told", words, browser.text("#graph-node"))
    browser.press(DOWN)
    same("and to the end", ["[]", ". a"], [browser.do(NODES, ".lit"), browser.do(NODES, ".naming")])
    browser.press(UP)
    browser.do("document.querySelectorAll('.node')[4].dispatchEvent(new Event('mouseenter'))")
    same("the mouse lights up too", ["[]", ". a"], [browser.do(NODES, ".lit"), browser.do(NODES, ".naming")])
    many = f"[{','.join(map(str, range(200)))}]"
    browser.do("document.getElementById('term-text').value = arguments[0]", many)
    show_tab(browser, "graph")
    words = "300 cells are drawn; 101 more are not."
    same("no more than 300 are drawn", words, text_with(browser, "graph-said", "more"))
    browser.do(CHOOSE, "graph-of", 0)
    # s(s(s(z))): four applications, a list for each of three, and the end
    same("of a value too", "8 cells.", text_with(browser, "graph-said", "8 cells"))
    show_tab(browser, "values")


def without_lists(browser):
    """f(a,a) alone has two terms, and both edges lead to a; a list that is a term is one node."""
    browser.do("document.getElementById('term-text').value = 'f(a,a,[b,1]){c}'")
    show_tab(browser, "graph")
    browser.do(CHOOSE, "graph-of", browser.do("return document.getElementById('graph-of').options.length - 1"))
    browser.do("document.getElementById('graph-terms').click()")
    same("six terms", "6 different terms.", text_with(browser, "graph-said", "different terms"))
    same("no node is one of a list", "1 […] a b c f", browser.do(NODES, ""))
    edges = "return ['argument', 'element', 'annotation'].map((it) => document.querySelectorAll('.edge.' + it).length)"
    same("edges", [3, 2, 1], browser.do(edges))
    browser.do("document.querySelector('.node').focus()")
    words = "f (1); argument a (2), argument a (2), argument […] (3), annotation c (4); the whole term"
    same("they are told", words, browser.text("#graph-node"))
    browser.do("document.getElementById('graph-terms').click()")
    text_with(browser, "graph-said", "cells")
    show_tab(browser, "values")


TERM_TAB = """document.getElementById(arguments[0] + '-text').value = arguments[1];
document.getElementById(arguments[0] + '-text').dispatchEvent(new Event('input'));"""
OUTPUTS = "return ['term', 'pattern', 'args'].map((it) => document.getElementById(it + '-shown').textContent)"


def term_tab(browser):
    """An error is told once, below the text that has it, with its column."""
    usual = {it: browser.do("return document.getElementById(arguments[0] + '-text').defaultValue", it) for it in NAMES}
    for it in NAMES:
        browser.do(TERM_TAB, it, usual[it])
    show_tab(browser, "term")
    for name, text, begin in (
        ("pattern", "f(<int>,<list>", "A column 15: syntax error in the annotated term; unexpected end of text; expected"),
        ("pattern", "f(é,<foo>)", "A column 3: "),
        ("pattern", "f(1,<foo>)", "P1 column 5: "),
        ("pattern", "<int>{a}", "P2 column 1: "),
        ("term", "f(99999999999)", "A column 3: "),
        ("term", "[a,\n\"b]", "A line 2, column 1: "),
        ("args", "[7]", "M1 "),
        ("args", "[a,[],[]]", "M2 column 2: "),
        ("args", "7", "T1 column 1: "),
    ):
        browser.do(TERM_TAB, name, text)
        at = NAMES.index(name)
        plain = begin.replace("`", "")
        script = f"return document.getElementById('{name}-shown').textContent.startsWith({plain!r})"
        shown = browser.wait(script)
        found = browser.do(OUTPUTS)
        same(f"{name} {text!r}: {found[at]}", True, shown)
        codes = [it for it in found if it[:2] in ("A ", "P1", "P2", "M1", "M2", "T1")]
        same(f"{name} {text!r} is told once", 1, len(codes))
        same("it has a column", False, "byte" in found[at])
        web_editor.leads(browser, f"#{name}-shown button.code", begin.split()[0])
        show_tab(browser, "term")
        browser.do(TERM_TAB, name, usual[name])
    words = "which is outside -2147483648 to 2147483647"
    browser.do(TERM_TAB, "term", "f(99999999999)")
    same("what is wrong with an integer", True, text_with(browser, "term-shown", words) is not None)
    browser.do(TERM_TAB, "term", usual["term"])
    same("all is good again", True, browser.wait(SHOWN) is not None)
    show_tab(browser, "values")


def tracing(browser):
    """While a trace is made this is said, and nothing can be pressed."""
    put(browser, "#terms", text_of("examples/while.trm"))
    put(browser, "#spec", text_of("examples/while.rec"))
    same("the values come first", True, said(browser, "6 lines") is not None)
    browser.do("""window.traced = []; new MutationObserver(() => {
  const said = document.getElementById('firings-said').textContent, off = (it) => document.getElementById(it).disabled;
  const all = ['first', 'back', 'forth', 'last', 'slider', 'term'].map((it) => `firings-${it}`);
  window.traced.push([said, all.every(off)]);
}).observe(document.getElementById('firings-said'), {childList: true});
window.slow = Runner.prototype.run;
Runner.prototype.run = async function (...it) {
  await new Promise((go) => setTimeout(go, 400));
  return slow.apply(this, it);
};""")
    show_tab(browser, "firings")
    browser.wait("return window.traced.length > 1")
    same("it is said, and then what there is", [["Tracing…", True], ["Rewrite 1 of 214", False]],
        browser.do("return window.traced"))
    disabled = "return ['forth', 'last', 'term'].map((it) => document.getElementById(`firings-${it}`).disabled)"
    same("all can be pressed then", [False, False, False], browser.do(disabled))
    browser.do("Runner.prototype.run = slow")
    browser.do("clearTimeout(pause); document.getElementById('tab-values').click()")
    put(browser, "#terms", "")


def narrow(browser):
    """Long values stay within a window of 420 pixels."""
    browser.look(420, 900, "light")
    put(browser, "#terms", "")
    put(browser, "#spec", text_of("examples/add.rec").replace("s(s(z)),s(z))", f"{tower(300, 'z')},s(z))"))
    browser.wait("return document.querySelector('#values [data-head=Value]')?.textContent.length > 900")
    right = """const all = [...document.querySelectorAll('#values td, #values code, #values table')];
return Math.max(...all.map((it) => it.getBoundingClientRect().right))"""
    same("long values wrap", True, browser.do(right) <= 420)
    same("nothing stands out at 420", True, browser.do(NARROW))
    inside = "const it = document.getElementById('values'); return it.scrollWidth <= it.clientWidth"
    same("nor in the panel", True, browser.do(inside))


def check(browser):
    """Messages lead to their lines; warnings are no refusal."""
    spec = text_of("examples/add.rec")
    show_tab(browser, "found")
    put(browser, "#spec", spec.replace("-> Y", "-> Q").replace("plus(X,Y)", "plus(X,Q)"))
    said_there = "The specification is rejected with S5, at 2 locations."
    same("all places are found", said_there, text_with(browser, "found-said", "S5"))
    words = "undeclared symbol or variable in RULES or EVAL: Q"
    wanted = [f"S5Line 11, column 16 {words}", f"S5Line 12, column 28 {words}"]
    same("each has a message", wanted, browser.text(".message").split("|"))
    same("each line is marked", "11|12", browser.text("#spec .numbers .bad"))
    browser.do("document.querySelectorAll('.message .go')[1].focus()")
    browser.press(ENTER)
    same("a message leads to its place", "Q", browser.do(SELECTED))
    begin = len(spec[: spec.index("plus(X,Y)")]) + len("plus(X,")
    same("to that and no other", begin, browser.do("return document.activeElement.selectionStart"))
    put(browser, "#spec", spec.replace("plus(z,Y) -> Y", "plus(z,Q) -> Y"))
    said_there = "The specification is rejected with S5; it has 2 errors in all."
    same("errors of two codes", said_there, text_with(browser, "found-said", "in all"))
    same("each has its code", "S5|S10", browser.text(".message button.code"))
    put(browser, "#spec", text_of("examples/check/unused.rec"))
    warned = "The specification is valid, with 3 warnings."
    same("warnings are told", warned, text_with(browser, "found-said", "warning"))
    same("lines with warnings", "2|6|8", browser.text("#spec .numbers .warn"))
    web_editor.leads(browser, ".message:first-child button.code", "W4")
    show_tab(browser, "found")
    put(browser, "#spec", spec)
    same("nothing is found", True, text_with(browser, "found-said", "without warnings") is not None)
    same("nothing is marked", "", browser.text("#spec .numbers .bad") + browser.text("#spec .numbers .warn"))
    show_tab(browser, "values")


def whole(browser):
    """No request was made, and no element lacks a name."""
    same("no request leaves the page", [], browser.do(REQUESTS))
    same("what one can do has a name", [], browser.do(NAMELESS))


def pictures_of(browser, folder):
    """The page in two sizes, by day and by night, with values, errors and all tabs; it is never wider than the window."""
    spec = text_of("examples/tutorial/sort.rec")
    for (width, height), scheme in itertools.product(((1400, 900), (420, 1500)), ("light", "dark")):
        browser.look(width, height, scheme)
        put(browser, "#terms", "")
        for name, text, there in (
            ("error", spec.replace("X, cons(", "Q, cons(", 1), "#spec .numbers .bad"),
            ("values", spec, "#values td"),
        ):
            put(browser, "#spec", text)
            browser.wait(f"return document.querySelector({there!r})")
            picture(browser, folder, f"{width}-{scheme}-{name}")
        browser.do(LIMIT, "steps", "1e9")
        said(browser, "Nothing was run")
        picture(browser, folder, f"{width}-{scheme}-limit")
        browser.do(LIMIT, "steps", "1000000")
        said(browser, "millisecond")
        browser.do(CHOOSE, "examples", 3)
        picture(browser, folder, f"{width}-{scheme}-replace")
        same(f"the question is within {width} pixels", True, min(browser.do(QUESTION)) > 8)
        browser.do("document.getElementById('replace-no').click()")
        pictures_of_names(browser, folder, f"{width}-{scheme}")
        pictures_of_tabs(browser, folder, f"{width}-{scheme}")


def pictures_of_names(browser, folder, name):
    """The bars above the editor, and the box beside the pointer."""
    spec = text_of("examples/tutorial/sort.rec")
    put(browser, "#spec", spec)
    browser.do(web_editor.CARET, "spec", spec.index("sort(nil)"))
    browser.press(CONTROL, "f")
    browser.do("document.getElementById('rename').click()")
    browser.wait("return document.querySelector('#spec .sought-place')")
    picture(browser, folder, f"{name}-rename")
    browser.press(web_editor.ESCAPE)
    browser.do("document.querySelector('#spec .find button:last-child').click(); scrollTo(0, 0)")
    web_editor.point_at(browser, spec.index("cons :"))
    browser.wait(web_editor.TOLD)
    picture(browser, folder, f"{name}-hover")
    browser.press(web_editor.ESCAPE)


def picture(browser, folder, name):
    same(f"nothing stands out: {name}", True, browser.do(NARROW))
    browser.do("if (!document.querySelector('dialog[open]')) scrollTo(0, 0)")
    if folder:
        browser.picture(f"{folder}/{name}.png")


def pictures_of_tabs(browser, folder, name):
    """The page with each of its tabs."""
    begin = "document.querySelector(innerWidth < 800 ? '.answered' : 'header').scrollIntoView()"
    spec = text_of("examples/tutorial/sort.rec")
    put(browser, "#spec", spec)
    browser.wait("return document.querySelector('#values td')")
    waits = {"firings": "Rewrite", "graph": "cells", "found": "S5", "profile": "hits"}
    for tab in ("term", "firings", "graph", "profile", "found", "help"):
        if tab == "found":
            put(browser, "#spec", spec.replace("X, cons(", "Q, cons("))
        show_tab(browser, tab)
        if tab in waits:
            text_with(browser, f"{tab}-said", waits[tab])
        if tab == "term":
            browser.wait(SHOWN)
        elif tab == "firings":
            browser.do("for (let i = 0; i < 5; i++) document.getElementById('firings-forth').click()")
        elif tab == "graph":
            browser.wait("return document.querySelector('.node')")
            browser.do("document.querySelectorAll('.node')[3].dispatchEvent(new Event('mouseenter'))")
        same(f"nothing of {tab} stands out: {name}", True, browser.do(NARROW))
        browser.do(begin)
        if folder:
            browser.picture(f"{folder}/{name}-{tab}.png")
    show_tab(browser, "values")


def go_through(page, pictures):
    address = f"file://{page}"
    with Browser() as browser:
        browser.before(web_editor.KEEP)
        first_value(browser, address)
        rule_is_changed(browser)
        refusal(browser)
        stopped(browser)
        out_of_cells(browser)
        link(browser)
        keyboard(browser)
        same("tabs", "values|a term|steps|graph|check|profile|help", browser.text("[role=tab]"))
        for part in (steps, graph, without_lists, check):
            part(browser)
        web_editor.go_through(browser)
        for part in (term_tab, tracing, narrow):
            part(browser)
        whole(browser)
        browser.open(address)
        pictures_of(browser, pictures)
