#!/usr/bin/env python3
"""Translate a REC specification to a functional module of Maude.

The module has the same values as `recw eval`. REC tries the rules of an operator in the order of the
text, while Maude's equations have no order; so each operator N becomes a chain of operators:

  f-N       a call of N
  0-N, 1-N  a call whose rules from number 0, 1, .. on are still to be tried
  v-N       a call that no rule applies to: a value
  c-N       a constructor

Rule number i is the one equation of i-N, with an equation marked `owise` that goes on to the next rule,
and the last one goes on to v-N. Left-hand sides have v-N below their head, because arguments are values.
A condition `s ->/<- t` compares by an operator `compare`. Underscores of names become `~`.

What is exact: the value of each term of EVAL, also if it holds calls that no rule applies to, and that
an evaluation ends or does not end.
What is not kept: the number of steps (Maude counts the equations above), the step limit, and the store
limits. Tools that analyse Maude modules see the chain, not the rules. Maude recurses on its own stack;
for deep terms raise it with `ulimit -s unlimited`.
"""

import argparse
import os
import re
import sys
from typing import NamedTuple

EXAMPLE = """
Example: tools/rec2maude.py examples/add.rec

The values of examples/add.rec by Maude, one in a line, as `recw eval` writes them:

  tools/rec2maude.py examples/add.rec >add.maude
  maude -no-banner -no-wrap -no-ansi-color add.maude | tools/rec2maude.py --values

Exit status: 0 done, 1 the text is rejected, 2 wrong arguments, 4 a read or a write failed.
"""

# The reader of REC specifications is the same text in rec2maude.py and rec2trs.py, so that each is a single file.

RESERVED = {"REC-SPEC", "SORTS", "CONS", "OPNS", "VARS", "RULES", "EVAL", "END-SPEC", "if", "and-if"}
TOKEN = re.compile(
    r"(?P<layout>(?:[ \t\n\r]|%[^\n]*)+)"
    r"|(?P<word>[A-Za-z0-9_](?:[A-Za-z0-9_']|-(?=[A-Za-z0-9_]))*)"
    r"|(?P<mark>->/<-|-><-|->|[:(),])"
)


class InputError(Exception):
    """A text that is rejected: the offset of the error and what is wrong."""

    def __init__(self, offset, message):
        super().__init__(message)
        self.offset, self.message = offset, message


class Token(NamedTuple):
    offset: int
    text: str
    is_word: bool


class Term(NamedTuple):
    offset: int
    name: str
    arguments: list


class Condition(NamedTuple):
    """Two terms whose values have to be equal, or different."""

    left: Term
    right: Term
    is_equal: bool


class Rule(NamedTuple):
    left: Term
    right: Term
    conditions: list


class Declaration(NamedTuple):
    arguments: list
    sort: str


def tokens_of(text):
    """The tokens of a specification, the last one empty."""
    at = 0
    while at < len(text):
        found = TOKEN.match(text, at)
        if not found:
            raise InputError(at, f"unexpected character {text[at]!r}")
        if found.lastgroup != "layout":
            is_word = found.lastgroup == "word" and found[0] not in RESERVED
            yield Token(at, found[0], is_word)
        at = found.end()
    yield Token(len(text), "", False)


def subterms(term):
    """The term and all terms in it."""
    rest = [term]
    while rest:
        term = rest.pop()
        yield term
        rest.extend(reversed(term.arguments))


def spelled(term, name_of, head=None):
    """The text of a term with these names; `head` replaces the first one."""
    pieces, rest = [], [term]
    while rest:
        it = rest.pop()
        if isinstance(it, str):
            pieces.append(it)
            continue
        pieces.append(head or name_of(it.name))
        head = None
        if it.arguments:
            inside = [part for argument in it.arguments for part in (",", argument)]
            rest += [")", *reversed(inside[1:]), "("]
    return "".join(pieces)


class Spec:
    """A specification that is read and checked."""

    def __init__(self, text):
        if len(text) > 16777216:
            raise InputError(0, "the text has more than 16777216 bytes")
        self.tokens, self.at = list(tokens_of(text)), 0
        self.sorts, self.variables, self.rules, self.terms = {}, {}, [], []
        self.constructors, self.operators = {}, {}
        self.need("REC-SPEC")
        self.name = self.word()
        self.read_declarations()
        self.symbols = {**self.constructors, **self.operators}
        self.read_terms()
        self.need("END-SPEC")
        self.need("")
        for rule in self.rules:
            self.check_rule(rule)
        for term in self.terms:
            self.check_term(term, {})

    # Tokens

    def takes(self, text):
        """Whether the next token is this one, which is taken then."""
        found = self.tokens[self.at].text == text and not self.tokens[self.at].is_word
        self.at += found
        return found

    def need(self, text):
        if not self.takes(text):
            self.unexpected(text or "the end of the text")

    def unexpected(self, expected):
        offset, text, _ = self.tokens[self.at]
        raise InputError(offset, f"expected {expected}, found {text or 'the end of the text'}")

    def word(self):
        if not self.tokens[self.at].is_word:
            self.unexpected("a word")
        self.at += 1
        return self.tokens[self.at - 1].text

    def items(self, section, item):
        """The items of a section; none if it is missing."""
        if self.takes(section):
            while self.tokens[self.at].is_word:
                yield item()

    # Sections

    def read_declarations(self):
        for _ in self.items("SORTS", lambda: self.declare(self.sorts, (), None)):
            pass
        for section, symbols in (("CONS", self.constructors), ("OPNS", self.operators)):
            for _ in self.items(section, lambda into=symbols: self.read_symbol(into)):
                pass
        for _ in self.items("VARS", self.read_variables):
            pass

    def read_terms(self):
        self.rules = list(self.items("RULES", self.rule))
        self.terms = list(self.items("EVAL", self.term))

    def declare(self, names, others, value):
        """Takes a word that none of these has yet."""
        offset = self.tokens[self.at].offset
        name = self.word()
        if name in names or any(name in it for it in others):
            raise InputError(offset, f"{name} is declared twice")
        names[name] = value
        return name

    def sort(self):
        offset = self.tokens[self.at].offset
        name = self.word()
        if name not in self.sorts:
            raise InputError(offset, f"no sort is called {name}")
        return name

    def read_symbol(self, into):
        name = self.declare(into, (self.constructors, self.operators), None)
        self.need(":")
        arguments = []
        while not self.takes("->"):
            arguments.append(self.sort())
        into[name] = Declaration(arguments, self.sort())

    def read_variables(self):
        names = []
        while not self.takes(":"):
            names.append(self.declare(self.variables, (self.constructors, self.operators), None))
        self.variables.update(dict.fromkeys(names, self.sort()))

    def rule(self):
        left = self.term()
        self.need("->")
        right, conditions = self.term(), []
        more = self.takes("if")
        while more:
            first = self.term()
            is_equal = self.takes("-><-")
            if not is_equal:
                self.need("->/<-")
            conditions.append(Condition(first, self.term(), is_equal))
            more = self.takes("and-if")
        return Rule(left, right, conditions)

    def term(self):
        """A term of any depth."""
        unfinished = []
        while True:
            term = Term(self.tokens[self.at].offset, self.word(), [])
            if self.takes("(") and not self.takes(")"):
                unfinished.append(term)
                continue
            while unfinished:
                unfinished[-1].arguments.append(term)
                if self.takes(","):
                    break
                self.need(")")
                term = unfinished.pop()
            else:
                return term

    # Sorts

    def sort_of(self, term):
        name = term.name
        return self.variables[name] if name in self.variables else self.symbols[name].sort

    def check_term(self, term, variables):
        """Rejects unknown words, wrong numbers and sorts of arguments, and other variables than these."""
        for it in subterms(term):
            if it.name not in self.symbols and it.name not in self.variables:
                raise InputError(it.offset, f"{it.name} is neither a symbol nor a variable")
            if it.name in self.variables and it.name not in variables:
                raise InputError(it.offset, f"the variable {it.name} is not bound here")
            expected = self.symbols[it.name].arguments if it.name in self.symbols else []
            if len(expected) != len(it.arguments):
                message = f"{it.name} takes {len(expected)} arguments, not {len(it.arguments)}"
                raise InputError(it.offset, message)
        for it in subterms(term):
            for argument, sort in zip(it.arguments, it.arguments and self.symbols[it.name].arguments):
                self.check_sort(argument, sort)

    def check_sort(self, term, sort):
        if self.sort_of(term) != sort:
            raise InputError(term.offset, f"a term of sort {self.sort_of(term)}, expected {sort}")

    def check_rule(self, rule):
        if rule.left.name not in self.operators:
            raise InputError(rule.left.offset, f"{rule.left.name} is not an operator")
        self.check_term(rule.left, self.variables)
        bound = {it.name for it in subterms(rule.left) if it.name in self.variables}
        for left, right in [rule[:2], *(it[:2] for it in rule.conditions)]:
            self.check_term(left, bound)
            self.check_term(right, bound)
            self.check_sort(right, self.sort_of(left))


# The end of the reader of REC specifications.


def plain(word):
    """A word of a specification as a part of a name of Maude, where `_` would be an argument's place."""
    return word.replace("_", "~")


def operator(name, declaration, attribute=""):
    sorts = "".join(f"S-{plain(it)} " for it in declaration.arguments)
    return f"  op {name} : {sorts}-> S-{plain(declaration.sort)}{attribute} ."


class Module:
    """The lines of a module."""

    def __init__(self, spec):
        self.spec = spec
        self.lines = ["set include BOOL off .", f"fmod REC-{plain(spec.name)} is"]
        self.lines += [f"  sort S-{plain(it)} ." for it in spec.sorts]
        self.add_comparisons()
        for name, declaration in spec.constructors.items():
            self.lines.append(operator(f"c-{plain(name)}", declaration, " [ctor]"))
        for name, sort in spec.variables.items():
            self.lines.append(f"  var X-{plain(name)} : S-{plain(sort)} .")
        rules = {name: [] for name in spec.operators}
        for rule in spec.rules:
            rules[rule.left.name].append(rule)
        for name, declaration in spec.operators.items():
            self.declare(plain(name), declaration, len(rules[name]))
        for name, declaration in spec.operators.items():
            self.add_chain(plain(name), declaration, rules[name])
        self.lines.append("endfm")
        self.lines += [f"red {spelled(it, self.call_name)} ." for it in spec.terms]
        self.lines.append("quit")

    def text(self):
        return "".join(f"{it}\n" for it in self.lines)

    def add_comparisons(self):
        """What compares two values, for the sorts that a condition compares by `->/<-`."""
        conditions = [condition for rule in self.spec.rules for condition in rule.conditions]
        sorts = sorted({plain(self.spec.sort_of(it.left)) for it in conditions if not it.is_equal})
        if sorts:
            self.lines.append("  sort Comparison .")
            self.lines.append("  ops same different : -> Comparison [ctor] .")
        for sort in sorts:
            self.lines.append(f"  op compare : S-{sort} S-{sort} -> Comparison .")
            self.lines.append(f"  vars P-{sort} Q-{sort} : S-{sort} .")
            self.lines.append(f"  eq compare(P-{sort},P-{sort}) = same .")
            self.lines.append(f"  eq compare(P-{sort},Q-{sort}) = different [owise] .")

    def declare(self, name, declaration, count):
        self.lines.append(operator(f"f-{name}", declaration))
        self.lines += [operator(f"{it}-{name}", declaration) for it in range(count)]
        self.lines.append(operator(f"v-{name}", declaration, " [ctor]"))

    def add_chain(self, name, declaration, rules):
        sorts = [plain(it) for it in declaration.arguments]
        arguments = ",".join(f"A{at}:S-{sort}" for at, sort in enumerate(sorts))
        arguments = arguments and f"({arguments})"
        links = [*(f"{at}-{name}{arguments}" for at in range(len(rules))), f"v-{name}{arguments}"]
        self.lines.append(f"  eq f-{name}{arguments} = {links[0]} .")
        for at, rule in enumerate(rules):
            left = spelled(rule.left, self.value_name, f"{at}-{name}")
            right = spelled(rule.right, self.call_name)
            conditions = " /\\ ".join(map(self.condition, rule.conditions))
            kind, conditions = ("ceq", f" if {conditions}") if conditions else ("eq", "")
            self.lines.append(f"  {kind} {left} = {right}{conditions} .")
            self.lines.append(f"  eq {links[at]} = {links[at + 1]} [owise] .")

    def condition(self, condition):
        left, right = (spelled(it, self.call_name) for it in condition[:2])
        return f"{left} = {right}" if condition.is_equal else f"compare({left},{right}) = different"

    def call_name(self, name):
        if name in self.spec.variables:
            return f"X-{plain(name)}"
        return f"{'c' if name in self.spec.constructors else 'f'}-{plain(name)}"

    def value_name(self, name):
        return f"v-{plain(name)}" if name in self.spec.operators else self.call_name(name)


def recw_name(found):
    """A name of Maude's output in the spelling of annotated terms."""
    name = found[1].replace("~", "_")
    return name if re.fullmatch(r"[A-Za-z_][A-Za-z0-9_\-+*$.]*", name) else f'"{name}"'


def values(text):
    """The values in Maude's output, each a line."""
    lines = []
    for result in re.finditer(r"^result (\S+): (.*?)(?=^Bye|^=====|^Maude>|\Z)", text, re.M | re.S):
        value = re.sub(r"\s", "", result[2])
        if not all(it.startswith(("c-", "v-")) for it in re.findall(r"[^(),]+", value)):
            raise InputError(result.start(), "this result is not a value of a module of rec2maude.py")
        lines.append(re.sub(r"[cv]-([^(),]+)", recw_name, value) + "\n")
    return "".join(lines)


def arguments():
    how = {"epilog": EXAMPLE, "formatter_class": argparse.RawDescriptionHelpFormatter}
    parser = argparse.ArgumentParser(description=__doc__, **how)
    parser.add_argument("file", nargs="?", default="-", help="the specification; `-`, the default, is standard input")
    parser.add_argument("--values", action="store_true", help="read Maude's output and print the values in it")
    return parser.parse_args()


def main():
    options = arguments()
    text = ""
    try:
        with open(0 if options.file == "-" else options.file, encoding="latin-1", newline="") as file:
            text = file.read()
        sys.stdout.write(values(text) if options.values else Module(Spec(text)).text())
        sys.stdout.flush()
    except InputError as error:
        before = text[: error.offset].split("\n")
        name = "<stdin>" if options.file == "-" else options.file
        sys.stderr.write(f"{name}:{len(before)}:{len(before[-1]) + 1}: error: {error.message}\n")
        return 1
    except OSError as error:
        if not isinstance(error, BrokenPipeError):
            sys.stderr.write(f"rec2maude.py: {error.filename or options.file}: {error.strerror}\n")
        # what is left in the buffer of a closed pipe is not written at exit
        os.dup2(os.open(os.devnull, os.O_WRONLY), 1)
        return 4
    return 0


if __name__ == "__main__":
    sys.exit(main())
