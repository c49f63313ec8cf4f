#!/usr/bin/env -S python3 -B
"""Compares `recw join` and the option --join with a second description: join.py [PROGRAM].

Here a text is a list of words, marks and comments, and a section is what follows its word. The texts are random
specifications, some of them wrong, and examples cut into parts at their sections. Of a joined text the sections, the
name and the comments are compared with those of the parts; what `check` and `eval` say of the joined text, with the
location of each word in its part, has to be what they say with --join.
"""

import json
import random
import re
import subprocess
import sys
import tempfile
from pathlib import Path

import specifications
from common import TOP, done, program, same

SECTIONS = ("SORTS", "CONS", "OPNS", "VARS", "RULES", "EVAL")
BOUNDS = {"REC-SPEC", *SECTIONS, "END-SPEC"}
TOKEN = re.compile(r"(?P<comment>%[^\n]*)|(?P<word>\w(?:[\w']|-(?=\w))*)|->/<-|-><-|->|\S", re.ASCII)
COUNT = 120
DECLARING = {"S1": ("SORTS",), "S2": ("CONS", "OPNS"), "S3": ("CONS", "OPNS", "VARS")}


def recw(*words, text=""):
    """Runs the program, and returns its status and its two outputs."""
    ran = subprocess.run([program(), *words], input=text.encode("latin-1"), capture_output=True, check=False)
    return ran.returncode, ran.stdout.decode("latin-1"), ran.stderr.decode("latin-1")


def sections(text):
    """Of each section the words and marks with their offsets; the name is the section `REC-SPEC`."""
    found, at = {}, None
    for it in TOKEN.finditer(text):
        if it["comment"]:
            continue
        if it[0] in BOUNDS:
            at = it[0]
        else:
            found.setdefault(at, []).append((it[0], it.start()))
    return found


def comments(text):
    return sorted(it[0].rstrip() for it in TOKEN.finditer(text) if it["comment"])


def together(texts):
    """Of each section the words and marks of all texts, each with its text's index and its offset."""
    found = {}
    for section in SECTIONS:
        for index, text in enumerate(texts):
            for token, at in sections(text).get(section, []):
                found.setdefault(section, []).append((token, index, at))
    return found


def line_of(finding):
    """The line of a finding, without what an explanation adds."""
    place = f"{finding['file']}:{finding['line']}:{finding['column']}"
    message = finding["message"].split("; ")[0]
    return f"{place}: {finding['severity']}: {message} [{finding['code']}]"


def spot(text, at):
    return f"{text.count(chr(10), 0, at) + 1}:{at - text.rfind(chr(10), 0, at)}"


def offset(text, place):
    line, column = map(int, place.split(":"))
    return sum(len(it) + 1 for it in text.split("\n")[: line - 1]) + column - 1


class Join:
    """Texts in files, and what they are together."""

    def __init__(self, room, texts):
        self.texts = texts
        self.names = [f"{room}/{index}.rec" for index in range(len(texts))]
        for name, text in zip(self.names, texts):
            Path(name).write_text(text, encoding="latin-1")
        self.wanted = together(texts)

    def place(self, text, at):
        """The name and the location in a part of a word of the joined text."""
        for section, tokens in sections(text).items():
            for (_, own), (_, index, place) in zip(tokens, self.wanted.get(section, [])):
                if own == at:
                    return index, place
        return None

    def shown(self, text, at):
        index, place = self.place(text, at)
        return f"{self.names[index]}:{spot(self.texts[index], place)}"

    def first(self, text, code, word):
        """The first declaration of a word: before a colon, or any of SORTS."""
        for section in DECLARING[code]:
            tokens = [*sections(text).get(section, []), ("", 0)]
            for (token, at), (behind, _) in zip(tokens, tokens[1:]):
                is_variable = section == "VARS" and self.names_one(tokens, at)
                if token == word and (section == "SORTS" or behind == ":" or is_variable):
                    return self.shown(text, at)
        return ""

    @staticmethod
    def names_one(tokens, at):
        """Whether a word of VARS names a variable: it does not follow a colon."""
        words = [it for it in tokens if it[1] <= at]
        return len(words) < 2 or words[-2][0] != ":"

    def line(self, text, row):
        """A line of `check` of the joined text, with the locations in the parts."""
        _, place, rest = re.match(r"(<stdin>):(\d+:\d+)(: .*)", row).groups()
        rest = re.sub(r"(?<=: )(\d+:\d+)(?= \[W\d+\]$)", lambda it: self.shown(text, offset(text, it[1])), rest)
        found = re.fullmatch(r"(.*: )([\w'-]+) \[(S[123])\]", rest)
        if found:
            rest = f"{found[1]}{found[2]}: {self.first(text, found[3], found[2])} [{found[3]}]"
        return f"{self.shown(text, offset(text, place))}{rest}\n"

    def compare(self, what):
        """Compares the joined text, and what is said of it."""
        for name in self.names:
            status, lines, _ = recw("check", name)
            if status and re.search(r" \[(?:G|L1)\]\n$", lines):
                same(f"{what}: outside", (1, lines), recw("join", *self.names)[:2])
                same(f"{what}: check outside", (1, lines), self.joined("check")[:2])
                for form in (["--explain"], ["--format", "json"]):
                    same(f"{what}: check outside {form}", recw("check", *form, name), self.joined("check", *form))
                same(f"{what}: eval outside", recw("eval", name), self.joined("eval"))
                return
        status, text, errors = recw("join", *self.names)
        same(f"{what}: status", (0, ""), (status, errors))
        found = {section: [it for it, _ in tokens] for section, tokens in sections(text).items()}
        wanted = {section: [it for it, _, _ in tokens] for section, tokens in self.wanted.items()}
        same(f"{what}: sections", {"REC-SPEC": [self.name()], **wanted}, found)
        self.compare_comments(what, text)
        self.compare_lines(what, text)

    def joined(self, command, *words):
        options = [it for name in self.names[:-1] for it in ("--join", name)]
        return recw(command, *words, *options, self.names[-1])

    def name(self):
        return sections(self.texts[-1])["REC-SPEC"][0][0]

    def compare_comments(self, what, text):
        """Each comment is kept, and before each part is one with the name of its file."""
        named = [f"% {name}" for name in self.names]
        own = [it for it in comments(text) if it not in named]
        same(f"{what}: comments", sorted(it for text in self.texts for it in comments(text)), own)
        for name, part in zip(self.names, self.texts):
            least = sum(bool(sections(part).get(section)) for section in SECTIONS)
            same(f"{what}: parts of {name}", True, least <= comments(text).count(f"% {name}") <= least + 6)

    def compare_forms(self, what, lines):
        """The other forms of `check` have the same lines, and the source lines of the parts."""
        status, objects, _ = self.joined("check", "--format", "json")
        rows = [json.loads(it) for it in objects.splitlines()]
        same(f"{what}: objects", lines, [line_of(it) for it in rows])
        same(f"{what}: status of objects", any(": error: " in it for it in lines), status == 1)
        for it in rows:
            text = self.texts[self.names.index(it["file"])].split("\n")
            word = text[it["line"] - 1][it["column"] - 1 : it["end_column"] - 1]
            same(f"{what}: a word of one line", (it["line"], True), (it["end_line"], bool(TOKEN.fullmatch(word))))
        explained = self.joined("check", "--explain")[1].splitlines()
        same(f"{what}: explained lines", lines, [it for it in explained if not it.startswith("    ")])
        for number, it in enumerate(explained):
            if it in lines:
                self.compare_caret(what, it, explained[number + 1 : number + 3])

    def compare_caret(self, what, line, shown):
        """The source line and the caret below it are at the location in the part."""
        name, row, column = re.match(r"(.*?):(\d+):(\d+): ", line).groups()
        source = self.texts[self.names.index(name)].split("\n")[int(row) - 1].rstrip("\r")
        piece = source[int(column) - 1 :][:20]
        wanted = "".join(it if it == "\t" or " " <= it <= "~" else f"\\x{ord(it):02x}" for it in piece)
        found = shown[0][len(shown[1]) - 1 :][: len(wanted)]
        same(f"{what}: caret of {line}", ("^", wanted), (shown[1][-1:], found))

    def compare_lines(self, what, text):
        status, lines, _ = recw("check", "-", text=text)
        wanted = "".join(self.line(text, row) for row in lines.splitlines())
        same(f"{what}: check --join", (status, wanted), self.joined("check")[:2])
        self.compare_forms(what, wanted.splitlines())
        status, lines, errors = recw("eval", "--steps", "2000", "-", text=text)
        options = [it for name in self.names[:-1] for it in ("--join", name)]
        found = recw("eval", "--steps", "2000", *options, self.names[-1])
        place = re.fullmatch(r"recw: spec (S\d+) at byte (\d+)\n", errors)
        if place:
            index, at = self.place(text, int(place[2]))
            errors = f"recw: spec {place[1]} at byte {at}\n"
            explained = recw("eval", "--explain", *options, self.names[-1])[2].splitlines()[1]
            shown = f"{self.names[index]}:{spot(self.texts[index], at)}: {place[1]}: "
            same(f"{what}: eval --join --explain", shown, explained[: len(shown)])
        same(f"{what}: eval --join", (status, lines, errors), found)


def cut(chance, text):
    """A text as two or three, each with some of its sections."""
    own = sections(text)
    places = sorted(chance.sample(range(1, 6), chance.choice([1, 2])))
    parts = []
    for first, last in zip([0, *places], [*places, 6]):
        kept = [f"{it}\n  {' '.join(token for token, _ in own[it])}\n" for it in SECTIONS[first:last] if it in own]
        parts.append(f"% part {first}\nREC-SPEC P{first}\n{''.join(kept)}END-SPEC % end {last}")
    return parts


def main():
    chance = random.Random(76)
    with tempfile.TemporaryDirectory() as room:
        for path in sorted(Path(TOP, "examples").rglob("*.rec")):
            text = path.read_text(encoding="latin-1")
            if recw("check", "-", text=text)[0] == 0:
                texts = Join(room, cut(chance, text))
                texts.compare(f"{path.name} in parts")
                whole = recw("eval", "--count", "-", text=text)
                both = recw("join", *texts.names)[1]
                same(f"{path.name} in parts: values", whole, recw("eval", "--count", "-", text=both))
        for number, (text, _, _) in enumerate(specifications.some(COUNT, 7)):
            others = [specifications.specification(chance) for _ in range(chance.choice([1, 1, 2]))]
            texts = [*others, text]
            chance.shuffle(texts)
            Join(room, texts).compare(f"random specifications {number}")
    done()


if __name__ == "__main__":
    sys.exit(main())
