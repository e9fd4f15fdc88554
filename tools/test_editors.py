"""Tests of the highlighting in editors/, against the words and signs of the language and the tokens of scripts."""
from __future__ import annotations

import json
import os
import re
import unittest
from typing import Callable, Dict, Iterable, List, NamedTuple, Tuple

from samples import SCRIPTS, TOP

TOKENS = os.path.join(TOP, "crates", "te_reader", "specs", "Tokens.antt")
VIM = os.path.join(TOP, "editors", "vim", "syntax", "tevents.vim")
VSCODE = os.path.join(TOP, "editors", "vscode")

# Where tokens touch, and where one looks like another.
CLOSE = """channels c;thread threads{x<-sync do{_0<-recv c;_<-send c(_0.0 -1,x.0- 1,x.0-1,-5,--5);always _0};}# a thread
thread a_thread { y <- sync if x.0 <-1 { 7recv } else { never }; fresh_ <- sync choose { fresh|throw (1*2+3) };#never
  repeat 2 { z <- sync try { send_ } catch _recv { always _recv }; } emit (); if x.0 = 1 _do xdo do1 1do }
"""

Token = Tuple[str, str]


def text_of(path: str) -> str:
    """What a file holds."""
    with open(path, encoding="utf-8") as file:
        return file.read()


def spellings(function: str) -> List[str]:
    """The spellings that the definition of tokens gives by this function."""
    return re.findall(rf'^{function} \w+\.\w+ = codes "([^"]+)"$', text_of(TOKENS), re.MULTILINE)


WORDS = spellings("word_spelling")
SIGNS = spellings("sign_spelling")


def tokens_of(text: str) -> Iterable[Token]:
    """The kind and the text of each token of a script, and of each comment."""
    signs = "|".join(re.escape(sign) for sign in sorted(SIGNS, key=len, reverse=True))
    pattern = rf"(#.*)|([A-Za-z][A-Za-z0-9_]*)|(_[A-Za-z0-9_]*)|(-?[0-9]+)|({signs})|[ \t\r\n]"
    place = 0
    while place < len(text):
        found = re.compile(pattern).match(text, place)
        assert found, text[place : place + 20]
        comment, name, inner, integer, sign = found.groups()
        kinds = (("comment", comment), ("name", name), ("inner", inner), ("integer", integer), ("sign", sign))
        for kind, token in kinds:
            if token is not None:
                yield ("word" if token in WORDS else kind), token
        place = found.end()


class Rule(NamedTuple):
    """A rule of highlighting: the kind of token that it is for, and its pattern."""

    kind: str
    pattern: re.Pattern[str]


def first_of(rules: List[Rule], text: str, place: int) -> Tuple[Rule, re.Match[str]]:
    """As a TextMate grammar reads: of the rules that match soonest the first."""
    matches = [(rule, rule.pattern.search(text, place)) for rule in rules]
    matches = [(rule, found) for rule, found in matches if found]
    return min(matches, key=lambda match: match[1].start(), default=None)


def last_of(rules: List[Rule], text: str, place: int) -> Tuple[Rule, re.Match[str]]:
    """As Vim reads: of the rules that match soonest the last."""
    return first_of(rules[::-1], text, place)


def highlighted(rules: List[Rule], choose: Callable, text: str) -> Iterable[Token]:
    """The kind and the text of each piece that the rules find; none goes over a line's end."""
    for line in text.split("\n"):
        place = 0
        while place < len(line):
            found = choose(rules, line, place)
            if found is None:
                break
            rule, match = found
            yield rule.kind, match[0]
            place = match.end()


def rules_of_textmate() -> List[Rule]:
    """The rules of the TextMate grammar, in order."""
    kinds = {"comment": "comment", "constant": "integer", "punctuation": "sign", "support": "word"}
    more = {
        "keyword.operator": "sign", "keyword.declaration": "word", "keyword.other": "word", "keyword.control": "word",
        "variable.other": "name", "variable.language": "inner",
    }
    rules = []
    for rule in json.loads(text_of(os.path.join(VSCODE, "tevents.tmLanguage.json")))["patterns"]:
        scope = rule["name"].split(".")
        rules.append(Rule(kinds.get(scope[0]) or more[".".join(scope[:2])], re.compile(rule["match"])))
    return rules


def from_vim(pattern: str) -> str:
    """A pattern of Vim as one of Python; no other forms are used than those here."""
    pattern = re.sub(r"(\[[^]]*\])\\@!", r"(?!\1)", pattern)
    parts = re.split(r"(\\%\(|\\\)|\\\||\\\?|\\\+|\(\?!\[[^]]*\]\)|\[[^]]*\])", pattern)
    forms = {"\\%(": "(?:", "\\)": ")", "\\|": "|", "\\?": "?", "\\+": "+"}
    assert all(place % 2 or re.fullmatch("[A-Za-z0-9_<#.*-]*", part) for place, part in enumerate(parts)), pattern
    return "".join(forms.get(part, part) for part in parts)


def rules_of_vim() -> List[Rule]:
    """The rules of the Vim syntax, in order."""
    kinds = {
        "Comment": "comment", "Integer": "integer", "Sign": "sign", "Arrow": "sign", "Name": "name", "Inner": "inner",
        "Declaration": "word", "Statement": "word", "Flow": "word", "Event": "word",
    }
    found = re.findall(r"^syntax match tevents(\w+) /(.*)/(?: contains=\S+)?$", text_of(VIM), re.MULTILINE)
    return [Rule(kinds[group], re.compile(from_vim(pattern))) for group, pattern in found]


class Highlighted(unittest.TestCase):
    def test_the_language_has_its_words_and_signs(self):
        for spelled, function in ((WORDS, "word_spelling"), (SIGNS, "sign_spelling")):
            clauses = [line for line in text_of(TOKENS).split("\n") if line.startswith(f"{function} ")]
            self.assertEqual(len(set(spelled)), len(clauses))
            self.assertGreater(len(clauses), 1)
        told = re.search(r"words\s+`([a-z ]+)`\s+are no names", text_of(os.path.join(TOP, "docs", "SCRIPT.md")))
        self.assertEqual(sorted(told[1].split()), sorted(WORDS))

    def check(self, rules: List[Rule], choose: Callable) -> None:
        """The rules find each word and sign, and each token of many scripts."""
        for word in WORDS:
            self.assertEqual(list(highlighted(rules, choose, word)), [("word", word)])
            for name in (word + "s", "s" + word, word + "_", word + "1", "_" + word):
                kind = "inner" if name.startswith("_") else "name"
                self.assertEqual(list(highlighted(rules, choose, name)), [(kind, name)])
        for sign in SIGNS:
            self.assertEqual(list(highlighted(rules, choose, sign)), [("sign", sign)])
        for text in [CLOSE, *self.scripts()]:
            self.assertEqual(list(highlighted(rules, choose, text)), list(tokens_of(text)))

    def scripts(self) -> List[str]:
        """The scripts of scripts/."""
        return [text_of(os.path.join(SCRIPTS, name)) for name in sorted(os.listdir(SCRIPTS)) if name.endswith(".te")]

    def test_the_texts_have_each_token(self):
        kinds: Dict[str, set] = {}
        for text in [CLOSE, *self.scripts()]:
            for kind, token in tokens_of(text):
                kinds.setdefault(kind, set()).add(token)
        self.assertEqual((kinds["word"], kinds["sign"]), (set(WORDS), set(SIGNS)))
        self.assertEqual(set(kinds), {"word", "sign", "name", "inner", "integer", "comment"})

    def test_textmate(self):
        self.check(rules_of_textmate(), first_of)

    def test_vim(self):
        self.check(rules_of_vim(), last_of)

    def test_each_group_of_vim_has_a_look(self):
        text = text_of(VIM)
        groups = set(re.findall(r"^syntax (?:match|keyword) (\w+)", text, re.MULTILINE))
        looks = dict(re.findall(r"^highlight default link (\w+) (\w+)$", text, re.MULTILINE))
        self.assertEqual(set(looks), groups)
        kinds = {rule.kind for rule in rules_of_vim()}
        self.assertEqual(kinds, {"word", "sign", "name", "inner", "integer", "comment"})

    def test_the_extension_names_its_files(self):
        extension = json.loads(text_of(os.path.join(VSCODE, "package.json")))["contributes"]
        (language,), (grammar,) = extension["languages"], extension["grammars"]
        self.assertEqual(language["extensions"], [".te"])
        textmate = json.loads(text_of(os.path.join(VSCODE, grammar["path"])))
        self.assertEqual((grammar["scopeName"], textmate["fileTypes"]), (textmate["scopeName"], ["te"]))
        configuration = json.loads(text_of(os.path.join(VSCODE, language["configuration"])))
        self.assertEqual(configuration["comments"]["lineComment"], "#")


if __name__ == "__main__":
    unittest.main()
