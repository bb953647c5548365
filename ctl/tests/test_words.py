"""Help and version stand everywhere, and the sentences of faults are those of the page."""

import argparse
import re
import subprocess
import unittest

from .tailnet import CTL, TOP, ran
from operator_client import faults
from operator_client.words import parser


def commands(words, line=()):
    """Each command of a parser, as the words that lead to it."""
    found = [line]
    for action in words._actions:
        if isinstance(action, argparse._SubParsersAction):
            for name, inner in action.choices.items():
                found += commands(inner, (*line, name))
    return found


def all_actions(words):
    """Each option of a parser and of its commands."""
    for action in words._actions:
        yield action
        if isinstance(action, argparse._SubParsersAction):
            for inner in action.choices.values():
                yield from all_actions(inner)


class Words(unittest.TestCase):
    def test_help_and_version_everywhere(self):
        for line in commands(parser()):
            got = ran(*line, "--help")
            self.assertEqual((got.status, got.errors), (0, ""), line)
            self.assertTrue(got.output.startswith(f"usage: {' '.join(('tailnetctl', *line))}"), got.output)
            self.assertTrue(ran(*line, "--version").output.startswith("tailnetctl "), line)

    def test_each_command_is_there(self):
        wanted = {
            "nodes", "node rename", "node tags", "node routes", "node approve", "node expire", "node remove", "users", "user add", "user remove",
            "keys", "key make", "key expire", "pending", "admit", "policy show", "policy edit", "policy save", "policy check", "dns", "sweep", "can", "reach", "watch",
        }
        self.assertLessEqual(wanted, {" ".join(line) for line in commands(parser())})


class Pages(unittest.TestCase):
    """The manual and the completions have each command."""

    def test_the_manual_has_each_command_and_option(self):
        with open(f"{TOP}/deploy/man/tailnetctl.1", encoding="utf-8") as file:
            page = file.read().replace("\\-", "-")
        for line in commands(parser()):
            name = " ".join(line)
            # (`node` and `policy` alone are no commands)
            if name not in ("", "node", "user", "key", "policy"):
                self.assertRegex(page, rf'(?m)^\.(B|BI|BR) "?{name}\b', name)
        options = {option for action in all_actions(parser()) for option in action.option_strings if option.startswith("--")}
        self.assertEqual([option for option in options if option not in page], [])

    def test_bash_completes_words(self):
        wanted = {("pol",): "policy", ("node", "ren"): "rename", ("--json", "policy", "check", "--off"): "--offline", ("key", "make", "--reu"): "--reusable"}
        made = subprocess.run([f"{CTL}/completions", "bash"], capture_output=True, text=True, check=True).stdout
        for words, completed in wanted.items():
            script = f'{made}\nCOMP_WORDS=(tailnetctl {" ".join(words)}); COMP_CWORD={len(words)}; _tailnetctl; echo "${{COMPREPLY[@]}}"'
            got = subprocess.run(["bash", "-c", script], capture_output=True, text=True, check=True)
            self.assertEqual(got.stdout.split(), [completed])


class Sentences(unittest.TestCase):
    def test_the_sentences_are_the_page(self):
        with open(f"{TOP}/docs/POLICY.md", encoding="utf-8") as file:
            rows = re.findall(r"^\| (P[0-9]+) \| (.*?) \| (.*?) \| (.*?) \|$", file.read(), re.MULTILINE)
        self.assertEqual(len(rows), 22)
        told = [(code, what, fix) for code, what, _, fix in rows]
        own = [("P1", *faults.SYNTAX["offset"]), ("P1", *faults.SYNTAX["json"])]
        own += [(code, *sentence) for code, sentence in faults.SENTENCES.items()]
        self.assertEqual(own, told)
