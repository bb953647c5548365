"""`policy edit`: what is saved, and what isn't."""

import json
import sys

from .tailnet import OWNERS, TailnetTest

BETTER = OWNERS[:-1] + ', "acls": [],}\n'


class Editing(TailnetTest):
    def setUp(self):
        self.server.save(OWNERS)

    def editor(self, *texts, then=None):
        """An editor that writes these texts, one at each call, and then does something else."""
        at = self.server.file("at", "0")
        code = (
            f"import sys\ntexts = {list(texts)!r}\nat = int(open({at!r}).read())\nopen({at!r}, 'w').write(str(at + 1))\n"
            f"if texts[at] is not None: open(sys.argv[1], 'w').write(texts[at])\n{then or ''}\n"
        )
        return f"{sys.executable} {self.server.file('editor.py', code)}"

    def test_a_change_is_shown_and_saved(self):
        got = self.ran("policy", "edit", "--yes", EDITOR=self.editor(BETTER))
        self.assertEqual((got.status, got.errors), (0, ""))
        self.assertIn(f"-{OWNERS}\n+{BETTER}", got.output)
        self.assertEqual(self.server.policy(), BETTER.encode())

    def test_the_person_is_asked(self):
        for typed, saved in (("y\n", BETTER), ("n\n", OWNERS), ("", OWNERS)):
            self.server.save(OWNERS)
            got = self.ran("policy", "edit", EDITOR=self.editor(BETTER), typed=typed)
            self.assertEqual(got.status, 0 if saved == BETTER else 6)
            self.assertEqual(self.server.policy(), saved.encode())
        self.assertIn("Your text is in ", got.errors)

    def test_without_a_terminal_nothing_is_saved(self):
        self.assertEqual(self.ran("policy", "edit", EDITOR=self.editor(BETTER)).status, 6)
        self.assertEqual(self.server.policy(), OWNERS.encode())

    def test_no_change(self):
        self.assertEqual(self.done("policy", "edit", EDITOR=self.editor(None)).output, "nothing was changed\n")

    def test_a_fault_has_its_line_and_its_sentence(self):
        wrong = '{\n "acls": [\n  {"action": "deny"}]}'
        got = self.ran("policy", "edit", "--yes", EDITOR=self.editor(wrong))
        self.assertEqual(got.status, 6)
        self.assertIn("policy.hujson:3:14: P9 the action is missing or isn't `accept` (acls[0].action): ", got.errors)
        self.assertEqual(self.server.policy(), OWNERS.encode())
        got = self.ran("policy", "edit", "--yes", EDITOR=self.editor(wrong, BETTER), typed="y\n")
        self.assertEqual((got.status, self.server.policy()), (0, BETTER.encode()))

    def test_a_text_that_somebody_else_saved(self):
        other = '{"tagOwners":{"tag:web":[],"tag:Db-1":[]}}'
        then = (
            "import http.client\n"
            f"c = http.client.HTTPConnection({self.server.address!r})\n"
            f"c.request('PUT', '/api/v1/policy', {other!r}, {{'Authorization': 'Bearer secret-of-the-tests'}})\n"
            "assert c.getresponse().status == 200\n"
        )
        got = self.ran("policy", "edit", "--yes", EDITOR=self.editor(BETTER, then=then))
        self.assertEqual(got.status, 6)
        self.assertIn("somebody else saved another policy while you edited; nothing was saved. Your text is in ", got.errors)
        self.assertEqual(self.server.policy(), other.encode())
        path = got.errors.split("Your text is in ")[1].split(". ")[0]
        with open(path, encoding="utf-8") as file:
            self.assertEqual(file.read(), BETTER)

    def test_an_editor_that_fails(self):
        self.assertIn("can't be run", self.ran("policy", "edit", EDITOR="/nonexistent").errors)
        self.assertIn("ended with status 1", self.ran("policy", "edit", EDITOR="false").errors)


class Saving(TailnetTest):
    def test_show_and_save_byte_for_byte(self):
        for text in (OWNERS, BETTER, OWNERS + " // é\u202e"):
            path = self.server.file("p.hujson", text)
            self.done("policy", "save", path)
            self.assertEqual(self.done("policy", "show").output, text)

    def test_a_fault_of_a_save(self):
        path = self.server.file("p.hujson", '{\n"acl": []}')
        got = self.ran("policy", "save", path)
        self.assertEqual((got.status, got.output.split(": ")[0:1]), (1, [f"{path}:2:1"]))
        self.assertEqual(json.loads(self.ran("policy", "save", path, "--json").output)["faults"][0]["code"], "P3")
