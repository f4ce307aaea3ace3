"""Tests each rule of the eraser (rust/erase.py) on a form of Rattle that it knows, and that forms
that no rule knows stop it. The forms are in forms.txt.

    python3 rust/tests/test_erase.py
"""
import pathlib
import re
import sys
import unittest

sys.path.insert(0, str(pathlib.Path(__file__).parent.parent))
import erase

FORMS = pathlib.Path(__file__).with_name("forms.txt")


def sections():
    """Returns the name and the text of each section of forms.txt."""
    text = re.sub(r"^# .*\n", "", FORMS.read_text(), flags=re.M)
    return [section.split("\n", 1) for section in re.split(r"^== ", text, flags=re.M)[1:]]


def erased(form):
    return erase.Eraser().erase(form)


def in_one_line(text):
    return re.sub(r"\s+", " ", text).strip()


class Rules(unittest.TestCase):
    def test_each_rule_has_a_form(self):
        names = [name for name, _ in sections() if name != "stops"]
        self.assertEqual(names, list(erase.RULES))

    def test_forms(self):
        for rule, text in sections():
            if rule == "stops":
                continue
            form, expected = text.split("\nbecomes\n")
            with self.subTest(rule):
                eraser = erase.Eraser()
                self.assertEqual(in_one_line(eraser.erase(form)), in_one_line(expected))
                self.assertGreater(eraser.uses[rule], 0)

    def test_unknown_forms(self):
        forms = [form for name, form in sections() if name == "stops"]
        self.assertEqual(len(forms), 10)
        for form in forms:
            with self.subTest(form), self.assertRaises(erase.Unknown):
                erased(form)

    def test_literals_and_comments_stay(self):
        for form in [
            'const A: &str = "ghost requires { λ } ensures";',
            "const A: u8 = b'{'; const B: char = '\\u{10FFFF}'; const C: char = '\\'';",
            'const A: &[u8] = br#"ensures { " }"#;',
            "// What the caller requires { and ensures }.\nstruct A;",
            "fn f<'ghost>(a: &'ghost u8);",
        ]:
            with self.subTest(form):
                self.assertEqual(erased(form).strip(), form)

    def test_the_depth_of_a_module(self):
        text = erase.Eraser().erase("use crate::a;", "cesu8_decode", 3)
        self.assertEqual(text, "use super::super::super::decode::a;")

    def test_a_body_is_not_replaced(self):
        # The Rust crate has the bodies that were proved, and no others in their place.
        for parameter in ["a: usize", "a: &mut A", "a: u8x16"]:
            body = "{\n    if a == b {\n        f();\n    }\n}"
            form = f"#[inline(always)]\nfn append_each({parameter}) {body}"
            with self.subTest(form):
                self.assertIn(body, erased(form))


if __name__ == "__main__":
    unittest.main()
