"""Characters that turn or hide what stands beside them are code points."""
import unittest

from ..shown import shown


class Shown(unittest.TestCase):
    def test_what_can_be_seen_stays(self):
        for said in ("Ann", "Ben & Co", "J\u00fcrgen \u0141\u00f3\u017a", "\u5f20\u4f1f", "\u05d3\u05d5\u05d3"):
            self.assertEqual(shown(said), said)

    def test_what_turns_or_hides_is_a_code_point(self):
        table = {"a\x1b[2Jb": "a<U+001B>[2Jb", "\u202eabc": "<U+202E>abc", "a\u200bb": "a<U+200B>b",
                 "\ufeffa": "<U+FEFF>a", "a\u2066b\u2069": "a<U+2066>b<U+2069>", "\x7f": "<U+007F>",
                 "\x85": "<U+0085>", "a\nb": "a<U+000A>b", "\u2028": "<U+2028>",
                 "\u061c": "<U+061C>", "\U000e0041": "<U+E0041>", "\xa0": "<U+00A0>",
                 b"a\xffb".decode("utf-8", "surrogateescape"): "a<FF>b"}
        for said, wanted in table.items():
            self.assertEqual(shown(said), wanted)

    def test_a_long_text_is_cut(self):
        self.assertEqual(shown("a" * 81, 80), "a" * 80 + "..")
        self.assertEqual(shown("a" * 80, 80), "a" * 80)


if __name__ == "__main__":
    unittest.main()
