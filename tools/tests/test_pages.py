#!/usr/bin/env python3
"""Tests of tools/repo/pages: what it measures of sentences, of words that two pages share and of the crates
that pages name, over texts whose counts are plain, and when it fails."""
import sys
import unittest
from unittest import mock

from loading import ROOT, InAFolder, loaded

sys.path.append(str(ROOT / "tools/repo"))

import prose  # noqa: E402

pages = loaded(ROOT / "tools/repo/pages")

CRATES = """# frames
irig_frame:
text_frame: irig_frame
c_reader staticlib: irig_frame
example_uses: irig_frame
test_signal: irig_frame
"""
MAP = """Begins with c_reader.

## The crates

    texts    text_frame

## Frames

irig_frame
"""


def words(count: int, word: str = "word") -> str:
    return " ".join([word] * count)


class Sentences(unittest.TestCase):
    def test_long_ones(self) -> None:
        most, many, half = words(35), words(40), words(18)
        made = f"<!-- list, made -->\n\n{many}\n\n<!-- list, end -->\n"
        for text, count in (
            (f"{most}. {most}.\n", 0), (f"{words(36)}. Short.\n", 1), (f"{half}\n{half}.\n", 1),
            (f"- {half}\n  {half}.\n", 1), (f"- {half}\n- {half}\n", 0), (f"1. {most}.\n", 0),
            (f"60 {most}.\n", 1), (f"{half}\n\n{half}\n", 0), (f"| {half} | {half} |\n", 0),
            (f"| a | {many} |\n", 1), (f"{words(34)} `{many}`.\n", 0), (f"    {many}\n", 0),
            (f"```\n{many}\n```\n", 0), (f"# {many}\n", 0), (made, 0),
            *((f"{half}{end}{half}\n", 0) for end in (". ", "? ", "! ", ".** ", ".) ", '." ')),
        ):
            self.assertEqual(len(prose.long_sentences(text)), count, text)

    def test_times_of_builds(self) -> None:
        for text, count in (
            ("`./build` takes 11 minutes.\n", 1), ("A minute passes, and `./irig` runs.\n", 0),
            ("In a minute `./irig` runs.\n", 1), ("`./build` makes it. It lasts 3 s.\n", 0),
        ):
            self.assertEqual(len(prose.timed_builds(text)), count, text)

    def test_terms_without_a_row(self) -> None:
        glossary = "| Word | Meaning |\n|---|---|\n| line, of wires | a wire |\n| told edge | when |\n"
        texts = {"a.md": "A *Line*, a *told edge* and a *stray*: 2 * 3 * 4, **no term**.\n", "b.md": "A *stray*.\n"}
        self.assertEqual(prose.unlisted_terms(texts, glossary), {"stray": "a.md"})

    def test_the_first_term(self) -> None:
        for text, is_linked in (
            ("**A** [*frame*](docs/GLOSSARY.md).", True), ("A *frame*; [words](docs/GLOSSARY.md).", False),
            ("No term.", True), ("2 * 3 * 4, a [*tick*](docs/C.md).", False),
        ):
            self.assertEqual(prose.is_linked_first(text), is_linked, text)

    def test_ten_may_be_long(self) -> None:
        long = words(36) + ".\n\n"
        self.assertEqual(list(pages.faults_of_sentences({"a": 5 * long, "b": 5 * long})), [])
        wrong = list(pages.faults_of_sentences({"a": 5 * long, "b": 6 * long}))
        self.assertEqual(wrong[0], "11 sentences have more than 35 words, 10 may:")
        self.assertEqual(wrong[11], f"b: {words(36)}.")


def shared(*texts: str) -> list[str]:
    return list(prose.shared_runs({str(place): text for place, text in enumerate(texts)}))


class SharedRuns(unittest.TestCase):
    def test_seven_words_in_two_pages(self) -> None:
        first = "x a b c d e f g y\n"
        self.assertEqual(shared(first, "z a b c d e f g\n"), ["a b c d e f g"])
        self.assertEqual(shared(first, "z a b c d e f h\n"), [])
        self.assertEqual(shared(first + "\n" + first, "z\n"), [])
        self.assertEqual(len(shared(first, first, first)), 3)

        self.assertEqual(len(shared("A b, c\nd (e) **f** g.\n", "| a b c d e f g |\n")), 1)
        self.assertEqual(shared(first, "    a b c d e f g\n"), [])


class Crates(unittest.TestCase):
    def test_each_of_the_product_is_in_the_map(self) -> None:
        self.assertEqual(prose.missing_crates(CRATES, MAP), ["irig_frame", "c_reader"])
        whole = MAP.replace("text_frame", "irig_frame, text_frame, c_reader")
        self.assertEqual(prose.missing_crates(CRATES, whole), [])

    def test_each_is_before_those_that_it_uses(self) -> None:
        map_of = "## The crates\n\nUses those after it, as irig_frame does.\n\n    {}\n    {}\n".format
        right = map_of("top    c_reader, text_frame,", "low    irig_frame")
        self.assertEqual(prose.misplaced_crates(CRATES, right), [])
        wrong = map_of("top    text_frame, irig_frame", "low    c_reader")
        self.assertEqual(prose.misplaced_crates(CRATES, wrong), ["c_reader, irig_frame"])

    def test_none_that_is_gone(self) -> None:
        text = "Over irig_frame and example_uses, in irig_gone.\n\n| irig_old |\n\n    irig_code\n"
        self.assertEqual(prose.gone_crates(CRATES, text), ["irig_gone", "irig_old"])
        self.assertEqual(prose.gone_crates(CRATES, "`irig_reader_tick` of c_reader\n"), [])

    def test_none_that_is_gone_is_drawn(self) -> None:
        text = "    tick     irig_frame code ─► irig_first    a log line\n\n## The crates\n\n    c_reader, irig_second\n"
        self.assertEqual(prose.gone_crates(CRATES, text), ["irig_first", "irig_second"])


HAZARDS = """| No. | Hazard | Promise | Laws | Tests | Remains |
| H1 | A | B | `law`; `other`: `one`, `two` | `gate`, `cases/a` | C1 to C2 |
| H2 | A | B | | `gate` | D: C3 |
| C1 | see | show |
| C2 | see | show |
| C3 | see | show |
"""


class Hazards(unittest.TestCase):
    def wrong(self, old: str = "", new: str = "") -> list[str]:
        self.assertIn(old, HAZARDS)
        contracts = {"law": {"three"}, "other": {"one", "two"}}
        return list(prose.wrong_hazards(HAZARDS.replace(old, new), contracts, {"gate"}))

    def test_each_has_a_law_or_a_test_that_is_there(self) -> None:
        self.assertEqual(self.wrong(), [])
        self.assertEqual(self.wrong("| | `gate` |", "| | |"), ["H2 has no law and no test"])
        self.assertEqual(self.wrong("`law`", "`gone`"), ["H1: no law or clause gone"])
        self.assertEqual(self.wrong("`two`", "`three`"), ["H1: no law or clause other: three"])
        self.assertEqual(self.wrong("`gate`, ", "`door`, "), ["H1: no test door"])

    def test_hazards_and_conditions_refer_to_each_other(self) -> None:
        self.assertEqual(self.wrong(" to C2", ""), ["no hazard refers to C2"])
        self.assertEqual(self.wrong("D: C3", "C3, C4"), ["there is no C4"])

    def test_rows_are_in_order(self) -> None:
        for old, new in (("| H2 |", "| H3 |"), ("| C2 |", "| C1 |"), ("| H", "| X"), ("| C", "| X")):
            with self.assertRaises(SystemExit):
                self.wrong(old, new)


class TheNumberThatMayFall(InAFolder):
    def test_it_falls_and_never_rises(self) -> None:
        kept, page = self.folder / "shared_runs", self.folder / "a.md"
        page.write_text("a b c d e f g h\n")
        with mock.patch.multiple(pages, SHARED=kept, UNLISTED=kept, BY_HAND=[page], ROOT=self.folder):
            for before, after in (("5", "0\n"), ("0", "0\n")):
                kept.write_text(before)
                pages.lay_out()
                self.assertEqual(kept.read_text(), after)
            texts = dict.fromkeys(("a", "b"), page.read_text())
            self.assertEqual(list(pages.faults_of_repetition(texts)), [
                "pages share 2 runs of 7 words, 0 may be:", "a b c d e f g: a, b", "b c d e f g h: a, b",
            ])


class Layout(unittest.TestCase):
    def test_a_paragraph_and_an_item(self) -> None:
        self.assertEqual(pages.wrap("a\nb\n\n- c\n  d\n"), "a b\n\n- c d\n")
        laid = pages.wrap(words(30, "four") + "\n").splitlines()
        self.assertEqual([len(line) for line in laid], [99, 49])

    def test_code_and_tables_stay(self) -> None:
        for text in (f"    {words(40)}\n", f"| {words(40)} |\n", f"# {words(40)}\n"):
            self.assertEqual(pages.wrap(text), text)


if __name__ == "__main__":
    unittest.main()
