"""What is measured of the pages: their sentences, the runs of words that two pages share, and the crates,
hazards and conditions that they name."""
from __future__ import annotations

import re
from collections.abc import Iterator

from made import without_made

# A sentence has at most so many words, but for a few of all pages.
LONGEST = 35
MAY_BE_LONG = 10
# Two pages that have as many words in a row say the same.
RUN = 7

BULLET = re.compile(r"^( *)(?:([-*>]|\d+\.) +)?")
CELL_END = re.compile(r"(?<!\\)\|")
# Where a sentence ends: marks of emphasis and brackets may stand behind its full stop.
SENTENCE_END = re.compile(r"(?<=[.?!])[\"')*_]*\s+")
WORD = re.compile(r"\w(?:[\w'./-]*\w)?")
PRODUCT = re.compile(r"^((?!example_|test_|bench_)[a-z]+_\w+)(?: staticlib)?:", re.MULTILINE)
CRATE = re.compile(r"^(\w+)(?: staticlib)?:", re.MULTILINE)
USES = re.compile(r"^(\w+)(?: staticlib)?:(.*)", re.MULTILINE)
CRATES = re.compile(r"\b(?:irig|record|scenario|report|text|c|cli)_\w+")
# A term that is set off, and the first cell of a row.
TERM = re.compile(r"(?<![*\w])\*([^\W\d_][\w -]+)\*(?!\*)")
FIRST_CELL = re.compile(r"^\| ([^|]+) \|", re.MULTILINE)
# What takes its time, which is said in docs/PROOFS.md alone, and a time.
BUILD = re.compile(r"`(?:\./build|\./check|\.ci/run|rt ci|make -C c|\./irig)[^`]*`")
TIME = re.compile(r"\b(?:an?|\d[\d,.]*(?: to \d[\d,.]*)?) (?:s|seconds?|minutes?|hours?)\b")
NAME = re.compile(r"`[^`]*`|\b(irig_[a-z]\w*)\b")
# A row of a hazard or of a condition of use, and conditions that a row names: one, or from one to another.
NUMBERED = re.compile(r"^\| ([HC])(\d+) \|(.*)\|$", re.MULTILINE)
CONDITIONS = re.compile(r"\bC(\d+)(?: to C(\d+))?\b")
# What is under test by its path.
TRIED = ("cases/", "examples/", "tests/")


def mark_of(line: str) -> str | None:
    """The mark with which an item of a list or a quotation begins."""
    match = BULLET.match(line)
    return match.group(2) if match else None


def blocks(text: str) -> Iterator[tuple[bool, list[str]]]:
    """Runs of lines: (is prose, lines). Tables, headings, code and blank lines are none."""
    is_fenced = False
    run: list[str] = []
    for line in text.splitlines():
        is_fence = line.startswith("```")
        is_fenced ^= is_fence
        is_code = line.startswith("    ") and not (run and mark_of(run[0]))
        is_prose = not (is_fenced or is_fence or is_code or not line.strip() or line[0] in "|#")
        starts = mark_of(line) is not None and not (run and line.startswith("> "))
        if run and (starts or not is_prose):
            yield True, run
            run = []
        if is_prose:
            run.append(line)
        else:
            yield False, [line]
    if run:
        yield True, run


def passages(text: str) -> Iterator[str]:
    """The paragraphs, items and cells of tables that were written by hand, without marks."""
    for is_prose, lines in blocks(without_made(text)):
        if is_prose:
            yield BULLET.sub("", " ".join(line.strip().removeprefix("> ") for line in lines), count=1)
        elif lines[0].startswith("|"):
            yield from (cell.strip() for cell in CELL_END.split(lines[0]) if cell.strip("-: "))


def sentences(text: str) -> Iterator[str]:
    """The sentences of a page. Code counts as one word."""
    for passage in passages(text):
        plain = re.sub(r"`[^`]*`", "code", passage).replace("**", "")
        yield from (sentence for sentence in SENTENCE_END.split(plain) if sentence)


def words_in(text: str) -> list[str]:
    return WORD.findall(text)


def long_sentences(text: str) -> list[str]:
    """Those with more than LONGEST words."""
    return [sentence for sentence in sentences(text) if len(words_in(sentence)) > LONGEST]


def timed_builds(text: str) -> list[str]:
    """Sentences that say how long a build takes."""
    found = [sentence for passage in passages(text) for sentence in SENTENCE_END.split(passage)]
    return [sentence for sentence in found if BUILD.search(sentence) and TIME.search(sentence)]


def unlisted_terms(texts: dict[str, str], glossary: str) -> dict[str, str]:
    """The terms that pages set off and the glossary's first column lacks, each with a page that has it."""
    listed = {word.strip() for row in FIRST_CELL.findall(glossary) for word in row.lower().split(",")}
    found: dict[str, str] = {}
    for name, text in texts.items():
        for passage in passages(text):
            for term in TERM.findall(passage):
                if term.lower() not in listed:
                    found.setdefault(term.lower(), name)
    return found


def is_linked_first(text: str) -> bool:
    """Whether the first term that is set off is a link to the glossary."""
    term = TERM.search(text)
    return not term or text[term.end() :].startswith("](docs/GLOSSARY.md)")


def runs_in(text: str) -> set[tuple[str, ...]]:
    """The runs of RUN words of a page."""
    found: set[tuple[str, ...]] = set()
    for passage in passages(text):
        words = [word.lower() for word in words_in(passage)]
        found.update(tuple(words[at : at + RUN]) for at in range(len(words) - RUN + 1))
    return found


def shared_runs(texts: dict[str, str]) -> dict[str, list[str]]:
    """The runs of words that two pages or more have, and the names of these pages."""
    found: dict[str, list[str]] = {}
    for name, text in texts.items():
        for run in runs_in(text):
            found.setdefault(" ".join(run), []).append(name)
    return {run: names for run, names in sorted(found.items()) if len(names) > 1}


def mapped_crates(page: str) -> list[str]:
    """The crates in the map of a page, in its order."""
    drawing = page.partition("## The crates")[2].partition("\n## ")[0]
    return [name for line in drawing.splitlines() if line.startswith("    ") for name in CRATES.findall(line)]


def missing_crates(crates: str, page: str) -> list[str]:
    """The crates of the product, by crates.txt, that the map of crates does not name."""
    mapped = mapped_crates(page)
    return [name for name in PRODUCT.findall(crates) if name not in mapped]


def misplaced_crates(crates: str, page: str) -> list[str]:
    """Pairs of a crate and one that it uses, by crates.txt, which the map does not have after it."""
    mapped = mapped_crates(page)
    uses = [(name, used) for name, rest in USES.findall(crates) for used in rest.split()]
    known = [(name, used) for name, used in uses if name in mapped and used in mapped]
    return [f"{name}, {used}" for name, used in known if mapped.index(used) < mapped.index(name)]


def drawn_crates(text: str) -> list[str]:
    """The crates in the drawings of a page: lines of code with an arrow, and the map of crates."""
    lines = [line for line in text.splitlines() if line.startswith("    ") and "─►" in line]
    return [name for line in lines for name in CRATES.findall(line)] + mapped_crates(text)


def gone_crates(crates: str, text: str) -> list[str]:
    """The names of crates in a page that crates.txt does not have. One without marks of code is a crate's."""
    known = CRATE.findall(crates)
    told = [name for name in NAME.findall(" ".join(passages(text))) if name]
    return [name for name in told + drawn_crates(text) if name not in known]


def rows_numbered(letter: str, page: str) -> list[list[str]]:
    """The cells behind the number of each row of this letter. Stops at rows out of order."""
    found = [(int(number), cells) for of, number, cells in NUMBERED.findall(page) if of == letter]
    numbers = [number for number, _ in found]
    if not found or numbers != list(range(1, len(found) + 1)):
        raise SystemExit(f"pages: the rows {letter}1 and so on are not in order: {numbers}")
    return [[cell.strip() for cell in CELL_END.split(cells)] for _, cells in found]


def unknown_laws(cell: str, contracts: dict[str, set[str]]) -> list[str]:
    """What no source has of `law`; `law`: `clause`, `clause`; .."""
    wrong = []
    for entry in filter(None, cell.split("; ")):
        law, *clauses = re.findall(r"`([^`]*)`", entry)
        known = contracts.get(law)
        wrong += [law] if known is None else [f"{law}: {name}" for name in clauses if name not in known]
    return wrong


def unknown_tests(cell: str, tests: set[str]) -> list[str]:
    names = re.findall(r"`([^`]*)`", cell)
    return [name for name in names if name not in tests and not name.startswith(TRIED)]


def wrong_hazards(page: str, contracts: dict[str, set[str]], tests: set[str]) -> Iterator[str]:
    """What is amiss in a page of hazards, whose cells are the hazard, what is promised, laws, tests, and
    what remains by which conditions of use. That a test's path leads somewhere is seen of all pages."""
    conditions = range(1, len(rows_numbered("C", page)) + 1)
    named: set[int] = set()
    for number, cells in enumerate(rows_numbered("H", page), 1):
        laws, tried, remains = cells[2:]
        if "`" not in laws + tried:
            yield f"H{number} has no law and no test"
        yield from (f"H{number}: no law or clause {name}" for name in unknown_laws(laws, contracts))
        yield from (f"H{number}: no test {name}" for name in unknown_tests(tried, tests))
        for first, last in CONDITIONS.findall(remains):
            named.update(range(int(first), int(last or first) + 1))
    yield from (f"no hazard refers to C{number}" for number in conditions if number not in named)
    yield from (f"there is no C{number}" for number in sorted(named) if number not in conditions)
