"""How questions to definitions are written in antt: facts, and the modules that they stand in."""

import re
from collections.abc import Callable, Iterator
from dataclasses import dataclass
from functools import cache
from pathlib import Path
from random import Random

from as_module import loaded

ROOT = Path(__file__).resolve().parents[2]
IN_A_FACT = 20  # answers: with more of them a failure names too many inputs
COUNTEREXAMPLES = "counterexamples"  # a source whose questions compute nothing that is so
# The words of the standard library that facts use, and those that a proof has to open.
STANDARD = """
use Rattle.std.proofs.Common.{◌≡◌, ◌≢◌, ℕ, ℤ, pos, negsuc, Bool, true, false, List, [], ◌∷◌, ◌++◌, map, Option}
use Rattle.std.proofs.Common.{Some, None, Result, Ok, Err, refl, ◌+◌, ◌*◌, ◌%◌, ◌∙◌, subst, arith, ap, All}
use Rattle.std.specs.Prelude.{codes, length, replicate, slice_get, slice_index_or, unwrap_or}
use Rattle.std.specs.List.{range_with_len}
use Rattle.irig_frame.proofs.StandardFacts.{symbols}
"""
CLOSED = """use Rattle.std.specs.Fmt.{digits}
use Rattle.core.specs.Float.Numeral.{scan_numeral}
use Rattle.core.specs.Str.{is_utf8, chars}
use Rattle.core.specs.Float.{float_is_finite}
use lib.Utf8.{encode}
use lib.Ieee.{round}
"""

Names = tuple[tuple[str, str], ...]  # definitions, by crate and name


believe = loaded(ROOT / "tools/repo/believe")
definitions = cache(believe.modules)


# ---- values


class Antt(str):
    """What is antt already."""


def antt(value) -> Antt:
    """A number, a truth value, a text as its bytes, a list or a pair in antt."""
    match value:
        case Antt():
            return value
        case bool():
            return Antt(str(value).lower())
        case int() | None:
            return Antt(value)
        case list():
            return Antt("(" + "".join(f"{antt(item)} ∷ " for item in value) + "[])")
        case tuple():
            return Antt(f"({', '.join(map(antt, value))})")
        case str():
            return antt(value.encode())
        case bytes() if not re.fullmatch(rb"[\n\r\t -~]*", value):
            return antt(list(value))
        case bytes():
            said = value.decode().replace("\\", "\\\\").replace('"', '\\"').replace("\n", "\\n")
            return Antt(f'(codes "{said}")'.replace("\r", "\\r").replace("\t", "\\t"))
    return written(value)


written: Callable = Antt  # how other values are written: set by values.py


def record(**fields) -> Antt:
    return Antt("(record { " + "; ".join(f"{name} = {antt(value)}" for name, value in fields.items()) + " })")


def integer(value: int) -> Antt:
    return Antt(f"(pos {value})" if value >= 0 else f"(negsuc {-value - 1})")


def some(value) -> Antt:
    return Antt("None" if value is None else f"(Some {antt(value)})")


# ---- facts


@dataclass(frozen=True)
class Fact:
    """What is so, as so many answers say, behind blocks that facts may share; `wrong` is what is not so."""

    says: str
    wrong: str | None = None
    answers: int = 1
    above: tuple[str, ...] = ()
    proof: str = "refl"


def equal(left: str, right, wrong=None, above: tuple[str, ...] = ()) -> Fact:
    """That the left comes to the right, and to nothing wrong: of a list, not with another answer first."""
    answers = len(right) if isinstance(right, list) else 1
    if isinstance(right, list):
        wrong = next(([other, *right[1:]] for other in right if other != right[0]), None)
    right, not_so = (f"{left} ≡ ({antt(value)})" for value in (right, wrong))
    return Fact(right, None if wrong is None else not_so, answers, above)


@dataclass(frozen=True)
class Question:
    """What definitions are asked, and what makes the answers, of which source."""

    name: str
    part: str
    source: str
    roots: Names
    make: Callable

    def facts(self, seeds: tuple[int, ...]) -> list[Fact]:
        """The facts of these seeds; what takes no seed is asked once."""
        # Of whole scenarios a fresh one might be too long for the prover.
        tried = seeds[:1] if self.part == "scenarios" else seeds
        takes_seed = self.make.__code__.co_argcount > 0
        all_ = [self.make(Random(seed)) for seed in tried] if takes_seed else [self.make()]
        return [fact for answers in all_ for fact in self.gathered(list(answers))]

    def gathered(self, answers: list) -> Iterator[Fact]:
        """Facts as they come; inputs and answers in lists, for each root one."""
        yield from (one for one in answers if isinstance(one, Fact))
        pairs = [one for one in answers if not isinstance(one, Fact)]
        for start in range(0, len(pairs), IN_A_FACT):
            inputs, rights = zip(*pairs[start : start + IN_A_FACT])
            by_root = zip(*rights) if len(self.roots) > 1 else [rights]
            for (_, name), right in zip(self.roots, by_root):
                asked = [Antt(f"({' '.join([name, *map(antt, input)])})") for input in inputs]
                yield equal(antt(asked), list(right))


QUESTIONS: list[Question] = []


def names(words: str) -> Names:
    return tuple(tuple(word.split(".")) for word in words.split())


def question(source: str, roots: str) -> Callable:
    """Makes a question of a function that yields facts, or inputs and answers, by a random source. The
    inputs are those of each root, and the answers as many as there are roots."""

    def decorate(make: Callable) -> Callable:
        part = make.__module__.rpartition(".")[2]
        QUESTIONS.append(Question(make.__name__, part, source, names(roots), make))
        return make

    return decorate


# ---- modules


def reached(roots: Names) -> dict[tuple[str, str], list[str]]:
    """All definitions that these reach, by crate and file."""
    return believe.closure(definitions(), list(roots))[0]


def is_closed(key: tuple[str, str], name: str) -> bool:
    return "unfoldable" in definitions()[key].definitions[name][1][0].split()


@cache
def types() -> dict[str, str]:
    """How the types of code are imported; of two with one name the lower crate's."""
    found = {}
    for crate in reversed(believe.crates()):
        folder = ROOT / "crates" / crate / "src"
        for path in folder.rglob("*.rt"):
            place = ".".join(path.relative_to(folder).with_suffix("").parts)
            for kind, name in re.findall(r"^pub (enum|struct) (\w+)", path.read_text(), re.MULTILINE):
                home = f"Rattle.{crate}.specs.declared.{place}.{name}"
                variants = f"use {home}.TheVariants as {name}\n" if kind == "enum" else ""
                found[name] = f"use {home}.{{{name}}}\n{variants}"
    return found


def imports(roots: Names, body: str) -> str:
    """What a module has to import for these definitions, and for the types that its body names."""
    brought = {name for uses in re.findall(r"^use .*{(.*)}$", body, re.MULTILINE) for name in re.findall(r"\w+", uses)}
    named = set(re.findall(r"(?<![.\w])[A-Z]\w+", re.sub(r'"(?:[^"\\]|\\.)*"', "", body))) - brought
    lines = [STANDARD, CLOSED]
    for (crate, file), list_ in reached(roots).items():
        wanted = [one for one in list_ if is_closed((crate, file), one) or (crate, one) in roots or one in named]
        lines += [f"use Rattle.{crate}.specs.{file}.{{{', '.join(wanted)}}}\n"] if wanted else []
        named -= set(wanted)
    return "".join([*lines, *(types()[name] for name in sorted(named) if name in types())])


def opened(roots: Names) -> str:
    """What has to be open of all that these reach."""
    found = [name for key, list_ in reached(roots).items() for name in list_ if is_closed(key, name)]
    return " ".join([*found, *re.findall(r"\w+(?=[,}])", CLOSED)])


def blocks(asked: Question, number: int, fact: Fact) -> list[str]:
    """A fact as antt, behind what stands above it."""
    declared = f"$ : {fact.says}\nunfolding {opened(asked.roots)}\n$ = {fact.proof}\n"
    return [block.replace("$", f"{asked.name}_{number}") for block in (*fact.above, declared)]


def module_of(facts: list[tuple[Question, int, Fact]]) -> str:
    """The module of these facts, each with its number among those of its question."""
    roots = tuple(dict.fromkeys(root for asked, _, _ in facts for root in asked.roots))
    body = "\n".join(dict.fromkeys(block for fact in facts for block in blocks(*fact)))
    used = "".join(dict.fromkeys(re.findall("^use .*\n", body, re.MULTILINE)))
    return imports(roots, body) + used + "\n" + re.sub("(?m)^use .*\n", "", body)
