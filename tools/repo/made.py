"""Writes what a page has from the sources between two marks, or a file that is made whole, or sees
that it is current."""
import re
from pathlib import Path

ROOT = Path(__file__).resolve().parents[2]
SIGNS = {".1": '.\\"', ".py": "#"}


def with_made(text: str, marks: tuple[str, str], lines: list[str]) -> str:
    """A page with these lines between two marks."""
    begin, end = marks
    before, has_begin, rest = text.partition(begin)
    _, has_end, after = rest.partition(end)
    if not has_begin or not has_end:
        raise SystemExit(f"no marks {begin} and {end}")
    return "\n".join([before + begin, *lines, end + after])


def with_part(page: Path, text: str, mark: str, lines: list[str]) -> str:
    """A page with these lines between the marks of this name: comments, as its kind of file has them."""
    if page.suffix in SIGNS:
        sign = SIGNS[page.suffix]
        return with_made(text, (f"{sign} {mark}, made", f"{sign} {mark}, end"), lines)
    return with_made(text, (f"<!-- {mark}, made -->", f"<!-- {mark}, end -->"), ["", *lines, ""])


def put(page: Path, parts: dict[str, list[str]], only_checks: bool) -> int:
    """Writes these parts to a page by their marks, or says if the page has others; a status."""
    old = new = page.read_text()
    for mark, lines in parts.items():
        new = with_part(page, new, mark, lines)
    if not only_checks:
        page.write_text(new)
    elif new != old:
        print(f"{page.relative_to(ROOT)}: is not current; ./format makes it")
        return 1
    return 0


def put_whole(path: Path, new: str, only_checks: bool) -> int:
    """Writes a file, or says if it is another one; a status."""
    if not only_checks:
        path.write_text(new)
    elif not path.exists() or path.read_text() != new:
        print(f"{path.relative_to(ROOT)}: is not current; ./format makes it")
        return 1
    return 0


def without_made(text: str) -> str:
    """A page without its parts that are made."""
    return re.sub(r"<!-- ([\w ]+), made -->.*?<!-- \1, end -->", "", text, flags=re.DOTALL)
