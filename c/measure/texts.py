"""Code to be measured: modules of LLVM with their loops, and assembly texts in blocks, with the lines of a module
from which each instruction came."""
from __future__ import annotations

import re
from collections import defaultdict
from collections.abc import Iterator
from typing import NamedTuple

NAME = r'(?:"[^"]*"|[\w.$-]+)'


class Stop(Exception):
    """What has no bound, and why."""


# ---- graphs

Graph = dict[str, set[str]]


class Part(NamedTuple):
    """A block, or a loop with the blocks at which it is entered."""

    blocks: frozenset[str]
    heads: frozenset[str]


def reached(first: str, nexts: Graph, within: frozenset[str]) -> list[str]:
    """The blocks that are reached from one, each behind all that are reached from it, but for loops."""
    order, seen, todo = [], {first}, [(first, iter(sorted(nexts.get(first, set()) & within)))]
    while todo:
        block, rest = todo[-1]
        following = next((other for other in rest if other not in seen), None)
        if following is None:
            order.append(block)
            todo.pop()
        else:
            seen.add(following)
            todo.append((following, iter(sorted(nexts.get(following, set()) & within))))
    return order


def parts(first: str, nexts: Graph, within: frozenset[str]) -> Iterator[Part]:
    """The loops, and the blocks that are in none, from the first one on, in an order of the path."""
    order = reached(first, nexts, within)
    before: Graph = defaultdict(set)
    for block in order:
        for other in nexts.get(block, set()) & within:
            before[other].add(block)
    left = frozenset(order)
    for block in reversed(order):
        if block in left:
            blocks = frozenset(reached(block, before, left))
            left -= blocks
            is_loop = len(blocks) > 1 or block in nexts.get(block, set())
            yield Part(blocks, frozenset(b for b in blocks if is_loop and (b == first or before[b] - blocks)))


def inside(loop: Part, nexts: Graph) -> tuple[str, Graph, frozenset[str]]:
    """A turn of a loop: from a block before its heads, without what leads back to these."""
    turn = {block: found - loop.heads for block, found in nexts.items()} | {"": set(loop.heads)}
    return "", turn, loop.blocks | {""}


def loops_in(first: str, nexts: Graph, within: frozenset[str]) -> Iterator[Part]:
    for part in parts(first, nexts, within):
        if part.heads:
            yield part
            yield from loops_in(*inside(part, nexts))


# ---- modules


class Loop(NamedTuple):
    """A loop of a module: its function, and its lines."""

    function: str
    lines: frozenset[int]


# A loop, and the lines at which its function was called and those that call it, where they are of one function.
Place = tuple[Loop, tuple[int, ...]]
NOWHERE: Place = (Loop("", frozenset()), ())


class Module:
    """A module, with the function of each line, its loops, and who calls it."""

    def __init__(self, text: str) -> None:
        self.lines = text.split("\n")
        self.owner: dict[int, str] = {}
        self.loops: dict[str, list[Loop]] = {}
        self.callers: Graph = defaultdict(set)
        for number, line in enumerate(self.lines, 1):
            if line.startswith("define "):
                start, name = number, re.findall(rf"@({NAME})\(", line)[0]
            elif line == "}":
                self.take(name, range(start + 1, number))

    def take(self, name: str, numbers: range) -> None:
        block = "start"
        blocks: dict[str, list[int]] = defaultdict(list)
        nexts: Graph = defaultdict(set)
        for number in numbers:
            line = self.lines[number - 1]
            self.owner[number] = name
            if match := re.match(rf"({NAME}):", line):
                block = match[1]
            blocks[block].append(number)
            nexts[block].update(re.findall(rf"label %({NAME})", line))
            for called in re.findall(rf"call [^@]*@({NAME})\(", line):
                self.callers[called].add(name)
        found = loops_in(next(iter(blocks)), nexts, frozenset(blocks))
        self.loops[name] = [Loop(name, frozenset(n for b in loop.blocks for n in blocks[b])) for loop in found]

    def owners(self, function: str) -> set[str]:
        """The functions that it belongs to: itself, or of one of the standard library those that call for it."""
        todo, seen, found = [function], {function}, set()
        while todo:
            name = todo.pop()
            if name.strip('"').startswith("core::"):
                todo += self.callers[name] - seen
                seen |= self.callers[name]
            else:
                found.add(name.strip('"'))
        return found

    def loops_at(self, chain: tuple[int, ...]) -> Iterator[tuple[Loop, tuple[int, ...]]]:
        """The loops that an instruction is in, each with where its function was called."""
        for place, line in enumerate(chain):
            for loop in self.loops.get(self.owner.get(line, ""), []):
                if line in loop.lines:
                    yield loop, chain[place + 1 :]


def numbered(text: str) -> str:
    """A module with the number of its line at each instruction, as a debugger would be told of it."""
    free = max(map(int, re.findall(r"^!(\d+) = ", text, re.M)), default=0) + 1
    unit, file, kind, version, dwarf = range(free, free + 5)
    out, free, scope = [], free + 5, 0
    facts = [
        f"!llvm.dbg.cu = !{{!{unit}}}", f"!llvm.module.flags = !{{!{version}, !{dwarf}}}",
        f"!{unit} = distinct !DICompileUnit(language: DW_LANG_C99, file: !{file}, emissionKind: LineTablesOnly)",
        f'!{file} = !DIFile(filename: "module", directory: "")', f"!{kind} = !DISubroutineType(types: !{{}})",
        f'!{version} = !{{i32 2, !"Debug Info Version", i32 3}}', f'!{dwarf} = !{{i32 7, !"Dwarf Version", i32 4}}',
    ]
    for number, line in enumerate(text.split("\n"), 1):
        if line.startswith("define "):
            scope, free = free, free + 1
            facts.append(f'!{scope} = distinct !DISubprogram(name: "at{number}", scope: !{file}, file: !{file},'
                         f" line: {number}, type: !{kind}, unit: !{unit}, spFlags: DISPFlagDefinition)")
            line = re.sub(r" \{$", f" !dbg !{scope} {{", line)
        elif re.match(r"  \S", line) and not line.endswith("["):
            facts.append(f"!{free} = !DILocation(line: {number}, column: 1, scope: !{scope})")
            line, free = f"{line}, !dbg !{free}", free + 1
        out.append(line)
    return "\n".join([*out, *facts, ""])


# ---- code

COND = r"(?:eq|ne|cs|hs|cc|lo|mi|pl|vs|vc|hi|ls|ge|lt|gt|le)"
ALWAYS = re.compile(r"(?:bl?(?:\.[nw])?|jmp|j) ")
CALL = re.compile(rf"(?:blx?(?:{COND})?|callq?) ({NAME})")
TAIL = re.compile(rf"(?:b({COND})?(?:\.[nw])?|jmp|tail|j(\w+)?) ({NAME})(?:@PLT|\(PLT\))?$")
RETURN = re.compile(rf"ret[lq]?$|bx({COND})? lr|(?:pop|ldm\w*?)({COND})?(?:\.w)? .*\bpc\b|ldr pc, \[sp")
TRAP = re.compile(r"udf|ud2|brk|unimp|ebreak|\.inst")
BY_TABLE = re.compile(r"tb[bh] |(?:mov|add|ldr)\S* pc,|jr |br |jmpq? \*")
# What else may go elsewhere.
OTHER = re.compile(r"b(?!f|ic|s|t)|j|call|ret|tail|tb(?![lx])")
LABEL = re.compile(r"\.L(?:BB|AT)\w+")
LOADS = re.compile(r"(?:mov\S*|ldr(?:\.w)?|li|mv) (\w+), (?:#?(\d+)|(\.LCPI\w+)|(\w+))$|mov[lq] \$(\d+), %[er]dx$")
THIRD = re.compile(r"\b(?:r2|a2|[wx]2|[er]?dx)\b")
LOWERS = re.compile(r"(?:sub\S* (?:sp, ?)+#|addi? sp, ?sp, ?-|st[pr]\S* .*\[sp, ?#-|subq? \$(?=\w+, ?%rsp))(0x[0-9a-f]+|\d+)")
PUSHES = re.compile(r"push\S* \{?(.*?)\}?$|stmdb sp!, \{(.*)\}$")


class Step(NamedTuple):
    """An instruction: how many it counts as, its text, by which lines of the module, and what it calls."""

    weight: int
    text: str
    chain: tuple[int, ...]
    call: str


class Code:
    """A function in blocks of instructions, the blocks that may follow each, and what it puts on the stack."""

    def __init__(self, name: str) -> None:
        self.name, self.block, self.frame = name, "", 0
        self.blocks: dict[str, list[Step]] = {}
        self.nexts: Graph = defaultdict(set)
        self.tables: dict[str, str] = {}

    def begin(self, label: str, follows: bool) -> None:
        if follows and self.block:
            self.nexts[self.block].add(label)
        self.block, self.blocks[label] = label, []

    def add(self, text: str, chain: tuple[int, ...]) -> bool:
        """Adds an instruction, and says whether what stands below may follow it."""
        label, call, ends, follows = LABEL.search(text), "", True, True
        if BY_TABLE.match(text):
            self.tables[self.block] = ""
            follows = False
        elif label and not text.startswith(("adr", "ldr", "l", "add")):
            self.nexts[self.block].add(label[0])
            follows = not ALWAYS.match(text)
        elif match := RETURN.match(text):
            follows = any(match.groups())
        elif TRAP.match(text):
            follows = False
        elif match := CALL.match(text):
            call, ends = match[1], False
        elif match := TAIL.match(text):
            call, follows = match[3], bool(match[1] or match[2])
        elif OTHER.match(text):
            call = text  # which no function is called
        else:
            ends = False
        if match := LOWERS.match(text):
            self.frame += int(match[1], 0)
        elif match := PUSHES.match(text):
            self.frame += 8 if "%" in text else 4 * len((match[1] or match[2]).split(","))
        # A call and a jump to what may be far take two.
        self.blocks[self.block].append(Step(2 if text.startswith(("call ", "tail ")) else 1, text, chain, call.strip('"')))
        if ends:
            self.begin(f"{self.block}+", follows)
        return follows


class Text:
    """An assembly text: its functions, its tables of jumps, and its constants."""

    def __init__(self, text: str, mark: str) -> None:
        self.functions: dict[str, Code] = {}
        self.tables: dict[str, set[str]] = defaultdict(set)
        self.constants: dict[str, int] = {}
        self.kinds = set(re.findall(rf"^\t\.type\t({NAME}),[@%]function", text, re.M))
        self.said = re.compile(rf'(?:[^"{mark[0]}]|"[^"]*"|{mark[0]}(?!{mark[1:]}))*')
        self.chain: tuple[int, ...] = ()
        self.code, self.label, self.follows, self.mentioned = Code(""), "", True, ""
        for line in text.split("\n"):
            self.take(line)
        for code in self.functions.values():
            order = list(code.blocks)
            for block, table in code.tables.items():  # without a table it goes somewhere below
                code.nexts[block] |= self.tables[table] if table else set(order[order.index(block) + 1 :])

    def take(self, line: str) -> None:
        said = self.said.match(line)[0].strip()  # type: ignore[index]
        if match := re.match(rf"({NAME}):$", said):
            self.take_label(match[1])
        elif said.startswith(".loc"):
            self.chain = tuple(map(int, re.findall(r"\bmodule:(\d+):", line)))
        elif line.startswith("\t.") and not said.startswith(".inst"):
            self.tables[self.label].update(LABEL.findall(said))
            if match := re.match(r"\.(?:long|word)\s+(\d+)$", said):
                self.constants[self.label] = int(match[1])
        elif line.startswith("\t") and said and self.code.name:
            self.mentioned = (re.findall(r"\.LJTI\w+", said) or [self.mentioned])[-1]
            block = self.code.block
            self.follows = self.code.add(re.sub(r"\s+", " ", said), self.chain)
            if block in self.code.tables:
                self.code.tables[block] = self.mentioned
            self.label = ""

    def take_label(self, label: str) -> None:
        self.label = label
        if label in self.kinds:
            self.code = self.functions[label.strip('"')] = Code(label.strip('"'))
            self.code.begin("start", False)
            self.follows, self.mentioned = True, ""
        elif label.startswith((".LBB", ".LAT")):
            self.code.begin(label, self.follows)
        elif label.startswith(".LJTI") and self.code.block[:-1] in self.code.tables:
            self.code.tables[self.code.block[:-1]] = label  # a table that stands behind its jump

    def is_set(self, before: list[Step]) -> bool:
        """Whether instructions have to do with the register of a call's third argument."""
        return any(step.call or THIRD.search(step.text) for step in before)

    def loaded(self, before: list[Step]) -> int | None:
        """The number in the register of a call's third argument, behind these instructions."""
        wanted = THIRD
        for step in reversed(before):
            match = LOADS.match(step.text)
            if match and (match[5] or wanted.fullmatch(match[1])):
                if not match[4]:
                    return self.constants[match[3]] if match[3] else int(match[2] or match[5])
                wanted = re.compile(rf"\b{match[4]}\b")
            elif wanted.search(step.text) or (step.call and wanted is THIRD):
                return None
        return None


def as_text(disassembly: str) -> str:
    """What objdump shows of a library, as an assembly text in which each instruction has a label."""
    lines, function = [], ""

    def place(match: re.Match[str]) -> str:
        is_here = match[2] == function or match[2].startswith(".L")
        return f".LAT{match[1]}" if is_here else f'"{match[2]}"'

    for line in disassembly.split("\n"):
        if match := re.match(r"[0-9a-f]+ <(?!\.L)(.*)>:$", line):
            function = match[1]
            lines += [f'\t.type\t"{function}",@function', f'"{function}":']
        elif match := re.match(r"\s+[0-9a-f]+: R_\w+\s+(?:\.text\.(?:unlikely\.)?)?(.*?)(?:[-+]0x[0-9a-f]+)?$", line):
            if re.match(r"\t(?:call|jmp|bl?\b)", lines[-1]):
                lines[-1] = re.sub(r"\S+$", f'"{match[1]}"', lines[-1])
        elif match := re.match(r" *([0-9a-f]+):\t(.*)", line):
            said = re.sub(r"\s+", " ", re.split(r"\s(?:#|@|//|;) ", match[2])[0]).strip()
            lines += [f".LAT{match[1]}:", "\t" + re.sub(r"\b([0-9a-f]+) <(.*?)(?:\+0x[0-9a-f]+)?>$", place, said)]
    return "\n".join(lines)
