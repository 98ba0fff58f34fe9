#!/usr/bin/env python3
"""Tests of `make install`, `make uninstall`, `make deb`, of the same in c/, and of packaging/release: which files
stand where, and that what was put there runs with an empty environment, as on a machine without the toolchain.
tests/test_packaging.py has what packages are beyond their programs, that they are proved, and what is refused."""
import gzip
import hashlib
import json
import os
import re
import shutil
import subprocess
import sys
import tempfile
import unittest
from itertools import product
from pathlib import Path

from as_module import loaded
from case_files import PROGRAM, ROOT
from stand_ins import files_below

sys.path.insert(0, str(ROOT / "tools/tests"))

import browser  # noqa: E402

C = ROOT / "c"

# docs/QUICKSTART.md: the first frame of the page.
FRAME = (
    "P10010101P 100101010P 000000000P 100000000P 000000000P 111001000P 100011000P 000000000P 111100000P"
    " 111000000P\n"
)


def make(*words: str) -> str:
    ran = subprocess.run(["make", "-s", *words], cwd=ROOT, capture_output=True, text=True, timeout=600)
    if ran.returncode:
        raise AssertionError(f"make {' '.join(words)}: {ran.stdout}{ran.stderr}")
    return ran.stdout


class Installed(unittest.TestCase):
    """What is put somewhere, and looked at there."""

    def setUp(self) -> None:
        self.need("make", "make", "what `make` installs")
        folder = tempfile.TemporaryDirectory()
        self.addCleanup(folder.cleanup)
        self.folder = Path(folder.name)

    def need(self, command: str, package: str, what: str) -> None:
        if not shutil.which(command):
            print(f"skipped: {what}; Debian's package {package} is missing")
            self.skipTest(package)

    def runs(self, program: Path) -> None:
        """The program writes the frame of the page, with nothing in its environment."""
        words = [program, "frame", "2016-12-31T23:59:59Z", "--local=2", "--pending=insert"]
        ran = subprocess.run(words, cwd="/", env={}, capture_output=True, text=True, timeout=60)
        self.assertEqual((ran.returncode, ran.stdout, ran.stderr), (0, FRAME, ""))

    def plays(self, program: Path, examples: Path) -> None:
        """An installed example has the log beside it."""
        words = [program, "run", examples / "leap_inserted.jsonl"]
        ran = subprocess.run(words, env={}, capture_output=True, text=True, timeout=60)
        self.assertEqual(ran.stdout, (examples / "leap_inserted.log").read_text())

    def test_install(self) -> None:
        make("install", f"DESTDIR={self.folder}", "PREFIX=/usr/my irig")
        top = self.folder / "usr/my irig"
        doc = top / "share/doc/irig"
        self.runs(top / "bin/irig")
        self.plays(top / "bin/irig", doc / "examples")
        found = files_below(self.folder)
        self.assertEqual({name for name in found if "/share/doc/" not in name}, {
            "usr/my irig/bin/irig",
            "usr/my irig/share/man/man1/irig.1",
            "usr/my irig/share/bash-completion/completions/irig",
        })
        wanted = {"README.md", "CHANGELOG.md", "LICENSE-APACHE", "LICENSE-MIT", "THIRD_PARTY", "docs/SCENARIOS.md"}
        self.assertLessEqual(wanted, files_below(doc))
        self.assertEqual(
            files_below(doc / "examples"), {path.name for path in (ROOT / "examples").iterdir()}
        )
        self.assertIn("\nclap ", (doc / "THIRD_PARTY").read_text())
        for name in found:
            self.assertEqual(os.access(self.folder / name, os.X_OK), "/bin/" in name, name)

    def test_uninstall(self) -> None:
        (self.folder / "usr/local/bin").mkdir(parents=True)
        (self.folder / "usr/local/bin/another").touch()
        make("install", f"DESTDIR={self.folder}")
        self.assertIn("usr/local/bin/irig", files_below(self.folder))
        make("uninstall", f"DESTDIR={self.folder}")
        self.assertEqual(files_below(self.folder), {"usr/local/bin/another"})

    def test_completion(self) -> None:
        make("install", f"DESTDIR={self.folder}", "PREFIX=")
        words = f"source {self.folder}/share/bash-completion/completions/irig; complete -p irig"
        ran = subprocess.run(["bash", "-c", words], capture_output=True, text=True)
        self.assertEqual(ran.stdout, "complete -F _irig irig\n")

    def package(self) -> Path:
        self.need("dpkg-shlibdeps", "dpkg-dev", "the Debian package")
        subprocess.run(
            [ROOT / "packaging/deb", self.folder], check=True, stdout=subprocess.DEVNULL, timeout=600
        )
        (package,) = self.folder.glob("irig_*.deb")
        return package

    def test_deb(self) -> None:
        package, top = self.package(), self.folder / "unpacked"
        subprocess.run(["dpkg-deb", "-x", package, top], check=True)
        self.runs(top / "usr/bin/irig")
        self.plays(top / "usr/bin/irig", top / "usr/share/doc/irig/examples")
        self.assertEqual(self.code(top / "usr/bin/irig"), self.code(PROGRAM))
        manual = top / "usr/share/man/man1/irig.1.gz"
        self.assertEqual(gzip.decompress(manual.read_bytes()), (ROOT / "docs/irig.1").read_bytes())
        notice = (top / "usr/share/doc/irig/copyright").read_text()
        granted = (ROOT / "LICENSE-MIT").read_text().split("\n\n")[1].split()
        self.assertIn(" ".join(granted), " ".join(notice.split()))

    def said(self, *words: str | Path) -> str:
        return subprocess.run(words, capture_output=True, text=True, check=True).stdout

    def code(self, program: Path) -> bytes:
        """What a program executes, which is the same without the names of symbols."""
        file = self.folder / "code"
        words = ["objcopy", "-O", "binary", "--only-section=.text", program, file]
        subprocess.run(words, check=True)
        self.assertGreater(file.stat().st_size, 100_000)
        return file.read_bytes()

    def test_fields_of_the_deb(self) -> None:
        package = self.package()
        says = self.said(ROOT / "irig", "--version")

        def field(name: str) -> str:
            return self.said("dpkg-deb", "-f", package, name).strip()

        self.assertEqual(says, f"irig {field('Version')}\n")
        self.assertEqual(package.name, f"irig_{field('Version')}_{field('Architecture')}.deb")
        self.assertRegex(field("Depends"), r"^libc6 \(>= 2\.\d+\)$")
        self.assertNotIn("@", "".join(map(field, ("Installed-Size", "Depends", "Description"))))


# The processors of firmware: the folder of a release that serves one, and the board of QEMU to try it on.
BOARDS = {
    "cortex-m0": ("thumbv6m", "microbit"),
    "cortex-m3": ("thumbv7m", "mps2-an385"),
    "cortex-m4": ("thumbv7em", "mps2-an386"),
    "cortex-m7": ("thumbv7em", "mps2-an500"),
    "cortex-m33": ("thumbv8m.main", "mps2-an505"),
}


class OnceForAll(unittest.TestCase):
    """What is made once, in a folder for all tests of it."""
    folder: Path

    @classmethod
    def setUpClass(cls) -> None:
        folder = tempfile.TemporaryDirectory()
        cls.addClassCleanup(folder.cleanup)
        cls.folder = Path(folder.name)

    @classmethod
    def said(cls, *words: str | Path, **more: object) -> str:
        more = {"cwd": cls.folder, **more}
        ran = subprocess.run(words, capture_output=True, text=True, timeout=600, **more)
        if ran.returncode:
            raise AssertionError(f"{words}: {ran.stdout}{ran.stderr}")
        return ran.stdout


BOTH = """#include "irig.h"
#include "irig_scene.h"
int main(void) {
    size_t whole = 0; irig_utc second = {6209, 0}; irig_coded coded;
    return irig_run(NULL, 0, false, NULL, 0, &whole) + irig_coded_of(&second, 0, &coded);
}
"""


class OfC(OnceForAll):
    """What `make -C c` makes and installs here, for programs that know it by pkg-config, by CMake or by its place."""
    prefix: Path
    layout: str
    path: dict[str, str]

    @classmethod
    def setUpClass(cls) -> None:
        super().setUpClass()
        cls.prefix = cls.folder / "usr"
        lib = cls.prefix / "lib"
        cls.path = {**os.environ, "PKG_CONFIG_PATH": str(lib / "pkgconfig"), "LD_LIBRARY_PATH": str(lib)}
        (cls.layout,) = re.findall(r"^#define IRIG_LAYOUT (\d+)$", (C / "irig.h").read_text(), re.M)
        make("-C", "c", "install", f"PREFIX={cls.prefix}")
        (cls.folder / "both.c").write_text(BOTH)

    def test_calls(self) -> None:
        """Those that a header declares, by their names for the linker, are those that its library shows."""
        for name in ("irig", "irig_scene"):
            calls = re.findall(r"^[a-z].*[ *](irig_[a-z_]*)\(", (C / f"{name}.h").read_text(), re.M)
            declared = [f"{call}_layout_{self.layout}" if call != "irig_version" else call for call in calls]
            shown = self.said("nm", "-D", "--defined-only", C / f"out/lib{name}.so.{self.layout}")
            self.assertEqual(sorted(declared), sorted(re.findall(r" T (.*)", shown)))

    def test_page(self) -> None:
        """The first block of code of docs/C.md, pasted, prints the second, behind what `make` prints."""
        pasted, (shown,), *_ = loaded(ROOT / "tools/repo/commands").codes((ROOT / "docs/C.md").read_text())
        top = self.folder / "page"
        top.mkdir()
        for name in ("c", "crates"):
            (top / name).symlink_to(ROOT / name)
        self.assertEqual(self.said("bash", "-ec", "\n".join(pasted), cwd=top).splitlines()[-1], shown)
        self.assertEqual(self.said(PROGRAM, "frame", "2016-12-31T23:59:60Z").replace(" ", ""), f"{shown}\n")

    def test_examples(self) -> None:
        """By what pkg-config says, and with the static library."""
        log = self.said(PROGRAM, "run", C / "examples/leap_second.jsonl", "--all")
        inserted = ROOT / "examples/leap_inserted.jsonl"
        for example, name, words, wanted in (
            ("leap_second", "irig", [], "".join(log.splitlines(keepends=True)[:-1])),
            ("run", "irig_scene", [inserted], inserted.with_suffix(".log").read_text()),
        ):
            flags = self.said("pkg-config", "--cflags", "--libs", name, env=self.path).split()
            for found in (flags, [f"-I{self.prefix}/include", self.prefix / f"lib/lib{name}.a"]):
                self.said("cc", C / f"examples/{example}.c", *found, "-o", example)
                self.assertEqual(self.said(self.folder / example, *words, env=self.path), wanted)
            version = self.said("pkg-config", "--modversion", name, env=self.path)
            self.assertEqual(f"irig {version}", self.said(PROGRAM, "--version"))

    def test_both_libraries(self) -> None:
        """In one program, in either order, which ends by 3, NoPlant."""
        found = [self.prefix / f"lib/lib{name}.a" for name in ("irig", "irig_scene")]
        for libraries in (found, found[::-1]):
            self.said("cc", f"-I{self.prefix}/include", "both.c", *libraries, "-o", "both")
            self.assertEqual(subprocess.run([self.folder / "both"]).returncode, 3)

    def test_layouts(self) -> None:
        """What is compiled with these headers links, and with those of another layout it does not, whatever a
        compiler and the linker leave out."""
        other = shutil.copytree(self.prefix / "include", self.folder / "other")
        header, before = other / "irig.h", int(self.layout) - 1
        text = re.sub(r"(?m)^(#define IRIG_LAYOUT) .*", rf"\1 {before}", header.read_text())
        header.write_text(text)
        for compiler, kind in product(("gcc -std=c99", "clang -std=c99", "g++", "clang++"), ("a", "so")):
            if not shutil.which(compiler.split()[0]):
                print(f"skipped: layouts by {compiler}, which is missing")
                continue
            libraries = [self.prefix / f"lib/lib{name}.{kind}" for name in ("irig", "irig_scene")]
            link = [*compiler.split(), "-O2", "-ffunction-sections", "-fdata-sections", "-Wl,--gc-sections", "both.c",
                    *libraries, "-o", "linked"]
            self.said(*link, f"-I{self.prefix}/include")
            ran = subprocess.run([*link, f"-I{other}"], cwd=self.folder, capture_output=True, text=True)
            missed = re.findall(rf"irig_(?:run|coded_of)_layout_{before}\b", ran.stderr)
            self.assertEqual((ran.returncode != 0, len(missed)), (True, 2), f"{compiler}, .{kind}: {ran.stderr}")

    def test_uninstall(self) -> None:
        to = self.folder / "and away"
        make("-C", "c", "install", f"PREFIX={to}")
        self.assertRegex((to / "share/doc/libirig/THIRD_PARTY").read_text(), "(?m)^arrayvec ")
        make("-C", "c", "uninstall", f"PREFIX={to}")
        self.assertEqual(files_below(to), set())

    def test_elsewhere(self) -> None:
        """With DESTDIR, which stands in no file, and another LIBDIR."""
        top = self.folder / "destination"
        make("-C", "c", "install", f"DESTDIR={top}", "PREFIX=/usr", "LIBDIR=/usr/lib/here")
        lib = top / "usr/lib/here"
        for path in (lib / "pkgconfig").iterdir():
            self.assertNotIn(str(top), path.read_text())
        path = {**os.environ, "PKG_CONFIG_PATH": str(lib / "pkgconfig")}
        self.assertEqual(self.said("pkg-config", "--variable=libdir", "irig", env=path), "/usr/lib/here\n")
        if not shutil.which("cmake"):
            print("skipped: what CMake finds: cmake is missing")
            self.skipTest("cmake")
        self.said("cmake", "-S", C / "examples", "-B", "by_cmake", f"-Dirig_DIR={lib}/cmake/irig")
        self.said("cmake", "--build", "by_cmake")
        inserted = ROOT / "examples/leap_inserted.jsonl"
        wanted = inserted.with_suffix(".log").read_text()
        self.assertEqual(self.said(self.folder / "by_cmake/run", inserted), wanted)


class Release(OnceForAll):
    """A release, as who has nothing else uses it."""
    top: Path

    @classmethod
    def setUpClass(cls) -> None:
        commands = ("dpkg-shlibdeps", "wasm-opt", "aarch64-linux-gnu-gcc", "x86_64-w64-mingw32-gcc", "cmake")
        if missing := [command for command in commands if not shutil.which(command)]:
            print(f"skipped: a release: {missing[0]} is missing")
            raise unittest.SkipTest(missing[0])
        super().setUpClass()
        cls.top = cls.folder / "release"
        cls.said(ROOT / "packaging/release", cls.top)

    def log(self, *words: str | Path) -> str:
        return self.said(self.top / "x86_64-linux-gnu/bin/irig", "run", *words, env={})

    def built(self, name: str, *words: str) -> Path:
        """The examples, configured and built by CMake with these words."""
        to = self.folder / name
        self.said("cmake", "-S", self.top / "doc/c/examples", "-B", to, f"-DCMAKE_PREFIX_PATH={self.top}", *words)
        self.said("cmake", "--build", to)
        return to

    def test_program_for_aarch64(self) -> None:
        if not shutil.which("qemu-aarch64"):
            print("skipped: the program for aarch64; Debian's package qemu-user is missing")
            self.skipTest("qemu-user")
        wrapped = self.folder / "irig_for_aarch64"
        program = self.top / "aarch64-linux-gnu/bin/irig"
        wrapped.write_text(f'#!/bin/sh\nexec qemu-aarch64 -L /usr/aarch64-linux-gnu {program} "$@"\n')
        wrapped.chmod(0o755)
        self.said(ROOT / "tests/cases", "--on", wrapped)

    def test_program_for_windows(self) -> None:
        """Its system opens no folder, and has no words that are no text."""
        wine = "/usr/lib/wine/wine64"
        if not os.path.exists(wine):
            print("skipped: the program for Windows; Debian's package wine64 is missing")
            self.skipTest("wine64")
        wrapped = self.folder / "irig_for_windows"
        program = self.top / "x86_64-windows/bin/irig.exe"
        wrapped.write_text(
            f"#!/bin/sh\nexport WINEDEBUG=-all WINEPREFIX={self.folder / 'wine'}\nexec {wine} {program} \"$@\"\n"
        )
        wrapped.chmod(0o755)
        self.said(wrapped, "--version")  # the first start tells of its own
        others = ("cases/judge_a_folder", "cases/run_of_a_directory", "cases/words_no_utf_8")
        self.said(ROOT / "tests/cases", "--on", wrapped, *(f"--but={name}" for name in others))

    def test_cmake_here(self) -> None:
        built, examples = self.built("here"), self.top / "doc/c/examples"
        wanted = self.log(examples / "leap_second.jsonl", "--all").splitlines()[:-1]
        self.assertEqual(self.said(built / "leap_second").splitlines(), wanted)
        scenario = self.top / "doc/examples/leap_inserted.jsonl"
        self.assertEqual(self.said(built / "run", scenario), self.log(scenario))

    def test_cmake_by_cxx_alone(self) -> None:
        project = self.folder / "cxx"
        project.mkdir()
        (project / "version.cpp").write_text(
            '#include "irig.h"\n#include <cstdio>\nint main() { std::puts(irig_version()); }\n'
        )
        (project / "CMakeLists.txt").write_text(
            "cmake_minimum_required(VERSION 3.13)\nproject(version CXX)\nfind_package(irig REQUIRED)\n"
            "add_executable(version version.cpp)\ntarget_link_libraries(version irig::irig)\n"
        )
        self.said("cmake", "-S", project, "-B", project, f"-DCMAKE_PREFIX_PATH={self.top}")
        self.said("cmake", "--build", project)
        self.assertIn(self.said(project / "version").strip(), (self.top / "README").read_text())

    def test_cmake_for_boards(self) -> None:
        if not shutil.which("arm-none-eabi-gcc") or not shutil.which("qemu-system-arm"):
            print("skipped: a release on boards: arm-none-eabi-gcc or qemu-system-arm is missing")
            self.skipTest("arm-none-eabi-gcc")
        toolchain = self.top / "doc/c/boards/cortex_m.cmake"
        wanted = self.log(self.top / "doc/c/examples/leap_second.jsonl", "--all").splitlines()[:-1]
        self.assertIn("4 relay 2016-12-31T23:59:60Z holdover:1 held", wanted)
        for processor, (target, board) in BOARDS.items():
            built = self.built(processor, "--toolchain", str(toolchain), f"-DPROCESSOR={processor}")
            self.assertIn(f"/{target}/", (built / "CMakeFiles/leap_second.dir/link.txt").read_text())
            options = f"-M {board} -display none -monitor none -serial none -semihosting-config enable=on,target=native"
            ran = self.said("qemu-system-arm", *options.split(), "-kernel", built / "leap_second")
            self.assertEqual(ran.splitlines(), wanted, processor)

    def test_cmake_knows_each_processor(self) -> None:
        known = (self.top / "irigConfig.cmake").read_text()
        targets = [library.parent.parent.name for library in self.top.glob("*/lib/libirig.a")]
        self.assertGreater(len(targets), 6)
        self.assertEqual([target for target in targets if f'"{target} __' not in known], [])

    def test_cmake_refuses(self) -> None:
        before = self.folder / "before.cmake"
        for line, told in (
            ("set(IRIG_TARGET another)", "set IRIG_TARGET to a folder"),
            ("set(IRIG_TARGET thumbv6m)\nfind_package(irig REQUIRED scene)", "no library for irig::scene"),
            ("find_package(irig 2.9 REQUIRED)", "requested version"),
            ("find_package(irig 1.0 REQUIRED)", "requested version"),
        ):
            before.write_text(line)
            with self.assertRaisesRegex(AssertionError, told):
                self.built(f"refused {line[-9:]}", f"-DCMAKE_PROJECT_INCLUDE={before}")

    def test_pkg_config(self) -> None:
        lib = self.top / "x86_64-linux-gnu/lib"
        path = {**os.environ, "PKG_CONFIG_PATH": str(lib / "pkgconfig"), "LD_LIBRARY_PATH": str(lib)}
        flags = self.said("pkg-config", "--cflags", "--libs", "irig", env=path).split()
        source = self.top / "doc/c/examples/leap_second.c"
        self.said("cc", source, *flags, "-o", "by_pkg_config")
        self.assertIn("23:59:60Z", self.said(self.folder / "by_pkg_config", env=path))

    def test_wheel(self) -> None:
        (wheel,) = self.top.glob("irig-*.whl")
        try:
            self.said(sys.executable, "-m", "venv", "venv")
        except AssertionError:
            print("skipped: the wheel of a release; Debian's package python3-venv is missing")
            self.skipTest("python3-venv")
        self.said("venv/bin/pip", "install", "--no-index", wheel)
        words = "import irig, sys; print(irig.run(open(sys.argv[1]).read()).text, end='')"
        scenario = self.top / "doc/examples/leap_inserted.jsonl"
        self.assertEqual(self.said("venv/bin/python", "-c", words, scenario, env={}), self.log(scenario))

    def test_deb(self) -> None:
        (package,) = self.top.glob("irig_*.deb")
        self.said("dpkg-deb", "-x", package, "unpacked")
        scenario = self.top / "doc/examples/leap_inserted.jsonl"
        ran = self.said(self.folder / "unpacked/usr/bin/irig", "run", scenario, env={})
        self.assertEqual(ran, self.log(scenario))

    def test_page(self) -> None:
        """The page runs the example that it shows first."""
        if told := browser.missing():
            print(f"skipped: the page of a release: {told}")
            self.skipTest(told)
        page = browser.Browser()
        self.addCleanup(page.close)
        page.open(self.top / "irig.html")
        page.ask("ready.then(() => 0)")
        while page.ask("part('run').disabled"):
            page.settle()
        example = self.top / f"doc/examples/{page.ask('part(`example`).value')}.jsonl"
        options = [f"--{name}" for name in ("all", "ports") if page.ask(f"part('{name}').checked")]
        log = page.ask("new TextDecoder().decode(tab.log.lines.bytes)")
        self.assertEqual(log, self.log(example, *options))
        self.assertEqual(page.errors, [])

    def test_bill_of_materials(self) -> None:
        """It has every file, with its sum, and of each crate that the linker's names show a package."""
        bill = json.loads((self.top / "irig.spdx.json").read_text())
        files = {entry["fileName"].removeprefix("./"): entry for entry in bill["files"]}
        self.assertEqual(files.keys(), files_below(self.top) - {"SHA256SUMS", "irig.spdx.json"})
        names = [entry["SPDXID"] for entry in (bill, *bill["files"], *bill["packages"])]
        self.assertEqual(len(names), len(set(names)))
        for relation in bill["relationships"]:
            self.assertIn(relation["spdxElementId"], names)
            self.assertIn(relation["relatedSpdxElement"], names)
        for name, entry in files.items():
            sums = {one["algorithm"]: one["checksumValue"] for one in entry["checksums"]}
            self.assertEqual(sums["SHA256"], hashlib.sha256((self.top / name).read_bytes()).hexdigest())

    def test_what_is_linked(self) -> None:
        """The bill has each crate of others that the linker's names show."""
        kit = Path(self.said("rt", "doc").strip()).parent
        bill = json.loads((self.top / "irig.spdx.json").read_text())
        for name, example in (("bin/irig", "clap"), ("lib/libirig_scene.a", "indexmap")):
            name = f"x86_64-linux-gnu/{name}"
            shown = set(re.findall(r" [tT] [<&(]*(\w+)::", self.said("nm", self.top / name)))
            others = {crate for crate in shown if any((kit / "rattle" / crate).glob("LICENSE*"))}
            self.assertIn(example, others)
            identity = "SPDXRef-" + re.sub(r"[^A-Za-z0-9.-]", "-", name)
            told = {one["relatedSpdxElement"] for one in bill["relationships"]
                    if (one["spdxElementId"], one["relationshipType"]) == (identity, "STATIC_LINK")}
            self.assertLessEqual({"SPDXRef-" + re.sub("_", "-", crate) for crate in others}, told)


if __name__ == "__main__":
    unittest.main()
