#!/usr/bin/env python3
"""Tests of `make install`, packaging/deb, packaging/release and packaging/verify in a repository of their own, where
scripts stand for ./build, c/Makefile and the like, and small programs for what is proved. tests/test_install.py tries what is
made of the real ones."""
from __future__ import annotations

import atexit
import hashlib
import json
import os
import re
import shutil
import subprocess
import tarfile
import tempfile
import unittest
import zipfile
from collections.abc import Callable
from concurrent.futures import ThreadPoolExecutor
from functools import cache
from pathlib import Path
from threading import Lock

from stand_ins import ROOT, InAFolder, SideBySide, files_below, write

EPOCH = 1767225600  # of the manual here, 2026-01-01
HERE = "x86_64-linux-gnu"
AARCH64 = "aarch64-linux-gnu"
TARGETS = re.findall(r"^    ([a-z][a-z0-9.-]*)\)$", (ROOT / "toolchain/archive").read_text(), re.M)

RT = """#!/bin/bash
[[ $1 != doc ]] || exec echo "${0%/bin/rt}/START-HERE.md"
echo a-kit logic 0
"""
BUILD = """#!/bin/bash
[[ ! -e refused ]] || exit 1
kit=$(dirname "$(rt doc)")
case $* in
    "--target aarch64-unknown-linux-gnu irig_main") to=aarch64-unknown-linux-gnu/ made=irig_aarch64 ;;
    "") to= made=irig ;;
    *) exit 1 ;;
esac
mkdir -p crates/irig_main/out/$to
cp "$kit/made/$made" crates/irig_main/out/${to}irig_main
"""
OF_C = """install:
\tmkdir -p "$(PREFIX)"
\tcp -r "$$(dirname "$$(rt doc)")/made/$(or $(TARGET),x86_64-linux-gnu)/." "$(PREFIX)"
"""
WHEEL = "irig-2.0.0-py3-none-linux_x86_64.whl"
BACKEND = f"""import os, shutil, subprocess
def build_wheel(to):
    kit = os.path.dirname(subprocess.check_output(["rt", "doc"], text=True))
    shutil.copy(kit + "/made/{WHEEL}", to)
"""
WEB = """#!/bin/bash
mkdir -p web/out
touch web/out/c_scenario.wasm
"""
PAGE = """#!/bin/bash
echo a page > web/out/irig.html
"""
MODULE = """#!/bin/bash
touch "$2"
"""
WINDOWS = """#!/bin/bash
mkdir -p out/windows
echo a program > out/windows/irig.exe
"""
PROGRAM = '#include <stdio.h>\nint main(void) { return puts("irig 2.0.0") < 0; }\n'


def run(*words: str | Path) -> None:
    ran = subprocess.run(words, capture_output=True, text=True, timeout=60)
    if ran.returncode:
        raise AssertionError(f"{words}: {ran.stdout}{ran.stderr}")


def write_page(path: Path) -> None:
    """Writes a file that is not to be run."""
    write(path, f"{path.name}\n")
    path.chmod(0o644)


def append(path: Path, text: str) -> None:
    with path.open("a") as file:
        file.write(text)


def compile_here(to: Path, source: str, *words: str) -> None:
    to.parent.mkdir(parents=True, exist_ok=True)
    file = to.with_name(f"{to.name}.c")
    file.write_text(source)
    run("cc", *words, "-o", to, file)
    file.unlink()
    to.chmod(0o755 if to.name == "irig" else 0o644)


def make_libraries(made: Path) -> None:
    """Of each target the calls for C alone, as toolchain/archive compiles them."""
    nothing = made / "nothing.a"
    nothing.write_text("!<arch>\n")
    lib = made / HERE / "lib"
    compile_here(lib / "libirig.so.6", "int irig_here(void) { return 1; }\n", "-shared")
    compile_here(lib / "irig.o", "int irig_here(void) { return 1; }\n", "-c")
    run("ar", "rcsD", lib / "libirig.a", lib / "irig.o")
    (lib / "irig.o").unlink()
    shutil.copy(lib / "libirig.so.6", lib / "libirig_scene.so.6")
    for name in ("irig", "irig_scene"):
        (lib / f"lib{name}.so").symlink_to(f"lib{name}.so.6")
    with ThreadPoolExecutor() as pool:
        list(pool.map(lambda it: run(ROOT / "toolchain/archive", it, nothing, made / it / "lib/libirig.a"), TARGETS))
    for target in (HERE, AARCH64):
        shutil.copy(made / target / "lib/libirig.a", made / target / "lib/libirig_scene.a")


@cache
def what_is_made() -> Path:
    """A folder with the libraries of each target, a wheel and programs, for all tests. A release stands beside it."""
    folder = tempfile.mkdtemp()
    atexit.register(shutil.rmtree, folder)
    made = Path(folder, "made")
    made.mkdir()
    make_libraries(made)
    for target in (HERE, *TARGETS):
        for name in ("include/irig.h", "lib/pkgconfig/irig.pc", "lib/cmake/irig/irigConfig.cmake",
                     "lib/cmake/irig/irigConfigVersion.cmake"):
            write_page(made / target / name)
    for target in (HERE, AARCH64):
        for name in ("include/irig_scene.h", "lib/pkgconfig/irig_scene.pc"):
            write_page(made / target / name)
    compile_here(made / "irig", PROGRAM, "-g")
    shutil.copy(made / f"{AARCH64}/lib/libirig.a", made / "irig_aarch64")
    with zipfile.ZipFile(made / WHEEL, "w", zipfile.ZIP_DEFLATED) as wheel:
        wheel.write(made / HERE / "lib/libirig.so.6", "irig/libirig.so.6")
    return made


MAKES = Lock()


class Packages(InAFolder):
    """With what packaging/ needs of the repository."""

    def setUp(self) -> None:
        super().setUp()
        commands = ("dpkg-shlibdeps", "make", "cc", "rt")
        if missing := [command for command in commands if not shutil.which(command)]:
            print(f"skipped: packages over scripts: {missing[0]} is missing")
            self.skipTest(missing[0])
        self.make_kit()
        self.make_repository(self.root)

    def make_kit(self) -> None:
        with MAKES:
            shutil.copytree(what_is_made(), self.kit / "made", symlinks=True)
        write(self.kit / "bin/rt", RT)
        for line in (ROOT / "packaging/third_party").read_text().splitlines():
            if not line.startswith("#"):
                name, ported = (cell.strip() for cell in line.split("|")[:2])
                write(self.kit / "rattle" / name / "README.md", ported)
                write(self.kit / "rattle" / name / "LICENSE-MIT", f"the licence of {name}\n")
        for name in re.findall(r"\w+", (ROOT / "crates.txt").read_text()):
            write(self.kit / f"rlibs/{name}.rlib/format", "rattle rlib\n")

    def make_repository(self, root: Path) -> None:
        for name in ("Makefile", "crates.txt", "README.md", "CHANGELOG.md", "LICENSE-MIT", "LICENSE-APACHE",
                     "packaging", "toolchain/archive"):
            to = root / name
            to.parent.mkdir(parents=True, exist_ok=True)
            if (ROOT / name).is_dir():
                shutil.copytree(ROOT / name, to)
            else:
                shutil.copy(ROOT / name, to)
        for name, text in (("build", BUILD), ("c/Makefile", OF_C), ("python/backend.py", BACKEND), ("web/build", WEB),
                           ("web/page.py", PAGE), ("toolchain/for_windows", WINDOWS), ("toolchain/llvm_module", MODULE), ("docs/irig.bash", ""),
                           ("docs/irig.1", '.TH IRIG 1 2026-01-01 "irig 2.0.0"\n')):
            write(root / name, text)
        for name in ("docs/C.md", "docs/PAGE.md", "examples/one.jsonl", "c/examples/one.c", "c/boards/board.c",
                     "c/firmware/Makefile", "python/examples/one.py", "sigrok/README.md", "sigrok/irigb/pd.py",
                     "crates/irig_main/src/main.rt", "toolchain/system.c", "toolchain/windows.c",
                     "c/irig_heap.c"):
            write_page(root / name)
        write(root / "c/examples/run", "#!/bin/sh\n")

    def by_another(self, folder: Path, *words: str | Path) -> None:
        """Runs a command as another user, where this one may, for whom all that is written is private."""
        another = 65534 if os.getuid() == 0 else None
        if another:
            run("chown", "-R", f"{another}:{another}", self.folder)
        ran = subprocess.run(words, cwd=folder, env=self.environment, user=another, group=another, umask=0o077,
                             capture_output=True, text=True, timeout=60)
        self.assertEqual(ran.returncode, 0, ran.stdout + ran.stderr)


class Notices(InAFolder):
    """What is said of the crates of others, over a kit that has no other crate than `clap`, which uses `strsim`."""

    def setUp(self) -> None:
        super().setUp()
        for name in ("packaging", "LICENSE-MIT"):
            (shutil.copytree if (ROOT / name).is_dir() else shutil.copy)(ROOT / name, self.root / name)
        write(self.root / "crates.txt", "c_reader staticlib: irig_time\nc_scenario staticlib:\n"
              "irig_main: irig_time clap\nirig_time: std\n")
        write(self.root / "docs/irig.1", '.TH IRIG 1 2026-01-01 "irig 2.0.0"\n')
        write(self.root / "packaging/third_party", "# a comment\nclap | clap 4.6.7 | MIT | its authors\n"
              "strsim | strsim 0.11.1 | Apache-2.0 AND MIT | others\n")
        write(self.kit / "bin/rt", RT)
        for name, told, uses in (("clap", "a port of clap 4.6.7", "dep strsim\ndep std\n"),
                                 ("strsim", "a port of strsim 0.11.1", ""), ("std", "", "")):
            write(self.kit / "rattle" / name / "README.md", told)
            write(self.kit / f"rlibs/{name}.rlib/format", f"rattle rlib\n{uses}")
        write(self.kit / "rattle/clap/LICENSE-MIT", "by clap's authors\n")
        write(self.kit / "rattle/clap/LICENSE-APACHE", "not taken\n")
        write(self.kit / "rattle/strsim/LICENSE-A", "first of strsim\n")
        write(self.kit / "rattle/strsim/LICENSE-B", "second of strsim\n")

    def notices(self, *words: str | Path, status: int = 0) -> str:
        ran = self.run_here("packaging/notices", *words, SOURCE_DATE_EPOCH=str(EPOCH))
        self.assertEqual(ran.returncode, status, ran.stderr)
        return ran.stderr if status else ran.stdout

    def test_texts(self) -> None:
        """One licence where a crate may be used under MIT, and all of another one."""
        line = "-" * 72
        self.assertEqual(self.notices("texts"), (ROOT / "packaging/THIRD_PARTY").read_text() + (
            f"\n{line}\nclap 4.6.7 (MIT)\n\nby clap's authors\n"
            f"\n{line}\nstrsim 0.11.1 (Apache-2.0 AND MIT)\n\nfirst of strsim\n"
            f"\n{line}\nstrsim 0.11.1 (Apache-2.0 AND MIT)\n\nsecond of strsim\n"))

    def test_copyright(self) -> None:
        """The grant of LICENSE-MIT alone, as Debian has it: a blank line is a dot."""
        write(self.root / "packaging/copyright", "Copyright: us\n@OTHERS@\n")
        write(self.root / "LICENSE-MIT", "MIT\n\nby us\n\nas is\n")
        self.assertEqual(self.notices("copyright"), "Copyright: us\n its authors (clap 4.6.7)\n"
                         " others (strsim 0.11.1)\n by us\n .\n as is\n")

    def test_another_version(self) -> None:
        write(self.kit / "rattle/strsim/README.md", "a port of strsim 0.11.2")
        told = "notices: the kit has another version of strsim than packaging/third_party\n"
        self.assertEqual(self.notices("texts", status=1), told)

    def test_a_crate_without_a_row(self) -> None:
        """The kit has a licence for it."""
        write(self.kit / "rattle/std/LICENSE", "whose?\n")
        told = "notices: packaging/third_party has no row for std\n"
        self.assertEqual(self.notices("texts", status=1), told)

    def test_a_bill(self) -> None:
        """Its code is by SPDX 2.3, 7.9: the SHA1 of the files' SHA1s, sorted, one behind another."""
        files = {"x86_64-linux-gnu/bin/irig": b"p", "x86_64-linux-gnu/lib/libirig.a": b"a",
                 "x86_64-linux-gnu/lib/libirig.so.6": b"s"}
        top = self.folder / "top"
        for name, data in files.items():
            write(top / name, data.decode())
        bill = json.loads(self.notices("sbom", top))
        code = hashlib.sha1("".join(sorted(hashlib.sha1(data).hexdigest() for data in files.values())).encode())
        packages = {it["name"]: it for it in bill["packages"]}
        self.assertEqual({name: it["versionInfo"] for name, it in packages.items()}, {
            "irig": "2.0.0", "rattle": "a-kit", "libgcc": "NOASSERTION", "clap": "4.6.7", "strsim": "0.11.1"})
        self.assertEqual(packages["irig"]["packageVerificationCode"]["packageVerificationCodeValue"], code.hexdigest())
        self.assertEqual([name for name, it in packages.items() if it["filesAnalyzed"]], ["irig"])
        self.assertEqual((bill["name"], bill["creationInfo"]["created"]), ("irig-2.0.0", "2026-01-01T00:00:00Z"))
        linked = [(it["spdxElementId"].split("-")[-1], it["relatedSpdxElement"].removeprefix("SPDXRef-"))
                  for it in bill["relationships"] if it["relationshipType"] == "STATIC_LINK"]
        self.assertEqual(linked, [("irig", "rattle"), ("irig", "libgcc"), ("irig", "clap"), ("irig", "strsim"),
                                  ("libirig.a", "rattle"), ("libirig.so.6", "rattle"), ("libirig.so.6", "libgcc")])
        others = [it for it in bill["relationships"] if it["relationshipType"] != "STATIC_LINK"]
        self.assertEqual([(it["relationshipType"], it["spdxElementId"]) for it in others],
                         [("DESCRIBES", "SPDXRef-DOCUMENT"), ("BUILD_TOOL_OF", "SPDXRef-rattle"),
                          *[("CONTAINS", "SPDXRef-irig")] * 3])

    def test_words(self) -> None:
        self.assertIn("packaging/notices texts ", self.notices("none", status=1))


class WithoutCommands(InAFolder):
    def test_a_package(self) -> None:
        """Without dpkg-dev it says so, and begins with nothing."""
        (self.kit / "bin").mkdir(parents=True)
        for name in ("bash", "dirname", "readlink"):
            (self.kit / "bin" / name).symlink_to(shutil.which(name) or "")
        shutil.copytree(ROOT / "packaging", self.root / "packaging")
        ran = self.run_here(self.kit / "bin/bash", "packaging/deb", "to", PATH=f"{self.kit}/bin")
        told = "deb: no command dpkg-deb; it comes with Debian's package dpkg-dev\n"
        self.assertEqual((ran.returncode, ran.stdout, ran.stderr), (2, "", told))
        self.assertFalse((self.root / "to").exists())


class NothingUnproved(Packages):
    """What `make` takes: never what ./irig has kept, and a program that is older than a source only after ./build."""

    PROVED = "irig 2.0.0\n"

    def setUp(self) -> None:
        super().setUp()
        self.program = self.root / "crates/irig_main/out/irig_main"
        self.make_say(self.root / "out/irig_unproved", "unproved")

    def make_say(self, path: Path, word: str) -> None:
        write(path, f"#!/bin/bash\necho irig 2.0.0 {word}\n")

    def make_older(self) -> None:
        """A program that was proved before its source was changed."""
        self.make_say(self.program, "old")
        os.utime(self.program, (0, 0))

    def installed(self) -> str | None:
        """What the installed program says, if one was installed."""
        self.run_here("make", "install", "DESTDIR=to")
        to = self.root / "to/usr/local/bin/irig"
        return subprocess.check_output([to], text=True) if to.exists() else None

    def test_no_program(self) -> None:
        self.assertEqual(self.installed(), self.PROVED)

    def test_a_source_that_is_newer(self) -> None:
        self.make_older()
        self.assertEqual(self.installed(), self.PROVED)

    def test_what_cannot_be_proved(self) -> None:
        (self.root / "refused").touch()
        for make_ready in (lambda: None, self.make_older):
            make_ready()
            self.assertIsNone(self.installed())

    def test_a_current_program(self) -> None:
        self.make_say(self.program, "current")
        self.assertEqual(self.installed(), "irig 2.0.0 current\n")

    def test_a_package(self) -> None:
        """The script alone begins with `make` too."""
        self.make_older()
        self.assertEqual(self.run_here("packaging/deb", "to").returncode, 0)
        self.assertEqual(subprocess.check_output([self.program], text=True), self.PROVED)
        (self.root / "refused").touch()
        self.make_older()
        self.assertNotEqual(self.run_here("packaging/deb", "other").returncode, 0)
        self.assertEqual(list((self.root / "other").glob("*.deb")), [])


class Deb(Packages):
    """The package as another user makes it, who keeps all to himself."""

    def setUp(self) -> None:
        super().setUp()
        self.by_another(self.root, "packaging/deb", "to")
        (self.package,) = (self.root / "to").glob("*.deb")

    def members(self, package: Path) -> list[tarfile.TarInfo]:
        tar = self.folder / "files.tar"
        with tar.open("wb") as file:
            subprocess.run(["dpkg-deb", "--fsys-tarfile", package], stdout=file, check=True)
        with tarfile.open(tar) as opened:
            return opened.getmembers()

    def field(self, name: str) -> str:
        return subprocess.check_output(["dpkg-deb", "-f", self.package, name], text=True).strip()

    def test_owners_and_modes(self) -> None:
        for member in self.members(self.package):
            owners = (member.uname, member.gname, member.uid, member.gid)
            self.assertEqual(owners, ("root", "root", 0, 0), member.name)
            runs = member.isdir() or "/bin/" in member.name
            self.assertEqual(oct(member.mode), oct(0o755 if runs else 0o644), member.name)
            self.assertLessEqual(member.mtime, EPOCH)

    def test_sums_and_sizes(self) -> None:
        members = [member for member in self.members(self.package) if member.name != "."]
        below = [member for member in members if member.name.startswith("./usr")]
        sizes = [-(-member.size // 1024) if member.isfile() else 1 for member in below]
        self.assertEqual(self.field("Installed-Size"), str(sum(sizes)))
        subprocess.run(["dpkg-deb", "-R", self.package, self.folder / "raw"], check=True)
        sums = (self.folder / "raw/DEBIAN/md5sums").read_text().splitlines()
        files = {name for name in files_below(self.folder / "raw") if not name.startswith("DEBIAN/")}
        self.assertEqual({line[34:] for line in sums}, files)
        for line in sums:
            self.assertEqual(line[:32], hashlib.md5((self.folder / "raw" / line[34:]).read_bytes()).hexdigest())

    def test_stripped(self) -> None:
        subprocess.run(["dpkg-deb", "-x", self.package, self.folder / "unpacked"], check=True)
        program = self.folder / "unpacked/usr/bin/irig"
        self.assertEqual(subprocess.check_output([program], text=True), "irig 2.0.0\n")
        for file, has_names in ((program, False), (self.root / "crates/irig_main/out/irig_main", True)):
            self.assertEqual(".symtab" in subprocess.check_output(["readelf", "-SW", file], text=True), has_names)

    def test_the_same_bytes(self) -> None:
        again = self.folder / "elsewhere"
        self.make_repository(again)
        ran = self.run_here(again / "packaging/deb")
        self.assertEqual(ran.returncode, 0, ran.stderr)
        self.assertEqual((again / "out" / self.package.name).read_bytes(), self.package.read_bytes())


class Release(Packages):
    """A release, and what packaging/verify says of one in which something is wrong."""

    def setUp(self) -> None:
        super().setUp()
        self.release = self.root / "out/release"
        kept = what_is_made().with_name("release")
        with MAKES:
            if not kept.exists():
                ran = self.run_here("packaging/release")
                self.assertEqual((ran.returncode, ran.stderr), (0, ""))
                shutil.copytree(self.release, kept)
        if not self.release.exists():
            shutil.copytree(kept, self.release)

    def is_of_release(self, path: Path) -> None:
        """A file or folder has the release's date, and a mode that lets everyone read it."""
        runs = path.is_dir() or path.parent.name == "bin" or path.name == "run"
        self.assertEqual(int(path.stat().st_mtime), EPOCH, path)
        self.assertEqual(oct(path.stat().st_mode & 0o777), oct(0o755 if runs else 0o644), path)

    def verify(self, release: Path) -> tuple[int, str]:
        ran = self.run_here("packaging/verify", release)
        return ran.returncode, ran.stderr

    def sign(self, release: Path) -> None:
        """Makes the sums anew, as packaging/release does it last."""
        lines = [f"{hashlib.sha256((release / name).read_bytes()).hexdigest()}  {name}\n"
                 for name in sorted(files_below(release) - {"SHA256SUMS"})]
        (release / "SHA256SUMS").write_text("".join(lines))

    def test_dates_modes_and_bytes(self) -> None:
        again = self.folder / "elsewhere"
        self.make_repository(again)
        self.by_another(again, "packaging/release", again / "to")
        self.assertEqual(files_below(again / "to"), files_below(self.release))
        for release in (self.release, again / "to"):
            self.assertEqual(self.verify(release), (0, ""))
            run("env", "-C", release, "sha256sum", "--check", "--strict", "--quiet", "SHA256SUMS")
            for path in (release, *release.rglob("*")):
                self.is_of_release(path)
        for name in files_below(self.release):
            self.assertEqual((again / "to" / name).read_bytes(), (self.release / name).read_bytes(), name)

    def is_refused(self, told: str, make_wrong: Callable[[Path], object], is_signed: bool) -> None:
        with self.subTest(told):
            top = self.folder / "wrong"
            shutil.copytree(self.release, top)
            make_wrong(top)
            if is_signed:
                self.sign(top)
            self.assertEqual(self.verify(top), (1, f"release: {told}\n"))
            shutil.rmtree(top)

    def test_a_file_that_is_missing(self) -> None:
        for told, name in (
            ("thumbv6m/lib/libirig.a", "thumbv6m/lib/libirig.a"), ("irig.html", "irig.html"),
            ("irig_*.deb", "irig_2.0.0_amd64.deb"), ("doc/docs/PAGE.md", "doc/docs/PAGE.md"),
        ):
            self.is_refused(f"{told} is missing", lambda top: (top / name).unlink(), is_signed=True)

    def test_wrong_sums(self) -> None:
        for told, name, text in (
            (f"{AARCH64}/lib/libirig.a has another sum than in SHA256SUMS", f"{AARCH64}/lib/libirig.a", "\n"),
            ("SHA256SUMS has no another", "another", ""),
            ("riscv32/extra of SHA256SUMS is missing", "SHA256SUMS", f"{'0' * 64}  riscv32/extra\n"),
        ):
            self.is_refused(told, lambda top: append(top / name, text), is_signed=False)

    def test_another_target(self) -> None:
        """Of a whole archive, of one object in it, and of a program."""
        library, scene = f"{AARCH64}/lib/libirig.a", f"{HERE}/lib/libirig_scene.a"
        for told, source, to in (
            (f"{library} is for ELF32 ARM v6S-M Microcontroller", "thumbv6m/lib/libirig.a", library),
            ("thumbv7m/lib/libirig.a is for ELF32 ARM v7 Realtime", "armv7r/lib/libirig.a", "thumbv7m/lib/libirig.a"),
            (f"{HERE}/bin/irig is for ELF64 AArch64", "irig_aarch64", f"{HERE}/bin/irig"),
            ("riscv32/lib/libirig.a is for nothing", "nothing.a", "riscv32/lib/libirig.a"),
        ):
            self.is_refused(told, lambda top: shutil.copy(self.kit / "made" / source, top / to), is_signed=True)
        run("env", "-C", self.folder, "ar", "x", self.release / library)
        self.is_refused(f"{scene} is for ELF64 AArch64 and for ELF64 Advanced Micro Devices X86-64",
                        lambda top: run("ar", "q", top / scene, self.folder / "irig.o"), is_signed=True)
        self.is_refused("riscv64 is no target that packaging/verify knows",
                        lambda top: shutil.copytree(top / "riscv32", top / "riscv64"), is_signed=True)

    def test_what_is_not_proved(self) -> None:
        library, package, raw = f"{HERE}/lib/libirig.so.6", "irig_2.0.0_amd64.deb", self.folder / "raw"
        self.is_refused(f"{library} is not proved", lambda top: append(top / library, "irig_unproved"), is_signed=True)
        run("dpkg-deb", "-R", self.release / package, raw)
        append(raw / "usr/bin/irig", "irig_unproved")
        self.is_refused(f"{package} is not proved", lambda top: run("dpkg-deb", "-b", raw, top / package),
                        is_signed=True)

    def test_a_wheel_that_is_not_proved(self) -> None:
        """Nothing is moved, and what stood there stays."""
        before = {name: (self.release / name).read_bytes() for name in files_below(self.release)}
        with zipfile.ZipFile(self.kit / "made" / WHEEL, "a", zipfile.ZIP_DEFLATED) as opened:
            opened.writestr("irig/libirig_scene.so.6", b"\0irig_unproved\0" * 9)
        ran = self.run_here("packaging/release")
        self.assertEqual((ran.returncode, ran.stderr), (1, f"release: {WHEEL} is not proved\n"))
        self.assertEqual({name: (self.release / name).read_bytes() for name in files_below(self.release)}, before)
        self.assertEqual({path.name for path in (self.root / "out").iterdir()}, {"THIRD_PARTY", "irig_main.ll", "release", "windows"})


def load_tests(_loader: object, tests: unittest.TestSuite, _pattern: object) -> unittest.TestSuite:
    return SideBySide(tests)


if __name__ == "__main__":
    unittest.main()
