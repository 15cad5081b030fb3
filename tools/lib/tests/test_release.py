"""tools/release, on a copy of what it packs and with a program that stands in for the proved one."""
from __future__ import annotations

import hashlib
import os
import re
import shutil
import subprocess
import tarfile
import tempfile
import unittest

from archive import Packed, pack, with_sums
from elf import needs_of
from faults import BadFile
from program import program
from runs import TOOLS, Tools
from unkitted import Unpacked, check_library, check_licences, check_sums

TOP = os.path.dirname(TOOLS)
NAMES = ("LICENSE", "README.md", "CHANGELOG.md", "crates.txt", "HANDLES", ".gitignore", "bench", "docs", "examples", "tools")
KIT_CRATES = ("itoa", "thiserror", "arrayvec", "smallvec", "circular_buffer", "atomic_table")
# of a kit: the two calls that a release makes
RT = "#!/bin/sh\ncase $1 in version) echo a kit;; doc) echo {kit}/START-HERE.md;; esac\n"
GATE = "crate ocs: is proved\n{} passed, {} failed\n"


class Release(Tools):
    """A repository of its own with the tools, a kit and a program."""

    def setUp(self) -> None:
        super().setUp()
        self.top, self.kit = self.place("top"), self.place("kit")
        for name in NAMES:
            self.copy(name)
        for crate in KIT_CRATES:
            self.write(f"kit/rattle/{crate}/LICENSE", f"the licence of {crate}")
        os.makedirs(self.place("bin"))
        self.script("bin/rt", RT.format(kit=self.kit))
        self.path = f"{self.place('bin')}:{os.environ['PATH']}"
        for words in (["init", "-q"], ["add", "-A"], ["commit", "-q", "-m", "all"]):
            self.git(*words)
        self.stand_in(b"\x7fELF")
        self.gate("57", "0")

    def copy(self, name: str) -> None:
        place = os.path.join(TOP, name)
        if os.path.isdir(place):
            shutil.copytree(place, os.path.join(self.top, name), ignore=shutil.ignore_patterns("out", "__pycache__"))
        else:
            os.makedirs(self.top, exist_ok=True)
            shutil.copy(place, os.path.join(self.top, name))

    def script(self, name: str, text: str) -> str:
        place = self.write(name, text)
        os.chmod(place, 0o755)
        return place

    def git(self, *words: str) -> None:
        who = ["-c", "user.name=a", "-c", "user.email=a@b", "-c", "commit.gpgsign=false"]
        subprocess.run(["git", *who, *words], cwd=self.top, check=True)

    def sources(self) -> str:
        words = [os.path.join(self.top, "tools", "build"), "--sources"]
        return subprocess.run(words, env=self.environment(), check=True, capture_output=True, text=True).stdout

    def stand_in(self, data: bytes) -> None:
        """Puts a program where tools/build leaves it, with its mark, in place of both."""
        for crate in ("ocs", "ocs_slots"):
            place = self.write(f"top/crates/{crate}/out/{crate}", data)
            os.chmod(place, 0o755)
            self.write(f"top/crates/{crate}/out/{crate}-sources", f"{self.sources()}{hashlib.sha256(data).hexdigest()}  -\n")

    def gate(self, passed: str, failed: str) -> None:
        self.write("top/out/gate.log", self.sources() + GATE.format(passed, failed))

    def environment(self) -> dict[str, str]:
        return {**os.environ, "PATH": self.path}

    def release(self) -> subprocess.CompletedProcess[str]:
        words = [os.path.join(self.top, "tools", "release")]
        return subprocess.run(words, env=self.environment(), cwd=self.folder, capture_output=True, text=True)

    def refused_release(self) -> str:
        done = self.release()
        self.assertEqual((done.returncode, done.stdout, done.stderr.count("\n")), (2, "", 1), done.stderr)
        self.assertEqual([name for name in os.listdir(os.path.join(self.top, "out")) if name != "gate.log"], [])
        return done.stderr


class RefusalTest(Release):
    def test_program_of_other_sources(self) -> None:
        self.write("top/crates.txt", "# changed\n")
        self.git("commit", "-q", "-a", "-m", "changed")
        self.assertIn("crates/ocs/out/ocs: is not the proved program of these sources", self.refused_release())

    def test_program_that_was_put_there(self) -> None:
        self.write("top/crates/ocs/out/ocs", b"another")
        self.assertIn("is not the proved program of these sources", self.refused_release())
        os.remove(os.path.join(self.top, "crates/ocs/out/ocs"))
        self.assertIn("is not the proved program of these sources", self.refused_release())

    def test_second_program(self) -> None:
        with open("/bin/true", "rb") as file:
            self.stand_in(file.read())
        self.write("top/crates/ocs_slots/out/ocs_slots", b"another")
        self.assertIn("crates/ocs_slots/out/ocs_slots: is not the proved program of these sources", self.refused_release())

    def test_program_that_is_none(self) -> None:
        self.assertIn("is no program for Linux on x86-64", self.refused_release())
        self.stand_in(b"\x7fELF\x02\x01" + bytes(10) + b"\x03\x00\x3e\x00" + bytes(44))
        self.assertIn("does not say which C library it needs", self.refused_release())

    def test_gate(self) -> None:
        with open("/bin/true", "rb") as file:
            self.stand_in(file.read())
        self.gate("57", "1")
        self.assertIn("ends with '57 passed, 1 failed', not with 'N passed, 0 failed'", self.refused_release())
        self.write("top/out/gate.log", GATE.format(57, 0))
        self.assertIn("it is not the log of these sources", self.refused_release())
        os.remove(os.path.join(self.top, "out/gate.log"))
        self.assertIn("gate.log: no such file", self.release().stderr)

    def test_changes(self) -> None:
        with open("/bin/true", "rb") as file:
            self.stand_in(file.read())
        self.write("top/README.md", "changed")
        self.assertIn("README.md: has changes that are not committed", self.refused_release())

    def test_program_that_does_not_run(self) -> None:
        """What was packed is tried, and goes where it does not do what it should."""
        with open("/bin/true", "rb") as file:
            self.stand_in(file.read())
        said = self.refused_release()
        self.assertRegex(said, "frames.ppm: no such file or directory|examples/show .*ended with status")

    def test_crate_without_a_name(self) -> None:
        with open("/bin/true", "rb") as file:
            self.stand_in(file.read())
        place = os.path.join(self.top, "docs", "licences.md")
        with open(place, encoding="utf-8") as file:
            text = file.read().replace("`arrayvec`", "")
        with open(place, "w", encoding="utf-8") as file:
            file.write(text)
        self.git("commit", "-q", "-a", "-m", "changed")
        self.assertIn("docs/licences.md: does not name the crate arrayvec", self.refused_release())


def program_data() -> bytes:
    """The program that OCS names or that is built; none where there is none, or where it is no more than a script."""
    try:
        with open(program(), "rb") as file:
            data = file.read()
    except BadFile:
        return b""
    return data if data.startswith(b"\x7fELF") else b""


class PackedTest(Release):
    """The whole way, with the program that OCS names or that is built."""

    def test_twice(self) -> None:
        data = program_data()
        if not data:
            self.skipTest("no program is built, and OCS names none that stands by itself")
        self.stand_in(data)
        done = self.release()
        self.assertEqual((done.returncode, done.stderr), (0, ""))
        sum, place = done.stdout.splitlines()[0].split("  ")
        with open(place, "rb") as file:
            first = file.read()
        self.assertEqual(hashlib.sha256(first).hexdigest(), sum)
        os.remove(place)
        self.assertEqual(self.release().stdout, done.stdout)
        self.check_members(place)
        self.check_links(place)

    def check_members(self, place: str) -> None:
        with tarfile.open(place) as tar:
            members = tar.getmembers()
            top = members[0].name.split("/")[0]
            names = [member.name.removeprefix(top + "/") for member in members]
            text = tar.extractfile(f"{top}/RELEASE").read().decode()
        self.assertEqual(names, sorted(names))
        self.assertEqual({(member.mtime, member.uid, member.gid, member.uname) for member in members}, {(946684800, 0, 0, "")})
        tops = ("ocs", "ocs-slots", "README.md", "LICENSE", "CHANGELOG.md", "RELEASE", "SHA256SUMS")
        for name in (*tops, "licences/itoa/LICENSE", "tools/look", "tools/when"):
            self.assertIn(name, names)
        self.assertFalse([name for name in names if name.startswith(("crates", "tools/test-", "tools/build", "tools/release"))])
        self.assertIn("57 passed, 0 failed\n", text)
        self.assertRegex(text, r"glibc 2\.\d+ or later")

    def check_links(self, place: str) -> None:
        """Each file that a document of the release names by a link is in it."""
        with tarfile.open(place) as tar:
            names = {member.name for member in tar.getmembers()}
            documents = {name: tar.extractfile(name).read().decode() for name in names if name.endswith(".md")}
        for name, text in documents.items():
            for link in re.findall(r"\]\(([^)#]+)", text):
                target = os.path.normpath(os.path.join(os.path.dirname(name), link))
                there = target in names or any(other.startswith(target + "/") for other in names)
                self.assertTrue(there or "://" in link, f"{name}: {link}")


class StrangerTest(Tools):
    """What a release says of itself, in a small one."""

    def walk(self, **changes: bytes | None) -> str:
        """What is wrong with a release with some files changed or left out; nothing where all is right."""
        with open("/bin/true", "rb") as file:
            program = file.read()
        needs = needs_of("/bin/true").text
        files = {
            "ocs": program, "ocs-slots": program, "LICENSE": b"MIT", "RELEASE": f"system: Linux on x86-64 with {needs}; tools".encode(),
            "docs/licences.md": b"| `itoa` | digits | MIT |\n| `own` | ours | none is given |\n", "licences/itoa/LICENSE": b"MIT",
        }
        packed = with_sums({name: Packed(data, runs=True) for name, data in {**files, **changes}.items() if data is not None})
        archive = self.write("archive", pack("ocs-1", packed))
        with tempfile.TemporaryDirectory() as folder:
            release = Unpacked(folder, archive)
            try:
                for check in (check_sums, check_licences, check_library):
                    check(release)
            except BadFile as fault:
                return str(fault)
            with open(os.path.join(release.top, "added"), "wb"):
                pass
            with self.assertRaisesRegex(BadFile, "SHA256SUMS: has no line for added"):
                check_sums(release)
        return ""

    def test_walk(self) -> None:
        self.assertEqual(self.walk(), "")
        self.assertIn("licences/itoa: is not there", self.walk(**{"licences/itoa/LICENSE": None}))
        self.assertIn("LICENSE: is not there", self.walk(LICENSE=b""))
        self.assertIn("RELEASE: does not say that the programs need glibc 2.", self.walk(RELEASE=b"glibc 2.1 or later"))

    def test_sum_of_another_file(self) -> None:
        archive = self.write("archive", pack("ocs-1", {**with_sums({"ocs": Packed(b"one")}), "ocs": Packed(b"two")}))
        with tempfile.TemporaryDirectory() as folder, self.assertRaisesRegex(BadFile, "sha256sum .* ended with status 1"):
            check_sums(Unpacked(folder, archive))


class ArchiveTest(unittest.TestCase):
    def test_bytes(self) -> None:
        """Order of making counts for nothing; names, modes and contents do."""
        files = {"b": Packed(b"two"), "a/c": Packed(b"one", runs=True)}
        other = dict(reversed(files.items()))
        self.assertEqual(pack("top", files), pack("top", other))
        self.assertNotEqual(pack("top", files), pack("top", {**files, "b": Packed(b"two", runs=True)}))

    def test_sums(self) -> None:
        sums = with_sums({"b": Packed(b""), "a": Packed(b"abc")})["SHA256SUMS"].data.decode().splitlines()
        # the two values that the standard's examples give
        self.assertEqual(sums[0], "ba7816bf8f01cfea414140de5dae2223b00361a396177a9cb410ff61f20015ad  a")
        self.assertEqual(sums[1], "e3b0c44298fc1c149afbf4c8996fb92427ae41e4649b934ca495991b7852b855  b")


class ElfTest(Tools):
    def test_needs(self) -> None:
        if not shutil.which("readelf"):
            self.skipTest("readelf is not there: apt-get install binutils")
        said = subprocess.run(["readelf", "-V", "/bin/ls"], capture_output=True, text=True, check=True).stdout
        wanted = max(tuple(map(int, text.split("."))) for text in re.findall(r"GLIBC_([0-9.]+)", said))
        self.assertEqual(needs_of("/bin/ls").glibc, wanted)

    def test_broken(self) -> None:
        with open("/bin/ls", "rb") as file:
            data = file.read()
        with self.assertRaises(BadFile):
            needs_of(self.write("cut", data[:5000]))
        with self.assertRaises(BadFile):
            needs_of(self.write("text", "#!/bin/sh\n"))
