#!/usr/bin/env python3
"""The installed folder: what it has, that it can be moved, and that it runs in an empty environment, in a root folder with
nothing but the C library and Python.
"""

import gzip
import json
import os
import re
import shutil
import subprocess
import sys
import sysconfig
import tempfile
import unittest
from pathlib import Path

from rooms import TOOLS  # (first: it makes the other rooms known)

import stand_ins
from pystacks_tool import places
from pystacks_tool.version import VERSION
from made import EXAMPLE, core_file
from stand_ins import frame, interpreter, salvage, thread
from small_core import PROGRAM as IMAGE, TEXT, small_of

PROGRAM = Path(places.PROGRAM)
SALVAGE = Path(places.SALVAGE)

TREE = salvage(interpreter([thread(7, [frame("boom")], 99, True, True)]))
SHOWN = "Signal 11 (SIGSEGV): core\nProcess 4711: python3 a.py\nPython v3.11.7\n\nThread 99 (gil) (crashed)\n    boom (a.py:1)\n"


class Case(unittest.TestCase):
    """A folder with programs that stand in for the built ones."""

    def setUp(self):
        folder = tempfile.TemporaryDirectory(prefix="install-")
        self.addCleanup(folder.cleanup)
        self.folder = Path(os.path.realpath(folder.name))
        self.programs = [
            stand_ins.program(self.folder / "one", stand_ins.dump_json([]), stand_ins.text_of([])),
            stand_ins.program(self.folder / "two", json.dumps(TREE))]
        (self.folder / "core").write_bytes(core_file([]))

    def installed(self, *words, to="to"):
        """Installs, and returns the status and what was said."""
        command = [sys.executable, "-B", TOOLS / "install.py", "--to", self.folder / to, *words]
        ran = subprocess.run([str(it) for it in command], stdin=subprocess.DEVNULL, stdout=subprocess.PIPE, stderr=subprocess.PIPE, text=True)
        return ran.returncode, ran.stdout, ran.stderr

    def install(self):
        """Installs both programs."""
        status, _, said = self.installed("--program", self.programs[0], "--salvage", self.programs[1])
        self.assertEqual((status, said), (0, ""))

    def links(self, folder):
        """Sees that what the texts of a folder link to is there."""
        for page in ("README.md", "SECURITY.md"):
            links = re.findall(r"\]\((?!https?:)([^)#]*)(?:#[^)]*)?\)", (folder / page).read_text(encoding="utf-8"))
            self.assertTrue(links and all((folder / it).is_file() for it in links), links)

    def ran(self, *words, **more):
        """Runs something in an empty environment, in the folder."""
        streams = {"stdin": subprocess.DEVNULL, "stdout": subprocess.PIPE, "stderr": subprocess.PIPE, "text": True}
        ran = subprocess.run([str(it) for it in words], **{"env": {}, "cwd": self.folder, **streams, **more})
        return ran.returncode, ran.stdout, ran.stderr


class Installed(Case):
    """The folder."""

    def test_files(self):
        self.install()
        to = self.folder / "to"
        self.assertEqual(sorted(it.name for it in (to / "bin").iterdir()), ["pysalvage", "pystacks", "pystacks-core", "pystacks-core-handle", "pystacks-layout", "pystacks-native", "pystacks-slim"])
        self.assertEqual(sorted(it.name for it in (to / "layouts").iterdir()), ["cpython-aarch64.toml", "cpython-x86_64.toml", "records-aarch64.toml", "records-x86_64.toml"])
        self.assertTrue({"dump_core.py", "slim_core.py"} <= {it.name for it in (to / "tools").iterdir()})
        self.assertTrue({"USAGE.md", "MESSAGES.md", "CORES.md", "COMMANDS.md", "SALVAGE.md"} <= {it.name for it in (to / "docs").iterdir()})
        page = (to / "docs/USAGE.md").read_text(encoding="utf-8")
        self.assertTrue(all((to / "docs" / it).is_file() for it in re.findall(r"\((pictures/[^)]*)\)", page)))
        self.assertFalse({"PROVED.md", "CONTRIBUTING.md"} & {it.name for it in (to / "docs").iterdir()})
        self.assertTrue(all(os.access(it, os.X_OK) for it in (to / "bin").iterdir()))
        self.assertTrue({"README.md", "LICENSE", "NOTICE", "SECURITY.md", "CHANGELOG.md"} <= {it.name for it in to.iterdir()})
        self.links(to)
        self.assertFalse([it for it in to.rglob("*") if "check" in it.parts or it.suffix in (".antt", ".rt")])
        # (the tool's modules are compiled, each by a hash of its source, and nothing else is)
        compiled = list(to.rglob("*.pyc"))
        self.assertEqual({it.name.split(".")[0] for it in compiled}, {it.stem for it in (to / "tools/pystacks_tool").rglob("*.py")})
        self.assertEqual({it.read_bytes()[4:8] for it in compiled}, {b"\3\0\0\0"})

    def test_moved(self):
        self.install()
        (self.folder / "to").rename(self.folder / "elsewhere")
        door = self.folder / "elsewhere/bin/pystacks-core"
        self.assertEqual(self.ran(sys.executable, door, "core"), (0, SHOWN, ""))
        link = self.folder / "link"
        link.symlink_to(door)
        self.assertEqual(self.ran(sys.executable, link, "core"), (0, SHOWN, ""))
        out = self.ran(sys.executable, door, "--version")[1]
        self.assertTrue(re.match(r"pystacks [0-9.]+( \([0-9a-f]{12}\))?\n", out), out)
        self.assertIn(f"pysalvage: {self.folder}/elsewhere/bin/pysalvage\n", out)
        self.assertIn("usage: pystacks-core ", self.ran(sys.executable, door, "--help")[1])

    def test_doors(self):
        self.install()
        compiled = sorted((self.folder / "to").rglob("*.pyc"))
        for it in ("core", "slim", "layout", "native"):
            door = self.folder / "to/bin" / f"pystacks-{it}"
            status, out, said = self.ran(sys.executable, door, "--version")
            self.assertEqual((status, out.split(" ")[:2], said), (0, ["pystacks", f"{VERSION}{'' if ' (' in out else chr(10)}"], ""), it)
            self.assertIn(f"usage: pystacks-{it} ", self.ran(sys.executable, door, "--help")[1])
        door = self.folder / "to/bin/pystacks-layout"
        status, out, said = self.ran(sys.executable, door, self.folder / "none")
        self.assertEqual((status, out, said.startswith("derive_layout: ")), (1, "", True), said)
        for it in ("derive_records", "join_records", "carry_records", "carry_layouts"):
            tool = self.folder / "to/tools/layouts" / f"{it}.py"
            self.assertIn(f"usage: {it}.py ", self.ran(sys.executable, "-B", tool, "--help")[1])
        door = self.folder / "to/bin/pystacks-native"
        self.assertEqual(self.ran(sys.executable, door, "none", "1")[0], 2)
        self.assertEqual(sorted((self.folder / "to").rglob("*.pyc")), compiled)

    def test_places_of_pages(self):
        self.install()
        said = b"pystacks: no interpreter found\n"
        stand_ins.program(self.folder / "to/bin/pystacks", status=1, said=said)
        stand_ins.program(self.folder / "to/bin/pysalvage", status=1, said=said)
        then = self.ran(sys.executable, self.folder / "to/bin/pystacks-core", "core")[2].splitlines()[1]
        page = re.fullmatch(r"pystacks-core: next: (\S+) has the usual causes, and how to tell them, below `No interpreter found`", then).group(1)
        self.assertEqual(page, str(self.folder / "to/docs/MESSAGES.md"))
        self.assertTrue(Path(page).is_file())

    def test_in_path(self):
        self.install()
        environment = {"PATH": f"{self.folder}/to/bin:{os.path.dirname(sys.executable)}:/usr/bin:/bin"}
        self.assertEqual(self.ran("pystacks-core", "core", env=environment), (0, SHOWN, ""))

    def test_again(self):
        self.install()
        (self.folder / "to/tools/pystacks_tool/old.py").write_text("")
        self.install()
        self.assertFalse((self.folder / "to/tools/pystacks_tool/old.py").exists())

    def test_refused(self):
        (self.folder / "other").mkdir()
        (self.folder / "other/file").write_text("mine")
        for to, line in (("other", "has other files"), ("core", "is no folder")):
            status, out, said = self.installed("--program", self.programs[0], to=to)
            self.assertEqual((status, out, said.count("\n")), (2, "", 2))
            self.assertIn(line, said)
        status, out, said = self.installed("--program", self.folder / "none")
        self.assertEqual((status, out, "there is no program" in said), (127, "", True))
        self.assertEqual((self.folder / "other/file").read_text(), "mine")

    def test_without_salvage(self):
        if SALVAGE.is_file():
            self.skipTest("pysalvage is built")
        status, out, _ = self.installed("--program", self.programs[0])
        self.assertEqual((status, out.count("\n")), (0, 2))
        self.assertFalse((self.folder / "to/bin/pysalvage").exists())

    def test_door_alone(self):
        self.install()
        shutil.rmtree(self.folder / "to/tools")
        status, out, said = self.ran(sys.executable, self.folder / "to/bin/pystacks-core", "core")
        self.assertEqual((status, out, said.count("\n")), (127, "", 1))
        self.assertIn("pystacks-core: there is no dump_core.py in ", said)
        status, out, said = self.ran(sys.executable, self.folder / "to/bin/pystacks-slim", "core")
        self.assertEqual((status, out, said.count("\n")), (127, "", 1))
        self.assertIn("pystacks-slim: there is no slim_core.py in ", said)

    def test_door_without_a_module(self):
        self.install()
        (self.folder / "to/tools/pystacks_tool/faults.py").unlink()
        status, out, said = self.ran(sys.executable, self.folder / "to/bin/pystacks-slim", "core")
        self.assertEqual((status, out, said.count("\n")), (127, "", 1))
        self.assertIn("pystacks-slim: there is no pystacks_tool/faults.py in ", said)


def libraries_of(*files):
    """The libraries that some programs load, by `ldd`."""
    found = set()
    for file in files:
        ran = subprocess.run(["ldd", str(file)], stdout=subprocess.PIPE, stderr=subprocess.DEVNULL, text=True)
        found.update(re.findall(r"(/\S+) \(0x", ran.stdout))
    return sorted(found)


def put_python(root):
    """Copies this Python and the libraries that it loads below a root folder. Returns its path there."""
    python = os.path.realpath(sys.executable)
    library = sysconfig.get_path("stdlib")
    left = shutil.ignore_patterns("test", "tests", "site-packages", "dist-packages", "__pycache__", "config-*", "idlelib", "tkinter", "ensurepip", "lib2to3")
    shutil.copytree(library, f"{root}{library}", ignore=left, symlinks=False, ignore_dangling_symlinks=True)
    modules = list(Path(sysconfig.get_path("platstdlib")).glob("lib-dynload/*.so"))
    for it in (python, *libraries_of(python, *modules)):
        target = Path(f"{root}{it}")
        if not target.exists():
            target.parent.mkdir(parents=True, exist_ok=True)
            shutil.copyfile(os.path.realpath(it), target)
            target.chmod(0o755)
    return python


class Bare(Case):
    """A root folder with nothing but the C library and Python."""

    def setUp(self):
        super().setUp()
        if os.geteuid() != 0 or not shutil.which("ldd"):
            self.skipTest("a root folder needs root, and ldd")
        self.root = self.folder / "root"
        self.python = put_python(self.root)

    def in_root(self, *words):
        """Runs something in the root folder."""
        return self.ran(*words, cwd="/", preexec_fn=lambda: (os.chroot(self.root), os.chdir("/")))

    def test_stand_ins(self):
        self.assertEqual(self.in_root(self.python, "-c", "print(1)")[:2], (0, "1\n"))
        self.install()
        shutil.copytree(self.folder / "to", self.root / "opt/pystacks")
        for it in ("one", "two"):
            shutil.copytree(self.folder / f"{it}.said", f"{self.root}{self.folder}/{it}.said")
        for it in (self.root / "opt/pystacks/bin").iterdir():
            it.write_text(it.read_text().replace(f"#!{sys.executable} ", f"#!{self.python} "))
        shutil.copy(self.folder / "core", self.root / "core")
        self.assertEqual(self.in_root(self.python, "/opt/pystacks/bin/pystacks-core", "core"), (0, SHOWN, ""))

    @unittest.skipUnless(PROGRAM.is_file(), "the program isn't built")
    def test_built(self):
        for it in (PROGRAM, *([SALVAGE] if SALVAGE.is_file() else [])):
            names = {os.path.basename(library).split(".")[0] for library in libraries_of(it)}
            self.assertLessEqual(names, {"libc", "libm", "libgcc_s", "ld-linux-x86-64", "ld-linux-aarch64", "libdl", "libpthread", "librt"})
            for library in libraries_of(it):
                target = Path(f"{self.root}{library}")
                target.parent.mkdir(parents=True, exist_ok=True)
                if not target.exists():
                    shutil.copy(os.path.realpath(library), target)
        self.assertEqual(self.installed(to="root/opt/pystacks")[0], 0)
        (self.root / "core").write_bytes(small_of(b"/usr/bin/python3.9"))
        (self.root / "container/usr/bin").mkdir(parents=True)
        (self.root / "container/usr/bin/python3.9").write_bytes(IMAGE)
        (self.root / "layout.toml").write_text(EXAMPLE)
        words = ("core", "--root", "/container", "--layouts", "/layout.toml")
        status, out, said = self.in_root(self.python, "/opt/pystacks/bin/pystacks-core", *words)
        # (this core has none of the interpreter's own tables)
        told = TEXT.replace("\n\n", "\nlayout: unconfirmed, since the process tells too little\n\n", 1) if SALVAGE.is_file() else TEXT
        self.assertEqual((status, out, said), (0, told, ""))
        self.assertEqual(self.in_root(self.python, "/opt/pystacks/bin/pystacks-core", *words, "--plain"), (0, TEXT, ""))


@unittest.skipUnless(PROGRAM.is_file(), "the program isn't built")
@unittest.skipUnless(shutil.which("dpkg-deb") and shutil.which("help2man"), "there is no dpkg-deb, or no help2man")
class Package(Case):
    """The Debian package."""

    PROGRAMS = ["pysalvage", "pystacks", "pystacks-core", "pystacks-core-handle", "pystacks-layout", "pystacks-native", "pystacks-slim"]

    def setUp(self):
        super().setUp()
        self.package = self.folder / "pystacks.deb"
        salvage = [] if SALVAGE.is_file() else ["--salvage", self.programs[1]]
        command = [sys.executable, "-B", TOOLS / "install.py", "--deb", self.package, *salvage]
        status, out, said = self.ran(*command, env=dict(os.environ))
        self.assertEqual((status, out.count("\n"), said), (0, 1, ""))

    def test_contents(self):
        root = self.folder / "x"
        self.assertEqual(self.ran("dpkg-deb", "-x", self.package, root, env=dict(os.environ))[0], 0)
        self.assertEqual(sorted(it.name for it in (root / "usr/bin").iterdir()), self.PROGRAMS)
        self.assertTrue(all(it.resolve().is_file() for it in (root / "usr/bin").iterdir()))
        self.assertEqual({it.name for it in (root / "usr/share/man/man1").iterdir()}, {f"{it}.1.gz" for it in self.PROGRAMS})
        for it in (root / "usr/share/man/man1").iterdir():
            page = gzip.decompress(it.read_bytes()).decode("utf-8")
            self.assertIn(".SH SYNOPSIS\n", page)
            self.assertNotIn(str(self.folder), page)
        self.assertTrue((root / "usr/lib/pystacks/docs/MESSAGES.md").is_file())
        self.links(root / "usr/share/doc/pystacks")
        fields = self.ran("dpkg-deb", "-f", self.package, env=dict(os.environ))[1].splitlines()
        self.assertIn(f"Version: {VERSION}", fields)

    @unittest.skipUnless(shutil.which("lintian"), "there is no lintian")
    def test_lintian(self):
        status, out, said = self.ran("lintian", "--allow-root", "--fail-on", "error,warning", self.package, env=dict(os.environ))
        self.assertEqual((status, out), (0, ""), said)

    @unittest.skipUnless(os.geteuid() == 0, "a root folder needs root")
    def test_installed(self):
        root = self.folder / "root"
        for it in ("info", "updates", "triggers"):
            (root / "var/lib/dpkg" / it).mkdir(parents=True)
        (root / "var/lib/dpkg/status").write_text("")
        dpkg = ["dpkg", f"--root={root}", f"--log={self.folder}/log", "--force-depends", "--force-script-chrootless"]
        status, _, said = self.ran(*dpkg, "-i", self.package, env=dict(os.environ))
        self.assertEqual(status, 0, said)
        (self.folder / "small").write_bytes(small_of(b"/usr/bin/python3.9"))
        (self.folder / "container/usr/bin").mkdir(parents=True)
        (self.folder / "container/usr/bin/python3.9").write_bytes(IMAGE)
        (self.folder / "layout.toml").write_text(EXAMPLE)
        words = ("small", "--root", "container", "--layouts", "layout.toml", "--plain")
        self.assertEqual(self.ran(sys.executable, root / "usr/bin/pystacks-core", *words), (0, TEXT, ""))
        self.assertEqual(self.ran(sys.executable, root / "usr/bin/pystacks-slim", *words[:-1])[0], 0)
        status, _, said = self.ran(*dpkg, "--purge", "pystacks", env=dict(os.environ))
        self.assertEqual(status, 0, said)
        left = [it for it in root.rglob("*") if not str(it).startswith(f"{root}/var/lib/dpkg") and it != root / "var" and it != root / "var/lib"]
        self.assertEqual(left, [])


if __name__ == "__main__":
    unittest.main(verbosity=0)
