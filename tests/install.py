"""installation and release: what stands where, programs that are built on it, the archive in an empty root"""

import json
import os
import re
import shutil
import stat
import tarfile
import unittest
from pathlib import Path
from typing import List, Optional

from tests import examples
from tests.c import GUEST
from tests.c_core import CC, HEADER, why_left_out
from tests.kvm import assert_restarted, why_no_kvm
from tests.support import C_ARCHIVE, PLAIN, PROGRAM, TOP, Checks, ProgramChecks, Ran, is_at_hand, run, sha256

INSTALL = TOP / "install"
RELEASE = TOP / "tools/release"
HALF_AN_HOUR = 1800.0  # the library for C is built first, if it is not
NOT_AT_HAND = 127
# where Debian's packages of crates lie, and how cargo is told so
PACKAGED = Path("/usr/share/cargo/registry")
DEBIAN_CRATES = f'[source.crates-io]\nreplace-with = "debian"\n[source.debian]\ndirectory = "{PACKAGED}"\n'


def setUpModule() -> None:
    why = why_left_out()
    if why:
        raise unittest.SkipTest(why.replace("the core for C", "the library that is installed"))


class ProvedChecks(ProgramChecks):
    """Checks of what is proved, as it is installed and released."""

    @classmethod
    def setUpClass(cls) -> None:
        if PLAIN:
            raise unittest.SkipTest("it is what is proved that is installed by these")
        super().setUpClass()


def installed(folder: Path) -> List[str]:
    """The files below a folder, and links; each by its whole path."""
    return sorted(str(path) for path in folder.rglob("*") if path.is_symlink() or not path.is_dir())


def dead_links(folder: Path) -> List[str]:
    """The links of a folder's pages to what is not there, but for those to the web."""
    links = ((page.name, link) for page in folder.glob("*.md") for link in re.findall(r"\]\(([^)#]+)", page.read_text(encoding="utf-8")))
    return [f"{page}: {link}" for page, link in links if "://" not in link and not (folder / link).exists()]


class Installed(ProvedChecks):
    """An installation into a prefix of its own."""

    prefix: Path
    ran: Ran

    @classmethod
    def setUpClass(cls) -> None:
        super().setUpClass()
        cls.prefix = cls.room / "prefix"
        words = ["bash", "-c", 'umask 077; exec "$@"', "bash", INSTALL, "--prefix", cls.prefix]
        cls.ran = run(*words, timeout=HALF_AN_HOUR)

    def test_files(self) -> None:
        with self.check("install puts twenty files into a prefix and reports each"):
            self.assert_ended(self.ran, 0, None, None)
            reported = re.findall(rb"^installed (.+)$", self.ran.out, re.M)
            self.assertEqual(sorted(map(os.fsdecode, reported)), installed(self.prefix), f"ran: {self.ran}")
            self.assertEqual(len(reported), 20, f"ran: {self.ran}\nfiles that it reports")
        with self.check("each link of the installed pages leads to one that is installed"):
            self.assertEqual(dead_links(self.prefix / "share/doc/bootcore"), [])
        with self.check("install --list names exactly the files that install puts there"):
            ran = run(INSTALL, "--list", "--prefix", self.prefix)
            self.assert_ended(ran, 0, None)
            listed = sorted(os.fsdecode(line.split(b"\t")[0]) for line in ran.out.splitlines())
            self.assertEqual(listed, installed(self.prefix), f"ran: {ran}")
        with self.check("installed files can be read by everybody, also under a umask of 077"):
            wrong = [f"{path}: {mode_of(path):o}" for path in self.prefix.rglob("*") if mode_of(path) != wanted_mode(path)]
            self.assertEqual(wrong, [], f"ran: {self.ran}\nmodes")
        self.are_same_file("the installed program is the proved one", PROGRAM, self.prefix / "bin/bootcore")

    def test_destdir(self) -> None:
        """install below a destination folder puts the same files there"""
        ran = run(INSTALL, "--destdir", self.room / "staged", "--prefix", "/usr")
        self.assert_ended(ran, 0, None)
        self.assert_ended(run("diff", "-r", self.prefix, self.room / "staged/usr"))

    def test_programs_in_c(self) -> None:
        if not is_at_hand("pkg-config"):
            self.leave_out("programs in C are built on what is installed", "pkg-config is not at hand")
            return
        for name in ("guest", "statuses"):
            ran = self.compiled(name, self.prefix)
            self.ends(f"examples/c/{name}.c is built on what is installed, by pkg-config alone", ran)
        (self.room / "kernel.elf").write_bytes(examples.multiboot2_kernel())
        (self.room / "m.bin").write_bytes(b"hello")
        words = ["multiboot2", "kernel.elf", "k", "m.bin"]
        ran = run(self.room / "guest", *words, cwd=self.room)
        self.ends("a guest loader that is built on what is installed loads its guest", ran, 0, GUEST)
        ran = run(self.room / "statuses")
        self.ends("each misuse has its status, by way of the installed library", ran, 0, "570 tried, 0 wrong\n")
        env = {"PKG_CONFIG_PATH": str(self.prefix / "lib/pkgconfig")}
        for name in ("bootcore", "bootcore-freestanding"):
            self.ends(f"pkg-config finds version 1.0.0 of {name}, or a later one", run("pkg-config", "--atleast-version=1.0.0", name, env=env))
        ran = run("pkg-config", "--libs", "bootcore-freestanding", env=env)
        with self.check("pkg-config names the library for firmware"):
            self.assert_ended(ran, 0, None)
            self.assertEqual(ran.out.split()[1:], [b"-lbootcore_freestanding"], f"ran: {ran}")
        moved = self.room / "moved"
        shutil.copytree(self.prefix, moved)
        self.ends("a prefix that was moved is found by its bootcore.pc", self.compiled("guest", moved))

    def compiled(self, name: str, prefix: Path) -> Ran:
        """Compiles an example in C; the compiler's words are those of pkg-config."""
        command = 'exec $CC -std=c99 -O2 -Wall -Wextra "$1" $(pkg-config --cflags --libs bootcore) -o "$2"'
        env = {"CC": " ".join(CC), "PKG_CONFIG_PATH": str(prefix / "lib/pkgconfig")}
        return run("bash", "-c", command, "bash", TOP / f"examples/c/{name}.c", self.room / name, env=env)

    def test_version(self) -> None:
        """what pkg-config reads has the header's version, and the installed program that which tools/version prints"""
        version = run(TOP / "tools/version").out.decode().strip()
        number = int(re.search(r"^#define BOOTCORE_VERSION (\d+)", HEADER.read_text(encoding="utf-8"), re.M)[1])
        whole = f"{number // 10000}.{number // 100 % 100}.{number % 100}"
        self.assertEqual(whole.split(".")[:2], version.split(".")[:2], "the versions of the header and of tools/version")
        for name in ("bootcore", "bootcore-freestanding"):
            stated = re.search(r"^Version: (.+)$", (self.prefix / f"lib/pkgconfig/{name}.pc").read_text(), re.M)
            self.assertEqual(stated and stated[1], whole, f"the version of {name}.pc")
        ran = run(self.prefix / "bin/bootcore", "--help")
        self.assert_text(ran, f"bootcore {version}", ran.out.split(b"\n")[0], "first line")


class Removed(ProvedChecks):
    def test_removal(self) -> None:
        prefix = self.room / "prefix"
        run(INSTALL, "--prefix", prefix, timeout=HALF_AN_HOUR)
        ran = run(INSTALL, "--remove", "--prefix", prefix)
        with self.check("install --remove takes all files and folders away again"):
            self.assert_ended(ran, 0, None)
            self.assertEqual(list(prefix.rglob("*")) if prefix.exists() else [], [], f"ran: {ran}\nwhat is left")
        run(INSTALL, "--prefix", prefix)
        (prefix / "lib/other").write_text("of somebody else")
        ran = run(INSTALL, "--remove", "--prefix", prefix)
        with self.check("install --remove leaves a file of somebody else, with its folder"):
            self.assert_ended(ran, 0, None)
            self.assertEqual(installed(prefix), [str(prefix / "lib/other")], f"ran: {ran}\nwhat is left")

    def test_faults(self) -> None:
        for words in (["foo"], ["--prefix"], ["--list", "--remove"], ["--destdir", "x", "--prefix", "y"]):
            ran = run(INSTALL, *words, cwd=self.room)
            self.ends(f"install refuses the words '{' '.join(words)}'", ran, 64, "", None)
        header = self.room / "taken/include/bootcore.h"
        (header / "x").mkdir(parents=True)
        ran = run(INSTALL, "--prefix", self.room / "taken", timeout=HALF_AN_HOUR)
        with self.check("install reports which file can't be written"):
            self.assert_ended(ran, 1, None, None)
            self.assertIn(f"{header} can't be written", ran.err.decode(), f"ran: {ran}\nstandard error")


class Released(ProvedChecks):
    """The archive for those without the toolchain."""

    name: str
    archives: List[Path]  # of this checkout, and of another one of the same commit
    ran: List[Ran]
    top: Path  # the folder that the first one unpacks to

    @classmethod
    def setUpClass(cls) -> None:
        super().setUpClass()
        version = run(TOP / "tools/version").out.decode().strip()
        cls.name = f"bootcore-{version}-x86_64-linux"
        cls.archives = [cls.room / folder / f"{cls.name}.tar.gz" for folder in ("once", "again")]
        cls.sources = [archive.with_name(f"bootcore-{version}-source.tar.gz") for archive in cls.archives]
        cls.ran = [run(RELEASE, cls.room / "once", timeout=HALF_AN_HOUR)]
        other = check_out(cls.room / "another checkout")
        words = ["bash", "-c", 'umask 077; exec "$@"', "bash", other / "tools/release", cls.room / "again"]
        (cls.room / "temporary").mkdir()
        env = {"TMPDIR": str(cls.room / "temporary"), "TZ": "JST-9", "SOURCE_DATE_EPOCH": "1"}
        cls.ran.append(run(*words, cwd=cls.room, env=env, timeout=HALF_AN_HOUR))
        run("tar", "-xzf", cls.archives[0], "-C", cls.room)
        cls.top = cls.room / cls.name

    def test_archive(self) -> None:
        for ran in self.ran:
            self.ends(f"tools/release makes the archive in {Path(ran.words[-1]).name}", ran, 0, None, None)
        sentence = "releases of one commit have the same bytes, whatever folder, umask, time zone and time they are made in"
        if has_changes():
            self.leave_out(sentence, "this checkout has changes that are not committed, which the archive tells")
        else:
            self.are_same_file(sentence, *self.archives)
            self.are_same_file(f"{sentence}; of the plain source too", *self.sources)
        ran = run("sha256sum", "-c", f"{self.name}.tar.gz.sha256", cwd=self.room / "once")
        self.ends("the SHA-256 beside the archive is the archive's", ran, 0, f"{self.name}.tar.gz: OK\n")
        with tarfile.open(self.archives[0]) as archive, self.check("the archive tells nothing of who made it, and when"):
            members = archive.getmembers()
            names = [it.name.split("/") for it in members]
            self.assertEqual(names, sorted(names))
            seconds = int(run("git", "log", "-1", "--format=%ct").out)
            told = {(it.uid, it.gid, it.uname, it.gname, it.mtime, it.mode) for it in members}
            self.assertEqual(told, {(0, 0, "", "", seconds, mode) for mode in (0o755, 0o644)})
            self.assertEqual(self.archives[0].read_bytes()[3:8], bytes(5), "gzip's flags and time")

    def test_contents(self) -> None:
        with self.check("SHA256SUMS has each other file of the archive, and its sum"):
            self.assert_ended(run("sha256sum", "--strict", "--quiet", "-c", "SHA256SUMS", cwd=self.top))
            listed = [line[66:] for line in (self.top / "SHA256SUMS").read_text().splitlines()]
            self.assertEqual(sorted(["SHA256SUMS", *listed]), [os.path.relpath(it, self.top) for it in installed(self.top)])
        with self.check("the archive has what ./install installs, and examples"):
            ran = run(INSTALL, "--list", "--prefix", self.top)
            wanted = {os.fsdecode(line.split(b"\t")[0]) for line in ran.out.splitlines()}
            wanted |= {str(self.top / f"examples/{it}") for it in ("first.toml", "c/first.c", "kvm/acpi/dsdt.asl", "efi/main.c")}
            self.assertEqual(wanted - set(installed(self.top)), set(), f"ran: {ran}\nfiles that it lacks")

    def test_boot_manager(self) -> None:
        """the released boot manager is built without a checkout"""
        ran = run(self.top / "examples/efi/build", env={"CFLAGS": "-Werror"})
        if ran.status == NOT_AT_HAND:
            self.skipTest(ran.err.decode(errors="replace").strip())
        self.assert_ended(ran, 0, None)
        self.assertEqual((self.top / "examples/efi/out/BOOTX64.EFI").read_bytes()[:2], b"MZ", f"ran: {ran}")

    def test_monitor(self) -> None:
        """the released monitor is built without a checkout, and boots a small kernel where KVM serves"""
        if not is_at_hand("iasl"):
            self.leave_out("the monitor of a release is built on its library", "iasl, which compiles its ACPI tables, is not at hand")
            return
        built = run(self.top / "examples/kvm/build", env={"CFLAGS": "-Werror"})
        self.ends("the monitor of a release is built on its library", built, 0, None)
        why = why_no_kvm()
        sentence = "the monitor of a release boots a small kernel"
        if why:
            self.leave_out(sentence, why)
            return
        ran = run(self.top / "examples/kvm/run", self.top / "examples/kvm/out/linux64", self.top / "README.md", "a line of mine")
        with self.check(sentence):
            begin = "a Linux kernel, by its 64-bit entry\nline a line of mine\nfile # bootcore "
            self.assert_text(ran, begin, ran.out[: len(begin)], "first lines")
            self.assertTrue(ran.out.endswith(b"\nended\n"), f"ran: {ran}\nits last line is not 'ended'\n{ran.out[-300:]!r}")
            assert_restarted(self, ran)

    def test_empty_root(self) -> None:
        """the released program boots the first example in a root that has only libc and a shell"""
        enter = enter_root()
        if enter is None:
            self.skipTest("neither chroot nor unshare may be called here")
        root = self.room / "root"
        for file in needed_by("/bin/sh"):
            (root / file.lstrip("/")).parent.mkdir(parents=True, exist_ok=True)
            shutil.copy(os.path.realpath(file), root / file.lstrip("/"))
        (root / "tmp").mkdir()
        self.assert_ended(run("tar", "-xzf", self.archives[0], "-C", root))
        boot = f"cd /{self.name} && bin/bootcore boot examples/first.toml --out /tmp/first.image"
        self.assert_ended(run(*enter, root, "/bin/sh", "-c", boot), 0, "booted 0 row one\n")
        self.assert_digest(examples.FIRST_IMAGE[1], root / "tmp/first.image")


class FromSource(Checks):
    """An installation, and a release, of what cargo builds of the plain source."""

    prefix: Path
    top: Path  # what the released workspace unpacks to
    ran: List[Ran]

    @classmethod
    def setUpClass(cls) -> None:
        super().setUpClass()
        for tool in ("cargo", "rustfmt"):
            if run(tool, "--version").status != 0:
                raise unittest.SkipTest(f"the plain source: {tool} is not at hand")
        cls.prefix = cls.room / "prefix"
        cls.ran = [run(INSTALL, "--source", "--prefix", cls.prefix, timeout=HALF_AN_HOUR)]
        for folder, umask in (("once", "022"), ("again", "077")):
            words = ["bash", "-c", f'umask {umask}; exec "$@"', "bash", RELEASE, "--source", cls.room / folder]
            cls.ran.append(run(*words, env={"TZ": "JST-9"}, timeout=600))
        version = run(TOP / "tools/version").out.decode().strip()
        cls.top = cls.room / f"bootcore-{version}-source"
        run("tar", "-xzf", cls.room / f"once/{cls.top.name}.tar.gz", "-C", cls.room)

    def test_installed(self) -> None:
        with self.check("install --source puts the same files into a prefix"):
            self.assert_ended(self.ran[0], 0, None, None)
            ran = run(INSTALL, "--list", "--prefix", self.prefix)
            listed = sorted(os.fsdecode(line.split(b"\t")[0]) for line in ran.out.splitlines())
            self.assertEqual(listed, installed(self.prefix), f"ran: {ran}")
        with self.check("each link of the installed pages leads to one that is installed"):
            self.assertEqual(dead_links(self.prefix / "share/doc/bootcore"), [])
        ran = run(self.prefix / "bin/bootcore", "boot", examples.FIRST, "--out", self.room / "image")
        self.ends("the installed program boots the first example", ran, 0, "booted 0 row one\n")
        self.has_digest("its image is the expected one", examples.FIRST_IMAGE[1], self.room / "image")
        with self.check("the packages for pkg-config say that they are of the plain source, and the header too"):
            for name in ("bootcore", "bootcore-freestanding"):
                said = (self.prefix / f"lib/pkgconfig/{name}.pc").read_text()
                self.assertRegex(said, "(?m)^Description: a loader core for .*, of the plain source$", f"{name}.pc")
            self.assertRegex((self.prefix / "include/bootcore.h").read_text(encoding="utf-8"), "(?m)^#define BOOTCORE_FROM_SOURCE 1 ")
        with self.check("NOTICES has the licence of each library that is linked in"):
            said = (self.prefix / "share/doc/bootcore/NOTICES").read_text(encoding="utf-8")
            named = set(re.findall(r"(?m)^---- (\w+) [\d.]+ \(.*(?:MIT|Apache).*\)$", said))
            self.assertLessEqual({"clap", "hex", "serde", "sha2", "toml"}, named)
        if not is_at_hand("pkg-config"):
            self.leave_out("a program in C is built on what is installed from source", "pkg-config is not at hand")
            return
        command = 'exec $CC -std=c99 -O2 -Wall -Wextra "$1" $(pkg-config --cflags --libs bootcore) -o "$2"'
        env = {"CC": " ".join(CC), "PKG_CONFIG_PATH": str(self.prefix / "lib/pkgconfig")}
        ran = run("bash", "-c", command, "bash", TOP / "examples/c/guest.c", self.room / "guest", env=env)
        self.ends("a program in C is built on what is installed from source", ran)
        (self.room / "kernel.elf").write_bytes(examples.multiboot2_kernel())
        (self.room / "m.bin").write_bytes(b"hello")
        ran = run(self.room / "guest", "multiboot2", "kernel.elf", "k", "m.bin", cwd=self.room)
        self.ends("and loads its guest", ran, 0, GUEST)

    def test_archive(self) -> None:
        for ran in self.ran[1:]:
            self.ends(f"tools/release --source makes the archive in {Path(ran.words[-1]).name}", ran, 0, None, None)
        archives = [self.room / folder / f"{self.top.name}.tar.gz" for folder in ("once", "again")]
        sentence = "the plain source of one commit has the same bytes under another umask and time zone"
        if has_changes():
            self.leave_out(sentence, "this checkout has changes that are not committed, and may get others meanwhile")
        else:
            self.are_same_file(sentence, *archives)
        with self.check("SHA256SUMS has each other file of it, and its sum"):
            self.assert_ended(run("sha256sum", "--strict", "--quiet", "-c", "SHA256SUMS", cwd=self.top))
            listed = [line[66:] for line in (self.top / "SHA256SUMS").read_text().splitlines()]
            self.assertEqual(sorted(["SHA256SUMS", *listed]), [os.path.relpath(it, self.top) for it in installed(self.top)])

    def test_empty_root(self) -> None:
        """in a root that has only a toolchain, cargo and a compiler of C build the released workspace, offline, and it boots"""
        sysroot = run("rustc", "--print", "sysroot").out.decode().strip()
        if not (PACKAGED / "clap-4.0.32").exists() or not Path(sysroot, "bin/cargo").exists():
            self.skipTest("Debian's packages of crates, or a toolchain of Rust in a folder of its own, are not at hand")
        root = self.room / "root"
        for folder in ("usr", "etc/alternatives", "toolchain", "proc", "dev", "tmp", "build"):
            (root / folder).mkdir(parents=True)
        for link in ("bin", "lib", "lib64"):
            (root / link).symlink_to(f"usr/{link}")
        shutil.copytree(self.top, root / "build", dirs_exist_ok=True)
        (root / "build/.cargo").mkdir()
        (root / "build/.cargo/config.toml").write_text(DEBIAN_CRATES)
        places = {folder: folder for folder in ("/usr", "/etc/alternatives", "/dev", "/proc")}
        mounts = " && ".join(f'mount --rbind "{it}" "{root}{to}"' for it, to in {**places, sysroot: "/toolchain"}.items())
        build = "cd /build && cargo build --quiet --release --offline -p bootcore-cli && bootcore-c/archive libbootcore.a"
        inside = f'env -i PATH=/toolchain/bin:/usr/bin HOME=/tmp sh -c "{build}"'
        as_root = [] if os.geteuid() == 0 else ["-r"]
        if run("unshare", *as_root, "-m", "sh", "-c", f"{mounts} && chroot {root} true").status != 0:
            self.skipTest("unshare and mount may not be called here, or a system has no merged /usr")
        ran = run("unshare", *as_root, "-m", "sh", "-c", f"{mounts} && chroot {root} {inside}", timeout=HALF_AN_HOUR)
        self.assert_ended(ran, 0, None, None)
        image = self.room / "image of the workspace"
        ran = run(root / "build/target/release/bootcore", "boot", examples.FIRST, "--out", image)
        self.assert_ended(ran, 0, "booted 0 row one\n")
        self.assert_digest(examples.FIRST_IMAGE[1], image)
        self.assertTrue((root / "build/libbootcore.a").exists(), "the library for C")

    def test_packages(self) -> None:
        """cargo packs each package that may be published, and builds it of what it packed"""
        if not (PACKAGED / "clap-4.0.32").exists():
            self.skipTest("Debian's packages of crates are not at hand")
        crates, target = self.room / "crates", self.room / "packed"
        crates.mkdir()
        for crate in PACKAGED.iterdir():
            (crates / crate.name).symlink_to(crate)
        config = self.room / "config.toml"
        config.write_text(DEBIAN_CRATES.replace(str(PACKAGED), str(crates)))
        words = ["--config", config, "--offline", "--registry", "crates-io", "--allow-dirty"]
        for package in ("bootcore", "bootcore-cli", "bootcore-c"):
            ran = run("cargo", "package", *words, "-p", package, cwd=self.top, env={"CARGO_TARGET_DIR": str(target)}, timeout=900)
            self.ends(f"cargo packs {package}, and builds it of what it packed", ran, 0, None, None)
            made = next((target / "package").glob(f"{package}-[0-9]*.crate"), None)
            if made is None:
                return
            run("tar", "-xzf", made, "-C", crates)  # as if it were published, for those that use it
            packed = crates / made.stem
            with self.check(f"{package} has both licences"):
                for name in ("LICENSE-MIT", "LICENSE-APACHE"):
                    self.assert_same_file(TOP / name, packed / name)
            told = {"files": {}, "package": sha256(made)}
            (packed / ".cargo-checksum.json").write_text(json.dumps(told))


def has_changes() -> bool:
    return run("git", "status", "--porcelain").out != b""


def check_out(folder: Path) -> Path:
    """This checkout's last commit in another folder, with what is built here, which is newer than each source there."""
    run("git", "clone", "-q", "--depth", "1", f"file://{TOP}", folder)
    for built in (PROGRAM, C_ARCHIVE, C_ARCHIVE.parent / "freestanding" / C_ARCHIVE.name):  # each newer than the one before
        (folder / built.relative_to(TOP)).parent.mkdir(parents=True, exist_ok=True)
        shutil.copy(built, folder / built.relative_to(TOP))
    return folder


def mode_of(path: Path) -> int:
    return stat.S_IMODE(path.stat().st_mode)


def wanted_mode(path: Path) -> int:
    return 0o755 if path.is_dir() or path.parent.name == "bin" else 0o644


def needed_by(program: str) -> List[str]:
    """A program, its loader and the libraries that it is linked with, by the paths under which they are looked for."""
    linked = run("ldd", program).out.decode()
    return [program, *re.findall(r"(/\S+) \(0x", linked)]


def enter_root() -> Optional[List[str]]:
    """How a command is run in another root here."""
    for words in (["chroot"], ["unshare", "-r", "chroot"]):
        if run(*words, "/", "true").status == 0:
            return words
    return None
