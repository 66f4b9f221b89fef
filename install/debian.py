"""Debian's packages of a release, for install/dist: what each has, and what Debian reads of it."""

import gzip
import hashlib
import re
import time
from dataclasses import dataclass

MULTIARCH = "lib/x86_64-linux-gnu"
# The version before which the package spv had the library.
PARTED = "1.2.0"
CONTROL = """\
Package: {name}
{source}Version: {version}-1
Architecture: amd64
Maintainer: {people}
Installed-Size: {size}
{relations}Multi-Arch: {kind}
Section: {section}
Priority: optional
Description: {description}"""
PROGRAM = """\
proved validator for SPIR-V kernel modules
 spv checks, explains, shows, draws, assembles and traces SPIR-V 1.6 kernel
 modules, as they are compiled of OpenCL C. A check answers that a module is
 valid, or names the first rule that it breaks, with the instruction; what it
 answers is proved to be what the definitions of the rules say, for every module
 and every grammar file. The grammar of SPIR-V 1.6 is built in.
 .
 The package has the program, its manual page, completions for bash, zsh and
 fish, the pages that describe the rules and what is proved, and the JSON Schema
 of answers for programs.
"""
LIBRARY = """\
proved validator for SPIR-V kernel modules - shared library
 spvk checks, explains, shows and assembles SPIR-V 1.6 kernel modules within a
 program, as the command spv does: for loaders, compilers and their tests. What
 it answers is proved to be what the definitions of the rules say. It opens no
 file and keeps nothing between calls, and any number of threads may use one
 grammar.
 .
 The package has the shared library.
"""
DEVELOPMENT = """\
proved validator for SPIR-V kernel modules - development files
 spvk checks, explains, shows and assembles SPIR-V 1.6 kernel modules within a
 program, as the command spv does: for loaders, compilers and their tests.
 .
 The package has the header for C and C++, the archive, the manual page spvk(3),
 and what pkg-config and CMake look for.
"""
COPYRIGHT = """\
Format: https://www.debian.org/doc/packaging-manuals/copyright-format/1.0/
Upstream-Name: spv

Files: *
Copyright: 2026 The authors of spv
License: Apache-2.0 or Expat
Comment: The licences of what is compiled in are in NOTICE, beside this file.

License: Apache-2.0
 On Debian systems the text of the Apache License, Version 2.0, is in
 /usr/share/common-licenses/Apache-2.0.

License: Expat
{mit}
"""
# Where a link of a page leads to in Debian's package, in place of a file that is named otherwise there.
RENAMED = {"CHANGELOG.md": "changelog.gz", "LICENSE-APACHE": "copyright", "LICENSE-MIT": "copyright"}


@dataclass(frozen=True)
class Package:
    """A package: which files below usr it takes of those that are left, and what Debian reads of it."""

    name: str
    patterns: tuple
    relations: tuple
    kind: str
    section: str
    description: str


@dataclass(frozen=True)
class Release:
    """What the packages share: the version, who packs, when, and the licences' texts."""

    version: str
    people: str
    epoch: int
    mit: str
    notice: bytes

    @property
    def major(self):
        """The number in the library's soname."""
        return self.version.split(".", maxsplit=1)[0]

    @property
    def library(self):
        """The name of the shared library's package, by the soname."""
        return f"libspvk{self.major}"

    def packages(self, libc_of_program, libc_of_library):
        """The packages, in the order in which they take their files."""
        parted = (f"Breaks: spv (<< {PARTED})", f"Replaces: spv (<< {PARTED})")
        needed = f"Depends: {self.library} (= {self.version}-1)"
        return (
            Package(self.library, (f"{MULTIARCH}/libspvk.so.*",), (f"Depends: libc6 (>= {libc_of_library})", *parted),
                    "same", "libs", LIBRARY),
            Package("libspvk-dev", ("include/*", f"{MULTIARCH}/*", "share/man/man3"),
                    (needed, "Suggests: spv", *parted), "same", "libdevel", DEVELOPMENT),
            Package("spv", ("bin", "share"), (f"Depends: libc6 (>= {libc_of_program})",), "foreign", "utils", PROGRAM),
        )


def take(package, whole, folder):
    """Moves the files of a package from one folder to another."""
    for path in [path for pattern in package.patterns for path in sorted((whole / "usr").glob(pattern))]:
        to = folder / path.relative_to(whole)
        to.parent.mkdir(parents=True, exist_ok=True)
        path.rename(to)


def pack(path):
    """Packs a file by gzip, in its place, with no time in it."""
    path.with_name(f"{path.name}.gz").write_bytes(gzip.compress(path.read_bytes(), 9, mtime=0))
    path.unlink()


def settle_pages(pages):
    """Gives the pages of the program the names that Debian wants, also where other pages link them."""
    for page in pages.rglob("*.md"):
        text = page.read_text(encoding="utf-8")
        for name, to in RENAMED.items():
            text = re.sub(rf"\]\(((?:\.\./)*){re.escape(name)}(#[^()]*)?\)", rf"](\1{to})", text)
        page.write_text(text, encoding="utf-8")
    for name in ("LICENSE-APACHE", "LICENSE-MIT"):
        (pages / name).unlink()


def debian_changes(release, changes):
    """The changes as Debian writes them: an entry for this version, and one for each released one that had packages."""
    found = re.findall(r"^## ([\d.]+)\n\nOf (\d+ \w+ \d+)\..*\n\n```text$", changes, re.MULTILINE)
    released = [(version, time.strptime(day, "%d %B %Y")) for version, day in found if version != release.version]
    entries = []
    for version, when in [(release.version, time.gmtime(release.epoch)), *released]:
        signed = f" -- {release.people}  {time.strftime('%a, %d %b %Y %H:%M:%S +0000', when)}"
        entries.append(f"spv ({version}-1) unstable; urgency=medium\n\n  * See changelog.gz.\n\n{signed}\n")
    return "\n".join(entries)


def add_pages(release, package, folder, changes):
    """Puts what each package has of its own into its folder of pages: licences and changes."""
    pages = folder / "usr/share/doc" / package.name
    pages.mkdir(parents=True, exist_ok=True)
    indented = "\n".join(f" {line}" if line else " ." for line in release.mit.splitlines())
    (pages / "copyright").write_text(COPYRIGHT.format(mit=indented), encoding="utf-8")
    (pages / "NOTICE").write_bytes(release.notice)
    (pages / "changelog").write_text(changes, encoding="utf-8")
    (pages / "changelog.Debian").write_text(debian_changes(release, changes), encoding="utf-8")
    (pages / "CHANGELOG.md").unlink(missing_ok=True)
    for path in [*(folder / "usr/share/man").rglob("*.[13]"), pages / "changelog", pages / "changelog.Debian"]:
        pack(path)


def symbols(release, shown):
    """What the shared library shows, each name with its node and the version that had it first."""
    lines = [f"libspvk.so.{release.major} {release.library} #MINVER#", "* Build-Depends-Package: libspvk-dev"]
    nodes = sorted(set(re.findall(r"^(SPVK_[\d.]+) \{", shown, re.MULTILINE)))
    for node in nodes:
        part = re.search(rf"^{re.escape(node)} \{{(.*?)^\}}", shown, re.MULTILINE | re.DOTALL)[1]
        first = f"{node.split('_')[1]}.0"
        names = [node, *re.findall(r"^ +(spvk_\w+);$", part, re.MULTILINE)]
        lines += [f" {name}@{node} {first}" for name in names]
    return "".join(f"{line}\n" for line in lines)


def add_control(release, package, folder, shown):
    """Puts what Debian reads of a package into its folder DEBIAN; `shown` is install/spvk.map."""
    files = [path for path in sorted(folder.rglob("*")) if path.is_file() and not path.is_symlink()]
    size = sum(-(-path.stat().st_size // 1024) for path in files)
    words = {"name": package.name, "version": release.version, "people": release.people, "size": size,
             "source": "" if package.name == "spv" else "Source: spv\n", "kind": package.kind,
             "relations": "".join(f"{line}\n" for line in package.relations), "section": package.section,
             "description": package.description}
    sums = "".join(f"{hashlib.md5(it.read_bytes()).hexdigest()}  {it.relative_to(folder)}\n" for it in files)
    made = {"control": CONTROL.format(**words), "md5sums": sums}
    if package.name == release.library:
        made["triggers"] = "activate-noawait ldconfig\n"
        made["shlibs"] = f"libspvk {release.major} {package.name} (>= {release.version})\n"
        made["symbols"] = symbols(release, shown)
    place = folder / "DEBIAN"
    place.mkdir()
    for name, what in made.items():
        (place / name).write_text(what, encoding="utf-8")
