"""The tools that some checks need beside python3, by the names that `tests/run --without` takes."""

import importlib.util
import shutil
import subprocess
from pathlib import Path

from . import corpus, khronos, library
from .common import TESTS
from .refused import compiler

CRATES = TESTS.parent / "crates"


def on_path(word, package):
    """What tells why there is no such command, or None."""

    def missing():
        return None if shutil.which(word) else f"there is no {word} on the PATH ({package})"

    return missing


def no_compiler():
    """Why no C library can be compiled, or None."""
    return None if compiler() else "there is no C compiler (Debian's packages gcc and libc6-dev)"


def no_cmake():
    """Why nothing can be built with CMake, or None."""
    missing = [word for word in ("cmake", "make") if not shutil.which(word)]
    return f"there is no {missing[0]} on the PATH (Debian's packages cmake and make)" if missing else None


def no_tests():
    """Why no test of a crate can be run, or None."""
    is_built = any(CRATES.glob("*/out/*_tests"))
    return None if is_built else "there is no crates/*/out/*_tests (rt ci builds them)"


def no_sanitizers():
    """Why nothing can be compiled with sanitizers, or None."""
    if not shutil.which("clang"):
        return "there is no clang (Debian's package clang)"
    asked = ["clang", "-print-file-name=libclang_rt.asan-x86_64.a"]
    found = subprocess.run(asked, stdout=subprocess.PIPE, check=False).stdout.decode().strip()
    return None if Path(found).is_absolute() else "clang has no sanitizers (Debian's package libclang-rt-dev)"


def translator_of_clang():
    """The name of llvm-spirv that fits clang, or None."""
    if not shutil.which("clang"):
        return None
    version = subprocess.run(["clang", "-dumpversion"], stdout=subprocess.PIPE, check=False).stdout.decode()
    names = (f"llvm-spirv-{version.split('.')[0].strip()}", "llvm-spirv")
    return next(filter(shutil.which, names), None)


def no_translator():
    """Why no OpenCL C can be made a module, or None."""
    if not shutil.which("clang"):
        return "there is no clang (Debian's package clang)"
    return None if translator_of_clang() else "there is no llvm-spirv that fits clang (Debian's package llvm-spirv-N)"


def no_schema():
    """Why no object can be validated, or None."""
    is_there = importlib.util.find_spec("jsonschema") is not None
    return None if is_there else "there is no Python module jsonschema (Debian's package python3-jsonschema)"


def no_lintian():
    """Why no package of Debian can be made and looked at, or None."""
    if not (TESTS.parent / ".git").exists():
        return "this is no clone, of whose commit packages could be made"
    return on_path("lintian", "Debian's package lintian")()


def no_library():
    """Why the library for C cannot be tested, or None."""
    lacking = [it for it in (library.ARCHIVE, library.OBJECT, library.shared()) if not it.is_file()]
    return f"there is no {lacking[0]} (make, or install/archive and then make)" if lacking else None


TOOLS = {
    "bash": on_path("bash", "Debian's package bash"),
    "c++": lambda: None if library.cpp() else "there is no C++ compiler (Debian's package g++)",
    "cargo": on_path("cargo", "Debian's packages cargo and rustc"),
    "cc": no_compiler,
    "chromium": on_path("chromium", "Debian's package chromium"),
    "clang": no_sanitizers,
    "cmake": no_cmake,
    "distributed": corpus.missing,
    "dot": on_path("dot", "Debian's package graphviz"),
    "fish": on_path("fish", "Debian's package fish"),
    "groff": on_path("groff", "Debian's package groff-base"),
    "jq": on_path("jq", "Debian's package jq"),
    "jsonschema": no_schema,
    "khronos": khronos.missing,
    "library": no_library,
    "lintian": no_lintian,
    "llvm-spirv": no_translator,
    "make": on_path("make", "Debian's package make"),
    "man": on_path("man", "Debian's package man-db"),
    "pkg-config": on_path("pkg-config", "Debian's package pkg-config"),
    "rt": on_path("rt", "the toolchain's command"),
    "spirv-val": on_path("spirv-val", "Debian's package spirv-tools"),
    "tests": no_tests,
    "valgrind": on_path("valgrind", "Debian's package valgrind"),
    "zsh": on_path("zsh", "Debian's package zsh"),
}


def missing_tools():
    """Why a tool is missing, by its name, for each one that is."""
    reasons = {name: missing() for name, missing in TOOLS.items()}
    return {name: reason for name, reason in reasons.items() if reason is not None}
