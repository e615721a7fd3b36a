"""The crates of crates.txt, for the scripts that read it."""

import pathlib

ROOT = pathlib.Path(__file__).resolve().parent.parent


def crates():
    """Each crate, in the order of crates.txt, with those of them that it stands on."""
    names = {}
    for line in (ROOT / "crates.txt").read_text(encoding="utf-8").splitlines():
        name, colon, libraries = line.partition("#")[0].partition(":")
        if colon:
            names[name.split()[0]] = libraries.split()
    return {name: [it for it in libraries if it in names] for name, libraries in names.items()}


def below(crate, libraries):
    """A crate and all that it stands on, lowest first."""
    found = []

    def visit(name):
        for library in libraries[name]:
            visit(library)
        if name not in found:
            found.append(name)

    visit(crate)
    return found


def is_of_tests(crate):
    """Whether a crate has tests, or what tests share, and nothing that is called."""
    return crate.endswith("_tests") or crate == "test_rows"


def is_for_c(crate):
    """Whether a crate is one of those below the library for C, which its header describes."""
    return crate.startswith("c_")


def is_timed(crate):
    """Whether a crate has work that is timed, and nothing that is called."""
    return crate.endswith("workloads")


def is_static(crate):
    """Whether a crate is a static library, for programs that are not in Rattle."""
    lines = (ROOT / "crates.txt").read_text(encoding="utf-8").splitlines()
    return any(line.partition(":")[0].split() == [crate, "staticlib"] for line in lines)
