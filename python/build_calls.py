"""Makes `bidigrid._bidigrid`, by which Python calls the library: what cffi is given comes from the header alone."""

import re
from pathlib import Path

from cffi import FFI

ROOT = Path(__file__).resolve().parent.parent
HEADER = ROOT / "include" / "bidigrid.h"
ARCHIVE = ROOT / "build" / "lib" / "libbidigrid.a"

# What a fault is about, in the words of the header; "" of what is none.
WORDS = "const char *bidigrid_python_words(uint32_t answer)"


def declarations(header: str) -> str:
    """What cffi reads of a header: its types and calls, and of its macros those that are numbers or texts."""
    code = re.sub(r"/\*.*?\*/", "", header, flags=re.DOTALL)
    code = re.sub(r"#ifdef __cplusplus\n.*?#endif\n", "", code, flags=re.DOTALL)
    told = ["struct bidigrid_opaque;"]
    for line in code.splitlines():
        macro = re.fullmatch(r"#define (\w+) (.*)", line)
        if not line.startswith("#"):
            told.append(line)
        elif macro and macro[2].startswith('"'):
            told.append(f"static char *const {macro[1]};")
        elif macro and not macro[2].startswith("{"):
            told.append(f"#define {macro[1]} ...")
    return "\n".join([*told, f"{WORDS};", ""])


def words(header: str) -> str:
    """The function that gives what the header says of each fault, with the numbers for their names."""
    numbers = dict(re.findall(r"^#define (BIDIGRID_\w+) (\d+)$", header, re.MULTILINE))
    cases = []
    for number, said in re.findall(r"^ +BIDIGRID_FAULT_\w+ = (\d+),? +/\* (.*) \*/$", header, re.MULTILINE):
        said = re.sub(r"BIDIGRID_\w+", lambda name: numbers.get(name[0], name[0]), said)
        cases.append(f'    case {number}: return "{said}";\n')
    return f'static {WORDS}\n{{\n    switch (answer) {{\n{"".join(cases)}    default: return "";\n    }}\n}}\n'


def made() -> FFI:
    header = HEADER.read_text(encoding="utf-8")
    ffi = FFI()
    ffi.cdef(declarations(header))
    ffi.set_source(
        "bidigrid._bidigrid",
        f'#include "bidigrid.h"\n\n{words(header)}',
        include_dirs=[str(HEADER.parent)],
        extra_objects=[str(ARCHIVE)],
        depends=[str(HEADER), str(ARCHIVE)],
        # The library's calls are for this module alone, whatever else a process has loaded.
        extra_link_args=["-Wl,--exclude-libs,ALL"],
    )
    return ffi


calls = made()
