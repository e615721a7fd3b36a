"""For the scripts in Python: their words and their help, as help.sh has them for the others, and how those of make/ write."""

import pathlib
import shutil
import sys

ROOT = pathlib.Path(__file__).resolve().parents[1]


def words_of(doc, least=0, most=0):
    """The words that a script is called with. --help prints its doc comment; fewer words, or more, are a wrong call."""
    words = sys.argv[1:]
    if {"--help", "-h"} & set(words):
        print(doc.strip())
        sys.exit(0)
    if not least <= len(words) <= most:
        refuse(doc)
    return words


def numbers_of(doc, most):
    """The numbers that a script is called with, at most so many."""
    words = words_of(doc, 0, most)
    if not all(word.isascii() and word.isdecimal() for word in words):
        refuse(doc)
    return [int(word) for word in words]


def refuse(doc):
    """Ends a wrong call with what the doc comment says of a right one."""
    print(doc[doc.index("Usage:") :].partition("\n\n")[0].strip(), file=sys.stderr)
    sys.exit(2)


def need(commands=(), modules=()):
    """Ends a script that lacks a command, or a module of Python."""
    lacking = [command for command in commands if not shutil.which(command)]
    for module in modules:
        try:
            __import__(module)
        except ImportError:
            lacking.append(f"module {module} of Python")
    if lacking:
        print(f"{pathlib.Path(sys.argv[0]).name}: there is no {', no '.join(lacking)}", file=sys.stderr)
        sys.exit(3)


def write_files(doc, made):
    """Writes files of the repository: what `made` answers, by path. With --check it names those that are others. The status."""
    words = words_of(doc, 0, 1)
    if words not in ([], ["--check"]):
        refuse(doc)
    status = 0
    for name, content in made().items():
        path, content = ROOT / name, content.encode() if isinstance(content, str) else content
        if not words:
            path.parent.mkdir(parents=True, exist_ok=True)
            path.write_bytes(content)
        elif not path.exists() or path.read_bytes() != content:
            print(f"{name} is not what {pathlib.Path(sys.argv[0]).resolve().relative_to(ROOT)} writes", file=sys.stderr)
            status = 1
    return status
