"""Builds the package; pyproject.toml has the rest."""

from pathlib import Path

from setuptools import setup

setup(
    version=(Path(__file__).resolve().parent.parent / "VERSION").read_text(encoding="ascii").strip(),
    cffi_modules=["build_calls.py:calls"],
    # One build serves this Python and each later one.
    options={"bdist_wheel": {"py_limited_api": "cp311"}},
)
