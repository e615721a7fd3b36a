"""The docstrings: each public name has one, and their examples answer as they say."""

import doctest
import importlib
import inspect
import pkgutil
import pydoc

import bidigrid
import pytest

MODULES = [name for _, name, _ in pkgutil.iter_modules(bidigrid.__path__) if name != "_bidigrid"]


@pytest.mark.parametrize("name", MODULES)
def test_examples_answer_as_they_say(name: str) -> None:
    assert doctest.testmod(importlib.import_module(f"bidigrid.{name}")).failed == 0


def public() -> list[tuple[str, object]]:
    """Each public name of the package, and each public one of its classes."""
    found = [(name, getattr(bidigrid, name)) for name in bidigrid.__all__]
    for name, it in list(found):
        if inspect.isclass(it):
            own = [(f"{name}.{word}", thing) for word, thing in vars(it).items() if not word.startswith("_")]
            found += [(word, thing) for word, thing in own if inspect.isfunction(thing) or isinstance(thing, property)]
    return found


@pytest.mark.parametrize(("name", "it"), public())
def test_each_public_name_says_what_it_is(name: str, it: object) -> None:
    assert (inspect.getdoc(it) or "").strip()


def test_help_is_readable() -> None:
    text = pydoc.plain(pydoc.render_doc(bidigrid))
    assert "Places count code points from 0" in text and "class Document" in text and "layout(text: str" in text
