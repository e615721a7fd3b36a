"""A word is found while it is typed, whatever others write, and the text is left alone meanwhile."""

from bidigrid.edit.keys import Key
from bidigrid.edit.view import view_of
from pairs import Pair


def test_a_word_is_found_while_it_is_typed(pair: Pair) -> None:
    pair.press("'tea, milk, tea and team'", "ctrl-home", "right", "ctrl-f")
    assert view_of(pair.editor).status.startswith("find:  |")
    pair.press("'t'", "'e'")
    assert pair.editor.selected() == (11, 13)
    pair.press("'am'")
    assert pair.editor.selected() == (19, 23)
    pair.press("backspace", "ctrl-f", "ctrl-f")
    assert pair.editor.selected() == (0, 3)
    pair.press("'x'")
    assert pair.editor.selected() == (0, 3) and view_of(pair.editor).status.startswith("find: teax (is not there)")
    pair.press("escape")
    assert pair.text() == "t|ea, milk, tea and team" and pair.editor.selected() == (1, 1)
    pair.press("ctrl-f", "'milk'", "'\n'")
    assert pair.editor.selected() == (5, 9) and view_of(pair.editor).status.startswith("site 1")
    pair.press("'cake'", "ctrl-f", "ctrl-f")
    assert pair.text().replace("|", "") == "tea, cake, tea and team" and view_of(pair.editor).status.startswith("find: milk (")


def test_a_word_is_found_in_both_directions_and_round_the_ends(pair: Pair) -> None:
    pair.press("'tea tea tea'", "ctrl-left", "ctrl-left", "ctrl-f", "'tea'")
    assert pair.editor.selected() == (4, 7)
    for key, start, remark in [("ctrl-f", 8, ""), ("ctrl-f", 0, " (round the end)"), ("ctrl-f", 4, ""),
                               ("ctrl-r", 0, ""), ("ctrl-r", 8, " (round the end)"), ("ctrl-r", 4, "")]:  # fmt: skip
        pair.press(key)
        assert pair.editor.selected() == (start, start + 3)
        assert view_of(pair.editor).status.startswith(f"find: tea{remark} |")
    pair.press("escape", "ctrl-f", "ctrl-r")
    assert pair.editor.selected() == (0, 3)


def test_a_word_of_small_letters_is_found_in_any_case(pair: Pair) -> None:
    pair.press("'\u0130 Tea tea ÉTÉ'", "ctrl-home", "ctrl-f", "'tea'")
    assert pair.editor.selected() == (2, 5)
    pair.press("ctrl-f", "escape", "ctrl-f", "'Tea'", "ctrl-f")
    assert pair.editor.selected() == (2, 5)
    pair.press("escape", "ctrl-f", "'été'")
    assert pair.editor.selected() == (10, 13)


def test_what_is_found_is_selected_in_whole_clusters(pair: Pair) -> None:
    pair.press("'ae\u0301 ש\u05b8ל'", "ctrl-home", "ctrl-f", "'e'")
    assert pair.editor.selected() == (1, 3)
    pair.press("backspace", "'\u0301'", "ctrl-f")
    assert pair.editor.selected() == (1, 3)
    pair.press("escape", "ctrl-f", "'ש'", "'\n'", "'x'")
    assert pair.text() == "ae\u0301 x|ל"


def test_what_is_pressed_while_a_word_is_asked_for_is_about_the_word(pair: Pair) -> None:
    pair.press("'tea milk'", "shift-ctrl-left", "ctrl-c", "ctrl-home", "ctrl-f", "ctrl-v")
    assert pair.editor.word == "milk" and pair.editor.selected() == (4, 8)
    pair.press("ctrl-a", "delete", "backspace", "'k'")
    assert pair.desk.document.text == "tea milk" and pair.editor.selected() == (4, 8)
    pair.press("escape", "end", "'\n12'", "ctrl-home", "ctrl-f")
    for piece in ("lk\n", "1"):
        pair.editor.press(Key("paste", piece))
    pair.editor.press(Key("pasted"))
    assert pair.editor.selected() == (6, 10) and view_of(pair.editor).status.startswith("find: lk\\n1 |")
    pair.editor.press(Key("paste", "x" * 1000))
    assert view_of(pair.editor).status.startswith(f"find: ..{'x' * 40} (is not there) |")


def test_one_stands_at_the_same_edge_again_where_no_word_is_wanted(pair: Pair) -> None:
    # Between the two words one stands right of the Hebrew one, and not where Latin would go on.
    pair.press("'ab שלום'", "right", "right", "right", "right")
    assert (pair.text(), view_of(pair.editor).column) == ("ab |שלום", 7)
    pair.press("ctrl-f", "'a'", "escape")
    assert (pair.text(), view_of(pair.editor).column) == ("ab |שלום", 7)
    pair.press("ctrl-f", "'a'", "backspace", "'\n'")
    assert (pair.text(), view_of(pair.editor).column) == ("ab |שלום", 7)


def test_what_is_reported_is_seen_while_a_word_is_asked_for(pair: Pair) -> None:
    pair.press("ctrl-f", "'tea'")
    pair.desk.notice = "the log is not written"
    assert view_of(pair.editor).status.startswith("the log is not written | find: tea (is not there) | ")


def test_what_comes_with_the_end_of_a_word_is_typed(pair: Pair) -> None:
    pair.press("'tea milk'", "ctrl-home", "ctrl-f", "'milk\ncake'")
    assert pair.text() == "tea cake|"
    pair.press("ctrl-f", "'tea'", "right", "'x'")
    assert pair.text() == "tea x|cake"


def test_a_word_is_sought_from_where_one_stood_whatever_others_write(pair: Pair) -> None:
    pair.press("'tea tea tea'", "left", "left", "left", "left", "ctrl-f", "'t'")
    assert pair.editor.selected() == (8, 9)
    pair.meet()
    pair.take(pair.other.type(0, "tea "))
    pair.press("'ea'")
    assert pair.editor.selected() == (12, 15)
