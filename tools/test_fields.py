"""Tests of fields.py: the stored statuses as replies tell them, and what the pages say of a deletion that is answered with 0Dh."""

import boards
import bus
import fields
import records
import traffic
import words
from test_boards import PLATES
from test_explain import JUDGE, sealed, told

GENERAL = "error 0Dh wrong argument (a deletion whose bits 0 to 6 are not those of the stored status)\n"
C9 = "field 0 has status C9h (exists, write-enabled, code wanted, code number 0, 2 blocks) and is deleted by 49h; "


def heard(*exchanges):
    """The fields after requests and replies, both without their checksums."""
    known = fields.Fields()
    for request, reply in exchanges:
        request, reply = sealed(request), sealed(reply)
        known.hear(request, reply, JUDGE(request, reply))
    return known.statuses


def test_stored_as_told():
    created, locked, deleted = ("40 4D 00 C9 55", "40 4D 00 C9"), ("40 4D 00 89 55", "40 CD 00 89"), ("40 4D 00 09 55", "40 4D 00 09")
    assert heard(created) == {0: 0xC9} and heard(created, locked) == {0: 0x89} and heard(created, locked, deleted) == {}
    assert heard(("40 4C 07", "40 4C 07 E0"), ("FF 4C 02", "40 4C 02 A0")) == {7: 0xE0, 2: 0xA0}
    assert heard(created, ("40 4D 00 49 54", "40 50 0F"), ("40 4D 00 48 55", "40 D0 0D")) == {0: 0xC9}
    # Replies that the bench refuses, and other commands, tell nothing.
    assert heard(created, ("40 4D 00 C1 55", "40 4D 01 C1"), ("40 4C 00", "41 4C 00 80"), ("40 4E", "40 4E 08 01")) == {0: 0xC9}
    assert heard(("40 4A 00 00 01 55", "40 4A 00 00 01 C9")) == {}


def test_which_parts_differ():
    for bit, part in enumerate(["blocks"] * 3 + ["code wanted"] + ["code number"] * 2 + ["write-enabled"]):
        for stored in range(0x80, 0x100):
            assert fields.differing(stored, fields.deletion_of(stored) ^ 1 << bit) == [part]
            assert fields.differing(stored, fields.deletion_of(stored)) == []
    assert fields.differing(0xEA, 0x11) == ["blocks", "code wanted", "code number", "write-enabled"]


def test_what_a_deletion_is():
    for frame, is_one in (("40 4D 00 49 55", True), ("FF 4D 00 00 00", True), ("40 4D 00 C9 55", False), ("40 4D 00 49", False), ("40 4C 49", False)):
        assert fields.is_deletion(sealed(frame)) == is_one, frame
    assert not fields.is_deletion(b"\x40\x4d\x00\x49\x55\x00") and not fields.is_deletion(b"")


CREATED = "ask 40 4D 00 C9 55\n"


def test_why_on_a_tape():
    """Two asks, the first of which creates: the second closes at 924. Its reply tells why."""
    for named, answer, said in (
        ("48", "40 50 0D 1D", "48h differs in blocks"),
        ("09", "40 D0 0D 9D", "09h differs in write-enabled"),
        ("00", "40 50 0D 1D", "00h differs in blocks, code wanted, write-enabled"),
        ("79", "40 50 0D 1D", "79h differs in code number"),
        ("49", "40 50 0D 1D", "49h differs in nothing"),
    ):
        page, summary = told(f"{CREATED}ask 40 4D 00 {named} 55\n", f"440 40 4D 00 C9 C4\n924 {answer}\n")
        assert GENERAL in page and f"{C9}{said}\n" in page and summary.status() == 0, (named, page)
    for named, answer in (("48", "40 50 0F 1F"), ("49", "40 4D 00 49 44"), ("C8", "40 50 0D 1D")):
        page, _ = told(f"{CREATED}ask 40 4D 00 {named} 55\n", f"440 40 4D 00 C9 C4\n924 {answer}\n")
        assert "is deleted by" not in page, (named, page)
    unknown, _ = told("ask 40 4D 00 48 55\n", "440 40 50 0D 1D\n")
    assert GENERAL in unknown and "is deleted by" not in unknown


def test_why_of_several_boards():
    """Each board has its own field 0, and only board b's is named otherwise."""
    text = PLATES + "ask 40 4D 00 C9 55\nask 41 4D 00 C0 55\nask 41 4D 00 49 55\n"
    script = boards.read_script(text)
    printed = {"a": "440 40 4D 00 C9 C4\n", "b": "1364 41 4D 00 C0 CC\n2288 41 50 0D 1C\n"}
    by_plate = {records.encode(plate): "tick reply\n" + printed[name] for name, plate in script.plates.items()}
    page, summary = bus.explain_bus(script, lambda tape: by_plate[tape[:9]], JUDGE)
    assert "field 0 has status C0h" in page and "49h differs in blocks, code wanted\n" in page and C9 not in page, page
    assert summary.replies == 3 and summary.errors == 1


MOVED = (
    "0 > 40 4C 00 0C\n1 < 40 4C 00 C9 C5\n",
    "2 > 40 55 45 55 05\n3 < 45 55 10\n",
    "4 > 45 4D 00 08 55 55\n5 < 45 50 0D 18\n",
)


def test_why_in_a_log():
    """A log tells what it heard: 4Ch's status, also after the board has moved; of a board that moved by broadcast nothing is known."""
    page, summary = traffic.explain_log("".join(MOVED), JUDGE)
    assert GENERAL in page and f"{C9}08h differs in blocks, write-enabled\n" in page
    assert summary == words.Summary(frames=3, replies=3, errors=1)
    by_all = MOVED[1].replace("2 > 40 55 45 55 05", "2 > FF 55 45 55 BA")
    for log in (MOVED[0] + by_all + MOVED[2], MOVED[1] + MOVED[2], MOVED[0] + MOVED[2]):
        page, _ = traffic.explain_log(log, JUDGE)
        assert GENERAL in page and "is deleted by" not in page, page
