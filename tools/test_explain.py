"""Tests of explain.py: verdicts by the proved library, which reply answers which frame, the page, expectations, logs."""

import os
import random
import re
import subprocess
import tempfile

import bench
import commands
import explain
import frames
import records
import texts
import traffic
import words
from printed import read_answers
from test_tape import PLATE_LINE, ROOT, SESSIONS, SHEET_TAPE, put, run_tool, session

HEADER = os.path.join(ROOT, "host", "quicksetter.h")
JUDGE = bench.load()


# --- the judge -------------------------------------------------------------------------------


def sealed(text):
    values = bytes.fromhex(text)
    return values + bytes([records.xor_of(values)])


READ = sealed("40 4A 01 05 02 55")
JUDGED = (
    (sealed("40 4E"), sealed("40 4E 70 00"), "done"),
    (sealed("40 4E"), sealed("40 CE 70 00"), "done with warning"),
    (sealed("40 4E"), sealed("40 50 03"), "error 03h"),
    (sealed("40 4E"), sealed("40 D0 03"), "error 03h with warning"),
    (sealed("40 4E"), sealed("40 D0 FF"), "error FFh with warning"),
    (sealed("40 50"), sealed("40 50 08"), "done"),
    (sealed("40 50"), sealed("40 D0 08"), "done with warning"),
    (sealed("FF 4E"), sealed("5F 4E 70 00"), "done"),
    (b"", sealed("40 4E 70 00"), "refused B0"),
    (b"\x40\x4E\x0F", sealed("40 4E 70 00"), "refused B0"),
    (sealed("60 4E"), sealed("60 4E 70 00"), "refused B0"),
    (sealed("40 44"), sealed("40 44"), "refused B0"),
    (sealed("40 4E 00"), sealed("40 4E 70 00"), "refused B0"),
    (sealed("40 4A 01 05 00 55"), sealed("40 4A 01 05 00"), "refused B0"),
    (sealed("40 4A 01 05 81 55"), sealed("40 4A 01 05 81"), "refused B0"),
    (sealed("40 4F 04 55 55"), sealed("40 4F 04"), "refused B0"),
    (sealed("40 4E"), b"\x40\x40", "refused B1"),
    (sealed("40 53"), b"", "refused B1"),
    (sealed("40 4E"), b"\x40\x4E\x70\x00\x7F", "refused B2"),
    (sealed("40 4E"), sealed("41 4E 70 00"), "refused B3"),
    (sealed("FF 4E"), sealed("60 4E 70 00"), "refused B3"),
    (sealed("FF 4E"), sealed("FF 4E 70 00"), "refused B3"),
    (sealed("40 4E"), sealed("40 4C 70 00"), "refused B4"),
    (sealed("40 4E"), sealed("40 4E 70"), "refused B5"),
    (sealed("40 4E"), sealed("40 50 03 03"), "refused B5"),
    (sealed("40 53"), sealed("40 53"), "refused B5"),
    (sealed("40 53"), sealed("40 50 0C"), "error 0Ch"),
    (READ, sealed("40 4A 01 05 02 08 15"), "done"),
    (READ, sealed("40 4A 01 05 02 08"), "refused B5"),
    (READ, sealed("40 4A 01 05 03 08 15"), "refused B6"),
    (sealed("40 4C 01"), sealed("40 4C 01 E0"), "done"),
    (sealed("40 4C 01"), sealed("40 4C 02 E0"), "refused B6"),
    (sealed("40 4D 01 E0 55"), sealed("40 4D 01 E1"), "refused B6"),
    (sealed("40 4F 02 55 66"), sealed("40 4F 03"), "refused B6"),
    (sealed("40 52"), sealed("40 52 E4 FF 80 00"), "done"),
    (sealed("40 52"), sealed("40 52 E4 FF 80"), "refused B5"),
    (sealed("40 52 00"), sealed("40 52 E4 FF 80 00"), "refused B0"),
    (sealed("40 56"), sealed("40 D6" + "00" * 37), "done with warning"),
    (sealed("40 56"), sealed("40 56" + "00" * 36), "refused B5"),
)

# The reply to 55h carries the new address byte, an error reply the asked one.
SET_TO_5 = sealed("40 55 45 55")
JUDGED_55H = (
    (SET_TO_5, sealed("45 55"), "done"),
    (SET_TO_5, sealed("45 D5"), "done with warning"),
    (SET_TO_5, sealed("40 55"), "refused B3"),
    (SET_TO_5, sealed("46 D5"), "refused B3"),
    (SET_TO_5, sealed("45 55 00"), "refused B5"),
    (SET_TO_5, sealed("40 50 0F"), "error 0Fh"),
    (SET_TO_5, sealed("45 50 0F"), "refused B3"),
    (SET_TO_5, sealed("45 4E 70 00"), "refused B3"),
    (SET_TO_5, sealed("40 4E 70 00"), "refused B4"),
    (sealed("40 55 40 55"), sealed("40 55"), "done"),
    (sealed("40 55 60 55"), sealed("60 55"), "refused B3"),
    (sealed("40 55 60 55"), sealed("40 50 0D"), "error 0Dh"),
    (sealed("FF 55 45 55"), sealed("45 55"), "done"),
    (sealed("FF 55 45 55"), sealed("46 55"), "refused B3"),
    (sealed("FF 55 45 55"), sealed("5F D0 0D"), "error 0Dh with warning"),
    (sealed("FF 55 FF 55"), sealed("FF 55"), "refused B3"),
    (sealed("40 55 45"), sealed("45 55"), "refused B0"),
)


def test_judge():
    for request, reply, verdict in JUDGED + JUDGED_55H:
        assert JUDGE(request, reply).words() == verdict, (request.hex(), reply.hex(), JUDGE(request, reply))


def test_verdict_numbers_are_the_headers():
    with open(HEADER, encoding="utf-8") as file:
        defined = dict(re.findall(r"#define QS_(VERDICT_\w+) (\d+)", file.read()))
    assert len(defined) == 5 and all(getattr(bench, name) == int(value) for name, value in defined.items()), defined


def stub(folder, body):
    """A library whose judge says what the test wants."""
    source, library = os.path.join(folder, "stub.c"), os.path.join(folder, f"stub{len(os.listdir(folder))}.so")
    with open(source, "w", encoding="utf-8") as file:
        file.write("#include <stdint.h>\n" + body + "\n")
    subprocess.run(["gcc", "-shared", "-fPIC", "-o", library, source], check=True)
    return library


STUB_JUDGE = "uint32_t qs_judge(const uint8_t *a, uint64_t b, const uint8_t *c, uint64_t d) { return %s; }"


def test_verdicts_come_from_the_library():
    with tempfile.TemporaryDirectory() as folder:
        tape_file, answers = put(folder, "sheet.tape", SHEET_TAPE), put(folder, "answers", b"tick reply\n308 40 4E 70 00 7E\n")
        ask = [tape_file, answers]
        status, page, _ = run_tool("explain.py", ["--library", stub(folder, STUB_JUDGE % "1028")] + ask, b"")
        assert status == 1 and b"bench: refused B4, command neither" in page
        # The lengths and bytes that the library is handed: 3 + 5 of them, the last ones the checksums.
        told = "b == 3 && d == 5 && a[1] == 0x4E && a[2] == 0x0E && c[4] == 0x7E ? 1 : 1030"
        status, page, _ = run_tool("explain.py", ["--library", stub(folder, STUB_JUDGE % told)] + ask, b"")
        assert status == 0 and b"bench: done with warning\n" in page
        for library in (stub(folder, STUB_JUDGE % "2000"), stub(folder, "int other;"), tape_file, os.path.join(folder, "none.so"), folder):
            status, page, said = run_tool("explain.py", ["--library", library] + ask, b"")
            assert (status, page) == (1, b"") and said.count(b"\n") == 1 and b"make target/libquicksetter.so" in said, said


# --- which reply answers which frame ---------------------------------------------------------


def told(lines, answers):
    return explain.explain_tape(texts.good_session(PLATE_LINE + lines), "tick reply\n" + answers, JUDGE)


def explained(lines, answers):
    return told(lines, answers)[0]


def summed(lines, answers):
    return told(lines, answers)[1]


def replies_by_frame(lines, answers):
    """Each frame's second byte, with the reply that it is given."""
    written_down, _ = records.split(texts.tape_of(PLATE_LINE + lines))
    replies, _ = read_answers("tick reply\n" + answers)
    cut = frames.frames_of(written_down)
    pairs, strays = explain.paired(written_down[0], cut, replies, JUDGE)
    found = [(frame.values[1], records.hex_of(pairs[frame.first].values)) for frame in cut if frame.first in pairs]
    return found, [reply.tick for reply in strays]


def test_frames_that_close_at_one_tick():
    at_308 = "frame at 0: {}\nframe at 308 every 4: {}\npoll 308\n"
    status, counter = "308 40 4E 08 00 06\n", "308 40 46 00 00 00 06\n"
    cases = (
        (("41 4E 0F", "40 46 06"), counter, [(0x46, "40 46 00 00 00 06")]),
        (("40 46 06", "41 4E 0F"), counter, [(0x46, "40 46 00 00 00 06")]),
        (("40 53 13", "40 4E 0E"), status, [(0x4E, "40 4E 08 00 06")]),
        (("40 4E 0E", "40 53 13"), status, [(0x4E, "40 4E 08 00 06")]),
        (("40 40", "40 4E 0E"), status, [(0x4E, "40 4E 08 00 06")]),
        (("40 53 13", "40 44 04"), "308 40 50 0B 1B\n", [(0x44, "40 50 0B 1B")]),
        (("40 53 14", "40 4E 0E"), "308 40 50 0A 1A\n" + status, [(0x53, "40 50 0A 1A"), (0x4E, "40 4E 08 00 06")]),
        (("40 4E 0E", "40 46 06"), status + counter, [(0x4E, "40 4E 08 00 06"), (0x46, "40 46 00 00 00 06")]),
        (("40 4E 0E", "40 46 06"), counter, [(0x46, "40 46 00 00 00 06")]),
        (("40 4E 0E", "40 46 06"), status, [(0x4E, "40 4E 08 00 06")]),
        (("41 4E 0F", "40 46 06"), status + counter, [(0x4E, "40 4E 08 00 06"), (0x46, "40 46 00 00 00 06")]),
    )
    for (first, second), answers, pairs in cases:
        assert replies_by_frame(at_308.format(first, second), answers) == (pairs, []), (first, second, answers)
        unanswered = at_308.format(first, second) + "ask at 5000: 40 42\n"
        assert replies_by_frame(unanswered, answers) == (pairs, []), (first, second, answers)
    assert summed(at_308.format("41 4E 0F", "40 46 06"), counter)[:5] == (2, 1, 0, 1, 0)
    assert summed(at_308.format("40 4E 0E", "40 46 06"), counter)[:5] == (2, 1, 0, 1, 1)


BACK_AT_308 = "frame at 0: 41 4E 0F\npoll 308\nframe at 400: 42 4E 0C\npoll 900\nframe at 1000: 40 46 06\npoll 308\n"


def test_a_clock_that_comes_back_to_a_tick():
    """Two frames of others close at 308 and 900; then the clock steps back, and ours closes at 308."""
    assert replies_by_frame(BACK_AT_308, "308 40 46 00 00 00 06\n") == ([(0x46, "40 46 00 00 00 06")], [])
    assert summed(BACK_AT_308, "308 40 46 00 00 00 06\n") == words.Summary(frames=3, replies=1, silences=2)


def test_stray_replies_hide_no_others():
    two = "ask 40 4E\nask 40 46\n"
    right = "308 40 4E 08 00 06\n{}660 40 46 00 00 00 06\n"
    pairs = [(0x4E, "40 4E 08 00 06"), (0x46, "40 46 00 00 00 06")]
    assert replies_by_frame(two, right.format("")) == (pairs, [])
    assert replies_by_frame(two, right.format("500 40 40\n")) == (pairs, [500])
    assert replies_by_frame(two, "308 40 4E 08 00 06\n500 40 40\n") == (pairs[:1], [500])
    assert replies_by_frame(two, right.format("308 40 40\n")) == (pairs, [308])
    assert replies_by_frame(two, "1 40 40\n" + right.format("") + "661 40 40\n") == (pairs, [1, 661])
    assert summed(two, right.format("500 40 40\n"))[:6] == (2, 3, 0, 0, 1, 0)


def test_the_address_in_force_decides():
    """An accepted 55h gives the address by which the frames that close later are paired, also one that its closing character opened."""
    moved, status = "396 45 55 10\n", "{} 45 4E 08 00 03\n"
    text = "ask 40 55 45 55\nask 40 4E\nask 45 4E\n"
    pairs = [(0x55, "45 55 10"), (0x4E, "45 4E 08 00 03")]
    assert replies_by_frame(text, moved + status.format(1100)) == (pairs, [])
    assert summed(text, moved + status.format(1100)) == words.Summary(frames=3, replies=2, silences=1)
    assert summed(text, "396 40 50 0F 1F\n748 40 4E 08 00 06\n") == words.Summary(frames=3, replies=2, errors=1, silences=1)
    # The same where a reply is lacking or too many, so that ticks alone do not tell.
    assert replies_by_frame(text + "ask 45 46\n", moved + status.format(1100)) == (pairs, [])
    assert replies_by_frame(text, moved + "500 40 40\n" + status.format(1100)) == (pairs, [500])
    assert summed(text + "ask 45 46\n", moved + status.format(1100))[:5] == (4, 2, 0, 2, 1)
    assert summed(text, moved + "748 40 4E 08 00 06\n")[:5] == (3, 2, 0, 1, 2)
    opened = "frame at 0: 40 55 45 55 05\nframe at 396: {}\npoll\n"
    assert summed(opened.format("45 4E sum"), moved + status.format(704)) == words.Summary(frames=2, replies=2)
    assert summed(opened.format("40 4E sum"), moved) == words.Summary(frames=2, replies=1, silences=1)


def test_the_address_in_force_at_one_tick():
    """Two unknown commands close at one tick: the one to the new address has the reply, whether the 55h closed there too or before."""
    at_once = "frame at {0} every 4: 40 44 04\nframe at {0} every 4: 45 44 01\npoll {0}\n"
    pairs = [(0x55, "45 55 10"), (0x44, "45 50 0B 1E")]
    together = "frame at 0: 40 55 45 55 05\n" + at_once.format(396)
    assert replies_by_frame(together, "396 45 55 10\n396 45 50 0B 1E\n") == (pairs, [])
    assert summed(together, "396 45 55 10\n396 45 50 0B 1E\n") == words.Summary(frames=3, replies=2, errors=1, silences=1)
    before = "ask 40 55 45 55\n" + at_once.format(1000)
    for stray, left in (("", []), ("500 40 40\n", [500])):
        assert replies_by_frame(before, "396 45 55 10\n" + stray + "1000 45 50 0B 1E\n") == (pairs, left)
        assert summed(before, "396 45 55 10\n" + stray + "1000 45 50 0B 1E\n")[:5] == (3, 2 + len(left), 1, 1, len(left))


def test_what_changes_no_address():
    """A 55h that is refused, not answered, another's, or answered with another address than the new one."""
    for request, answer in (
        ("40 55 45 54", "396 40 50 0F 1F\n"),
        ("40 55 60 55", "396 40 50 0D 1D\n"),
        ("40 55 60 55", "396 60 55 35\n"),
        ("40 55 45 55", ""),
        ("40 55 45 55", "396 40 55 15\n"),
        ("41 55 45 55", "396 45 55 10\n"),
    ):
        page = explained(f"ask {request}\nask 45 4E\n", answer)
        assert page.count("for address byte 45h, not ours (40h)\n") == 1, (request, page)
    assert "for address byte 45h" not in explained("ask FF 55 45 55\nask 45 4E\n", "396 45 D5 90\n748 45 CE 08 00 83\n")
    assert "not ours (45h)\n" in explained("ask 40 55 45 55\nask 40 53\npower-on\nask at 5000 40 4E\n", "396 45 55 10\n")


def test_in_order_is_the_best_choice():
    dice = random.Random(2)
    for _ in range(300):
        replies = dice.randrange(4)
        count = replies + dice.randrange(4)
        scores = [[dice.randrange(4) for _ in range(replies)] for _ in range(count)]
        chosen = explain.in_order(count, replies, lambda frame, reply: scores[frame][reply])
        rising = [pick for pick in subsets(count) if len(pick) == replies]
        worth = lambda pick: sum(scores[frame][reply] for reply, frame in enumerate(pick))  # noqa: E731
        assert chosen in rising and worth(chosen) == max(map(worth, rising))


def subsets(count):
    return [[place for place in range(count) if number >> place & 1] for number in range(1 << count)]


# --- the page --------------------------------------------------------------------------------


def test_sessions_are_explained():
    for name in SESSIONS:
        text = session(name)
        answers = texts.answers_to_come(text)
        page, summary = explain.explain_tape(texts.good_session(text), answers, JUDGE)
        assert summary.status() == 0 and "though" not in page and "to no frame" not in page, name
        assert page.count("bench: ") == answers.count("\n") - 1 == summary.replies, name
    text = session("pallet-night")
    page, _ = explain.explain_tape(texts.good_session(text), texts.answers_to_come(text), JUDGE)
    assert "bench: error 10h\n" in page and "bench: refused" not in page
    assert "4Dh Create Data Field: create or modify: field 0, status C1h (exists, write-enabled, no code wanted, code number 0, 2 blocks), code 55h\n" in page
    assert '\n                                    field 0, offset 0, count 16, data 4C 4F 54' in page and '"LOT 0417 MOTOR 9"\n' in page
    assert page.startswith("Board of 8 blocks, 24 position bits, address 0 (40h), 4 ticks a bit; a gap of 220 ticks (5.729 ms) closes a frame.\n")
    assert "      2420     63.021 ms  request   40 4D 00 C1 55 99\n" in page and "      2860     74.479 ms  reply     40 4D 00 C1 CC\n" in page
    end = "\nsummary: 15 frames, 15 replies, 1 error, 0 silences, 0 wrong or missing replies, 0 bad lines, 0 failed expectations\n"
    assert page.endswith(end)


def test_silences():
    assert "       308      8.021 ms  silence\n" in explained("frame at 0: 41 4E 0F\npoll\n", "")
    assert "for address byte 41h, not ours (40h)\n" in explained("frame at 0: 41 4E 0F\npoll\n", "")
    assert "too short: 2 of at least 3 bytes\n" in explained("frame at 0: 40 40\npoll\n", "")
    assert "       308      8.021 ms  silence\n" in explained("frame at 0: 40 53 13\npoll\n", "")
    assert "silence   though a reply was due\n" in explained("frame at 0: 40 4E 0E\npoll\n", "")
    assert "a reply, though silence was due\n" in explained("frame at 0: 40 53 13\npoll\n", "308 40 53 13\n")
    assert "to no frame of the tape\n" in explained("frame at 0: 40 4E 0E\npoll\n", "308 40 4E 08 00 06\n309 40 4E 08 00 06\n")
    assert "never closed: no reply\n" in explained("frame at 0: 40 4E 0E\npoll 307\n", "")
    assert summed("frame at 0: 41 4E 0F\npoll\n", "").status() == 0 and summed("frame at 0: 40 4E 0E\npoll 307\n", "").status() == 0
    assert summed("ask 40 4E\n", "").status() == 1 and summed("ask 40 53\n", "308 40 53 13\n").status() == 1
    assert summed("frame: 40 53 14\npoll\n", "") == words.Summary(frames=1, silences=1, wrong=1)
    assert summed("frame: 40 53 14\npoll\n", "308 40 50 0A 1A\n") == words.Summary(frames=1, replies=1, errors=1)
    assert summed("ask 40 53 00\n", "352 40 50 0C 1C\n") == words.Summary(frames=1, replies=1, errors=1)
    assert summed("ask 41 4E\n", "308 41 4E 08 00 07\n") == words.Summary(frames=1, replies=1, wrong=1)
    assert summed("ask 40 4E\n", "308 41 4E 08 00 07\n") == words.Summary(frames=1, replies=1, wrong=1)
    assert summed("ask 40 44\n", "308 40 50 0B 1B\n") == words.Summary(frames=1, replies=1, errors=1)


def test_host_calls():
    page = explained("fault 08\nfault 99\nfault 00\nfault 22\nfault 1E\nmeasured 5\nframe at 0: 40 50 10\npower-on\n", "")
    for line in (
        "notes fault 08h counter overflow",
        "notes fault 99h, a code without a name",
        "notes fault 00h, which is ignored",
        "notes fault 22h multiturn sync fault (locks the position until power-on)",
        "notes fault 1Eh temperature critical",
        "measured position 5",
        "power-on",
        "never closed: no reply",
    ):
        assert line + "\n" in page, line
    warned = explained("fault 08\nframe at 0: 40 42 02\npoll\n", "308 40 C2 00 00 00 06 84\n")
    assert "position 6\n" in warned and "warning bit: a fault code waits\n" in warned and "bench: done with warning\n" in warned
    assert "no code waits\n" in explained("frame at 0: 40 50 10\npoll\n", "308 40 50 00 10\n")
    assert "oldest waiting code 99h, a code without a name\n" in explained("frame at 0: 40 50 10\npoll\n", "308 40 50 99 89\n")
    assert "oldest waiting code 1Fh speed too high\n" in explained("frame at 0: 40 50 10\npoll\n", "308 40 50 1F 0F\n")


# What is told of a host that sleeps, of each frame of tools/sessions/sleep.txt (02, Req 03).
SLEPT = (
    "sleep 220 ticks from 1088, to 1308: a poll closed it then",
    "sleep 220 ticks from 2438, to 2658: a poll closed it then; polls before it closed nothing: 1",
    "sleep 220 ticks from 3088, to 3308: a poll closed it then; polls before it closed nothing: 2",
    "sleep 220 ticks from 4294967087, to 11: a poll closed it then; polls before it closed nothing: 1",
    "sleep 220 ticks from 5088, to 5308: a poll closed it 22 ticks later",
    "sleep 220 ticks from 6088, to 6308: the next character closed it 92 ticks later",
    "sleep 220 ticks from 6488, to 6708: a poll closed it then",
    "sleep 220 ticks from 7088, to 7308: nothing closed it",
    "sleep 220 ticks from 8088, to 8308: a poll closed it, on a clock that stepped back",
)


def test_sleep():
    text = session("sleep")
    given = texts.good_session(text), texts.answers_to_come(text), JUDGE
    page, summary = explain.explain_tape(*given, explain.Options(sleep=True))
    told = [line.strip() for line in page.splitlines() if " sleep " in line]
    assert tuple(told) == SLEPT and summary.status() == 0
    plain, _ = explain.explain_tape(*given)
    assert plain.splitlines() == [line for line in page.splitlines() if " sleep " not in line]


def test_sleep_on_the_command_line():
    with tempfile.TemporaryDirectory() as folder:
        text = put(folder, "sleep.txt", session("sleep").encode())
        answers = put(folder, "sleep.out", texts.answers_to_come(session("sleep")).encode())
        status, page, _ = run_tool("explain.py", ["--sleep", text, answers], b"")
        assert status == 0 and all(line.encode() in page for line in SLEPT)
        library = os.path.join(ROOT, "target", "libquicksetter.so")
        assert run_tool("explain.py", ["--library", library, "--sleep", text, answers], b"") == (0, page, b"")
        assert run_tool("explain.py", ["--sleep", "--library", library, text, answers], b"") == (0, page, b"")
        boards = put(folder, "boards.txt", session("two-boards").encode())
        status, page, said = run_tool("explain.py", ["--sleep", boards], b"")
        assert (status, page) == (1, b"") and b"--sleep tells of one board's host" in said
        log = put(folder, "log.txt", b"0 > 40 4E 0E\n")
        for words_given in (["--sleep"], ["--sleep", "--log", log], [text, "--sleep", answers]):
            assert run_tool("explain.py", words_given, b"")[0] == 2, words_given


def test_faulty_frames():
    assert "a character had a parity fault\n" in explained("character at 0: 40 parity\nframe at 44: 4E 0E\npoll\n", "308 40 50 09 19\n")
    assert "checksum wrong: B9 would be right\n" in explained("frame at 0: 40 4D 01 E0 55 69\npoll\n", "440 40 50 0A 1A\n")
    assert "error 0Bh unknown command (the board does not have this command)\n" in explained("frame at 0: 40 44 04\npoll\n", "308 40 50 0B 1B\n")
    assert "bench: refused B0, the request is not one the bench writes\n" in explained("frame at 0: 40 44 04\npoll\n", "308 40 50 0B 1B\n")
    assert "4Eh Memory Status: 1 bytes of data are not its length\n" in explained("frame at 0: 40 4E 00 sum\npoll\n", "")
    assert "4Bh Store Data: 5 bytes of data are not its length\n" in explained("frame at 0: 40 4B 00 00 02 55 01 sum\npoll\n", "")
    assert "136 bytes, longer than 135\n" in explained("frame at 0 every 1: " + "40 40 " * 68 + "\npoll\n", "")


def test_address_and_label_commands():
    """55h's new address and why it is refused; the four label bytes and the three texts taken apart."""
    for lines, answer, line in (
        ("ask 40 55 45 55\n", "396 45 55 10", "55h Set Encoder Address: new address 5 (45h), code 55h"),
        ("ask 40 55 45 55\n", "396 45 55 10", "the board has address 5 (45h) from here on"),
        ("ask 40 55 60 55\n", "396 40 50 0D 1D", "55h Set Encoder Address: new address byte 60h, which is not 40h to 5Fh, code 55h"),
        ("ask 40 55 60 55\n", "396 40 50 0D 1D", "error 0Dh wrong argument (the new address byte is not 40h to 5Fh)"),
        ("ask 40 4F 04 55 55\n", "440 40 50 0D 1D", "error 0Dh wrong argument (the code number is over 3)"),
        ("ask 40 55 45 54\n", "396 40 50 0F 1F", "error 0Fh wrong access code (not the code that is wanted)"),
        ("ask 40 55 45\n", "352 40 50 0C 1C", "55h Set Encoder Address: 1 bytes of data are not its length"),
        ("ask 40 52\n", "308 40 52 E4 FF 80 00 89", "52h Read Type Label"),
        ("ask 40 52\n", "308 40 52 E4 FF 80 00 89", f"{INTERFACE}, encoder type FFh (there is an extended type label), {MEMORY}, option code 00h"),
        ("ask 40 52\n", "308 40 52 00 27 00 01 34", f"{FIRST_INTERFACE}, encoder type 27h, memory size 0 blocks (0 bytes), option code 01h"),
        ("ask 40 56\n", f"308 {records.hex_of(VERSION)}", 'serial number "0417-0009", version "QS 0.3" 00*14, date "16.11.24"'),
        ("ask 40 56\n", f"308 {records.hex_of(sealed('40 56' + '00' * 37))}", "serial number 00*9, version 00*20, date 00*8"),
    ):
        page, summary = told(lines, answer + "\n")
        assert f"{line}\n" in page and summary.status() == 0, (line, page)


INTERFACE = "interface E4h (9600 baud, 8 data bits, even parity, timeout 55 bit times, standard slave)"
FIRST_INTERFACE = "interface 00h (600 baud, 8 data bits, no parity, timeout 22 bit times, bus slave)"
MEMORY = "memory size 128 blocks (2048 bytes)"
VERSION = sealed("40 56" + (b"0417-0009" + b"QS 0.3".ljust(20, b"\x00") + b"16.11.24").hex())


def test_label_bytes_without_a_meaning():
    meaningless = "a data rate without a meaning, 8 data bits, a parity without a meaning"
    assert words.interface_words(0x17) == f"interface 17h ({meaningless}, timeout 22 bit times, bus slave)"
    assert "odd parity" in words.interface_words(0x30) and "38400 baud" in words.interface_words(0x06)
    for text, told_so in ((b"A\x00B", "41 00 42"), (b'A"B', "41 22 42"), (b"\xff\x00", "FF 00*1"), (b" ~", '" ~"'), (b"", "")):
        assert words.text_words(text) == told_so, text


def test_error_codes_are_the_documents():
    with open(HEADER, encoding="utf-8") as file:
        answered = {int(code, 16) for code in re.findall(r"#define QS_ERROR_\w+ 0x(\w\w)", file.read())}
    assert {code for code, entry in commands.CODES.items() if entry.answered} | {0x08} == answered
    assert set(commands.CODES) == set(range(0x01, 0x13)) | set(range(0x1C, 0x25)) and len(commands.CODES_BY_NAME) == len(commands.CODES)


def test_bad_tape_is_told():
    bad_tape = texts.Session(texts.tape_of(PLATE_LINE) + b"\x05", [], [], [])
    cases = (
        ("tick reply\nbad 9\n", "The tape is bad at place 9: a lone last byte.\n\n"),
        ("tick reply\n", "The answer program does not say so.\n\n"),
        ("tick reply\nbad 8\n", "The answer program calls it bad at place 8.\n\n"),
    )
    for answers, line in cases:
        page, summary = explain.explain_tape(bad_tape, answers, JUDGE)
        assert line in page and summary.bad == 1 and summary.status() == 1
    good = explain.explain_tape(texts.good_session(PLATE_LINE), "tick reply\nbad 8\n", JUDGE)
    assert "The answer program calls it bad at place 8.\n" in good[0] and good[1].status() == 1
    empty = explain.explain_tape(texts.good_session(""), "tick reply\n", JUDGE)
    assert empty == (words.Summary().line() + "\n", words.Summary()) and empty[1].status() == 0


def test_documents_tell_what_is():
    """README's part of the demo is the page's, and docs/TOOLS.md has every command, and every code that the board answers with, by name."""
    text = session("pallet-night")
    page, _ = explain.explain_tape(texts.good_session(text), texts.answers_to_come(text), JUDGE)
    with open(os.path.join(ROOT, "README.md"), encoding="utf-8") as file:
        shown = file.read().partition("A part of what it tells:\n\n")[2].partition("A session is text")[0]
    assert shown.count("\n") > 10 and shown.replace("\n    ", "\n")[4:].strip("\n") in page, shown
    with open(os.path.join(ROOT, "docs", "TOOLS.md"), encoding="utf-8") as file:
        tools = " ".join(file.read().split())
    assert all(name in tools for name in commands.BY_NAME)
    assert all(f"{commands.hyphened(code.name)} {byte:02X}" in tools for byte, code in commands.CODES.items() if code.answered)
    assert all(f" {part.name}" in tools for command in commands.COMMANDS.values() for part in command.request)


# --- expectations ----------------------------------------------------------------------------

# An ask, the answer to it, what holds of it and what does not.
EXPECTED = (
    ("ask 40 4E", "308 40 4E 08 00 06", ("reply 404E0800 sum", "done"), ("reply 40 4E 08 00 07", "silence", "done with warning", "error 06", "refused B0")),
    ("ask 40 4E", "308 40 CE 08 00 86", ("done with warning",), ("done", "silence")),
    ("ask 40 4E", "308 40 50 03 13", ("error 03", "error 0x03", "error field-table-destroyed"), ("error 02", "error 03 with warning", "done", "silence")),
    ("ask 40 4E", "308 40 D0 03 93", ("error 03h with warning", "reply 40D00393"), ("error 03", "done with warning")),
    ("ask 40 44", "308 40 50 0B 1B", ("error unknown-command", "refused B0"), ("error 0A", "done", "refused B1")),
    ("ask 40 50", "308 40 50 08 18", ("done", "reply 40 50 08 sum"), ("error 08", "silence")),
    ("ask 40 55 45 55", "396 45 55 10", ("done", "reply 45 55 sum"), ("done with warning", "error 0D", "refused B3", "silence")),
    ("ask 40 55 45 55", "396 40 55 15", ("refused B3", "reply 40 55 15"), ("done", "error 55")),
    ("ask 40 55 60 55", "396 40 50 0D 1D", ("error wrong-argument",), ("done", "error 0F", "refused B3")),
    ("ask read-type-label", "308 40 52 00 00 00 00 12", ("done", "reply 40 52 00*4 12"), ("error 0B", "refused B0", "silence")),
    ("ask to 1 memory-status", "", ("silence",), ("done", "reply 41", "error 01", "refused B1")),
    ("ask to all memory-status", "308 FF 4E 08 00 B9", ("refused B3",), ("done", "refused B0")),
    ("frame: 40 4E 0E\npoll", "308 40 4E 08 00 06", ("done",), ("silence",)),
    ("frame: 40 4E 0E", "", ("silence",), ("done",)),
)


def test_expectations_hold_and_fail():
    for ask, answer, held, failed in EXPECTED:
        for wanted in held + failed:
            page, summary = told(f"{ask}\nexpect {wanted}\n", answer + "\n" if answer else "")
            line = f"line {ask.count(chr(10)) + 3}: expect {wanted}: "
            assert summary.failed == (wanted in failed), (ask, wanted)
            assert line + ("FAILED" if wanted in failed else "holds") + "\n" in page, page
            assert summary.status() == 1 or wanted in held, (ask, wanted)


def test_an_expectation_speaks_of_its_own_frame():
    text = "ask 40 4E\nask 40 46\nexpect reply 40 46 00 00 00 06\nask 40 53\nexpect silence\nfault 08\nexpect silence\n"
    answers = "308 40 4E 08 00 06\n660 40 46 00 00 00 06\n"
    assert summed(text, answers) == words.Summary(frames=3, replies=2, silences=1)
    lost = "ask 40 4E\nraw: 05 00\nask 40 46\nexpect done\n"
    page, summary = told(lost, "308 40 4E 08 00 06\nbad 47\n")
    assert "line 5: expect done: FAILED, its frame is not on the tape\n" in page and (summary.failed, summary.bad) == (1, 1)


def test_each_stored_expectation_is_checked():
    """Of a stored session each expectation, turned into a wrong one, fails; and nothing else does."""
    turned = 0
    for name in SESSIONS:
        lines = session(name).splitlines()
        answers = texts.answers_to_come(session(name))
        for number, line in enumerate(lines):
            if not line.startswith("expect "):
                continue
            wrong = "expect done" if line == "expect silence" else "expect silence"
            text = "\n".join(lines[:number] + [wrong] + lines[number + 1 :])
            _, summary = explain.explain_tape(texts.good_session(text), answers, JUDGE)
            assert (summary.failed, summary.status()) == (1, 1), (name, line)
            turned += 1
    assert turned > 40


# --- logs ------------------------------------------------------------------------------------

LOG = """# both directions
0 > 40 4E 0E
12.5 ms < 40 4E 70 00 7E
960 ticks > FF4EB1            # 25 ms
30 < 0x40,0x4E,0x70,0x00,0x7E
40 < 41 4E 08 00 07
50 > 40 53 13
60 > 40 44 04
70 < 40 50 0B 1B
80 > 40 42 02
"""


def test_log():
    page, summary = traffic.explain_log(LOG, JUDGE)
    assert summary == words.Summary(frames=5, replies=4, errors=1, silences=2) and summary.status() == 0
    for line in (
        "         0      0.000 ms  request   40 4E 0E\n",
        "4Eh Memory Status\n       480     12.500 ms  reply     40 4E 70 00 7E\n",
        "12.500 ms after the request\n",
        "       960     25.000 ms  request   FF 4E B1\n",
        "53h Encoder Reset\n                          silence   as it must be: 53h has no reply\n\n",
        "error 0Bh unknown command (the board does not have this command)\n",
        "no reply is logged\n",
    ):
        assert line in page, line
    assert page.count("bench: done\n") == 3 and page.endswith(summary.line() + "\n")


def test_logs_that_are_not_well():
    cases = (
        ("0 > 40 4E 0E\n1 < 40 40\n", "bench: refused B1, reply under 3 bytes", words.Summary(frames=1, replies=1, wrong=1)),
        ("0 > 40 4E 0E\n1 < 40 4E 70 00 7F\n", "bench: refused B2, checksum wrong", words.Summary(frames=1, replies=1, wrong=1)),
        ("0 > 40 4E 0E\n1 < 41 4E 70 00 7F\n", "bench: refused B3, address not the asked one", words.Summary(frames=1, replies=1, wrong=1)),
        ("0 > FF 4E B1\n1 < FF 4E 70 00 C1\n", "bench: refused B3, address not the asked one", words.Summary(frames=1, replies=1, wrong=1)),
        ("0 > 40 4E 0E\n1 > 40 46 06\n2 < 40 4E 70 00 7E\n", "bench: refused B4", words.Summary(frames=2, replies=1, silences=1, wrong=1)),
        ("0 > 40 55 45 55 05\n1 < 40 55 15\n", "bench: refused B3, address not the asked one, or", words.Summary(frames=1, replies=1, wrong=1)),
        ("0 > FF 55 45 55 BA\n1 < 46 55 13\n", "bench: refused B3, address not the asked one, or", words.Summary(frames=1, replies=1, wrong=1)),
        ("1 < 40 4E 70 00 7E\n", "to no request", words.Summary(replies=1, wrong=1)),
        ("0 > 40 50 10\n1 < 40 50 00 10\n2 < 40 50 00 10\n", "to no request", words.Summary(frames=1, replies=2, wrong=1)),
        ("", "No line of this log has a frame.", words.Summary(bad=1)),
        ("# nothing\n\n", "No line of this log has a frame.", words.Summary(bad=1)),
        ("0 > 40 4E 0E\nhello\n1 < 40 4E 70 00 7E\n", "line 2: not of the shape `TIME [ms|ticks] > BYTES", words.Summary(frames=1, replies=1, bad=1)),
        ("0 > 40 4\n", "line 1: no byte, quoted text or sum: 4", words.Summary(bad=1)),
        ("0 >\n", "line 1: a frame without bytes", words.Summary(bad=1)),
        ("-1 > 40\n", "line 1: not of the shape", words.Summary(bad=1)),
        ("9" * 400 + " > 40\n", "line 1: not of the shape", words.Summary(bad=1)),
    )
    for text, line, summed_up in cases:
        page, summary = traffic.explain_log(text, JUDGE)
        assert line in page and summary == summed_up and summary.status() == 1, (text, page)
    assert "silence   no reply is logged\n" in traffic.explain_log("0 > 40 53 14\n", JUDGE)[0]


def test_log_of_a_new_address():
    """A log does not say which boards are there, so each reply is held to its request alone."""
    log = "0 > 41 55 45 55 04\n12 < 45 55 10\n20 > 41 4E 0F\n30 > 45 52 17\n40 < 45 52 E4 FF 80 00 8C\n50 > 45 55 60 55 25\n60 < 45 50 0D 18\n"
    page, summary = traffic.explain_log(log, JUDGE)
    assert summary == words.Summary(frames=4, replies=3, errors=1, silences=1) and summary.status() == 0
    assert "new address 5 (45h), code 55h\n" in page and "the board has address 5 (45h) from here on\n" in page
    assert f"{INTERFACE}, " in page and "(the new address byte is not 40h to 5Fh)\n" in page


def test_times_of_a_log():
    assert "the time goes back\n" in traffic.explain_log("5 > 40 4E 0E\n4 < 40 4E 70 00 7E\n", JUDGE)[0]
