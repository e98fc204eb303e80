#!/usr/bin/env python3
"""test.py LIBRARY_FOLDER [KILLS]: encoder, bench and program on ptys, with the libraries in that folder; the encoder is killed so many times, 200 if left out. The
log is told by tools/explain.py, which needs target/libquicksetter.so. Ends with status 1 if anything is not as it must be."""

import pathlib
import re
import shutil
import signal
import subprocess
import sys
import tempfile
import time

import test_bench
import test_encoder
import test_kill
import test_shop
from rig import COMMAND_LINE, DONE, HERE, HOST, ROOT, Checks, Encoder, Tools, folder_in_memory
from commands import BY_NAME, CODES, COMMANDS, error_words

VERSION = re.search(r'#define QS_VERSION "(.*?)"', (HOST / "quicksetter.h").read_text(encoding="ascii")).group(1)
LINES, COLUMNS = 24, 80  # of a screen

# Prints each command's byte, name and response time, and what each code says as an answer to each command.
WORDS = """#include "words.h"
#include <stdio.h>
const char *const tool_name = "words";
int main(void) {
    for (unsigned i = 0; i < NUMBER_OF_COMMANDS; i++)
        printf("%02X %s %u\\n", COMMANDS[i].byte, COMMANDS[i].name, COMMANDS[i].due);
    for (unsigned i = 0; i < NUMBER_OF_COMMANDS; i++)
        for (unsigned code = 0; code < 256; code++) {
            print_error((uint8_t)code, COMMANDS[i].byte);
            printf("\\n");
        }
    return 0;
}
"""


def check_port(tools: Tools, checks: Checks):
    """Clock, marks and echo, in C."""
    made = tools.path("test_port")
    files = [str(HERE / f"{name}.c") for name in ("test_port", "port", "tool")]
    subprocess.run(["gcc", "-std=c11", "-O2", "-Wall", "-Wextra", "-Werror", "-pedantic", "-I", str(HOST), *files, "-o", made], check=True)
    ran = subprocess.run([made], stdout=subprocess.PIPE, text=True, timeout=60, check=False)
    print(ran.stdout, end="", flush=True)
    checks.check(ran.returncode == 0, "test_port.c")


def response_times():
    """The milliseconds beside each command in quicksetter.h; 53h has none, and is given the shortest, for an error reply."""
    header = (HOST / "quicksetter.h").read_text(encoding="ascii")
    found = {int(byte, 16): int(time) for byte, time in re.findall(r"#define QS_\w+ 0x([0-9A-F]{2}) +/\*.*?; (\d+) ms", header)}
    return {0x53: 5, **found}


def check_words(tools: Tools, checks: Checks):
    """Commands and codes have the names that the tools give them, and the times of quicksetter.h."""
    source, made = tools.on_disk / "said.c", tools.path("said")
    source.write_text(WORDS, encoding="ascii")
    files = [str(source), str(HERE / "words.c"), str(HERE / "tool.c")]
    subprocess.run(["gcc", "-std=c11", "-I", str(HOST), "-I", str(HERE), *files, "-o", made], check=True)
    told = subprocess.run([made], stdout=subprocess.PIPE, text=True, check=True).stdout.splitlines()
    times = response_times()
    expected = [f"{byte:02X} {name} {times[byte]}" for name, byte in BY_NAME.items()]
    expected += [error_words(code, byte) for byte in COMMANDS for code in range(256)]
    checks.check(told == expected, f"words: {[pair for pair in zip(told, expected) if pair[0] != pair[1]][:3]}")
    checks.check(len(CODES) > 20, "there are codes")


def check_help(tools: Tools, checks: Checks):
    """On one screen, every option in it, and nothing on standard error."""
    for name in ("encoder", "bench", "program"):
        ran = tools.run(name, "--help")
        lines = ran.out.splitlines()
        checks.check(ran.status == DONE and ran.err == "", f"{name} --help: {ran}")
        checks.check(len(lines) <= LINES and max(map(len, lines)) <= COLUMNS, f"{name} --help: {len(lines)} lines, {max(map(len, lines))} letters")
        files = [f"{name}.c", "port.h"] + ["master.h"] * (name != "encoder")
        options = re.findall(r'\.name = "(--[\w-]+)"', "".join((HERE / file).read_text(encoding="ascii") for file in files))
        checks.check(len(options) >= 9 and all(option in ran.out for option in options), f"{name} --help has every option: {options}")
        checks.check(tools.run(name, "/nowhere", "--nothing", "--help") == ran, f"{name} --help behind other words")
        ran = tools.run(name, "--line\nend")
        checks.check(ran == (COMMAND_LINE, "", f"{name}: there is no option --line?end; --help lists them\n"), f"{name} with a line's end: {ran}")
    told = tools.run("bench", "--help").out
    checks.check(all(name in told for name in BY_NAME), "bench --help has every request")


def data_size(pid: int) -> str:
    """The data and stack that a process has, where the system tells."""
    status = pathlib.Path(f"/proc/{pid}/status")
    return "".join(re.findall(r"(?:VmData|VmStk):.*\n", status.read_text())) if status.exists() else ""


def check_memory(tools: Tools, checks: Checks) -> str:
    """The encoder's memory is what it was after many requests; nothing is lost or wrongly used, where valgrind is there to tell."""
    with Encoder(tools, tools.folder / "memory.board", "--log", str(tools.folder / "memory.log")) as encoder:
        tools.run("bench", encoder.port, "survey")
        before = data_size(encoder.process.pid)
        for _ in range(20):
            tools.run("bench", encoder.port, "survey")
            tools.run("program", encoder.port, str(test_shop.SPINDLE), "--no-save")
        checks.check(data_size(encoder.process.pid) == before, "the encoder's memory has grown")
    if not shutil.which("valgrind"):
        return "; no valgrind: whether memory is lost was left out"
    watched = ("valgrind", "--quiet", "--error-exitcode=99", "--leak-check=full", "--show-leak-kinds=all", "--errors-for-leak-kinds=all")
    slow = ("--patience", "60")
    with Encoder(tools, tools.folder / "watched.board", "--log", str(tools.folder / "watched.log"), prefix=watched) as encoder:
        for name, *arguments in (("program", str(test_shop.SPINDLE)), ("program", str(test_shop.SPINDLE), "--save", str(tools.folder / "watched.tape")), ("bench", "survey")):
            ran = tools.run(name, encoder.port, *arguments, *slow, prefix=watched)
            checks.check(ran.status == DONE and ran.err == "", f"{name} under valgrind: {ran}")
        encoder.command("fault 22")
        ran = encoder.end()
        checks.check(ran.status == DONE and "==" not in ran.err, f"encoder under valgrind: {ran}")
    return "; and under valgrind"


# --- the first hour ---------------------------------------------------------------------------


def first_hour():
    """The commands of README.md's first hour, each with the lines that it prints there."""
    text = (ROOT / "README.md").read_text(encoding="utf-8")
    section = text[text.index("## A first hour") :]
    section = section[: section.index("\n## ", 1)]
    found = []
    for line in section.splitlines():
        if line.startswith("    $ "):
            found.append((line[6:], []))
        elif line.startswith("    ") and found:
            found[-1][1].append(line[4:])
    return [(command, lines) for command, lines in found if command.startswith("./")]


def check_first_hour(tools: Tools, checks: Checks):
    """Run in a folder like target/line, with the name of its own pty."""
    commands = first_hour()
    checks.check(len(commands) >= 5 and commands[0][0].startswith("./encoder --pty "), f"README.md has a first hour: {[command for command, _ in commands]}")
    folder = tools.folder / "hour" / "target" / "line"
    folder.mkdir(parents=True)
    (tools.folder / "hour" / "tools").symlink_to(ROOT / "tools")
    for name in ("encoder", "bench", "program"):
        (folder / name).symlink_to(tools.path(name))
    printed = commands[0][1][0]
    with Encoder(tools, folder / commands[0][0].split()[2]) as encoder:
        for command, lines in commands[1:]:
            command = command.replace(printed, encoder.port)
            ran = subprocess.run(command, shell=True, cwd=folder, capture_output=True, text=True, timeout=60, check=False)
            expected = [line.replace(printed, encoder.port) for line in lines]
            checks.check(ran.stdout.splitlines() == expected and ran.stderr == "", f"README.md: {command}: {ran.stdout}{ran.stderr}")


def let_signals_in():
    """A shell that runs this in the background lets the programs that it starts ignore SIGINT, and nohup SIGHUP."""
    signal.signal(signal.SIGINT, signal.default_int_handler)
    signal.signal(signal.SIGHUP, signal.SIG_DFL)


def main(arguments) -> int:
    if len(arguments) not in (1, 2) or (len(arguments) == 2 and not arguments[1].isdigit()):
        print(__doc__, file=sys.stderr)
        return 2
    kills = int(arguments[1]) if len(arguments) == 2 else 200
    seed = int(time.time())
    let_signals_in()
    memory = folder_in_memory()
    if memory is None:
        print("line: there is no folder in memory: the boards' files are on a disk, and a busy one can make a board silent", flush=True)
    with tempfile.TemporaryDirectory() as on_disk, tempfile.TemporaryDirectory(dir=memory) as folder:
        tools, checks = Tools(pathlib.Path(on_disk), arguments[0], pathlib.Path(folder)), Checks("line")
        check_port(tools, checks)
        check_words(tools, checks)
        check_help(tools, checks)
        test_bench.test(tools, checks, VERSION, tools.shim())
        test_encoder.test(tools, checks, tools.shim())
        test_shop.test(tools, checks)
        check_first_hour(tools, checks)
        killed = test_kill.test(tools, checks, kills, seed)
        watched = check_memory(tools, checks)
    return checks.ended(killed + watched)


if __name__ == "__main__":
    sys.exit(main(sys.argv[1:]))
