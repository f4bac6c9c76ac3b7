#!/usr/bin/env python3
"""Runs the built program on real folders, files and pipes, and prints a line for each check.

It ends with status 0 only where all checks pass. What no proof sees is tried here: the system's
folders, files and pipes, the arguments of a command line, the exit statuses and the printed lines.
"""

import errno
import os
import shutil
import subprocess
import sys
import tempfile
import threading
from pathlib import Path

from iproto import (
    SEED,
    SYNC,
    TYPE,
    Spelled,
    close_unit,
    contents,
    error_reply,
    input_unit,
    ok_reply,
    output_unit,
    packet,
    request,
    tuples_reply,
)
from program import EXAMPLE, GREETING, PROGRAM, ROOT, TRACE, environment, is_built

INPUT = (EXAMPLE / "input.bin").read_bytes()
OUTPUT = (EXAMPLE / "output.bin").read_bytes()
SECONDS = 10
SCRATCH = Path(tempfile.mkdtemp(prefix="vurandy-"))

FIRST = "00000000000000000000.xlog"
SECOND = "00000000000000000001.xlog"
# The instance is the first half of the seed and the replica set the second, as version 4 UUIDs.
HEADER = (
    b"XLOG\n0.13\n"
    b"Instance: 00010203-0405-4607-8809-0a0b0c0d0e0f\n"
    b"ReplicaSet: 10111213-1415-4617-9819-1a1b1c1d1e1f\n"
    b"VClock: %s\n\n"
)
END = bytes.fromhex("d510aded")
# The block of the example's commit: replica 1, lsn 1, REPLACE into space 512 of [1, "a"].
BLOCK = bytes.fromhex("d5ba0babce0000001100cea3d27898a3000000" "83000302010301" "8210cd0200219201a161")
# A SELECT of key 1 in space 512, with sync 1, and the reply with the tuple that the example put.
SELECT = input_unit(request("SELECT", 1, space=512, limit=10, iterator="EQ", key=[1]))
FOUND = tuples_reply(1, [1, "a"])


def new_folder():
    """A folder of its own for a check, in which a run makes its directory."""
    return Path(tempfile.mkdtemp(dir=SCRATCH))


def files_in(directory):
    """The files of a directory, by name."""
    return {path.name: path.read_bytes() for path in directory.iterdir()}


def run(arguments, given=b"", seed=SEED, **options):
    """Runs the program to its end on these arguments and this input, in a new folder or in `cwd`."""
    if "stdin" not in options:
        options["input"] = given
    options.setdefault("stdout", subprocess.PIPE)
    options.setdefault("cwd", new_folder())
    return subprocess.run(
        [PROGRAM, *arguments],
        stderr=subprocess.PIPE,
        env=environment(seed),
        timeout=SECONDS,
        **options,
    )


def check_end(ended, status, line, output=b""):
    """Checks the status, what is printed on standard error and, where it was kept, the output."""
    expected = b"" if line is None else line.encode() + b"\n"
    assert ended.returncode == status, f"status {ended.returncode}, {ended.stderr!r}"
    assert ended.stderr == expected, f"standard error {ended.stderr!r}"
    assert ended.stdout in (None, output), f"{len(ended.stdout)} bytes of output"


def example_is_answered():
    assert OUTPUT == output_unit(GREETING + FOUND + tuples_reply(2, [1, "a"])), "the example's output is spelled otherwise"
    with open(EXAMPLE / "input.bin", "rb") as file:
        check_end(run(TRACE, stdin=file), 0, None, OUTPUT)


def seed_is_read_in_either_case():
    check_end(run(TRACE, INPUT, seed=SEED.upper()), 0, None, OUTPUT)


def empty_input_has_no_output():
    check_end(run(TRACE), 0, None)
    check_end(run(TRACE, stdin=subprocess.DEVNULL), 0, None)


def empty_input_begins_a_journal():
    folder = new_folder()
    check_end(run(TRACE, cwd=folder), 0, None)
    files = files_in(folder / "DIR")
    assert files == {FIRST: HEADER % b"{}" + END}, f"{files}"


def commits_are_found_again():
    folder = new_folder()
    check_end(run(TRACE, INPUT, cwd=folder), 0, None, OUTPUT)
    first = HEADER % b"{}" + BLOCK + END
    assert files_in(folder / "DIR") == {FIRST: first}, f"{files_in(folder / 'DIR')}"
    ended = run(TRACE, SELECT, cwd=folder)
    check_end(ended, 0, None, output_unit(GREETING + FOUND))
    second = HEADER % b"{1: 1}" + END
    assert files_in(folder / "DIR") == {FIRST: first, SECOND: second}, f"{files_in(folder / 'DIR')}"


def journals_of_other_seeds_are_one_node():
    folder = new_folder()
    check_end(run(TRACE, INPUT, cwd=folder), 0, None, OUTPUT)
    other = "ff" * 32
    ended = run(TRACE, INPUT, seed=other, cwd=folder)
    # The greeting's instance is the directory's, its salt this run's own.
    assert ended.stdout[8:72] == OUTPUT[8:72], f"{ended.stdout[8:72]}"
    assert ended.stdout[72:136] != OUTPUT[72:136], "the salt of another run"
    assert set(files_in(folder / "DIR")) == {FIRST, SECOND}, f"{files_in(folder / 'DIR')}"


def damage_is_told():
    folder = new_folder()
    check_end(run(TRACE, INPUT, cwd=folder), 0, None, OUTPUT)
    check_end(run(TRACE, cwd=folder), 0, None)
    path = folder / "DIR" / FIRST
    damaged = bytearray(path.read_bytes())
    damaged[140] ^= 1
    path.write_bytes(damaged)
    before = files_in(folder / "DIR")
    check_end(run(TRACE, INPUT, cwd=folder), 7, f"Damaged {SECOND} 0 gap {{}} {{1: 1}}")
    assert files_in(folder / "DIR") == before, "a damaged directory was changed"


def leftovers_are_removed():
    folder = new_folder()
    (folder / "DIR").mkdir()
    for name in (FIRST + ".inprogress", "00000000000000000007.snap.inprogress", "notes.inprogress", "notes"):
        (folder / "DIR" / name).write_bytes(b"x")
    check_end(run(TRACE, cwd=folder), 0, None)
    assert set(files_in(folder / "DIR")) == {FIRST, "notes.inprogress", "notes"}, f"{files_in(folder / 'DIR')}"


NO_FOLDER = "this isn't a folder: name a folder, or a new one in a folder that is there"
IN_USE = "another process uses the folder: end it first, or name another folder"


def not_opened(number):
    """Why a folder isn't opened where the system's error has this number."""
    error = f"{os.strerror(number)} (os error {number})"
    return f"the folder can't be opened ({error}): name a folder of this user's, or a new one in a folder that is there"


def folders_that_cannot_be_opened_are_told():
    folder = new_folder()
    (folder / "file").write_bytes(b"")
    (folder / "link").symlink_to("link")
    for argument, why in (
        ("file", NO_FOLDER),
        ("file/folder", NO_FOLDER),
        ("no/folder", not_opened(errno.ENOENT)),
        ("link", not_opened(errno.ELOOP)),
        ("d" * 256, not_opened(errno.ENAMETOOLONG)),
    ):
        check_end(run(["trace", argument], INPUT, cwd=folder), 5, f"DiskFault\n{argument}: {why}")
    assert sorted(path.name for path in folder.iterdir()) == ["file", "link"]


def refused_words_make_no_folder():
    folder = new_folder()
    check_end(run(["nodes", "DIR"], INPUT, cwd=folder), 2, "BadWords")
    assert list(folder.iterdir()) == []


def directory_has_one_process():
    folder = new_folder()
    first = subprocess.Popen(
        [PROGRAM, *TRACE],
        stdin=subprocess.PIPE,
        stdout=subprocess.PIPE,
        env=environment(SEED),
        cwd=folder,
        bufsize=0,
    )
    timer = threading.Timer(SECONDS, first.kill)
    timer.start()
    with first:
        first.stdin.write(INPUT)
        first.stdout.read(1)
        check_end(run(TRACE, INPUT, cwd=folder), 5, f"DiskFault\nDIR: {IN_USE}")
        first.stdin.close()
        first.stdout.read()
    timer.cancel()
    assert first.returncode == 0, f"status {first.returncode}"


def words_are_refused():
    for arguments in (
        [],
        ["trace"],
        ["frobnicate"],
        ["trace", "-x"],
        ["trace", ""],
        ["--help", "trace"],
        ["trace", b"\xff"],
    ):
        check_end(run(arguments, INPUT), 2, "BadWords")


def notices_are_printed():
    for argument, part in (("--help", b"trace DIR"), ("--version", b"vurandy 0.1.0\n")):
        ended = run([argument], seed="no seed")
        assert part in ended.stdout, f"{argument} printed {ended.stdout!r}"
        check_end(ended, 0, None, ended.stdout)


def bytes_may_come_one_by_one():
    one_by_one = b"".join(input_unit(bytes([byte])) for byte in INPUT[9:])
    ended = run(TRACE, one_by_one)
    check_end(ended, 0, None, ended.stdout)
    assert b"".join(contents(ended.stdout)) == OUTPUT[8:], "the cut changes the output"


def connections_come_and_go():
    ping, pong = packet({TYPE: 64}, width=0), ok_reply()
    # A PING with sync 7 whose body is the byte that begins no value.
    bad = packet({TYPE: 64, SYNC: 7}, Spelled(b"\xc1"), width=0)
    refused = error_reply(7, 20, "Packet is not MessagePack")
    given = [input_unit(ping, 1023), input_unit(ping + bad + ping), input_unit(ping), close_unit()]
    expected = [output_unit(GREETING + pong, 1023), output_unit(GREETING + pong + refused), output_unit(b"")]
    given += [input_unit(ping, 1023), input_unit(ping)]
    expected += [output_unit(pong, 1023), output_unit(GREETING + pong)]
    check_end(run(TRACE, b"".join(given)), 0, None, b"".join(expected))


def client_shows_a_conversation():
    client = [sys.executable, ROOT / "examples" / "conversation.py"]
    ended = subprocess.run(client, capture_output=True, text=True, timeout=SECONDS)
    assert ended.returncode == 0, f"status {ended.returncode}, {ended.stderr!r}"
    shown = ended.stdout.splitlines()
    assert len(shown) <= 40, f"{len(shown)} lines don't fit a page"
    assert max(map(len, shown)) <= 100, "a line has more than 100 columns"
    for line in (
        "1   greeting 00010203-0405-4607-8809-0a0b0c0d0e0f",
        "1.1 OK, version 1, features [0, 1]",
        "1.2 OK",
        "2.3 OK, 1 tuple: [1, 'apple']",
        "1.4 OK, 2 tuples: [2, 'banana'], [3, 'cherry']",
        "1.5 OK, 0 tuples",
        "1.6 error 36: Space 513 does not exist",
        "1.7 OK, 1 tuple: [2, 'banana', 5]",
        "    [600, 0, 'id', 'tree', {}, [[0, 'unsigned']]]",
        "1.11 OK, 1 tuple: [7, 'fig', 5, 12]",
        '1.12 error 3: Duplicate key in unique index "name"',
        '    of space "fruit"',
        "1.13 OK, 1 tuple: [7, 'figs', 8, 13]",
        "2.6 OK",
        "2.7 OK, 1 tuple: [1, 'pear']",
        "1.16 OK, 1 tuple: [1, 'apple']",
        "1.17 error 97: Transaction has been aborted by",
        "1.18 OK",
        "2.8 error 20: Packet is not MessagePack",
    ):
        assert any(text.endswith(line) for text in shown), f"no line {line!r}"
    assert shown[-1].endswith("2   the server closes the connection"), "the connection isn't closed"


def bad_input_is_refused():
    check_end(run(TRACE, b"\x05"), 1, "BadInput 0")


def cut_unit_is_refused():
    check_end(run(TRACE, INPUT[:-1]), 1, "BadInput 0")


def later_bad_unit_is_named():
    ended = run(TRACE, INPUT + b"\x05")
    check_end(ended, 1, f"BadInput {len(INPUT)}", ended.stdout)


def bad_seeds_are_refused():
    for seed in ("", SEED[:-1], SEED[:-1] + "g", SEED + "00", "0x" + SEED[2:], b"\xff" * 64):
        check_end(run(TRACE, INPUT, seed=seed), 2, "BadWords")


def installations_differ():
    greetings = {run(TRACE, INPUT, seed=None).stdout[8:136] for _ in range(2)}
    assert len(greetings) == 2, "two runs with no seed have one greeting"


def unit_is_answered_at_once():
    server = subprocess.Popen(
        [PROGRAM, *TRACE],
        stdin=subprocess.PIPE,
        stdout=subprocess.PIPE,
        env=environment(SEED),
        cwd=new_folder(),
        bufsize=0,
    )
    timer = threading.Timer(SECONDS, server.kill)
    timer.start()
    with server:
        server.stdin.write(INPUT)
        answer = b""
        while len(answer) < len(OUTPUT) and (part := server.stdout.read(4096)):
            answer += part
        server.stdin.close()
        rest = server.stdout.read(4096)
    timer.cancel()
    assert answer + rest == OUTPUT, f"{len(answer)} bytes before the end of input"
    assert server.returncode == 0, f"status {server.returncode}"


def closed_output_is_told():
    shell = ["sh", "-c", 'exec "$@" >&-', "sh", PROGRAM, *TRACE]
    ended = subprocess.run(
        shell,
        input=INPUT,
        stderr=subprocess.PIPE,
        env=environment(SEED),
        cwd=new_folder(),
        timeout=SECONDS,
    )
    check_end(ended, 4, "WriteFault")


def full_output_is_told():
    with open("/dev/full", "wb") as full:
        check_end(run(TRACE, INPUT, stdout=full), 4, "WriteFault")
        check_end(run(["--help"], stdout=full), 4, "WriteFault")


def broken_pipe_is_told():
    reader, writer = os.pipe()
    os.close(reader)
    with open(writer, "wb") as pipe:
        check_end(run(TRACE, INPUT, stdout=pipe), 4, "WriteFault")


def directory_as_input_is_told():
    folder = os.open(ROOT, os.O_RDONLY)
    try:
        check_end(run(TRACE, stdin=folder), 3, "ReadFault")
    finally:
        os.close(folder)


def closed_input_is_told():
    shell = ["sh", "-c", 'exec "$@" <&-', "sh", PROGRAM, *TRACE]
    ended = subprocess.run(
        shell, capture_output=True, env=environment(SEED), cwd=new_folder(), timeout=SECONDS
    )
    check_end(ended, 3, "ReadFault")


CHECKS = (
    example_is_answered,
    seed_is_read_in_either_case,
    empty_input_has_no_output,
    empty_input_begins_a_journal,
    commits_are_found_again,
    journals_of_other_seeds_are_one_node,
    damage_is_told,
    leftovers_are_removed,
    folders_that_cannot_be_opened_are_told,
    refused_words_make_no_folder,
    directory_has_one_process,
    words_are_refused,
    notices_are_printed,
    bytes_may_come_one_by_one,
    connections_come_and_go,
    client_shows_a_conversation,
    bad_input_is_refused,
    cut_unit_is_refused,
    later_bad_unit_is_named,
    bad_seeds_are_refused,
    installations_differ,
    unit_is_answered_at_once,
    closed_output_is_told,
    full_output_is_told,
    broken_pipe_is_told,
    directory_as_input_is_told,
    closed_input_is_told,
)


def passes(check):
    """Makes one check and prints how it ended."""
    name = check.__name__.replace("_", " ")
    try:
        check()
    except (AssertionError, OSError, subprocess.TimeoutExpired) as error:
        print(f"FAILED  {name}: {error}", flush=True)
        return False
    print(f"ok      {name}", flush=True)
    return True


def main():
    # The build is proved first, and may take far longer than the checks.
    if not is_built():
        print("FAILED  the program is not built")
        return 1
    try:
        results = [passes(check) for check in CHECKS]
    finally:
        shutil.rmtree(SCRATCH)
    print(f"{results.count(True)} passed, {results.count(False)} failed")
    return 0 if all(results) else 1


if __name__ == "__main__":
    sys.exit(main())
