#!/usr/bin/env python3
"""Follows the system calls of the built program, and makes each of them fail once.

Runs go under strace. Before a reply is written, all that was written, created, renamed, removed or
read until then has to be synced. A file is appended to at its end, and read from offset to offset.
Where a call on the directory, the input or the output fails, the run has to end with the status of
that one, and a further run has to find each commit that was acknowledged. A write that takes fewer
bytes than it was given goes on with the others.

A line is printed for each check that fails, and the status is 0 only where none does. Where strace
isn't installed, or may not trace, only the checks that don't need it are made.
"""

import os
import random
import re
import resource
import shutil
import subprocess
import sys
import tempfile
from collections import Counter
from dataclasses import dataclass
from pathlib import Path

from iproto import GREETING_BYTES, SEED, contents, input_unit, ok_reply, output_unit, request, tuples_reply
from program import EXAMPLE, GREETING, ROOT, TRACE, environment, expect, run_checks
from steps import END, block, expect_bytes, journal_header, rows_of, transaction

# strace is given the program itself, and not the script that builds it.
BUILT = ROOT / "crates" / "mx_program" / "out" / "mx_program"
SECONDS = 60
SCRATCH = Path(tempfile.mkdtemp(prefix="vurandy-")).resolve()
SHUFFLES = random.Random(20261128)

INPUT, OUTPUT = (EXAMPLE / "input.bin").read_bytes(), (EXAMPLE / "output.bin").read_bytes()
STDIN, STDOUT = 0, 1
STATUSES = {0: None, 2: "BadWords", 3: "ReadFault", 4: "WriteFault", 5: "DiskFault"}


def new_folder():
    """A folder of its own for a run, in which the run makes its directory."""
    return Path(tempfile.mkdtemp(dir=SCRATCH))


def journal_name(number):
    """The name of the journal that begins at the vclock of this signature."""
    return f"{number:020}.xlog"


def tuple_of(key):
    """The tuple that is put for a key."""
    return [key, str(key)]


def replace(key):
    """A unit with a REPLACE of a key's tuple."""
    return replace_all([key])


def replace_all(keys):
    """A unit with a REPLACE of the tuple of each of these keys."""
    return input_unit(b"".join(request("REPLACE", key, space=512, tuple=tuple_of(key)) for key in keys))


def select(key):
    """A unit with a SELECT of a key."""
    return input_unit(request("SELECT", key, space=512, limit=1, iterator="EQ", key=[key]))


def replies(*held):
    """The output units of one reply each, the first of which the greeting comes before."""
    return b"".join(output_unit((b"" if at else GREETING) + one) for at, one in enumerate(held))


def run(folder, given, arguments=TRACE, seed=SEED, before=(), **options):
    """Runs the program to its end in a folder, under the command `before` it if there is one."""
    source = folder / "input"
    source.write_bytes(given)
    with source.open("rb") as stdin:
        return subprocess.run(
            [*before, BUILT, *arguments],
            stdin=stdin,
            capture_output=True,
            env=environment(seed),
            cwd=folder,
            **options,
        )


def check_end(ended, status, output):
    """Checks the status, its line on standard error, and the output."""
    expect("status", status, ended.returncode)
    line = ended.stderr.decode(errors="replace").split("\n")[0]
    expect("first line on standard error", STATUSES[status] or "", line)
    expect("output", output.hex(), ended.stdout.hex())


def commit(folder, keys):
    """Commits the tuples of these keys in a run of their own, which begins a journal."""
    check_end(run(folder, b"".join(map(replace, keys))), 0, replies(*(tuples_reply(key, tuple_of(key)) for key in keys)))


def keys_found(folder, last):
    """The keys from 1 up to this one that a further run finds, each with its own tuple."""
    keys = range(1, last + 1)
    ended = run(folder, b"".join(map(select, keys)))
    expect("status of the further run", 0, ended.returncode)
    held = contents(ended.stdout)
    expect("number of output units of the further run", last, len(held))
    answers = [held[0][GREETING_BYTES:], *held[1:]]
    found = [key for key, answer in zip(keys, answers) if answer != tuples_reply(key)]
    for key in found:
        expect(f"reply to SELECT of {key}", tuples_reply(key, tuple_of(key)).hex(), answers[key - 1].hex())
    return found


@dataclass(frozen=True)
class Call:
    """A system call, as strace prints it with the path of each descriptor."""

    name: str
    arguments: str
    result: int
    # Its place among the calls of its name, from 1 on.
    number: int
    folder: Path

    @property
    def descriptor(self):
        """The number of the descriptor that it is made on."""
        found = re.match(r"\d+", self.arguments)
        return int(found.group()) if found else None

    @property
    def path(self):
        """The path of that descriptor, or the one that is named first."""
        found = re.match(r"\d+<([^>]*)>", self.arguments)
        return Path(found.group(1)) if found else self.named[0] if self.named else None

    @property
    def named(self):
        """The paths that it names."""
        return [Path(os.path.normpath(self.folder / name)) for name in re.findall(r'"([^"]+)"', self.arguments)]

    @property
    def last(self):
        """The last argument: the offset of a `pread64` or a `pwrite64`, and how many bytes a `write` has."""
        return int(self.arguments.rpartition(", ")[2])

    def is_inside(self):
        """Whether it is made on the run's folder or anything in it."""
        return self.path is not None and (self.path == self.folder or self.folder in self.path.parents)

    def writes_reply(self):
        """Whether it writes to the output."""
        return self.name.startswith("write") and self.descriptor == STDOUT

    def writes_to(self, path):
        """Whether it changes the bytes of a file."""
        return self.name in ("write", "writev", "pwrite64", "ftruncate") and self.path == path

    def reads(self, path):
        """Whether it reads of a file."""
        return self.name in ("read", "readv", "pread64") and self.path == path

    def syncs(self, path):
        """Whether it makes a file's bytes or a folder's names durable."""
        return self.name in ("fsync", "fdatasync") and self.path == path

    def renames(self, old, new):
        """Whether it gives the file of the one path the other."""
        return self.name.startswith("rename") and self.named == [old, new]


def traced(folder, given, failing=None, outcome="error=EIO"):
    """A run in a folder, in which this call fails or comes out so, if there is one, and the calls that it made."""
    log = folder / "calls"
    before = ["strace", "-y", "-s", "0", "-o", log, "-e", "trace=file,desc"]
    if failing is not None:
        before += ["-e", f"inject={failing.name}:{outcome}:when={failing.number}"]
    ended = run(folder, given, before=before)
    calls, numbers = [], Counter()
    for line in log.read_text().splitlines():
        if found := re.match(r"(\w+)\((.*)\) += (-?\d+)", line):
            name, arguments, result = found.groups()
            numbers[name] += 1
            calls.append(Call(name, arguments, int(result), numbers[name], folder))
    return ended, calls


def check_order(calls, *steps):
    """Checks that each of these calls succeeds, after the one before it."""
    at = 0
    for what, is_step in steps:
        while at < len(calls) and not (calls[at].result >= 0 and is_step(calls[at])):
            at += 1
        assert at < len(calls), f"{what}: expected a call in this place, saw none"
        at += 1


def check_durable(calls):
    """Checks that at each reply all that was changed or read so far is durable."""
    volatile = set()
    for call in calls:
        if call.result < 0:
            continue
        if call.writes_reply():
            expect("paths that aren't synced before a reply", [], sorted(map(str, volatile)))
        if not call.is_inside() or call.path == call.folder / "input":
            continue
        if call.name == "rename":
            assert call.path not in volatile, f"{call.path.name} is renamed before it is synced"
        if call.name in ("mkdir", "rename", "unlink") or "O_CREAT" in call.arguments:
            volatile.update(path.parent for path in call.named)
        if call.name == "getdents64" or call.writes_to(call.path) or call.reads(call.path):
            volatile.add(call.path)
        if call.syncs(call.path):
            volatile.discard(call.path)


def new_directory_is_durable_before_a_reply():
    folder = new_folder()
    ended, calls = traced(folder, INPUT)
    check_end(ended, 0, OUTPUT)
    check_durable(calls)
    directory = folder / "DIR"
    journal = directory / journal_name(0)
    draft = directory / (journal.name + ".inprogress")
    check_order(
        calls,
        ("making the folder", lambda call: call.name == "mkdir" and call.named == [directory]),
        ("syncing the folder's parent", lambda call: call.syncs(folder)),
        ("the first reply", Call.writes_reply),
    )
    check_order(
        calls,
        ("writing the header", lambda call: call.writes_to(draft) and call.name != "ftruncate"),
        ("syncing the header", lambda call: call.syncs(draft)),
        ("giving the journal its name", lambda call: call.renames(draft, journal)),
        ("syncing the name", lambda call: call.syncs(directory)),
        ("appending the commit", lambda call: call.writes_to(journal)),
        ("syncing the commit", lambda call: call.syncs(journal)),
        ("the first reply", Call.writes_reply),
        ("appending the end marker", lambda call: call.writes_to(journal)),
        ("syncing the end marker", lambda call: call.syncs(journal)),
    )


def each_commit_is_durable_before_its_reply():
    folder = new_folder()
    keys = range(1, 6)
    ended, calls = traced(folder, b"".join(map(replace, keys)))
    check_end(ended, 0, replies(*(tuples_reply(key, tuple_of(key)) for key in keys)))
    check_durable(calls)
    journal = folder / "DIR" / journal_name(0)
    steps = []
    for key in keys:
        steps += [
            (f"appending commit {key}", lambda call: call.writes_to(journal)),
            (f"syncing commit {key}", lambda call: call.syncs(journal)),
            (f"reply {key}", Call.writes_reply),
        ]
    check_order(calls, *steps)


def transaction_is_appended_at_its_commit():
    folder = new_folder()
    rows = [("REPLACE", {"space": 512, "tuple": tuple_of(key)}, None) for key in (2, 3, 4)]
    asked = [request("BEGIN", 1, 1), *(request(name, sync, 1, **body) for sync, (name, body, _) in enumerate(rows, 2))]
    due = [ok_reply(1), *(tuples_reply(key, tuple_of(key)) for key in (2, 3, 4)), ok_reply(5)]
    ended, calls = traced(folder, b"".join(map(input_unit, [*asked, request("COMMIT", 5, 1)])))
    check_end(ended, 0, replies(*due))
    check_durable(calls)
    journal = folder / "DIR" / journal_name(0)
    appends = [call.result for call in calls if call.writes_to(journal)]
    expect("bytes of each append", [len(transaction(1, *rows)), len(END)], appends)
    check_order(
        calls,
        *((f"reply {number}", Call.writes_reply) for number in range(1, len(due))),
        ("appending the rows", lambda call: call.writes_to(journal)),
        ("syncing the rows", lambda call: call.syncs(journal)),
        ("the last reply", Call.writes_reply),
    )


def commits_of_a_unit_are_appended_and_synced_once():
    folder = new_folder()
    keys = range(1, 2001)
    rows = [rows_of(key, ("REPLACE", {"space": 512, "tuple": tuple_of(key)}, None)) for key in keys]
    ended, calls = traced(folder, replace_all(keys))
    check_end(ended, 0, replies(b"".join(tuples_reply(key, tuple_of(key)) for key in keys)))
    check_durable(calls)
    journal = folder / "DIR" / journal_name(0)
    held = block(b"".join(rows))
    appends = [call.result for call in calls if call.writes_to(journal)]
    expect("bytes of each append", [len(held), len(END)], appends)
    expect("syncs of the journal", 2, sum(call.syncs(journal) for call in calls))
    check_order(
        calls,
        ("appending the commits", lambda call: call.writes_to(journal)),
        ("syncing the commits", lambda call: call.syncs(journal)),
        ("the replies", Call.writes_reply),
        ("appending the end marker", lambda call: call.writes_to(journal)),
    )
    expect_bytes("the journal", journal_header(0) + held + END, journal.read_bytes())


def journals_that_are_read_are_durable_before_a_reply():
    folder = new_folder()
    keys = (1, 2, 3)
    for key in keys:
        commit(folder, [key])
    ended, calls = traced(folder, b"".join(map(select, keys)))
    check_end(ended, 0, replies(*(tuples_reply(key, tuple_of(key)) for key in keys)))
    check_durable(calls)
    directory = folder / "DIR"
    newest = directory / journal_name(3)
    for number in range(3):
        journal = directory / journal_name(number)
        check_order(
            calls,
            (f"reading journal {number}", lambda call: call.reads(journal)),
            (f"syncing journal {number}", lambda call: call.syncs(journal)),
            ("syncing the names", lambda call: call.syncs(directory)),
            ("giving the new journal its name", lambda call: call.name == "rename" and call.named[1] == newest),
            ("the first reply", Call.writes_reply),
        )


def files_are_appended_to():
    folder = new_folder()
    commit(folder, [1])
    _, calls = traced(folder, replace(2) + replace(3))
    sizes, appending = Counter(), {}
    for call in calls:
        if not call.is_inside() or call.result < 0:
            continue
        if call.name == "openat":
            appending[call.result] = "O_APPEND" in call.arguments
        if call.name == "ftruncate":
            expect("size that a new file is cut to", 0, call.last)
            sizes[call.path] = 0
        if call.name in ("write", "writev", "pwrite64"):
            if call.name == "pwrite64":
                expect("offset of an append", sizes[call.path], call.last)
            else:
                assert appending[call.descriptor], f"{call.path.name} isn't open for appends"
            sizes[call.path] += call.result
    assert sizes, "no file was written"


def append_that_is_cut_short_goes_on():
    row = ("REPLACE", {"space": 512, "tuple": tuple_of(1)}, None)
    whole, cut = len(transaction(1, row)), 10
    _, calls = traced(new_folder(), replace(1))
    append = next(call for call in calls if call.writes_to(call.folder / "DIR" / journal_name(0)))
    folder = new_folder()
    # The system takes nothing, and tells that it took the first bytes.
    ended, made = traced(folder, replace(1), append, f"retval={cut}")
    check_end(ended, 0, replies(tuples_reply(1, tuple_of(1))))
    check_durable(made)
    appends = [(call.last, call.result) for call in made if call.writes_to(folder / "DIR" / journal_name(0))]
    expect("bytes of each append", [(whole, cut), (whole - cut, whole - cut), (len(END), len(END))], appends)


def append_that_ends_at_a_limit_is_told():
    rows = [("REPLACE", {"space": 512, "tuple": tuple_of(key)}, None) for key in (1, 2)]
    first, second = (transaction(lsn, row) for lsn, row in enumerate(rows, 1))
    held = journal_header(0) + first + second[: len(second) // 2]
    folder = new_folder()
    # A write that passes the limit takes what fits, and only the next one fails: without a signal, as Python has it.
    ended = run(
        folder,
        replace(1) + replace(2),
        preexec_fn=lambda: resource.setrlimit(resource.RLIMIT_FSIZE, (len(held), len(held))),
        restore_signals=False,
    )
    check_end(ended, 5, replies(tuples_reply(1, tuple_of(1))))
    expect_bytes("the journal", held, (folder / "DIR" / journal_name(0)).read_bytes())
    expect("keys found", [1], keys_found(folder, 2))


def journals_are_read_from_offset_to_offset():
    folder = new_folder()
    long_text = "x" * 70_000
    given = b"".join(input_unit(request("REPLACE", key, space=512, tuple=[key, long_text])) for key in (1, 2, 3))
    expect("status of the run before", 0, run(folder, given).returncode)
    journal = folder / "DIR" / journal_name(0)
    ended, calls = traced(folder, select(3))
    check_end(ended, 0, replies(tuples_reply(3, [3, long_text])))
    reads = [call for call in calls if call.reads(journal)]
    at = 0
    for call in reads:
        expect("call that reads a journal", "pread64", call.name)
        expect("offset of a read", at, call.last)
        at += call.result
    expect("bytes that were read", journal.stat().st_size, at)
    assert len(reads) > 1, "all of the journal was read in one call"


def is_outside(call):
    """Whether a call is one on the directory, the input or the output, that can fail."""
    if call.name in ("close", "lseek", "fcntl", "dup", "execve"):
        return False
    if call.name == "read" and call.descriptor == STDIN:
        return True
    return call.writes_reply() or call.is_inside()


def status_of(call):
    """The status of a run in which this call fails."""
    if call.name == "read" and call.descriptor == STDIN:
        return 3
    return 4 if call.writes_reply() else 5


def each_call_that_fails_is_told():
    base = new_folder()
    commit(base, [1])
    # What a run left that was killed while it began a journal: this is removed.
    (base / "DIR" / (journal_name(1) + ".inprogress")).write_bytes(b"XLOG\n")
    for units in (((2,), (3,)), ((2, 3), (4, 5, 6))):
        given = b"".join(map(replace_all, units))
        _, calls = traced(copy_of(base), given)
        due = replies(*(b"".join(tuples_reply(key, tuple_of(key)) for key in keys) for keys in units))
        failing = [at for at, call in enumerate(calls) if is_outside(call)]
        expect("calls of a run", True, len(failing) > 20)
        for at in failing:
            check_fault(copy_of(base), given, calls, at, due, units)


def copy_of(base):
    """A folder like this one, whose run makes the same calls."""
    folder = new_folder()
    shutil.copytree(base / "DIR", folder / "DIR")
    return folder


def check_fault(folder, given, calls, at, due, units):
    """Checks a run on these units in which the call of this place fails, and what a further run finds then."""
    call = calls[at]
    sent = [one for one in calls[:at] if one.writes_reply()]
    try:
        ended, made = traced(folder, given, failing=call)
        check_end(ended, status_of(call), due[: sum(one.result for one in sent)])
        check_durable(made)
        if status_of(call) == 5:
            later = [one.name for one in made[at + 1 :] if is_outside(one)]
            expect("calls after the one that failed", [], later)
        found = keys_found(folder, units[-1][-1] + 1)
        # Each unit's commits are found or none of them is, and those of the answered units are.
        ends = [1, *(keys[-1] for keys in units)][len(sent) :]
        assert found == list(range(1, len(found) + 1)), f"keys found: {found}"
        assert len(found) in ends, f"keys found: expected one of {ends}, saw {len(found)}"
    except AssertionError as error:
        where = call.arguments.replace(str(call.folder), "")
        raise AssertionError(f"where call {call.number} of {call.name}({where}) fails: {error}") from error


def files_are_read_in_name_order():
    keys = range(1, 9)
    base = new_folder()
    for key in keys:
        commit(base, [key])
    names = sorted(path.name for path in (base / "DIR").iterdir())
    expect("files", [journal_name(number) for number in range(8)], names)
    orders = [names, names[::-1], *(SHUFFLES.sample(names, len(names)) for _ in range(4))]
    listed = []
    for order in orders:
        folder = new_folder()
        (folder / "DIR").mkdir()
        for name in order:
            shutil.copy(base / "DIR" / name, folder / "DIR" / name)
        listed.append(os.listdir(folder / "DIR"))
        expect(f"keys found of files made in the order {order}", list(keys), keys_found(folder, len(keys)))
    assert any(order != names for order in listed), "the system lists all of these folders in name order"


def refused_starts_make_no_folder():
    refused = [
        (arguments, SEED)
        for arguments in ([], ["trace"], ["trace", ""], ["trace", "-DIR"], ["trace", "DIR", "OTHER"], ["nodes", "DIR"])
    ]
    refused += [(TRACE, seed) for seed in ("", SEED[1:], SEED + "0", "g" + SEED[1:])]
    for arguments, seed in refused:
        folder = new_folder()
        check_end(run(folder, INPUT, arguments, seed), 2, b"")
        expect(f"files left by {arguments} with the seed {seed!r}", ["input"], os.listdir(folder))


PLAIN = (append_that_ends_at_a_limit_is_told, files_are_read_in_name_order, refused_starts_make_no_folder)
TRACED = (
    new_directory_is_durable_before_a_reply,
    each_commit_is_durable_before_its_reply,
    transaction_is_appended_at_its_commit,
    commits_of_a_unit_are_appended_and_synced_once,
    journals_that_are_read_are_durable_before_a_reply,
    files_are_appended_to,
    append_that_is_cut_short_goes_on,
    journals_are_read_from_offset_to_offset,
    each_call_that_fails_is_told,
)


def can_trace():
    """Whether strace is installed, and may trace."""
    if shutil.which("strace") is None:
        return False
    return subprocess.run(["strace", "-o", os.devnull, "true"], capture_output=True).returncode == 0


def main():
    is_traced = can_trace()
    if not is_traced:
        print(f"trace_program: strace isn't installed or may not trace, so {len(TRACED)} checks aren't made")
    checks = [(check.__name__.replace("_", " "), check) for check in (PLAIN + TRACED if is_traced else PLAIN)]
    return run_checks("trace_program", checks, SECONDS, SCRATCH)


if __name__ == "__main__":
    sys.exit(main())
