"""Kills the example converter before and after each system call that changes files or flushes them, at random times, and eight at once.

After each kill it is started again. At the end no index was used twice, every finished signature is accepted, and the marks used are at
most the signatures and the restarts and one. SEED in the environment gives other random choices than the usual ones.
"""
import os
import random
import signal
import subprocess
import sys
import tempfile
import time
from pathlib import Path

from room import KEY, KILLED, NAMES, PAGE, SECRET, Room, accepted, index_of, record_fits
from signer import KEY_BYTES, MARKS, page_with

SEED = int(os.environ.get("SEED", "8391"))
RESTARTS = 300
TABLES = ["classes", "columns", "stacks", "reefers"]
LENGTHS = [0, 1, 1000, 65536]

# What a run does to files, in its order. The mark is flushed before the time is spent that signing takes.
MAKING = [
    *((kind, f"{name}.new") for name in (SECRET, PAGE, KEY) for kind in ("remove", "create")),
    *((kind, f"{name}.new") for name in (SECRET, PAGE, KEY) for kind in ("write", "flush")),
    ("name", SECRET), ("name", PAGE), ("flush", "yard"), ("name", KEY), ("flush", "yard"), ("write", "output"),
]
SIGNING = [
    ("remove", "new"), ("create", "new"), ("claim", "new"), ("write", PAGE), ("flush", PAGE),
    ("write", "new"), ("flush", "new"), ("name", "classes.sig"), ("flush", "room"), ("write", "output"),
]
# The numbers of calls count from 1. A run that is cut at one of the first takes no time.
MARK_FLUSHED = 1 + SIGNING.index(("flush", PAGE))
BEFORE_SIGNING = range(1, MARK_FLUSHED + 1)


def places(calls):
    """Before and after each call, numbered from 1."""
    return [(when, number) for number in range(1, len(calls) + 1) for when in ("before", "after")]


class History(Room):
    """One key's signatures, with all that was seen of them."""

    def __init__(self, at, program, chance, used=0):
        super().__init__(at, program)
        self.chance, self.restarts, self.most_used = chance, 0, used
        self.indices, self.seen = {}, {}
        self.making = self.calls("make-key")
        self.key = self.key_files()[KEY]
        assert self.used() == 0, "a new key's page is not fresh"
        (self.yard / PAGE).write_bytes(self.key + page_with(used))
        self.used_at_start = used

    def new_table(self, table):
        self.write(table, self.chance.randbytes(self.chance.choice(LENGTHS)))
        return table

    def observe(self):
        """What holds whenever no signer runs."""
        used = self.used()
        assert used >= self.most_used, "marks came back"
        self.most_used = used
        for table in TABLES:
            signature = self.signature(table)
            if signature is None or signature == self.seen.get(table):
                continue
            index = index_of(signature)
            assert index not in self.indices, f"index {index} twice"
            assert index < used, f"index {index} has no mark"
            assert accepted(self, table, self.key), f"the signature with index {index} is not accepted"
            self.indices[index] = self.seen[table] = signature
        assert used - self.used_at_start <= len(self.indices) + self.restarts + 1, "too many marks used"

    def sign(self, cut=()):
        """One run, whole or cut at a system call."""
        table = self.new_table(self.chance.choice(TABLES))
        status, said = self.run("sign", table, cut=cut)
        assert status in ((KILLED,) if cut else (0, 8)), said
        self.restarts += status == KILLED
        signatures, used = len(self.indices), self.most_used
        self.observe()
        assert self.most_used <= used + 1, "a run used two marks"
        if status == 0:
            assert len(self.indices) == signatures + 1 and self.most_used == used + 1, "a whole run is one signature and one mark"
            assert not [name for name in self.left_over() if name.startswith(table)], "a file is left after a whole run"
        return status

    def sign_until(self, seconds):
        """One run, killed after so many seconds where it has not ended by then."""
        signer = self.start("sign", self.new_table(self.chance.choice(TABLES)))
        try:
            said, _ = signer.communicate(timeout=seconds)
            assert signer.returncode in (0, 8), said
        except subprocess.TimeoutExpired:
            signer.kill()
            signer.communicate()
        self.restarts += signer.returncode == -signal.SIGKILL
        self.observe()

    def summary(self):
        return f"{len(self.indices)} signatures, {self.restarts} restarts, {self.most_used - self.used_at_start} marks used"


def order_is_kept(history):
    """The calls come in the order that a power cut needs, and signing takes place after the mark is on the disk."""
    def names(calls):
        roles = {history.at.name: "room"}
        return [(kind, "new" if ".sig." in name else "output" if name.startswith("pipe:") else roles.get(name, name))
                for kind, name, _ in calls]
    assert names(history.making) == MAKING, names(history.making)
    calls = history.calls("sign", history.new_table("classes"))
    history.observe()
    assert names(calls) == SIGNING, names(calls)
    marked, written = (spent for _, _, spent in calls[MARK_FLUSHED - 1:MARK_FLUSHED + 1])
    assert written > 10 * (marked + 1), f"signed before the mark was stored: {marked} ms and {written} ms"
    print(f"order: {len(MAKING)} calls of make-key and {len(SIGNING)} of sign as listed; {marked} ms of processor time before the mark is "
          f"flushed and {written} ms before the signature is written", flush=True)


def lock_is_held(history):
    """A second signer is refused at every call of the first up to the signature's name, and the mark is stored before the signature is."""
    used = history.used()
    log, answers = history.at / "calls.log", history.at / "answers"
    os.mkfifo(log)
    os.mkfifo(answers)
    cut = ("step", log, answers)
    history.new_table("columns")
    command = history.command("sign", history.new_table("stacks"), cut=cut)
    with subprocess.Popen(command, stdout=subprocess.PIPE, **history.settings()) as signer:
        with log.open() as calls, answers.open("wb", buffering=0) as go_on:
            for (kind, role), line in zip(SIGNING, calls):
                assert kind == line.split("\t")[1], line
                if role != "output":
                    status, said = history.run("--no-wait", "sign", "columns")
                    assert status == 75, f"at {kind} of {role}: {said}"
                if role == "new" and kind in ("write", "flush"):
                    assert history.used() == used + 1, "the signature is written before its mark"
                go_on.write(b"\n")
        assert "signed" in signer.communicate()[0].decode()
    log.unlink()
    answers.unlink()
    history.observe()
    print(f"lock: a second signer was refused at each of {len(SIGNING) - 1} calls", flush=True)


def left_by_a_cut_making(room, sizes):
    """No partial file has its name, a public key has its record and page, and nothing is made over."""
    files = room.key_files()
    assert all(content is None or len(content) == sizes[name] for name, content in files.items()), "a partial file"
    if files[SECRET] and files[PAGE]:
        assert record_fits(files[SECRET], files[PAGE][:KEY_BYTES]), "files of two keys"
    if files[KEY]:
        assert room.used() == 0
    if any(files.values()):
        status, said = room.run("make-key")
        assert status == 73 and ("by hand" in said) == (files[KEY] is None) and room.key_files() == files, said
        assert files[KEY] or room.run("sign", "table")[0] == 66, "signed before the public key was there"


def making_survives(at, program, sizes):
    # Making and signing take seconds, so they are done after three of the kills: where all is written and nothing has its name, where
    # the signer's files have theirs and are removed by hand, and where all have.
    done_again = [("after", 1 + MAKING.index(call)) for call in (("flush", f"{KEY}.new"), ("name", PAGE))]
    for when, number in places(MAKING):
        room = Room(at / f"{when}-{number}", program)
        room.write("table", b"")
        status, said = room.run("make-key", cut=(when, number))
        assert status == KILLED, said
        left_by_a_cut_making(room, sizes)
        if (when, number) in done_again:
            for name in NAMES:
                (room.yard / name).unlink(missing_ok=True)
            assert room.run("make-key")[0] == 0 and room.used() == 0 and not room.left_over()
    # The last kill came when all was done.
    status, said = room.run("sign", "table")
    assert status == 0 and accepted(room, "table", room.key_files()[KEY]), said
    print(f"make-key: killed {len(places(MAKING))} times, {len(done_again)} keys made over what that left", flush=True)


def signing_survives(history, typical):
    for when, number in places(SIGNING):
        history.sign(cut=(when, number))
    print(f"sign: killed before and after each call: {history.summary()}", flush=True)
    while history.restarts < RESTARTS and history.most_used < MARKS:
        # Most kills come early, as what comes before signing takes no time.
        which = history.chance.random()
        if which < 0.05:
            history.sign()
        elif which < 0.17:
            history.sign_until(history.chance.uniform(0, 1.1 * typical))
        else:
            history.sign(cut=(history.chance.choice(["before", "after"]), history.chance.choice(BEFORE_SIGNING)))
    print(f"sign: killed at random calls and times too: {history.summary()}", flush=True)


def page_is_used_up(history, typical):
    while history.most_used < MARKS:
        history.chance.choice([
            history.sign,
            lambda: history.sign(cut=(history.chance.choice(["before", "after"]), history.chance.randint(1, len(SIGNING)))),
            lambda: history.sign_until(history.chance.uniform(0, 1.1 * typical)),
        ])()
    before = [history.left_over(), *map(history.signature, TABLES)]
    assert history.sign() == 8 and [history.left_over(), *map(history.signature, TABLES)] == before
    print(f"the last {MARKS - history.used_at_start} indices: {history.summary()}, and then the page is full", flush=True)


def table_in_work(history, signers):
    """The one whose signature is being made: it has a file beside its name."""
    while not history.left_over():
        assert any(signer.poll() is None for signer in signers), "no signer runs"
        time.sleep(0.01)
    return history.left_over()[0].split(".")[0]


def eight_at_once(history, kills):
    """Eight signers of eight tables. Some are killed while they sign, and as many while they wait."""
    tables = [f"table-{number}" for number in range(8)]
    for table in tables:
        (history.at / f"{table}.sig").unlink(missing_ok=True)
    for name in history.left_over():
        (history.at / name).unlink()
    signers = {table: history.start("sign", history.new_table(table)) for table in tables}
    for _ in range(kills):
        signing = table_in_work(history, signers.values())
        waiting = next(table for table in tables if table != signing and signers[table].poll() is None)
        for table in (waiting, signing):
            signers[table].kill()
            signers[table].wait()
        for name in history.left_over():
            if name.startswith(signing):
                (history.at / name).unlink()
    said = [signer.communicate()[0] for signer in signers.values()]
    killed = sum(signer.returncode == -signal.SIGKILL for signer in signers.values())
    assert all(signer.returncode in (0, -signal.SIGKILL) for signer in signers.values()) and killed <= 2 * kills, said
    history.restarts += killed
    for table in tables:
        if signature := history.signature(table):
            assert accepted(history, table, history.key)
            assert index_of(signature) not in history.indices, f"index {index_of(signature)} twice"
            history.indices[index_of(signature)] = signature
    history.observe()
    print(f"eight at once, {killed} killed: {history.summary()}", flush=True)


def main(program):
    print(f"SEED={SEED}", flush=True)
    chance = random.Random(SEED)
    with tempfile.TemporaryDirectory() as name:
        at = Path(name)
        history = History(at / "history", program, chance)
        order_is_kept(history)
        from_time = time.monotonic()
        history.sign()
        typical = time.monotonic() - from_time
        lock_is_held(history)
        eight_at_once(history, 0)
        eight_at_once(history, 2)
        making_survives(at / "making", program, {name: len(content) for name, content in history.key_files().items()})
        signing_survives(history, typical)
        page_is_used_up(History(at / "last", program, chance, MARKS - 12), typical)


if __name__ == "__main__":
    main(sys.argv[1])
