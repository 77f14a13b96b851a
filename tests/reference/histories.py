"""Feeds the program call_script with one key's long random history, and holds what it prints to the model and to the customer's promises.

The caller keeps the page and the session as demand 3 says: cuts lose an answer, a mark is stored whole or not at all, restarts come
anywhere. Calls that such a caller would not make come in between, and their answers are dropped. First the stored script is made anew and
compared. SEED in the environment gives another history than the usual one.
"""
import os
import random
import sys
from pathlib import Path

import call_cases
import xmss
from calls import Script, printed
from limits import LONGEST, message
from signer import MARKS, page_with, used_marks, with_mark

CRATE, SAVED = Path("crates/call_script"), Path("target/outside/calls-agree.script")
SEED = int(os.environ.get("SEED", "8391"))
# A signature takes the program two seconds.
SIGNATURES = 10
LENGTHS = [0, 1, 55, 56, 1000, 65535, 65536]


class History:
    """A step is what the caller did, the number of its call's line, the page and the session before it, and the message's length."""

    def __init__(self, key, chance):
        self.record, self.chance, self.script, self.steps = key.record(), chance, Script(), []
        self.page, self.session, self.given = page_with(0), 0, 0
        self.to_sign = set(chance.sample(range(MARKS), 2 * SIGNATURES))

    def note(self, what, length=0):
        self.steps.append((what, len(self.script.lines) - 1, self.page, self.session, length))

    def restart(self):
        """A reserving or a signing that is cut gives nothing, so that it is no more than this."""
        self.note("restart")
        self.session = 0

    def reserve(self):
        answer = self.script.reserve(self.page, self.session)
        self.note("reserve")
        self.session = answer[1]

    def mark(self):
        """One store in four is cut, before it or after it."""
        _, session, page = self.script.mark(self.page, self.session)
        what = self.chance.choice(["stored"] * 6 + ["cut before", "cut after"])
        self.note("mark, " + what)
        self.session = session
        if what != "cut before":
            self.page = page
        if what != "stored":
            self.restart()

    def sign(self, **changed):
        """Without a change it is a signature where one is due, and a refusal before."""
        call = {"record": self.record, "length": self.chance.choice(LENGTHS), **changed}
        outcome, session, _ = self.script.sign(page=self.page, session=self.session, **call)
        self.note("sign", call["length"])
        self.session = session
        self.given += outcome == 0

    def sign_wrongly(self):
        other_type = xmss.to_byte(self.chance.choice([0, 2, 3, 7]), 4) + self.record[4:]
        self.sign(**self.chance.choice([
            {"length": 65537}, {"out_bytes": 2499}, {"out_bytes": 2501}, {"record": other_type}, {"record": self.record[:-1]},
        ]))

    def stray(self):
        """A call with another session or a damaged page, whose answer nobody takes. It never gives a signature."""
        near = used_marks(self.page) + self.chance.randint(-2, 3)
        session = self.chance.choice([max(0, near), 0, 1, MARKS, MARKS + 1, self.chance.getrandbits(32)])
        page = self.chance.choice([self.page, with_mark(self.page, self.chance.randrange(MARKS)), self.page[:-1], self.page + b"\0"])
        which = self.chance.randrange(3)
        if which == 0:
            self.script.reserve(page, session)
        elif which == 1:
            self.script.mark(page, session)
        elif used_marks(page) != session:
            self.script.sign(self.record, page, session)

    def due(self):
        """The step that a caller without trouble makes next. Most indices are not signed for, as that takes time."""
        if self.session == 0:
            return self.reserve
        if used_marks(self.page) < self.session:
            return self.mark
        return self.sign if self.session - 1 in self.to_sign and self.given < SIGNATURES else self.restart

    def step(self):
        early = [] if used_marks(self.page) == self.session != 0 else [self.sign]
        others = [self.reserve, self.mark, self.sign_wrongly, self.restart, self.stray, *early]
        self.chance.choice([self.due()] * 16 + others)()


def made(key, chance):
    """Until the page is used up, and some steps more."""
    history = History(key, chance)
    while used_marks(history.page) < MARKS:
        history.step()
    for _ in range(100):
        history.step()
    return history


def signature_counts(words, page, session, length, key, indices):
    """A signature carries the pending index, which none had before, and is accepted for its message."""
    signature = bytes.fromhex(words[3])
    index = int.from_bytes(signature[:4], "big")
    assert index == session - 1 and used_marks(page) == session, "a signature without its stored mark"
    assert index not in indices, f"index {index} twice"
    assert xmss.verify(key, message(length), signature), f"the signature of index {index} is not accepted"
    indices.add(index)


def promised(history, lines, key):
    """What demand 3 promises, asserted of what the program printed; the page and the session are carried on by its answers alone."""
    page, session, restarts, indices, reserved = page_with(0), 0, 0, set(), (0, 0xFF)
    for what, number, had_page, had_session, length in history.steps:
        assert (page, session) == (had_page, had_session), "the caller did not keep to the rules"
        if what == "restart":
            session, restarts = 0, restarts + 1
            continue
        words = lines[number].split(" ")
        assert words[0] == what.split(",")[0], "lines and steps are not in step"
        if what == "reserve":
            assert session != 0 or (words[1] == "8") == (used_marks(page) == MARKS), "indices are refused too early or too late"
            reserved = tuple(map(int, words[3:])) if words[1] == "0" else reserved
        elif what == "sign" and words[1] == "0":
            signature_counts(words, page, session, length, key, indices)
        elif what in ("mark, stored", "mark, cut after"):
            stored, (place, value) = bytes.fromhex(words[3]), reserved
            assert stored in (page, page[:place] + bytes([value]) + page[place + 1:]), "marking stores another byte than reserving said"
            page = stored
        session = int(words[2])
        assert used_marks(page) <= len(indices) + restarts + 1, "too many marks used"
    return len(indices), restarts


def compare(history, lines):
    """Ends the test at the first difference, with all that is needed to see it again."""
    for number, (line, model) in enumerate(zip(lines + [""], history.script.lines + [""])):
        if line != model:
            SAVED.parent.mkdir(parents=True, exist_ok=True)
            SAVED.write_bytes(LONGEST + b"".join(history.script.calls[number:number + 1]))
            sys.exit(f"SEED={SEED}, call {number}: printed '{line[:300]}', the model says '{model[:300]}'; the call is in {SAVED}")


def main():
    print(f"SEED={SEED}", flush=True)
    key = call_cases.prepared()
    for name, content in zip(("stdin", "stdout"), call_cases.made(key)):
        if (CRATE / name).read_bytes() != content:
            sys.exit(f"{CRATE / name} is not what tests/make-calls makes today")
    history = made(key, random.Random(SEED))
    lines = printed(history.script)
    compare(history, lines)
    signatures, restarts = promised(history, lines, key.public_key())
    print(f"{len(lines)} calls, {signatures} signatures, {restarts} restarts: every answer is the model's, and the promises hold")


if __name__ == "__main__":
    main()
