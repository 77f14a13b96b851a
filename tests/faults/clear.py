"""Each refusal of the example converter: its exit status, its words, and that nothing was lost or changed.

First the files are damaged, then calls of the system fail by tests/faults/cut.c: a full disk is one that answers ENOSPC.
"""
import errno
import os
import shutil
import stat
import subprocess
import sys
import tempfile
import time
from contextlib import suppress
from pathlib import Path

import chosen_path
from room import KEY, NAMES, PAGE, SECRET, Room, accepted, index_of
from signer import KEY_BYTES, MARKS, page_with

TABLE = b"class 3 stands in column 7\n"
LONG = bytes(65537)
NOBODY = ["setpriv", "--reuid=65534", "--regid=65534", "--clear-groups"]


def state(room):
    """All files and their content."""
    return {str(path.relative_to(room.at)): path.read_bytes() for path in sorted(room.at.rglob("*")) if path.is_file()}


class Refusals:
    """Copies of a good room, in which one thing is wrong. None of them signs: the copies have one key."""

    def __init__(self, good, at):
        self.good, self.at, self.count = good, at, 0

    def refused(self, status, words, *command, before=(), **files):
        """`files` are those that differ, by names in which the dot is an underscore; None is a missing one."""
        self.count += 1
        room = Room(self.at / str(self.count), self.good.program)
        shutil.copytree(self.good.at, room.at, dirs_exist_ok=True)
        for name, content in files.items():
            path = (room.yard if name.startswith("layout") else room.at) / name.replace("_", ".")
            path.unlink(missing_ok=True)
            if content is not None:
                path.write_bytes(content)
        kept = state(room)
        answer, said = room.run(*command, before=before)
        assert answer == status, f"status {answer}, not {status}: {said}"
        number = f"(outcome {status})" if status < 64 else f"(status {status})"
        for word in (number, *words):
            assert word in said, f"'{word}' is not in: {said}"
        assert said.count("\n") == 1 and said.endswith(".\n"), said
        assert state(room) == kept, f"{set(state(room).items()) ^ set(kept.items())} by: {said}"
        print(f"{status:3}  {said}", end="", flush=True)


def typed(kind, content):
    return kind.to_bytes(4, "big") + content[4:]


def signing_is_refused(cases, files, other):
    key, secret, page = (files[name] for name in NAMES)
    sign = ("sign", "table")
    not_given = "no signature was given"
    cases.refused(66, ["layout.page", "made anew", not_given], *sign, layout_page=None)
    cases.refused(66, ["layout.secret", not_given], *sign, layout_secret=None)
    cases.refused(66, ["layout.key", not_given], *sign, layout_key=None)
    cases.refused(66, ["table", not_given], *sign, table=None)
    for size in (195, 197, 68, 67, 0):
        cases.refused(7, ["layout.page", "damaged", not_given], *sign, layout_page=(page + b"\0")[:size])
    for marks in (b"\x7f\x7f", b"\xbf"):
        cases.refused(7, ["layout.page", "damaged"], *sign, layout_page=key + marks + page[KEY_BYTES + len(marks):])
    cases.refused(8, ["layout.page", "every index", "make a new key"], *sign, layout_page=key + page_with(MARKS))
    cases.refused(65, ["layout.page", "another key", not_given], *sign, layout_page=other[PAGE])
    cases.refused(65, ["layout.key", "another key", not_given], *sign, layout_key=other[KEY])
    cases.refused(65, ["layout.page", "another key", not_given], *sign, layout_secret=other[SECRET])
    for size in (0, 3, 131, 133):
        cases.refused(1, ["layout.secret", "wrong length", not_given], *sign, layout_secret=(secret + b"\0")[:size])
    for kind in (0, 2, 3, 7, 2 ** 24):
        cases.refused(2, ["layout.secret", f"key type {kind}:", not_given], *sign, layout_secret=typed(kind, secret))
    cases.refused(4, ["table", "65,536", not_given], *sign, table=LONG)
    cases.refused(4, ["table", "65,536", not_given], *sign, table=LONG * 2)


def checking_is_refused(cases, files):
    key, signature = files[KEY], cases.good.signature("table")
    check = ("check", "table")
    unread, refused = "were not read", "was not accepted"
    for kind in (0, 4, 7, 2 ** 32 - 1):
        cases.refused(2, ["layout.key", f"key type {kind}:", "newer version", unread], *check, layout_key=typed(kind, key))
    # The accident of the yard: no word of a signature, whatever is wrong with it.
    cases.refused(2, ["key type 7:", unread], *check, layout_key=typed(7, key), table_sig=None)
    for size in (0, 67, 69):
        cases.refused(1, ["layout.key", "wrong length", unread], *check, layout_key=(key + b"\0")[:size])
    for size in (0, 2499, 2501, 2692, 4000):
        cases.refused(3, ["table.sig", "wrong length", refused], *check, table_sig=(signature + LONG)[:size])
    cases.refused(3, ["table.sig", "wrong length", refused], *check, layout_key=typed(2, key))
    cases.refused(4, ["table:", "65,536", refused], *check, table=LONG)
    cases.refused(5, ["table.sig", "index", refused], *check, table_sig=typed(1024, signature))
    cases.refused(6, ["table:", "damaged", refused], *check, table=chosen_path.flipped(TABLE, 5))
    cases.refused(6, ["table:", "damaged", refused], *check, table_sig=chosen_path.flipped(signature, 2499))
    cases.refused(66, ["layout.key", refused], *check, layout_key=None)
    cases.refused(66, ["table:", refused], *check, table=None)
    cases.refused(66, ["table.sig", refused], *check, table_sig=None)


def making_is_refused(cases):
    for name in NAMES:
        others = {other.replace(".", "_"): None for other in NAMES if other != name}
        words = ["in another folder", "nothing was changed"] if name == KEY else ["by hand", "nothing was changed"]
        cases.refused(73, [name, *words], "make-key", **others)
    cases.refused(73, [KEY, "nothing was changed"], "make-key")
    cases.refused(66, ["nowhere", "no key was made"], "-d", "nowhere", "make-key")


def misuse_is_refused(cases):
    for words in ((), ("sign",), ("check",), ("sign", "table", "table"), ("make-key", "table"), ("mark",), ("--wait", "make-key"), ("-d",)):
        cases.refused(64, ["--help"], *words)
    status, said = cases.good.run("--help")
    assert status == 0 and all(word in said for word in ("make-key", "sign TABLE", "check TABLE", "--no-wait", "-d FOLDER")), said
    status, said = cases.good.run("--version")
    assert status == 0 and "Zabrintoly 1." in said, said


def permission_is_told(cases):
    """Root may write to any file, so root becomes nobody first. Whoever else runs this can try the read-only page alone."""
    root = os.getuid() == 0
    nobody = NOBODY if root else []
    for folder in (cases.at, cases.at.parent, cases.good.at, cases.good.yard):
        os.chmod(folder, 0o755)
    page, secret = cases.good.yard / PAGE, cases.good.yard / SECRET
    page.chmod(0o444)
    cases.refused(77, [PAGE, "no signature was given"], "sign", "table", before=nobody)
    if root:
        page.chmod(0o666)
        cases.refused(77, [SECRET, "no signature was given"], "sign", "table", before=nobody)
        # Nobody may not write to the folder, and hears it before an index is spent.
        secret.chmod(0o444)
        cases.refused(77, ["table.sig", "no signature was given"], "sign", "table", before=nobody)
        cases.refused(77, [SECRET, "no key was made"], "make-key", before=nobody, layout_key=None, layout_page=None, layout_secret=None)
    page.chmod(0o600)
    secret.chmod(0o600)


def other_types_are_checked(room):
    for kind in (2, 3):
        key = chosen_path.Key("a feeder's table", kind)
        (room.yard / KEY).write_bytes(key.public_key())
        room.write("table", TABLE)
        room.write("table.sig", key.sign(TABLE))
        status, said = room.run("check", "table")
        assert status == 0 and "accepted" in said, said


def open_files(process):
    for link in Path(f"/proc/{process.pid}/fd").iterdir():
        with suppress(FileNotFoundError):
            yield os.readlink(link)


def until_open(process, name):
    """From then on it can only wait for the lock."""
    while not any(file.endswith(name) for file in open_files(process)):
        assert process.poll() is None, process.communicate()[0]
        time.sleep(0.01)


def waiting_is_told(room):
    """One signer at a time: a second waits, or is refused with its own text. Two makers of a key make one."""
    with room.locked("yard"):
        status, said = room.run("--no-wait", "make-key")
        assert status == 75 and "holds the lock" in said and "no key was made" in said, said
        print(f" 75  {said}", end="")
        makers = [room.start("make-key") for _ in range(2)]
        for maker in makers:
            until_open(maker, "yard")
        assert not list(room.yard.iterdir()), "a second maker does not wait"
    said = [maker.communicate()[0] for maker in makers]
    assert sorted(maker.returncode for maker in makers) == [0, 73] and room.used() == 0 and not room.left_over(), said
    room.write("table", TABLE)
    with room.locked():
        status, said = room.run("--no-wait", "sign", "table")
        assert status == 75 and "holds the lock" in said and "no signature was given" in said, said
        print(f" 75  {said}", end="")
        waiting = room.start("sign", "table")
        try:
            waiting.wait(timeout=0.5)
            raise AssertionError("a second signer does not wait")
        except subprocess.TimeoutExpired:
            assert room.used() == 0
    said = waiting.communicate()[0]
    assert waiting.returncode == 0 and "index 0" in said and "1023 more" in said and room.used() == 1, said
    with room.locked():
        waiting = room.start("sign", "table")
        until_open(waiting, PAGE)
        os.rename(shutil.copy(room.yard / PAGE, room.yard / "copy"), room.yard / PAGE)
    said = waiting.communicate()[0]
    assert waiting.returncode == 66 and "another file is in its place" in said and room.used() == 1, said
    print(f" 66  {said}", end="")


def faults_are_told(room):
    """A disk that says it stored the mark and did not, and a secret with one bit changed: no signature is let out."""
    room.write("table", TABLE)
    secret = room.key_files()[SECRET]
    stored = [call[:2] for call in room.calls("sign", "table")].index(("write", PAGE)) + 1
    kept, used = state(room), room.used()
    # An answer of 1 byte stored.
    status, said = room.run("sign", "table", cut=("fail", stored, -1))
    assert status == 70 and "not there when read again" in said and state(room) == kept, said
    print(f" 70  {said}", end="")
    (room.yard / SECRET).write_bytes(chosen_path.flipped(secret, 4))
    status, said = room.run("sign", "table")
    assert status == 70 and "is not accepted" in said and room.read("table.sig") == kept["table.sig"] and not room.left_over(), said
    (room.yard / SECRET).write_bytes(secret)
    assert room.used() == used + 1
    print(f" 70  {said}", end="", flush=True)


def failure_of(kind):
    return errno.ENOSPC if kind in ("create", "claim", "write") else errno.EIO


def disk_fails_under_making(room, calls):
    """Each call of make-key fails once: no key is made, and but for the names that came before nothing is left."""
    for number, (kind, name, _) in enumerate(calls[:-1], 1):
        status, said = room.run("make-key", cut=("fail", number, failure_of(kind)))
        assert status == 74 and ("the file is whole" if number == len(calls) - 1 else "no key was made") in said, f"{kind} {name}: {said}"
        named = [name for kind, name, _ in calls[:number - 1] if kind == "name"]
        assert sorted(path.name for path in room.yard.iterdir()) == sorted(named), f"{kind} {name}: {said}"
        for name in named:
            (room.yard / name).unlink()
    print(f"make-key: {number} calls failed, each told", flush=True)


def disk_fails_under_signing(room, calls):
    """Each call of sign fails once. A full disk costs no index, and no failure a signature that was there."""
    key, indices, spent, used = room.key_files()[KEY], set(), 0, room.used()
    needs_room = next(number for number, (kind, name, _) in enumerate(calls, 1) if ".sig." in name and kind in ("claim", "write"))
    assert room.run("sign", "table", cut=("fail", needs_room, errno.ENOSPC))[0] == 74 and room.used() == used, "a full disk costs an index"
    for number, (kind, name, _) in enumerate(calls[:-1], 1):
        used, signature = room.used(), room.signature("table")
        status, said = room.run("sign", "table", cut=("fail", number, failure_of(kind)))
        assert status == 74 and (name in said or "table.sig" in said), f"{kind} {name}: {said}"
        after_mark, after_name = ((kind, name) in [call[:2] for call in calls[:number - 1]] for kind, name in
                                  (("write", PAGE), ("name", "table.sig")))
        assert room.used() == used + after_mark, f"{kind} {name}: {room.used() - used} marks"
        assert (room.signature("table") != signature) == after_name and accepted(room, "table", key), f"{kind} {name}"
        assert ("the file is whole" in said) == after_name and ("no signature was given" in said) != after_name, said
        assert not room.left_over(), room.left_over()
        spent += after_mark
        indices.add(index_of(room.signature("table")))
        print(f" 74  {said}", end="", flush=True)
    for number, (kind, name, _) in enumerate(calls[:-1], 1):
        if kind in ("create", "claim", "write", "flush"):
            assert room.run("sign", "table", cut=("fail", number, errno.EINTR))[0] == 0, f"{kind} {name} interrupted"
            assert index_of(room.signature("table")) not in indices and accepted(room, "table", key)
            indices.add(index_of(room.signature("table")))
    shortened = [number for number, call in enumerate(calls, 1) if call[0] == "write"][1]
    assert room.run("sign", "table", cut=("short", shortened))[0] == 0 and accepted(room, "table", key), "a short write"
    indices.add(index_of(room.signature("table")))
    assert room.used() == max(indices) + 1
    print(f"sign: {len(calls) - 1} calls failed, {spent} of them with a mark stored; {len(indices)} signatures, no index twice", flush=True)


def main(built, kind):
    with tempfile.TemporaryDirectory() as name:
        at = Path(name)
        os.umask(0)
        # Nobody may not be allowed where it was built.
        program = shutil.copy(built, at / "converter")
        good, other, fresh = (Room(at / part, program) for part in ("good", "other", "fresh"))
        making = good.calls("make-key")
        modes = {name: stat.S_IMODE((good.yard / name).stat().st_mode) for name in NAMES}
        assert modes == {KEY: 0o644, SECRET: 0o600, PAGE: 0o600}, modes
        assert other.run("make-key", leaks=True)[0] == 0 and other.key_files()[SECRET] != good.key_files()[SECRET]
        good.write("table", TABLE)
        status, said = good.run("sign", "table", leaks=True)
        assert status == 0 and "index 0" in said and accepted(good, "table", good.key_files()[KEY]), said
        assert good.run("check", "table", leaks=True)[0] == 0 and good.run("check", "nowhere", leaks=True)[0] == 66

        cases = Refusals(good, at / "cases")
        cases.at.mkdir()
        signing_is_refused(cases, good.key_files(), other.key_files())
        checking_is_refused(cases, good.key_files())
        making_is_refused(cases)
        misuse_is_refused(cases)
        permission_is_told(cases)
        other_types_are_checked(Room(at / "types", program))
        waiting_is_told(fresh)
        faults_are_told(other)
        print(f"{cases.count} refusals, each with its status and its words", flush=True)
        if kind == "all":
            disk_fails_under_making(Room(at / "making", program), making)
            other.write("table", TABLE)
            disk_fails_under_signing(other, other.calls("sign", "table"))


if __name__ == "__main__":
    main(*sys.argv[1:])
