"""A folder in which the tests run the example converter: tables, their signatures, and the key's files in `yard`."""
import fcntl
import os
import subprocess
from contextlib import contextmanager
from pathlib import Path

import xmss
from signer import KEY_BYTES, PAGE_BYTES, RECORD_BYTES, SIGNATURE_BYTES, used_marks

CUT = Path("target/outside/cut").resolve()
KEY, SECRET, PAGE = "layout.key", "layout.secret", "layout.page"
NAMES = (KEY, SECRET, PAGE)
KILLED, SANITIZER = 137, 99


def record_fits(record, key):
    """A record is type, secret seed, message key, public seed, root; a key is type, root, public seed."""
    return record[:4] + record[100:] + record[68:100] == key


class Room:
    def __init__(self, at, program):
        self.at, self.program = Path(at), Path(program).resolve()
        self.yard = self.at / "yard"
        self.yard.mkdir(parents=True)

    def command(self, *words, cut=()):
        return [*([CUT, *cut] if cut else []), self.program, "-d", "yard", *words]

    def settings(self, leaks=False):
        """For a build with sanitizers: a status that the program doesn't have. The search for leaks takes seconds."""
        options = f"exitcode={SANITIZER}:detect_leaks={int(leaks)}"
        return {"cwd": self.at, "stdin": subprocess.DEVNULL, "env": {**os.environ, "ASAN_OPTIONS": options, "LC_ALL": "C"}}

    def start(self, *words):
        return subprocess.Popen(self.command(*words), **self.settings(), stdout=subprocess.PIPE, stderr=subprocess.STDOUT, text=True)

    def run(self, *words, cut=(), before=(), leaks=False):
        """The exit status, and what was said on both outputs. `cut` are words for tests/faults/cut.c, `before` those of another program."""
        done = subprocess.run([*map(str, before), *map(str, self.command(*words, cut=cut))], **self.settings(leaks), timeout=300,
                              stdout=subprocess.PIPE, stderr=subprocess.STDOUT, text=True, check=False)
        assert done.returncode != SANITIZER and "Sanitizer" not in done.stdout, done.stdout
        return done.returncode, done.stdout

    def calls(self, *words):
        """A whole run, and its calls that change files or flush them: kind, file's name, processor time in milliseconds before it."""
        log = self.at / "calls.log"
        status, said = self.run(*words, cut=("list", log))
        assert status == 0, said
        lines = [line.split("\t") for line in log.read_text().splitlines()]
        log.unlink()
        return [(kind, Path(file).name, int(spent)) for _, kind, file, spent in lines]

    def write(self, name, content):
        (self.at / name).write_bytes(content)

    def read(self, name):
        """None where there is no such file."""
        path = self.at / name
        return path.read_bytes() if path.exists() else None

    def signature(self, table):
        signature = self.read(f"{table}.sig")
        assert signature is None or len(signature) == SIGNATURE_BYTES, f"{table}.sig has {len(signature)} bytes"
        return signature

    def key_files(self):
        return {name: self.read(f"yard/{name}") for name in NAMES}

    def used(self):
        """How many marks are used. The page file is this key's, and whole."""
        files = self.key_files()
        assert len(files[KEY]) == KEY_BYTES and len(files[SECRET]) == RECORD_BYTES and record_fits(files[SECRET], files[KEY])
        assert files[PAGE][:KEY_BYTES] == files[KEY] and len(files[PAGE]) == KEY_BYTES + PAGE_BYTES, "the page file is not whole"
        used = used_marks(files[PAGE][KEY_BYTES:])
        assert used is not None, "a used mark after an unused one"
        return used

    def left_over(self):
        return sorted(str(path.relative_to(self.at)) for path in self.at.rglob("*.new"))

    @contextmanager
    def locked(self, name=f"yard/{PAGE}"):
        number = os.open(self.at / name, os.O_RDONLY)
        fcntl.flock(number, fcntl.LOCK_EX)
        yield
        os.close(number)


def index_of(signature):
    return int.from_bytes(signature[:4], "big")


def accepted(room, table, key):
    """By the example, and by the independent program."""
    return room.run("check", table)[0] == 0 and xmss.verify(key, room.read(table), room.signature(table))
