"""An input of the checking program, made line by line, each with the outcome that it is meant to have."""
from itertools import zip_longest

import frames


class Run:
    def __init__(self):
        self.lines, self.intended = [], []

    def line(self, line, outcome=None):
        """Without an outcome the line is one that prints nothing."""
        self.lines.append(line)
        if outcome is not None:
            self.intended.append(b"%d %d\n" % (len(self.lines), outcome))

    def frame(self, kind, content, outcome=None):
        self.line(bytes([kind]).hex().encode() + content.hex().encode(), outcome)

    def key(self, key):
        self.frame(frames.KEY, key)

    def message(self, message):
        self.frame(frames.MESSAGE, message)

    def signature(self, signature, outcome):
        self.frame(frames.SIGNATURE, signature, outcome)

    def no_frame(self, line):
        self.line(line, frames.NO_FRAME)

    def data(self, end=b"\n"):
        """The whole input. What was meant and what the independent program answers must be one."""
        data = b"\n".join(self.lines) + end
        for meant, answered in zip_longest(self.intended, frames.answers(data).splitlines(keepends=True)):
            assert meant == answered, f"meant {meant}, answered {answered}"
        return data

    def answers(self):
        return b"".join(self.intended)
