"""The proved programs, as this machine runs them: they are for x86-64."""
import platform

EMULATED = platform.machine() != "x86_64"


def command(name):
    return ["tools/run-here"] * EMULATED + [f"target/bin/{name}"]
