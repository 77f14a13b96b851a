"""NIST's response files for SHA-256, from Debian's package python3-cryptography-vectors: short messages, long ones, Monte Carlo."""
import subprocess
from pathlib import Path

PACKAGE = "python3-cryptography-vectors"


def fields(name):
    """The lines of a file that give something, as pairs of a name and what it is."""
    listed = subprocess.run(["dpkg", "--listfiles", PACKAGE], stdout=subprocess.PIPE, text=True, check=True).stdout.split()
    path, = (path for path in listed if path.endswith(f"/{name}.rsp"))
    for line in Path(path).read_text().splitlines():
        if " = " in line:
            yield line.strip().split(" = ")


def messages(name):
    """Each message with its digest."""
    for field, value in fields(name):
        if field == "Len":
            length = int(value) // 8
        elif field == "Msg":
            message = bytes.fromhex(value)[:length]
        elif field == "MD":
            yield message, bytes.fromhex(value)


def monte_carlo():
    """Each digest of the Monte Carlo test with the seed that leads to it: the digest before."""
    for field, value in fields("SHA256Monte"):
        if field == "MD":
            yield seed, bytes.fromhex(value)
        if field in ("Seed", "MD"):
            seed = bytes.fromhex(value)
