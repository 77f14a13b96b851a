"""The programs of tests/peers: our library, Botan and Bouncy Castle as signers and as checkers, fed with lines of hexadecimal."""
import subprocess
from typing import NamedTuple

OURS, BOTAN, BOUNCY_CASTLE = "ours", "Botan", "Bouncy Castle"
SECONDS = 300
JAVA = ["java", "-cp", "/usr/share/java/bcprov.jar:target/peers"]
SIGNERS = {OURS: ["target/peers/our_signs"], BOTAN: ["target/peers/botan_signs"], BOUNCY_CASTLE: [*JAVA, "BouncyCastleSigns"]}
CHECKERS = {OURS: ["target/peers/our_checks"], BOTAN: ["target/peers/botan_checks"], BOUNCY_CASTLE: [*JAVA, "BouncyCastleChecks"]}
# Bytes from which a signer makes a key. Ours takes them as the seed material itself.
SEED_BYTES = {OURS: 96, BOTAN: 32, BOUNCY_CASTLE: 32}


class Signed(NamedTuple):
    key: bytes
    message: bytes
    signature: bytes

    def kind(self):
        return int.from_bytes(self.key[:4], "big")

    def index(self):
        return int.from_bytes(self.signature[:4], "big")


def text_of(field):
    return field.hex() or "-"


def line_of(signed):
    return " ".join(map(text_of, signed))


def read(line):
    return Signed(*(b"" if field == "-" else bytes.fromhex(field) for field in line.split(" ")))


def printed(command, lines):
    data = "".join(line + "\n" for line in lines)
    return subprocess.run(command, input=data, stdout=subprocess.PIPE, text=True, timeout=SECONDS, check=True).stdout.splitlines()


def sign(signer, seed, wanted):
    """Signatures of one new key of type 1, for indices with their messages."""
    lines = [f"{index} {text_of(message)}" for index, message in wanted]
    signed = [read(line) for line in printed([*SIGNERS[signer], "1", seed.hex()], lines)]
    given = [(one.index(), one.message) for one in signed]
    assert given == list(wanted) and len({one.key for one in signed}) == 1, f"{signer} signs something else than it was told"
    return signed


def check(checker, all_signed):
    """The checker's name with its version, and what it answers to each."""
    name, *answers = printed(CHECKERS[checker], map(line_of, all_signed))
    assert len(answers) == len(all_signed), f"{checker} answers {len(answers)} of {len(all_signed)} checks"
    return name, answers
