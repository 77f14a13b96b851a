"""Holds docs/PROMISES.md to the source, both ways: promises, shams, must-fail edits, files of definitions and their lines."""
import re
import sys
from pathlib import Path

PAGE = Path("docs/PROMISES.md").read_text()
NAMED = set(re.findall(r"`([^`]+)`", PAGE))
bad = []


def functions(crate):
    return set(re.findall(r"^pub fn (\w+)", Path(f"crates/{crate}/src/lib.rt").read_text(), re.M))


def compare(what, there, named):
    bad.extend(f"{what} {name} is not in docs/PROMISES.md" for name in sorted(there - named))
    bad.extend(f"docs/PROMISES.md names {what} {name}, and there is none" for name in sorted(named - there))
    print(f"{what}: {len(there)}")


kept = Path("crates/promises/specs/Kept.antt").read_text()
fields = set(re.findall(r"^    pub (\w+) :", kept[kept.index("record Kept"):kept.index("AlwaysKept")], re.M))
table = PAGE[PAGE.index("| field of `Kept` |"):PAGE.index("| the customer | promise |", PAGE.index("| field of `Kept` |"))]
compare("field of Kept", fields, set(re.findall(r"`([a-z_]+)`", table)) - {"check"})

# Other names of two words on that page: a program, a definition, the fields above.
stated = functions("promises") | functions("shams")
others = {"check_frames", "output_of"} | fields
compare("promise", stated, {name for name in NAMED if re.fullmatch(r"\w+_\w+", name)} - others | stated & NAMED)

edits = {f"{path.parts[1]}/{path.stem}" for path in Path("crates").glob("*/must-fail/*.edit")}
compare("edit", edits, {name for name in NAMED if re.fullmatch(r"\w+/\w+", name) and not name.startswith(("crates/", "docs/"))})

definitions = {str(path) for path in Path("crates").glob("*/specs/*.antt") if path.stem != "Lib" and path.parts[1] != "shams"}
compare("definition file", definitions, {name for name in NAMED if re.fullmatch(r"crates/\w+/specs/\w+\.antt", name)})
for path, lines in re.findall(r"\| `(crates/\S+\.antt)` \| (\d+) \|", PAGE):
    if Path(path).exists() and len(Path(path).read_text().splitlines()) != int(lines):
        bad.append(f"{path} has {len(Path(path).read_text().splitlines())} lines, not {lines}")

sys.exit("\n".join(bad) or None)
