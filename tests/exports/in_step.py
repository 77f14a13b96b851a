"""Holds include/zabrintoly.h to the exports in Rattle: names, parameters, and structs field by field.

It prints a C++ program that holds the struct layouts of the header to those of `repr(C)`, and calls the library for its answers.
"""
import re
import sys
from pathlib import Path

SOURCES = [Path(f"crates/{crate}/src/lib.rt").read_text() for crate in ("zabrintoly", "marks", "operations")]
HEADER = re.sub(r"/\*.*?\*/", "", Path("include/zabrintoly.h").read_text(), flags=re.S)
NUMBERS = {"u8": ("uint8_t", 1), "u32": ("uint32_t", 4)}


def exports():
    """Name, parameters (name and type) and result of each exported function."""
    for name, parameters, result in re.findall(r'#\[unsafe\(no_mangle\)\]\s*pub extern "C" fn (\w+)\(([^)]*)\) -> (\w+)', SOURCES[0]):
        yield name, [tuple(p.strip().split(": ")) for p in parameters.split(",") if p.strip()], result


def c_type(result):
    return NUMBERS[result][0] if result in NUMBERS else f"zab_{result.lower()}"


def c_parameters(name, kind):
    """A slice is a pointer and a length."""
    if kind in NUMBERS:
        return f"{NUMBERS[kind][0]} {name}"
    constant = {"&[u8]": "const ", "&mut [u8]": ""}[kind]
    return f"{constant}uint8_t *{name}, size_t {name}_length"


def prototype(name, parameters, result):
    return f"{c_type(result)} {name}({', '.join(c_parameters(*p) for p in parameters)})"


def struct_fields(struct):
    """The fields of an answer in Rattle, which must be laid out as C lays it out."""
    for source in SOURCES:
        found = re.search(r"#\[repr\(C\)\]\s*#\[derive\(Clone, Copy\)\]\s*pub struct %s \{(.*?)\}" % struct, source, re.S)
        if found:
            return re.findall(r"pub (\w+): (\w+)", found[1])
    sys.exit(f"{struct} has no #[repr(C)]")


def layout(fields):
    """Each field's place and the struct's size, by the rules of C for numbers."""
    place, widest = 0, 1
    for name, kind in fields:
        size = NUMBERS[kind][1]
        place = -(-place // size) * size
        yield name, place
        place, widest = place + size, max(widest, size)
    yield None, -(-place // widest) * widest


def same(what, exported, declared):
    if exported != declared:
        sys.exit(f"{what}: exported are\n{exported}\nand the header has\n{declared}")


def main(archive_names):
    functions = list(exports())
    declared = re.findall(r"^(?:\w+ )+zab_\w+\(.*?\)(?=;)", HEADER, re.S | re.M)
    same("functions", sorted(prototype(*f) for f in functions), sorted(" ".join(d.split()) for d in declared))
    same("names of the archive", sorted(archive_names), sorted(name for name, _, _ in functions))
    structs = sorted({result for _, _, result in functions if result not in NUMBERS})
    same("structs", [f"zab_{s.lower()}" for s in structs], sorted(re.findall(r"typedef struct (\w+)", HEADER)))
    print("#include <zabrintoly.h>")
    for struct in structs:
        fields, name = struct_fields(struct), c_type(struct)
        body = re.search(r"typedef struct %s \{(.*?)\}" % name, HEADER, re.S)[1]
        same(f"fields of {name}", [(NUMBERS[kind][0], field) for field, kind in fields], re.findall(r"(\w+) (\w+);", body))
        for field, place in layout(fields):
            print(f"static_assert({f'offsetof({name}, {field})' if field else f'sizeof({name})'} == {place});")
    print(f"// {len(functions)} functions, {len(structs)} structs")


main(sys.argv[1:])
