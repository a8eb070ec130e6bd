#!/usr/bin/env python3
"""Compares the declarations of the library for C, Python and Rust with its source, crates/unixvol_c.

Each function must be declared everywhere, with the same parameters and result, and with the same names in C and Rust.
Structs are compared by their fields with order and types, numbers by name. Python's part needs the shared object,
since it is read by loading it.
Usage: declarations.py [FOLDER], the folder of the built Python package; without it Python's part is left out. It ends
with 'N passed, N failed'.
"""
from __future__ import annotations

import ctypes
import re
import sys
from pathlib import Path

TOP = Path(__file__).resolve().parent.parent
SOURCE = TOP / "crates/unixvol_c/src"

# The types of the source in C. A slice is a pointer and a count, and the allocator is nothing.
IN_C = {
    "Global": [],
    "i32": ["int32_t"],
    "u8": ["uint8_t"],
    "u16": ["uint16_t"],
    "u32": ["uint32_t"],
    "usize": ["size_t"],
    "bool": ["bool"],
    "&mut usize": ["size_t *"],
    "&mut u16": ["uint16_t *"],
    "&mut Handle": ["unixvol *"],
    "&mut Node": ["unixvol_node *"],
    "&mut VolumeSizes": ["unixvol_sizes *"],
    "&[u8]": ["const void *", "size_t"],
    "&mut [u8]": ["void *", "size_t"],
    "&mut [ListedName]": ["unixvol_entry *", "size_t"],
    "&mut [RepairedLine]": ["unixvol_repaired *", "size_t"],
    "&View": ["const unixvol_view *"],
    "&RescueView": ["const unixvol_rescue_view *"],
    "&mut Seen": ["unixvol_seen *"],
    "[u8; 14]": ["uint8_t[14]"],
    "*mut u8": ["void *"],
}

# The types of C in the Rust wrapper.
IN_RUST = {
    "*const u8": "const void *",
    "*mut u8": "void *",
    "*mut c_void": "void *",
    "*mut Entry": "unixvol_entry *",
    "&mut About": "unixvol_sizes *",
    "*mut Repaired": "unixvol_repaired *",
}

# The types of C in Python.
IN_PYTHON = {
    ctypes.c_int32: "int32_t",
    ctypes.c_uint8: "uint8_t",
    ctypes.c_uint16: "uint16_t",
    ctypes.c_uint32: "uint32_t",
    ctypes.c_size_t: "size_t",
    ctypes.c_bool: "bool",
    ctypes.c_char_p: "const void *",
    ctypes.c_void_p: "void *",
    ctypes.c_uint8 * 14: "uint8_t[14]",
    ctypes.POINTER(ctypes.c_size_t): "size_t *",
    ctypes.POINTER(ctypes.c_uint16): "uint16_t *",
    None: "void",
}

# The structs of C, as the source names them, and the Rust wrapper.
STRUCTS = {
    "unixvol_entry": ("ListedName", "Entry"),
    "unixvol_node": ("Node", "Node"),
    "unixvol_sizes": ("VolumeSizes", "About"),
    "unixvol_view": ("View", "View"),
    "unixvol_rescue_view": ("RescueView", "RescueView"),
    "unixvol_seen": ("Seen", "Seen"),
    "unixvol_repaired": ("RepairedLine", "Repaired"),
}

# The names of the source's parameters elsewhere.
NAMES = {"handle": "volume", "perm": "permissions"}

# The parameters of a function, each a type and a name as C writes them; and the type of its result.
Functions = dict[str, tuple[list[str], str]]
Fields = dict[str, list[tuple[str, str]]]


def split(text: str) -> list[tuple[str, str]]:
    """Returns the names and types of parameters or fields that are written NAME: TYPE."""
    return [(name.split()[-1], kind.strip()) for name, kind in re.findall(r"([\w ]+):\s*([^,;]+(?:;\s*\d+\])?)", text)]


def parameters(taken: str) -> list[str]:
    """Returns the source's parameters in C. A slice becomes two: `path` and `path_count`, or `into` and `room`."""
    found = []
    for name, kind in split(taken):
        name = NAMES.get(name, name)
        names = [name, "room" if name == "into" else f"{name}_count"]
        found += [word + ("" if word.endswith("*") else " ") + it for it, word in zip(names, IN_C[kind])]
    return found


def kinds(functions: Functions) -> Functions:
    """Returns only the types."""
    typed = lambda taken: [re.sub(r"\w+$", "", it).strip() for it in taken]
    return {name: (typed(taken), result) for name, (taken, result) in functions.items()}


def fields_of(name: str, text: str) -> list[tuple[str, str]]:
    """Returns the fields of a struct of the source in C: without ghosts and fields of size 0."""
    body = re.search(rf"#\[repr\(C\)\](?:\s*#\[.*?\])*\s*pub struct {name} \{{(.*?)\n\}}", text, re.S)[1]
    fields = split(re.sub(r"///.*|(?:pub )?ghost .*", "", body))
    return [(field, kind) for field, kind in fields if kind != "Global"]


def of_source() -> tuple[Functions, Fields, dict[str, int]]:
    """Returns the exports, structs and numbers of the source, as C declares them."""
    text = "\n".join(it.read_text() for it in sorted(SOURCE.glob("*.rt")))
    exports = re.findall(r'no_mangle\)\]\s*pub extern "C" fn (\w+)\(([^)]*)\)(?: -> (\w+))?', text)
    functions = {
        name: (parameters(taken), IN_C[result][0] if result else "void") for name, taken, result in exports
    }
    structs = {
        called: [(field, IN_C[kind][0]) for field, kind in fields_of(name, text)]
        for called, (name, _) in STRUCTS.items()
    }
    # A handle's sealed volume is a pointer.
    structs["unixvol"] = [
        ("volume", IN_C[fields_of(kind, text)[0][1]][0]) if field == "sealed" else (field, kind)
        for field, kind in fields_of("Handle", text)
    ]
    numbers = {name: int(value) for name, value in re.findall(r"pub const (\w+): (?:i32|u8) = (\d+);", text)}
    numbers["IS_CLOSED"] = numbers.pop("CLOSED")
    refusals = (TOP / "crates/vol_dir/src/refusal.rt").read_text()
    for name, value in re.findall(r"^ +(\w+) = (\d+),$", refusals, re.MULTILINE):
        numbers[re.sub(r"(?<!^)(?=[A-Z])", "_", name).upper()] = int(value)
    return functions, structs, numbers


def is_look(name: str) -> bool:
    """True for the numbers of looks and of comparisons."""
    return name.startswith(("LOOK_", "BY_"))


def of_header() -> tuple[Functions, Fields, dict[str, int]]:
    """Returns the declarations of unixvol.h."""
    text = re.sub(r"/\*.*?\*/", "", (TOP / "bindings/c/unixvol.h").read_text(), flags=re.S)
    functions = {
        name: ([" ".join(it.split()) for it in taken.split(",")], result)
        for result, name, taken in re.findall(r"^(\w+) (unixvol_\w+)\(([^)]*)\);", text, re.M)
    }
    structs = {}
    for body, name in re.findall(r"typedef struct \w+ \{(.*?)\n\} (\w+);", text, re.S):
        fields = re.findall(r"^\s*([\w ]+?[ *]+)(\w+)(\[\d+\])?;", body, re.M)
        structs[name] = [(field, kind.strip() + size) for kind, field, size in fields]
    numbers = re.findall(r"UNIXVOL_(\w+) = (\d+)", text.split("enum unixvol_kind")[0])
    numbers += re.findall(r"UNIXVOL_((?:LOOK|BY)_\w+) = (\d+)", text)
    return functions, structs, {name: int(value) for name, value in numbers}


def of_rust() -> tuple[Functions, Fields]:
    """Returns the declarations of the Rust wrapper."""
    text = re.sub(r"//.*", "", (TOP / "bindings/rust/src/declared.rs").read_text())
    named = lambda kind: IN_RUST.get(kind) or IN_C[kind][0]
    typed = lambda name, kind: f"{named(kind)} {name}".replace("* ", "*")
    functions = {
        name: ([typed(*it) for it in split(taken)], named(result) if result else "void")
        for name, taken, result in re.findall(r"fn (unixvol_\w+)\(([^)]*)\)(?: -> (\w+))?;", text)
    }
    called = {"Handle": "unixvol"} | {rust: name for name, (_, rust) in STRUCTS.items()}
    structs = {
        called[name]: [(field, named(kind)) for field, kind in split(body)]
        for name, body in re.findall(r"pub struct (\w+) \{(.*?)\n\}", text, re.S)
    }
    return functions, structs


def of_python(folder: str) -> tuple[Functions, Fields, dict[str, int], dict[str, int]]:
    """Returns the declarations of the Python package."""
    sys.path.insert(0, folder)
    import unixvol
    from unixvol import _library as library

    structs = {
        "unixvol": library.Handle,
        "unixvol_node": library.Node,
        "unixvol_entry": library.Entry,
        "unixvol_sizes": library.Sizes,
        "unixvol_view": library.View,
        "unixvol_rescue_view": library.RescueView,
        "unixvol_seen": library.Seen,
        "unixvol_repaired": library.Repaired,
    }
    words = IN_PYTHON | {
        ctypes.POINTER(kind): ("const " if name.endswith("view") else "") + f"{name} *" for name, kind in structs.items()
    }
    functions = {
        f"unixvol_{name}": ([words[it] for it in taken], words[library.function(name).restype])
        for name, taken in library.FUNCTIONS.items()
    }
    fields = {name: [(field[0], words[field[1]]) for field in kind._fields_] for name, kind in structs.items()}
    refusals = {
        re.sub(r"(?<!^)(?=[A-Z])", "_", kind.__name__).upper(): kind.number for kind in unixvol.Refusal.__subclasses__()
    }
    looks = {f"{start}_{it.name}": it.value for start, kind in (("LOOK", library.Look), ("BY", library.By)) for it in kind}
    return functions, fields, refusals, looks


def compare(where: str, wanted: dict, found: dict) -> tuple[int, int]:
    """Compares one place's declarations with the source's, and prints the differences."""
    wrong = [name for name in sorted({*wanted, *found}) if wanted.get(name) != found.get(name)]
    for name in wrong:
        print(f"failed: {where}: {name}: {found.get(name)}, wanted {wanted.get(name)}")
    return len({*wanted, *found}) - len(wrong), len(wrong)


def main() -> int:
    functions, structs, numbers = of_source()
    header, rust = of_header(), of_rust()
    results = [
        compare("unixvol.h", functions, header[0]),
        compare("unixvol.h", structs, header[1]),
        compare("unixvol.h", numbers, header[2]),
        compare("declared.rs", functions, rust[0]),
        compare("declared.rs", structs, rust[1]),
    ]
    if sys.argv[1:]:
        python = of_python(sys.argv[1])
        results += [
            compare("_library.py", kinds(functions), python[0]),
            compare("_library.py", structs, python[1]),
            compare("_faults.py", {name: it for name, it in numbers.items() if 0 < it < 200 and not is_look(name)}, python[2]),
            compare("_library.py", {name: it for name, it in numbers.items() if is_look(name)}, python[3]),
        ]
    passed, failed = map(sum, zip(*results))
    print(f"{passed} passed, {failed} failed")
    return failed != 0


if __name__ == "__main__":
    sys.exit(main())
