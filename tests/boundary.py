#!/usr/bin/env python3
"""Holds what is written by hand about the C boundary to the proved code.

    tests/boundary.py

The calls of crates/noonpasture, the structs that they reach in whichever crate, and the constants are compared, names, order
and types, with include/noonpasture.h and with the declarations of bindings/rust; the calls and structs also with those of
tests/c/shared.py. Prints how many there are; fails if any differs, is missing or is one too many, and names each of these."""
import ctypes
import re
import sys
from collections import namedtuple
from pathlib import Path

ROOT = Path(__file__).resolve().parents[1]
CALLS = "crates/noonpasture/src/lib.rt"
HEADER = "include/noonpasture.h"
CRATE = "bindings/rust/src"

# What differs by design. A struct is called np_ and its name in snake case, but for this one of the proved code; a slice
# passes as a pointer and a length, which has a name of its own, and a struct that is lent as a pointer; and a length in a
# struct is a uint64_t.
RENAMED = {"ValueReply": "Value"}
LENGTHS = {"u8": "length", "u64": "capacity"}

# Of each struct its fields, of each function its parameters and its result, of each constant its number. Fields and parameters
# are names with types, and the types those of C, an array's with its length behind it.
Side = namedtuple("Side", "place structs functions constants")


def source(place):
    """A file of Rattle or Rust without its comments."""
    return re.sub(r"//.*", "", (ROOT / place).read_text())


def matched(pattern, text, place):
    found = re.fullmatch(pattern, text.strip(), re.S)
    if not found:
        sys.exit(f"{place}: not understood: {text.strip()}")
    return found.groups()


def only(pattern, text, place):
    found = re.findall(pattern, text)
    if len(found) != 1:
        sys.exit(f"{place}: there are {len(found)} of {pattern}")
    return found[0]


def items(text, mark=","):
    return [item.strip() for item in text.split(mark) if item.strip()]


def snake(name):
    return re.sub(r"(?<!^)(?=[A-Z])", "_", name).lower()


def c_refusals(numbers):
    return {f"NP_REFUSED_{snake(name).upper()}": number for name, number in numbers}


C_TYPES = {"usize": "size_t", "f32": "float", "f64": "double"}


def c_type(name):
    """Of a type of Rattle or Rust."""
    if name in C_TYPES:
        return C_TYPES[name]
    if re.fullmatch(r"[ui](8|16|32|64)", name):
        return name.replace("i", "int").replace("u", "uint") + "_t"
    if name.startswith("*"):
        access, of = name[1:].split()
        return f"{'const ' if access == 'const' else ''}{c_type(of)} *"
    if name.startswith("["):
        of, length = name[1:-1].split("; ")
        return f"{c_type(of)}[{length}]"
    return f"np_{snake(name)}"


# The type of a field in Rattle and Rust.
FIELD = r"\w+|\[\w+; \d+\]"


# The proved code.


def proved_parameters(text):
    for item in items(text):
        name, kind = matched(r"(\w+): (.*)", item, CALLS)
        lent = re.fullmatch(r"&(mut )?(?:\[(\w+)\]|(\w+))", kind)
        if not lent:
            yield name, c_type(kind)
            continue
        access, element, struct = lent.groups()
        yield name, c_type(f"*{'mut' if access else 'const'} {element or struct}")
        if element:
            yield LENGTHS.get(element, "length"), "size_t"


def proved_structs(name, place):
    """The struct that is called so in this file, and those that it has as fields."""
    text = source(place)
    if not re.search(rf"\bstruct {name}\b", text):
        crate = only(rf"\nuse (\w+)::(?:\{{[^}}]*\b)?{name}\b[^;]*;", text, place)
        yield from proved_structs(name, f"crates/{crate}/src/lib.rt")
        return
    fields = []
    for item in items(only(rf"#\[repr\(C\)\]\s*(?:#\[derive\([^]]*\)\]\s*)?pub struct {name} \{{([^}}]*)\}}", text, place)):
        field, kind = matched(rf"pub (\w+): ({FIELD})", item, place)
        for part in re.findall(r"[A-Z]\w*", kind):
            yield from proved_structs(part, place)
        fields.append((field, c_type("u64" if kind == "usize" else kind)))
    yield c_type(RENAMED.get(name, name)), fields


def proved():
    text, structs, functions = source(CALLS), {}, {}
    for call in text.split("#[unsafe(no_mangle)]")[1:]:
        name, parameters, result = matched(r'pub extern "C" fn (\w+)\(([^)]*)\) -> (\w+)\s.*', call, CALLS)
        functions[name] = list(proved_parameters(parameters)), c_type(RENAMED.get(result, result))
        for kind in re.findall(r"\b[A-Z]\w*", f"{parameters} {result}"):
            structs.update(proved_structs(kind, CALLS))
    limit, buffer, refusals = (f"crates/{name}.rt" for name in ("archive/src/lib", "round_trip/src/main", "refusals/src/lib"))
    cases = items(only(r"pub enum Refusal \{([^}]*)\}", source(refusals), refusals))
    constants = c_refusals(matched(r"(\w+) = (\d+)", case, refusals) for case in cases)
    constants["NP_ARCHIVE_MAX"] = only(r"if (\d+) < archive\.len\(\)", source(limit), limit)
    constants["NP_LINE_MAX"] = only(r"buffer = \[0u8; (\d+)\]", source(buffer), buffer)
    return Side("the proved code", structs, functions, constants)


# The header.


def header_fields(text):
    for item in items(text, ";"):
        kind, names = matched(r"(\w+) (.*)", item, HEADER)
        for declared in items(names):
            name, length = matched(r"(\w+)((?:\[\d+\])?)", declared, HEADER)
            yield name, kind + length


def header_parameter(text):
    kind, name = matched(r"(.*[ *])(\w+)", text, HEADER)
    return name, kind.strip()


def header():
    """Nothing stands in the header that is not understood."""
    text = re.sub(r"/\*.*?\*/", "", (ROOT / HEADER).read_text(), flags=re.S)

    def taken(pattern):
        nonlocal text
        found = re.findall(pattern, text, re.S | re.M)
        text = re.sub(pattern, "", text, flags=re.S | re.M)
        return found

    taken(r'^#ifdef __cplusplus\n(?:extern "C" \{|\})\n#endif$')
    taken(r'^#(?:ifndef NOONPASTURE_H|define NOONPASTURE_H|include <std(?:def|int)\.h>|define NP_VERSION "[\d.]+"|endif)$')
    taken(r"^static inline .*?^\}$")
    constants = dict(taken(r"^#define (NP_\w+) +(\d+) *$"))
    for body in taken(r"^enum \{([^}]*)\};$"):
        constants.update(matched(r"(\w+) = (\d+)", item, HEADER) for item in items(body))
    structs = {name: list(header_fields(body)) for body, name in taken(r"^typedef struct \{([^}]*)\} (\w+);")}
    functions = {
        name: ([header_parameter(item) for item in items(parameters)], result)
        for result, name, parameters in taken(r"^(\w+) +(\w+)\(([^)]*)\);$")
    }
    matched("", text, HEADER)
    return Side(HEADER, structs, functions, constants)


# The Rust crate.


def rust_pairs(pattern, text):
    for item in items(text):
        name, kind = matched(pattern, item, CRATE)
        yield name, c_type(kind)


def rust():
    root, raw, refusal = (source(f"{CRATE}/{name}.rs") for name in ("lib", "raw", "refusal"))
    struct = r"#\[repr\(C\)\]\s*(?:#\[derive\([^]]*\)\]\s*)?pub struct (\w+) \{([^}]*)\}"
    structs = {c_type(name): list(rust_pairs(rf"pub (\w+): ({FIELD})", body)) for name, body in re.findall(struct, root + raw)}
    functions = {}
    for item in items(only(r'extern "C" \{([^}]*)\}', raw, CRATE), ";"):
        name, parameters, result = matched(r"pub fn (\w+)\((.*)\) -> (\w+)", item, CRATE)
        functions[name] = list(rust_pairs(r"(\w+): (.*)", parameters)), c_type(result)
    names = items(only(r"pub enum Refusal \{([^}]*)\}", refusal, CRATE).replace(" = 1,", ","))
    constants = c_refusals((name, str(number)) for number, name in enumerate(names, 1))
    for name, number in re.findall(r"pub const (\w+): usize = ([\d_]+);", root):
        constants[f"NP_{name}"] = number.replace("_", "")
    return Side(CRATE, structs, functions, constants)


# The declarations for ctypes, which has no names of parameters, for which a size_t is a uint64_t, and whose pointer to a
# struct does not say const.

CTYPES = {
    ctypes.c_uint64: "uint64_t",
    ctypes.c_int64: "int64_t",
    ctypes.c_float: "float",
    ctypes.c_double: "double",
    ctypes.c_char_p: "const uint8_t *",
    ctypes.POINTER(ctypes.c_uint8): "uint8_t *",
    ctypes.POINTER(ctypes.c_uint64): "uint64_t *",
}


def python():
    sys.path.insert(0, str(ROOT / "tests/c"))
    import shared

    declared = {kind: c_type(name) for name, kind in vars(shared).items() if isinstance(kind, type(ctypes.Structure))}
    pointers = {ctypes.POINTER(of): f"{name} *" for of, name in declared.items()}
    known = {**CTYPES, **declared, **pointers}

    def name_of(kind):
        if isinstance(kind, type(ctypes.Array)):
            return f"{name_of(kind._type_)}[{kind._length_}]"
        return known.get(kind, "another type")

    structs = {name: [(field, name_of(kind)) for field, kind in of._fields_] for of, name in declared.items()}
    functions = {
        name: ([("", name_of(kind)) for kind in parameters], name_of(result))
        for name, (result, *parameters) in shared.CALLS.items()
    }
    return Side("tests/c/shared.py", structs, functions, {})


def for_python(side):
    def told(kind):
        return kind.replace("size_t", "uint64_t").replace("const np_", "np_")

    functions = {
        name: ([("", told(kind)) for _, kind in parameters], result)
        for name, (parameters, result) in side.functions.items()
    }
    return side._replace(functions=functions, constants={})


# The comparison.


def facts(side):
    for name, fields in side.structs.items():
        for at, (field, kind) in enumerate(fields, 1):
            yield f"{name}, field {at}", f"{kind} {field}"
    for name, (parameters, result) in side.functions.items():
        yield f"{name}, result", result
        for at, (parameter, kind) in enumerate(parameters, 1):
            yield f"{name}, parameter {at}", f"{kind} {parameter}".strip()
    yield from side.constants.items()


def differences(side, other):
    ours, theirs = dict(facts(side)), dict(facts(other))
    for place in dict.fromkeys([*ours, *theirs]):
        if ours.get(place) != theirs.get(place):
            yield f"{other.place}: {place}: {theirs.get(place, 'none')}; {side.place}: {ours.get(place, 'none')}"


def main():
    code = proved()
    pairs = (code, header()), (code, rust()), (for_python(code), python())
    found = [difference for pair in pairs for difference in differences(*pair)]
    if found:
        sys.exit("\n".join(found))
    parameters = sum(len(parameters) for parameters, _ in code.functions.values())
    fields = sum(map(len, code.structs.values()))
    print(
        f"boundary: {len(code.functions)} functions with {parameters} parameters, {len(code.structs)} structs with {fields} "
        f"fields, {len(code.constants)} constants"
    )


main()
