#!/usr/bin/env python3
"""Compares the declarations of the library's functions, in C and in Rust, with the functions that crates/entry/src/lib.rt exports.

  python3 bindings/declared.py

Every function marked #[unsafe(no_mangle)] pub extern "C" must be declared in c/sheet.h and in rust/src/ffi.rs, and nothing else may be declared there: the same
name, parameters of the same names and types in the same order, and the same result. A slice is passed as a pointer and, under the name with _len behind it, a
length; a reference to a number is a pointer. The last line is 'N passed, 0 failed'; a function counts once for each of the two files.
"""

import os
import re
import sys

HERE = os.path.dirname(os.path.abspath(__file__))
SOURCE = os.path.join(os.path.dirname(HERE), "crates", "entry", "src", "lib.rt")
DECLARED = {"C": os.path.join(HERE, "c", "sheet.h"), "Rust": os.path.join(HERE, "rust", "src", "ffi.rs")}
NUMBERS = {"%s%d" % (letter, bits): "%sint%d_t" % ("" if letter == "i" else "u", bits) for letter in "iu" for bits in (8, 16, 32, 64)}
NUMBERS.update(usize="size_t", f32="float", f64="double")


def read(path):
    with open(path, encoding="utf-8") as file:
        return file.read()


def parts(text):
    """What stands between commas, without the spaces around it."""
    return [part.strip() for part in text.split(",") if part.strip()]


def passed_as(name, kind):
    """How a parameter of that type is passed: (name, type) in the words of Rust's pointers."""
    found = re.fullmatch(r"(?:&(mut )?)?(\[?)(\w+)(\]?)", kind)
    if not found or found.group(3) not in NUMBERS or bool(found.group(2)) != bool(found.group(4)) or (found.group(2) and kind[0] != "&"):
        sys.exit("%s: %s has the type %s, which declared.py cannot compare" % (SOURCE, name, kind))
    if kind[0] != "&":
        yield name, kind
        return
    yield name, "*%s %s" % ("mut" if found.group(1) else "const", found.group(3))
    if found.group(2):
        yield name + "_len", "usize"


def exported(text):
    """The exported functions of the Rattle source as they are passed: {name: (parameters, result)}."""
    found = {}
    for name, inside, result in re.findall(r'#\[unsafe\(no_mangle\)\]\s*pub extern "C" fn (\w+)\(([^()]*)\)(?:\s*->\s*(\w+))?', text):
        given = [part.partition(":") for part in parts(inside)]
        found[name] = [each for word, _, kind in given for each in passed_as(word.strip(), kind.strip())], result
    if not found or len(found) != text.count("#[unsafe(no_mangle)]"):
        sys.exit("%s: declared.py understands %d of %d exported functions" % (SOURCE, len(found), text.count("#[unsafe(no_mangle)]")))
    return found


def in_rust(text):
    """The functions of the extern block."""
    found = {}
    for block in re.findall(r'extern "C" \{(.*?)\n\}', text, re.S):
        for name, inside, result in re.findall(r"fn (\w+)\(([^()]*)\)(?:\s*->\s*(\w+))?;", block):
            given = [part.partition(":") for part in parts(inside)]
            found[name] = [(word.strip(), kind.strip()) for word, _, kind in given], result
    return found


def from_c(words):
    """A parameter of C, `const uint8_t *sheet`: (name, type) in the words of Rust."""
    numbers = {of_c: name for name, of_c in NUMBERS.items()}
    found = re.fullmatch(r"(const )?(\w+) (\*?)(\w+)", re.sub(r"\s+", " ", words))
    if not found or found.group(2) not in numbers:
        return words, "?"
    number = numbers[found.group(2)]
    return found.group(4), "*%s %s" % ("const" if found.group(1) else "mut", number) if found.group(3) else number


def in_c(text):
    """The functions that the header declares."""
    text, found = re.sub(r"/\*.*?\*/", "", text, flags=re.S), {}
    for result, name, inside in re.findall(r"^(\w+) (\w+)\(([^()]*)\);", text, re.M):
        of_rust = {of_c: word for word, of_c in NUMBERS.items()}
        found[name] = [from_c(part) for part in parts(inside)], of_rust.get(result, "" if result == "void" else result)
    return found


def shown(one):
    return "(%s) -> %s" % (", ".join("%s: %s" % each for each in one[0]), one[1] or "nothing") if one else "none"


def main():
    wanted, passed, failed = exported(read(SOURCE)), 0, 0
    for language, reader in (("C", in_c), ("Rust", in_rust)):
        found = reader(read(DECLARED[language]))
        for name in sorted({*wanted, *found}):
            if wanted.get(name) == found.get(name):
                passed += 1
                continue
            failed += 1
            print("%s: %s is declared otherwise than in crates/entry\n  exported %s\n  declared %s" % (
                os.path.relpath(DECLARED[language], os.path.dirname(HERE)), name, shown(wanted.get(name)), shown(found.get(name))))
    print("%d passed, %d failed" % (passed, failed))
    return 1 if failed else 0


if __name__ == "__main__":
    sys.exit(main())
