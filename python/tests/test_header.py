"""Every declaration of the binding is the one of include/lukhandro.h: structs, calls, constants."""
import ctypes
import re
import unittest

from lukhandro import library, model
from .support import ROOT

HEADER = (ROOT / "include" / "lukhandro.h").read_text(encoding="utf8")
CODE = re.sub(r"/\*.*?\*/", " ", HEADER, flags=re.DOTALL)
TYPES = {"uint8_t": ctypes.c_uint8, "uint16_t": ctypes.c_uint16, "uint32_t": ctypes.c_uint32, "int16_t": ctypes.c_int16,
         "int32_t": ctypes.c_int32, "int64_t": ctypes.c_int64, "size_t": ctypes.c_size_t, **library.STRUCTS}


def structs():
    """The structs of the header: name, and its fields with their types."""
    for body, name in re.findall(r"typedef struct \{(.*?)\} (\w+);", CODE, re.DOTALL):
        fields = []
        for line in filter(str.strip, body.split(";")):
            kind, names = line.split(None, 1)
            fields += [(field.strip(), TYPES[kind]) for field in names.split(",")]
        yield name, fields


def calls():
    """The calls of the header: name, answer, and the parameters as (name, type, pointer, written)."""
    for answer, name, body in re.findall(r"^(\w+) (lukhandro_\w+)\((.*?)\);", CODE, re.DOTALL | re.MULTILINE):
        found = []
        for word in body.split(",") if body.strip() != "void" else []:
            const, kind, star, parameter = re.fullmatch(r"\s*(const )?(\w+) (\*?)(\w+)\s*", word).groups()
            found.append((parameter, TYPES[kind], bool(star), bool(star) and not const))
        yield name, TYPES[answer], found


class Header(unittest.TestCase):
    def test_structs(self):
        found = dict(structs())
        self.assertEqual(set(found), set(library.STRUCTS))
        for name, fields in found.items():
            self.assertEqual(fields, list(library.STRUCTS[name]._fields_), name)

    def test_calls(self):
        found = {name: (answer, parameters) for name, answer, parameters in calls() if not name.startswith("lukhandro_interface")}
        self.assertEqual(set(found), set(library.CALLS))
        for name, (answer, parameters) in found.items():
            self.assertIs(answer, library.CALLS[name][0], name)
            self.assertEqual(parameters, [tuple(p) for p in library.parameters(name)], name)

    def test_every_call_of_the_header_is_seen(self):
        """The test's own parser passes over no declaration."""
        self.assertEqual(set(re.findall(r"\b(lukhandro_(?!interface)\w+)\(", CODE)), set(library.CALLS))

    def test_interface(self):
        """A header that numbers its interface has the number that the binding is for."""
        for number in re.findall(r"#define LUKHANDRO_INTERFACE (\d+)", CODE):
            self.assertEqual(int(number), library.INTERFACE)

    def test_constants(self):
        said = dict(re.findall(r"#define (LUKHANDRO_\w+) (.+)", CODE))
        worth = {"INT32_MIN": -2 ** 31, "INT32_MAX": 2 ** 31 - 1, "(-INT32_MAX)": 1 - 2 ** 31}
        known = {"LUKHANDRO_BLANK": model.BLANK, "LUKHANDRO_LOWEST": model.LOWEST, "LUKHANDRO_HIGHEST": model.HIGHEST,
                 "LUKHANDRO_LOG_SIZES": model.MOST_LOGGED + 1, "LUKHANDRO_LOG_PLACES": 64 * 64}
        for name, value in known.items():
            text = said[name].strip()
            self.assertEqual(worth.get(text, int(text) if text.isdigit() else None), value, name)

    def test_sentences(self):
        """A refusal's sentence is the one that the Rust binding has."""
        rust = re.sub(r"\s+", " ", (ROOT / "rust/lukhandro/src/refused.rs").read_text(encoding="utf8"))
        from lukhandro.refused import SENTENCES
        said = {int(k): sentence for k, sentence in re.findall(r'(\d+) => write!\( ?f, "(.*?)" ?\)', rust)}
        self.assertEqual(said, SENTENCES)


if __name__ == "__main__":
    unittest.main()
