#!/usr/bin/env python3
"""Writes the input and the expected output of the program type_info_vectors.

Declared types: the table of examples of SQLite's datatype page (section 3.1.1) and the notes under it, with the affinities that the
page gives; the test at the end of sqlx-sqlite's type_info.rs, with the kinds that it gives; the edges of refusal 13. Where a source gives
one of the two only, the other was worked out by hand from the Rust's arms or the page's rules.
UTF-8: sequences on both sides of every boundary of RFC 3629, section 4, and the examples of its section 7; what must come out is what
Python's own strict decoder says.

Run it from the repository's root: python3 tests/leaf_vectors.py
"""
import itertools

TYPES = [
    # the datatype page, section 3.1.1
    ("INT", "Integer INTEGER"), ("INTEGER", "Integer INTEGER"), ("TINYINT", "Integer INTEGER"), ("SMALLINT", "Integer INTEGER"),
    ("MEDIUMINT", "Integer INTEGER"), ("BIGINT", "Integer INTEGER"), ("UNSIGNED BIG INT", "Integer INTEGER"), ("INT2", "Integer INTEGER"),
    ("INT8", "Integer INTEGER"), ("CHARACTER(20)", "Text TEXT"), ("VARCHAR(255)", "Text TEXT"), ("VARYING CHARACTER(255)", "Text TEXT"),
    ("NCHAR(55)", "Text TEXT"), ("NATIVE CHARACTER(70)", "Text TEXT"), ("NVARCHAR(100)", "Text TEXT"), ("TEXT", "Text TEXT"),
    ("CLOB", "Text TEXT"), ("BLOB", "Blob BLOB"), ("REAL", "Float REAL"), ("DOUBLE", "Float REAL"), ("DOUBLE PRECISION", "Float REAL"),
    ("FLOAT", "Float REAL"), ("NUMERIC", "Null NUMERIC"), ("DECIMAL(10,5)", "Null NUMERIC"), ("BOOLEAN", "Bool NUMERIC"),
    ("DATE", "Date NUMERIC"), ("DATETIME", "Datetime NUMERIC"),
    # the notes of section 3.1 and 3.1.1
    ("CHARINT", "Integer INTEGER"), ("FLOATING POINT", "Integer INTEGER"), ("STRING", "Null NUMERIC"),
    # the test of type_info.rs, where the table above lacks it
    ("INT4", "Int4 INTEGER"), ("INTBIG", "Integer INTEGER"), ("BOOL", "Bool NUMERIC"), ("TIME", "Time NUMERIC"),
    # 01's last star, and letter case
    ("TIMESTAMP", "Datetime NUMERIC"), ("timestamp", "Datetime NUMERIC"), ("TimeStamp", "Datetime NUMERIC"), ("iNt4", "Int4 INTEGER"),
    ("varChar", "Text TEXT"), ("Double", "Float REAL"), ("bLoB", "Blob BLOB"),
    # the order of the rules
    ("TEXTBLOB", "Text TEXT"), ("BLOBREAL", "Blob BLOB"), ("REALTEXT", "Text TEXT"), ("DOUBINT", "Integer INTEGER"), ("BLOBCLOB", "Text TEXT"),
    # a word cut short, or with more around it, is not the word
    ("INT4 ", "Integer INTEGER"), ("BOOLEANS", "Null NUMERIC"), ("BOO", "Null NUMERIC"), ("DATES", "Null NUMERIC"), ("IN", "Null NUMERIC"),
    ("I NT", "Null NUMERIC"), ("CHA", "Null NUMERIC"), ("XREA", "Null NUMERIC"), ("IIINT", "Integer INTEGER"), ("CCHAR", "Text TEXT"),
    # bytes and lengths of refusal 13
    (" ", "Null NUMERIC"), ("~", "Null NUMERIC"), ("", "refused=13"), ("x" * 64, "Null NUMERIC"), ("x" * 65, "refused=13"),
    ("x" * 61 + "int", "Integer INTEGER"), ("INT\x1f", "refused=13"), ("\x7fINT", "refused=13"), ("IN\xffT", "refused=13"), ("INT\t", "refused=13"),
]


def utf8_vectors():
    # both sides of each boundary between byte classes, as a first, second, third and fourth byte
    edges = [0x00, 0x41, 0x7F, 0x80, 0x8F, 0x90, 0x9F, 0xA0, 0xBF, 0xC0, 0xC1, 0xC2, 0xDF, 0xE0, 0xE1, 0xEC, 0xED, 0xEE, 0xEF, 0xF0, 0xF1,
             0xF3, 0xF4, 0xF5, 0xFF]
    yield b""
    for a in edges:
        yield bytes([a])
    for a, b in itertools.product(edges, edges):
        yield bytes([a, b])
    for a, b in itertools.product([0xE0, 0xE1, 0xEC, 0xED, 0xEE, 0xEF], [0x7F, 0x80, 0x9F, 0xA0, 0xBF, 0xC0]):
        for c in [0x7F, 0x80, 0xBF, 0xC0]:
            yield bytes([a, b, c])
    for a, b in itertools.product([0xF0, 0xF1, 0xF3, 0xF4, 0xF5], [0x7F, 0x80, 0x8F, 0x90, 0xBF, 0xC0]):
        for c, d in itertools.product([0x7F, 0x80, 0xBF, 0xC0], repeat=2):
            yield bytes([a, b, c, d])
    # code points around every boundary: lengths, surrogates, the last one
    for point in [0x7F, 0x80, 0x7FF, 0x800, 0xFFF, 0x1000, 0xCFFF, 0xD000, 0xD7FF, 0xE000, 0xFFFD, 0xFFFF, 0x10000, 0x3FFFF, 0x40000, 0xFFFFF,
                  0x100000, 0x10FFFF]:
        whole = chr(point).encode()
        yield whole
        yield b"a" + whole + b"b"
        # truncated tails
        for n in range(1, len(whole)):
            yield whole[:n]
            yield whole[:n] + b"a"
    # surrogates, overlong forms, above U+10FFFF
    for hexed in ["eda080", "edbfbf", "eda080edb080", "c080", "c1bf", "e08080", "e09fbf", "f0808080", "f08fbfbf", "f4908080", "f7bfbfbf",
                  "f888808080", "fc8480808080", "feff"]:
        yield bytes.fromhex(hexed)
    # RFC 3629, section 7
    for hexed in ["41e289a2ce912e", "ed959ceab5adec96b4", "e697a5e69cace8aa9e", "efbbbff0a38eb4"]:
        yield bytes.fromhex(hexed)


def accepted(data):
    try:
        data.decode("utf-8", "strict")
        return "yes"
    except UnicodeDecodeError:
        return "no"


def main():
    lines, expected = [], []
    for text, answer in TYPES:
        line = b"t " + text.encode("latin-1")
        lines.append(line)
        expected.append(line + b": " + answer.encode())
    for data in utf8_vectors():
        line = b"u " + data.hex().encode()
        lines.append(line)
        expected.append(line + b": " + accepted(data).encode())
    folder = "crates/type_info_vectors/"
    with open(folder + "stdin", "wb") as f:
        f.write(b"".join(line + b"\n" for line in lines))
    with open(folder + "stdout", "wb") as f:
        f.write(b"".join(line + b"\n" for line in expected))
    print(len(lines), "vectors")


main()
