#!/usr/bin/env python3
"""Writes the data of the program vectors: calls of the entry with what must come out, crates/vectors/data/*.txt. Its input, the names of
those files, and its output, the totals, are crates/vectors/stdin and crates/vectors/stdout.

    python3 tests/vectors.py REFERENCE REPORTS          (from the repository's root)

REFERENCE is a folder with walkref.py, an independent reference of 01: its `call(listing, catalogue, area length, answer buffer)` gives
the number and the length, and writes the answer. Every expected value is what it says; nothing is taken from the port. REPORTS is a folder
with the EXPLAIN listings of reports, NAME.listing, and their catalogue, NAME.catalog, the same for all. Nothing is random: the same
input gives the same bytes.

The form of the files stands at the head of crates/vectors/src/main.rt. What they hold:

    samples      the sample runs of 01, proved and not
    corners      corners of 01 that are easy to get wrong
    operations   each operation with an arm, and some without one, with each operand at -1, 0, 65535 and 65536 in turn, from three states
    limits       each limit just kept and just passed: area, answer buffer, cells, depth, width, rows, records, P4; the order of the refusals
    texts        damaged listings and catalogues, and catalogues as the walk reads them
    reports      the reports of a podcast host, with the area of `colkinds` and with the largest that the program has

In this file a row is written `op P1 P2 P3`, and P4 behind it as text or, after `x:`, in hexadecimal; rows are parted by `; `.
"""
import glob
import importlib.util
import os
import sys

DATA = "crates/vectors/data/"
AREA, ROOM = 65536, 4096  # what a case is lent if it says nothing else
MOST_AREA, MOST_ROOM = 6291456, 131072  # the program's buffers, which are on its stack
LARGEST_FILE = 524287
MOST_LISTING, MOST_TABLES = 131071, 262143

FULL = "OpenEphemeral 0 510 0"  # a state of 512 cells

# takes so many of the units that no state of 512 cells can be remembered any more
NO_SPACE = FULL + "; " + "; ".join(["ResultRow 0 0 0; Noop 0 0 0"] * 5)

CORNERS = [
    # 01, "Sample runs": those that are not in the proved table
    "Integer 0 65535 0",
    "Integer 0 65536 0",
    "OpenEphemeral 0 510 0",
    "OpenEphemeral 0 511 0",
    "; ".join(["MakeRecord 1 1 1"] * 8),
    "; ".join(["MakeRecord 1 1 1"] * 9),
    # Column: the cursor, a pseudo cursor's register, P2 only where there are columns, and always the store
    "Column -1 70000 70000",
    "Column 0 -1 1; ResultRow 1 1 0",
    "Column 0 0 70000",
    "OpenPseudo 0 70000 0; Column 0 -1 -1",
    "OpenPseudo 0 3 0; Column 0 -1 1; ResultRow 1 1 0",
    "OpenPseudo 0 3 0; Integer 1 3 0; Column 0 -1 1; ResultRow 1 1 0",
    "OpenEphemeral 0 1 0; Column 0 -1 70000",
    "OpenEphemeral 0 1 0; Column 0 70000 -1",
    "OpenEphemeral 0 1 0; Column 0 0 1; Column 0 1 2; ResultRow 1 2 0",
    # Insert: the register first, the cursor only for a record or a plain Null
    "Insert -1 70000 0",
    "Insert -1 1 0; ResultRow 1 1 0",
    "Integer 1 1 0; Insert -1 1 0; ResultRow 1 1 0",
    "Null 0 1 0; Insert -1 1 0",
    "MakeRecord 1 1 1; Insert 70000 1 0",
    "OpenEphemeral 0 2 0; Integer 1 1 0; String8 0 2 0; MakeRecord 1 2 3; Insert 0 3 0; Rewind 0 8 0; Column 0 1 4; ResultRow 4 1 0; Halt 0 0 0",
    "OpenEphemeral 0 1 0; Null 0 1 0; Insert 0 1 0; Rewind 0 5 0; ResultRow 1 1 0; Halt 0 0 0",
    "OpenEphemeral 0 0 0; MakeRecord 1 254 1; MakeRecord 1 254 2; Insert 0 2 0",
    # OpenRead, OpenEphemeral: the table's cells before the cursor's index
    "OpenEphemeral 0 509 0; OpenRead -1 0 0",
    "Null 0 1 512; OpenRead -1 0 0",
    "OpenRead 70000 -5 -5",
    "OpenEphemeral 70000 511 0",
    "OpenEphemeral 0 511 0",
    FULL,
    # no target is judged where the source is absent
    "SCopy 1 70000 0; Not 1 -1 0; Copy 1 -5 3; Move 1 70000 2; OpenDup -1 0 0; IntCopy 1 -1 0; ResultRow 1 1 0",
    "Integer 1 1 0; SCopy 1 70000 0",
    "Integer 1 1 0; Copy 0 65535 1",
    "Integer 1 1 0; Move 1 -1 1",
    "OpenPseudo 0 1 0; OpenDup -1 0 0",
    "OpenDup 0 -1 0",
    # Function with an unknown text, AggFinal with a text outside its lists: no access; UTF-8 comes first
    "Function 0 0 -1 unknown(1); ResultRow 0 1 0",
    "Function 0 0 -1 x:ff",
    "Function 0 0 -1 date(-1)",
    "Function 0 1 1 date(-1); Function 0 0 2 date(-1); Function 0 1 3 last_insert_rowid(0); ResultRow 1 3 0",
    "AggFinal -1 -1 -1 sum(1); ResultRow 0 1 0",
    "AggFinal -1 -1 -1 x:c0af",
    "AggStep -1 -1 -1 x:eda080",
    "AggFinal 1 0 2 count(1); AggFinal 3 0 4 percent_rank(0); AggFinal 5 0 6 cume_dist; ResultRow 1 6 0",
    "AggFinal 70000 0 1 count(0)",
    "AggFinal 1 0 70000 cume_dist",
    "AggFinal -1 1 -1 lead(1); Integer 1 1 0; AggFinal -1 1 2 lag(1); ResultRow 2 1 0",
    "Integer 1 1 0; AggStep 0 1 2 sum(1); AggStep 0 3 -1 sum(1); AggStep 0 3 -1 max(1); ResultRow 2 1 0",
    # Rewind with P2 = 0: no access
    "Rewind -1 0 0; Sort 70000 0 0; ResultRow 0 1 0",
    "Rewind -1 1 0",
    "Rewind 0 1 0; ResultRow 0 1 0",
    # If: the branch's store, the offer, the own store. ResultRow: 12, the reads, the offer, the count
    "If 1 3 0; ResultRow 1 1 0; Halt 0 0 0; Null 0 1 0; ResultRow 1 1 0",
    FULL + "; If 1 0 0",
    FULL + "; If 1 3 1; Halt 0 0 0; ResultRow 1 1 0",
    NO_SPACE + "; If 1 0 0",
    NO_SPACE + "; If 1 0 1",
    NO_SPACE + "; ResultRow 0 0 0",
    NO_SPACE + "; ResultRow 0 2001 0",
    NO_SPACE + "; ResultRow 65535 2 0",
    "ResultRow -1 2001 0",
    "ResultRow 65535 2 0",
    "ResultRow -1 1 0",
    "ResultRow -5 0 0; ResultRow -5 -7 0",
    "ResultRow 0 2000 0",
    # Move holds both copies for a moment
    "MakeRecord 1 511 1; Move 1 1 1; ResultRow 1 1 0",
    "MakeRecord 1 255 1; Move 1 2 1; MakeRecord 3 254 3; ResultRow 1 3 0",
    "MakeRecord 1 256 1; Move 1 2 1",
    "Integer 1 1 0; String8 0 2 0; Move 1 2 2; ResultRow 1 3 0",
    "Integer 1 1 0; Copy 1 2 0; Move 1 3 0; Copy 1 4 -1; ResultRow 1 4 0",
    "Null 0 0 70000",
    "Null 0 65535 70000",
    "Null 0 1 511; Null 0 0 0; Null 0 1 511; ResultRow 0 1 0",
    # IsNull and NotNull: absent, never blank, a record, plain Null
    "IsNull 1 2 0; ResultRow 1 1 0; ResultRow 1 1 0",
    "String8 0 1 0; IsNull 1 3 0; ResultRow 1 1 0; Halt 0 0 0; ResultRow 1 2 0",
    "Integer 4 1 0; IsNull 1 3 0; ResultRow 1 1 0; ResultRow 1 2 0",
    "Integer 5 2 0; MakeRecord 2 1 1; OpenPseudo 0 1 0; IsNull 1 5 0; Halt 0 0 0; Column 0 0 3; ResultRow 3 1 0",
    "Integer 5 2 0; MakeRecord 2 1 1; OpenPseudo 0 1 0; IsNull 1 6 0; Column 0 0 3; ResultRow 3 1 0; Halt 0 0 0",
    "MakeRecord 1 1 1; NotNull 1 3 0; ResultRow 1 1 0; ResultRow 1 2 0",
    "NotNull 1 2 0; ResultRow 1 1 0; ResultRow 1 1 0",
    "Null 0 1 0; NotNull 1 3 0; ResultRow 1 1 0; HaltIfNull 0 0 1; NotNull 1 7 0; ResultRow 1 2 0; Halt 0 0 0; ResultRow 1 3 0",
    "Null 0 1 0; HaltIfNull 0 0 1; NotNull 1 4 0; ResultRow 1 1 0; ResultRow 1 2 0",
    "String8 0 1 0; Null 0 2 0; Add 1 2 3; NotNull 3 5 0; ResultRow 3 1 0; ResultRow 3 2 0",
    # Return, Yield, EndCoroutine
    "Return 1 0 1; ResultRow 1 1 0",
    "Return 1 0 0; ResultRow 1 1 0",
    "Null 0 1 0; Return 1 0 1; ResultRow 1 1 0",
    "Integer 3 1 0; Return 1 0 1; ResultRow 1 1 0; Halt 0 0 0; ResultRow 1 2 0",
    "Integer -1 1 0; Return 1 0 0",
    "InitCoroutine 1 4 1; Yield 1 6 0; ResultRow 2 1 0; Goto 0 1 0; Integer 9 2 0; Yield 1 0 0; EndCoroutine 1 0 0; Halt 0 0 0",
    "Integer 2 1 0; Yield 1 0 0; Yield 2 0 0; ResultRow 1 1 0",
    "Integer 3 1 0; Yield 1 0 0; Halt 0 0 0; ResultRow 1 1 0",
    "Integer -7 1 0; Yield 1 0 0; ResultRow 1 1 0",
    "Integer 3 1 0; EndCoroutine 1 0 0; ResultRow 1 1 0; Goto 0 2 0",
    "Integer 3 1 0; EndCoroutine 1 0 0; Halt 0 0 0; Yield 5 4 0; ResultRow 1 1 0",
    "Integer -1 1 0; EndCoroutine 1 0 0; ResultRow 1 1 0",
    # IfPos repeated
    "Integer 5 3 0; IfPos 3 0 1; ResultRow 2 3 0",
    "Integer 0 1 0; IfPos 1 1 1; Goto 0 1 0; ResultRow 1 1 0",
    "Integer 2 1 0; IfPos 1 1 1; ResultRow 1 1 0; Goto 0 1 0",
    "IfPos 1 3 1; ResultRow 1 1 0; Goto 0 0 0; ResultRow 1 2 0; Goto 0 0 0",
    "Null 0 1 0; IfPos 1 1 1; ResultRow 1 1 0; Goto 0 1 0",
    # NullRow on a pseudo cursor: the top-level columns only
    "Integer 1 1 0; MakeRecord 1 1 2; Integer 1 3 0; MakeRecord 2 2 4; OpenPseudo 0 4 0; NullRow 0 0 0; Column 0 0 5; Column 0 1 6; "
    "OpenPseudo 1 5 0; Column 1 0 7; ResultRow 5 3 0",
    "OpenPseudo 0 70000 0; NullRow 0 0 0",
    "OpenPseudo 0 -1 0; RowData 0 1 0",
    "OpenPseudo 0 1 0; Integer 3 1 0; NullRow 0 0 0; ResultRow 1 1 0",
    "OpenEphemeral 0 1 0; Integer 1 1 0; MakeRecord 1 1 2; Insert 0 2 0; NullRow 0 0 0; Column 0 0 3; ResultRow 3 1 0",
    # Delete changes only `false` to unknown; OpenDup shares the table
    "OpenEphemeral 0 1 0; Delete 0 0 0; Rewind 0 4 0; ResultRow 1 1 0; ResultRow 1 2 0",
    "OpenEphemeral 0 1 0; Null 0 1 0; Insert 0 1 0; Delete 0 0 0; Rewind 0 6 0; ResultRow 1 1 0; ResultRow 1 2 0",
    "Delete -1 0 0",
    "OpenEphemeral 0 1 0; OpenDup 1 0 0; Integer 1 1 0; MakeRecord 1 1 2; Insert 1 2 0; Rewind 0 8 0; Column 0 0 3; ResultRow 3 1 0; Halt 0 0 0",
    # a loop stop hides a row, and a repeat counts one that no step reaches
    "Integer 7 5 0; SCopy 2 1 0; SCopy 3 2 0; SCopy 4 3 0; SCopy 5 4 0; ResultRow 1 1 0; Goto 0 1 0",
    # huge counts
    "MakeRecord 1 -1 1",
    "MakeRecord -1 -2147483648 1",
    "MakeRecord 0 70000 1",
    "MakeRecord -1 2147483647 1",
    "MakeRecord 2147483647 0 1; ResultRow 1 1 0",
    "OpenEphemeral -1 512 0",
    "OpenEphemeral 0 2147483647 0",
    "SorterOpen 0 -2147483648 0",
    "OpenAutoindex 0 65536 0",
    "Copy 0 0 2147483647",
    "Copy 2147483647 0 2147483647",
    "Move 0 0 2147483647",
    "Move 2147483647 -2147483648 0; Move 70000 70000 -1; ResultRow 0 1 0",
    "Null 0 2147483647 2147483647",
    # where 01 leaves room: depth, widths, rows that are not in the listing
    "; ".join(["MakeRecord 1 1 1"] * 8 + ["ResultRow 1 1 0"]),
    "; ".join(["MakeRecord 1 1 1"] * 9),
    "; ".join(["MakeRecord 1 0 1"] + ["MakeRecord 1 1 1"] * 7 + ["OpenEphemeral 0 0 0", "Insert 0 1 0", "ResultRow 1 1 0"]),
    "; ".join(["MakeRecord 1 0 1"] + ["MakeRecord 1 1 1"] * 8),
    "Integer 0 65535 0; ResultRow 65535 1 0",
    "Integer 0 65536 0",
    "Goto 0 -1 0",
    "Jump -1 70000 2147483647; ResultRow 0 1 0",
    "Integer 2147483647 1 0; Return 1 0 0",
    "Int64 0 1 0; ResultRow 1 1 0",
    "",
]

# texts that are no listing
DAMAGED = ["addr=0\n", "addr=1\nop=Halt\np1=0\np2=0\np3=0\np4=\n", "addr=0\nop=Halt\np1=0\np2=0\np3=0\np4=a\n", "\n"]


# 01, "Sample runs": columns, charged, loopstops where the paper gives them, or the refusal
SAMPLES = [
    ("A", "Init 0 1 0; Integer 7 1 0; Null 0 2 0; ResultRow 1 2 0; Halt 0 0 0", (2, 5, 0)),
    ("goto", "Goto 0 0 0", (0, 4, 1)),
    ("eq", "Eq 0 0 0", (0, 2, 0)),
    ("jump", "Jump 5 5 5; Integer 3 1 0; ResultRow 1 1 0; Halt 0 0 0", (1, 4, 0)),
    ("return", "Integer -1 1 0; Return 1 0 0", (0, 7, 1)),
    ("merge", "Eq 0 3 0; Integer 1 1 0; Goto 0 4 0; String8 0 1 0; ResultRow 1 1 0; Halt 0 0 0", (1, 8, 0)),
    ("no-columns", "ResultRow -5 0 0", (0, 1, 0)),
    ("negative-count", "MakeRecord 1 -1 1", 6),
    ("register-65535", "Integer 0 65535 0", (0, 1, 0)),
    ("register-65536", "Integer 0 65536 0", 7),
    ("cells-512", "OpenEphemeral 0 510 0", (0, 1, 0)),
    ("cells-513", "OpenEphemeral 0 511 0", 8),
    ("depth-8", "; ".join(["MakeRecord 1 1 1"] * 8), (0, 8, 0)),
    ("depth-9", "; ".join(["MakeRecord 1 1 1"] * 9), 9),
]

EDGES = (-1, 0, 65535, 65536)

# Every case of `operations` begins so: an operation that goes on comes back to row 1, one that jumps goes to row 4
SHOWN = "Goto 0 6 0; SCopy 65535 4 0; ResultRow 0 5 0; Halt 0 0 0; ResultRow 1 2 0; Halt 0 0 0"
STATES = {
    "empty": "",
    # registers 0, 1, 2, 3 and 65535: a number, a text, a record, a null, a number; cursors 0, 1, 65535: a new table, a record, a stored table
    "values": "Integer 3 0 0; String8 0 1 0; MakeRecord 0 2 2; Null 0 3 0; Integer 2 65535 0; OpenEphemeral 0 2 0; OpenPseudo 1 2 0; OpenRead 65535 1 0",
    # a null, a record, a number that is 0, an unknown, a record; a record's cursor, a filled table, a cursor of no register
    "records": "Null 0 0 0; Integer 0 2 0; MakeRecord 2 2 1; Column 9 0 3; MakeRecord 1 2 65535; OpenPseudo 0 65535 0; OpenEphemeral 1 2 0; "
    "Insert 1 1 0; OpenPseudo 65535 -1 0",
}
TABLES = [(0, 1, 0, "INT", 1), (0, 1, 1, "TEXT", 0)]

# operands that make sense, where P1 = 1, P2 = 4 (a row, a register), P3 = 1 do not
SENSIBLE = {
    "Column": (1, 1, 1), "RowData": (1, 1, 0), "SorterData": (1, 1, 0), "MakeRecord": (1, 2, 1), "Insert": (1, 2, 0), "IdxInsert": (1, 2, 0),
    "SorterInsert": (1, 2, 0), "OpenPseudo": (1, 2, 1), "OpenDup": (2, 1, 0), "OpenRead": (1, 1, 1), "OpenWrite": (1, 1, 1),
    "OpenEphemeral": (1, 2, 0), "OpenAutoindex": (1, 2, 0), "SorterOpen": (1, 2, 0), "Function": (1, 1, 1), "AggStep": (1, 1, 2),
    "AggValue": (1, 1, 2), "AggFinal": (1, 1, 2), "Cast": (1, 66, 0), "SCopy": (1, 2, 0), "IntCopy": (1, 2, 0), "Not": (1, 2, 0),
    "Copy": (1, 2, 1), "Move": (1, 2, 1), "Integer": (7, 1, 0), "Null": (1, 1, 2), "ResultRow": (1, 2, 0), "Jump": (1, 4, 2),
    "Gosub": (1, 4, 0), "InitCoroutine": (1, 4, 2), "Return": (2, 4, 1), "MustBeInt": (1, 4, 0), "If": (1, 4, 0), "HaltIfNull": (1, 4, 1),
}
AGGREGATES = ["count(1)", "cume_dist", "sum(1)", "lag(1)", "max(1)", "x:ff"]
P4S = {
    "Function": ["date(-1)", "last_insert_rowid(0)", "abs(1)", "x:ff"],
    "AggStep": AGGREGATES, "AggValue": AGGREGATES, "AggFinal": AGGREGATES,
}
NO_ARM = ["Noop", "Int64", "Transaction", "AddImm", "Zzz", "INTEGER", "Integer2", "A" * 32]

# rows that store one cell in register 9, or need one more cell
STORES = [
    "Integer 1 9 0", "Null 0 9 0", "String8 0 9 0", "Blob 0 9 0", "Real 0 9 0", "Variable 1 9 0", "Count 0 9 0", "Rowid 0 9 0", "NewRowid 0 9 0",
    "IdxRowid 0 9 0", "Sequence 0 9 0", "OffsetLimit 0 9 0", "Column 7 0 9", "Gosub 9 9999 0", "InitCoroutine 9 0 0", "Add 7 8 9", "And 7 8 9",
    "Concat 7 8 9", "Function 0 0 9 date(-1)", "AggStep 0 0 9 count(1)", "AggStep 0 0 9 cume_dist", "AggFinal 9 0 0 count(0)",
    "AggFinal 0 0 9 cume_dist", "MakeRecord 0 0 9", "RowData 7 9 0", "SorterData 7 9 0", "OpenPseudo 9 0 0", "OpenDup 9 0 0", "If 9 9999 0",
    "IfPos 9 9999 0", "Not 0 9 0", "SCopy 0 9 0", "Copy 0 9 0", "Move 0 9 1", "IntCopy 0 9 0",
]

NUMBERS = ["", "0", "-0", "00", "01", "-01", "-1", "+1", "1", "2", " 1", "1 ", "1\r", "-", "--1", "0x1", "1e3", "1.0", "1_0", "65535", "65536", "2147483647",
           "2147483648", "-2147483648", "-2147483649", "4294967296", "18446744073709551616", "99999999999999999999", "\x001", "1\x00", "\xd9\xa1"]
OPERATIONS = ["", "A", "a", "9", "A" * 32, "A" * 33, "A_B", "A B", " Halt", "Halt ", "Halt\r", "Ha\x00lt", "H\xe9", "op=Halt", "Halt=", "@", "[", "`", "{", "/", ":"]
HEXES = ["", "0", "00", "a", "0a", "0A", "AA", "g0", "0g", "000", "0 ", " 00", "00 00", "0x00", "ff", "FF", "00\r", "\x00", "00" * 255, "00" * 255 + "0", "00" * 256]
TYPES = ["", " ", "~", "\x1f", "\x7f", "\x80", "\xc3\xa9", "\x00", "\t", "INT\r", "a=b", "type=INT", "x" * 64, "x" * 65, " " * 64, "INT\x00"]
ROW_KEYS = [("addr", NUMBERS), ("op", OPERATIONS), ("p1", NUMBERS), ("p2", NUMBERS), ("p3", NUMBERS), ("p4", HEXES)]
RECORD_KEYS = [("db", NUMBERS), ("page", NUMBERS), ("col", NUMBERS), ("type", TYPES), ("notnull", NUMBERS)]

KINDS = ["INT4", "INT8", "BOOLEAN", "bool", "DATE", "time", "DATETIME", "Timestamp", "INTEGER", "FLOATING POINT", "VARCHAR(255)", "CLOB", "Text", "BLOB", "REAL",
         "float", "DOUBLE PRECISION", "NUMERIC", "STRING", "", "date ", "bigint", "blobtext", "x" * 61 + "int"]

GOOD_UTF8 = ["", "7f", "c280", "dfbf", "e0a080", "ed9fbf", "ee8080", "efbfbf", "f0908080", "f48fbfbf", "00"]
BAD_UTF8 = ["80", "bf", "c0af", "c1bf", "c2", "c27f", "c2c0", "e08080", "e09fbf", "eda080", "edbfbf", "efbf", "efbfc0", "f08f8080", "f0808080", "f4908080",
            "f5808080", "f48fbf", "f880808080", "ff", "fe"]


def row_line(row):
    """A row as a line of the data, and as text of the listing behind its address."""
    op, p1, p2, p3, *p4 = row.split(" ", 4)
    p4 = p4[0] if p4 else ""
    given = p4[2:] if p4.startswith("x:") else p4.encode().hex()
    line = f"{op} {p1} {p2} {p3}" + (" " + given if given else "")
    return line, f"\nop={op}\np1={p1}\np2={p2}\np3={p3}\np4={given}\n".encode()


def escaped(text):
    """A text as it stands behind `text` or `tables`."""
    return "".join("|" if b == 10 else chr(b) if 32 <= b < 127 and b not in b"|\\" else "\\%02x" % b for b in text)


def record_text(db, page, col, kind, notnull):
    return f"db={db}\npage={page}\ncol={col}\ntype={kind}\nnotnull={notnull}\n".encode("latin1")


class File:
    """One data file: keeps what the program will have built, and asks the reference what must come out."""

    def __init__(self, name, walk):
        self.name, self.walk = name, walk
        self.lines, self.kept, self.count = [], (b"", 0), 0
        self.listing, self.rows, self.tables = b"", 0, b""
        self.numbers = [0] * 13

    def line(self, text, times=1):
        self.lines.append(text)
        if times > 1:
            self.lines.append(f"again {times - 1}")

    def add(self, item, times=1):
        """A row (a str) or a text (bytes) at the end of the listing."""
        if isinstance(item, bytes):
            self.line("text " + escaped(item), times)
            self.listing += item * times
            return
        line, text = row_line(item)
        self.line(line, times)
        for _ in range(times):
            self.listing += b"addr=%d" % self.rows + text
            self.rows += 1

    def rows_of(self, rows):
        for row in rows.split("; ") if rows else []:
            self.add(row)

    def keep(self, rows):
        self.line("drop")
        self.listing, self.rows = b"", 0
        self.rows_of(rows)
        self.line("keep")
        self.kept = (self.listing, self.rows)

    def no_tables(self):
        if self.tables:
            self.line("no tables")
        self.tables = b""

    def table(self, text, times=1):
        self.line("tables " + escaped(text), times)
        self.tables += text * times

    def case(self, name):
        self.line("case " + name)
        self.listing, self.rows = self.kept
        self.area, self.room, self.expected = AREA, ROOM, None

    def lend(self, area, room):
        if area != self.area:
            self.line(f"area {area}")
        if room != self.room:
            self.line(f"room {room}")
        self.area, self.room = area, room

    def gives(self, area=AREA, room=ROOM):
        """A call; answers its number and the length of its answer."""
        assert len(self.listing) <= MOST_LISTING and len(self.tables) <= MOST_TABLES and area <= MOST_AREA and room <= MOST_ROOM
        self.lend(area, room)
        answer = bytearray(room)
        number, length = self.walk.call(self.listing, self.tables, area, answer)
        if number == 0 and answer[:length] != self.expected:
            self.expected = answer[:length]
            self.expect(answer[:length].decode())
        self.line(f"gives {number}")
        self.numbers[number] += 1
        return number, length

    def expect(self, answer):
        values = [line.split("=")[1] for line in answer.splitlines()]
        self.line("answer " + " ".join(values[:5]))
        columns = ["col %s %s" % tuple(values[i + 1:i + 3]) for i in range(5, len(values), 3)]
        at = 0
        while at < len(columns):
            times = 1
            while columns[at + times:at + times + 1] == [columns[at]]:
                times += 1
            self.line(columns[at], times)
            at += times

    def quick(self, name, rows, area=AREA, room=ROOM):
        self.case(name)
        self.rows_of(rows)
        return self.gives(area, room)

    def write(self):
        text = "".join(line + "\n" for line in self.lines).encode("ascii")
        assert len(text) <= LARGEST_FILE, (self.name, len(text))
        with open(DATA + self.name + ".txt", "wb") as file:
            file.write(text)
        return len(text)


def samples(f):
    for name, rows, said in SAMPLES:
        number, _ = f.quick(name, rows)
        if number:
            assert number == said, name
        else:
            heads = [int(line.split(b"=")[1]) for line in f.expected.splitlines()[:5]]
            assert tuple(heads[:3]) == said and heads[3:] == [0, 0], name


def corners(f):
    for i, rows in enumerate(CORNERS):
        f.quick(f"corner-{i}", rows)
    for i, text in enumerate(DAMAGED):
        f.case(f"damaged-{i}")
        f.add(text.encode())
        f.gives()


def operands(op):
    """An operation's operands: each in turn at each edge, the others sensible."""
    sensible = SENSIBLE.get(op, (1, 4, 1))
    for i in range(3):
        for edge in EDGES:
            changed = list(sensible)
            changed[i] = edge
            yield f"p{i + 1}={edge}", "%d %d %d" % tuple(changed)


def is_plain_jump(f, op):
    """Whether an operation does what Eq does, a jump that looks at no register."""
    return f.walk.ARMS[op] is f.walk.ARMS["Eq"]


def operations(f):
    for record in TABLES:
        f.table(record_text(*record))
    arms = sorted(f.walk.ARMS)
    assert len(arms) == 111
    tried = {"empty": arms, "values": arms + NO_ARM, "records": [op for op in arms if op == "Eq" or not is_plain_jump(f, op)]}
    for state, rows in STATES.items():
        f.keep(SHOWN + ("; " + rows if rows else ""))
        for op in tried[state]:
            for p4 in P4S.get(op, [""]):
                for what, three in operands(op):
                    f.quick(f"{state}-{op}-{what}", f"{op} {three} {p4}".rstrip() + "; Goto 0 1 0")


def least_area(f, rows):
    """The least area with which this listing is not refused with 11, by the units that the reference used."""
    listing = b"".join(b"addr=%d" % i + row_line(row)[1] for i, row in enumerate(rows.split("; ")))
    judged, catalogue, units = f.walk.prepare(listing, f.tables, 16777216)
    return 16 * (1024 + 2 * len(judged) + f.walk.walk(judged, catalogue, units).units_used)


def area_limits(f):
    for rows in (0, 1, 2, 15, 16, 17, 100, 1536, 1537, 2048):
        least = 16 * (1024 + 2 * rows)
        for area in (0, least - 16, least - 1, least, least + 1):
            f.case(f"area-{rows}-rows-{area}")
            if rows:
                f.add("Noop 0 0 0", rows)
            f.gives(area)


def branches(n):
    return "; ".join(f"If {i} {i + 1} 0" for i in range(n)) + f"; ResultRow 0 {n} 0"


def diamonds(n):
    return "; ".join(f"Eq 0 {2 * i + 2} 0; Integer {i} {i} 0" for i in range(n)) + f"; ResultRow 0 {n} 0; Halt 0 0 0"


def unit_limits(f):
    """Areas in which the last branch is just remembered, or just not."""
    listings = ["Eq 0 0 0", "Eq 0 1 0", "Jump 5 5 5", "Jump 5 6 7", "ResultRow 0 0 0", "OpenEphemeral 0 510 0; Eq 0 5 0", "If 1 5 0; IfPos 2 5 1; IsNull 1 5 0"]
    listings += [diamonds(n) for n in (1, 3, 5, 7)] + [branches(n) for n in (2, 5, 8)]
    listings += ["; ".join(["Noop 0 0 0"] * n + ["Eq 0 9999 0"]) for n in (14, 15, 16, 31, 32)]
    for i, rows in enumerate(listings):
        least = least_area(f, rows)
        f.case(f"units-{i}")
        f.rows_of(rows)
        assert f.gives(least - 1)[0] == 11 and f.gives(least - 16)[0] == 11
        assert f.gives(least)[0] == 0 and f.gives(least + 15)[0] == 0 and f.gives(MOST_AREA)[0] == 0


def gas_limits(f):
    """Walks that spend all 100,000 units, or a good part of them."""
    for n in (12, 13, 14):
        f.quick(f"gas-diamonds-{n}", diamonds(n), MOST_AREA)
    f.quick("gas-loops", "; ".join(f"Jump {i} {i + 1} {i + 2}; Integer {i} {i % 4} 0" for i in range(40)), MOST_AREA)
    f.case("gas-rows-of-jumps")
    f.add("Jump 0 0 0", 2048)
    f.gives(MOST_AREA)
    f.case("gas-wide")
    f.add("Jump 0 1 2", 1500)
    f.gives(MOST_AREA)


def room_limits(f):
    listings = ["", "Goto 0 0 0", SAMPLES[0][1], SAMPLES[5][1], "ResultRow 0 9 0", "ResultRow 0 10 0", "ResultRow 0 11 0", "ResultRow 0 100 0", "ResultRow 0 101 0",
                "ResultRow 0 1000 0", "ResultRow 0 1001 0", "ResultRow 0 2000 0", "Integer 0 1 0; ResultRow 0 2000 0; ResultRow 0 3 0"]
    for i, rows in enumerate(listings):
        f.case(f"room-{i}")
        f.rows_of(rows)
        answer = bytearray(MOST_ROOM)
        number, length = f.walk.call(f.listing, f.tables, AREA, answer)
        assert number == 0
        for room in (0, 1, length - 1):
            assert f.gives(AREA, room)[0] == 5
        for room in (length, length + 1, MOST_ROOM):
            assert f.gives(AREA, room) == (0, length)


def width_limits(f):
    for first, width in [(0, 1999), (0, 2000), (0, 2001), (-1, 2001), (-1, 2000), (63535, 2000), (63536, 2000), (63537, 2000), (65535, 1), (65536, 1), (65536, 0),
                         (0, 2147483647), (2147483647, 2000), (-2147483648, 2001), (5, -2147483648)]:
        f.quick(f"width-{first}-{width}", f"ResultRow {first} {width} 0", AREA, MOST_ROOM)


def cell_limits(f):
    for n in (510, 511, 512, 513):
        for i, rows in enumerate([f"OpenEphemeral 0 {n - 2} 0", f"OpenAutoindex 0 {n - 2} 0", f"SorterOpen 0 {n - 2} 0", f"Null 0 1 {n}", f"MakeRecord 1 {n - 1} 1",
                                  f"MakeRecord 1 {n - 2} 1; Integer 0 2 0", f"Integer 0 2 0; MakeRecord 1 {n - 2} 1", f"OpenEphemeral 0 {n - 3} 0; Integer 0 0 0",
                                  f"OpenPseudo 0 1 0; MakeRecord 1 1 1; MakeRecord 1 {n - 6} 9; Integer 1 5 0", f"MakeRecord 1 {n - 2} 1; OpenPseudo 0 1 0; RowData 0 1 0",
                                  f"OpenEphemeral 0 {n - 5} 0; MakeRecord 1 {n - 300} 1; MakeRecord 1 200 1", f"OpenEphemeral 0 3 0; MakeRecord 1 {(n - 3) // 2} 1; Insert 0 1 0"]):
            f.quick(f"cells-{n}-{i}", rows)
    for n in (509, 510):
        for row in STORES:
            f.quick(f"cells-{n}-{row.split()[0]}", f"OpenEphemeral 0 {n - 1} 0; Integer 3 0 0; {row}; ResultRow 9 1 0; Halt 0 0 0")
            f.quick(f"cells-{n}-{row.split()[0]}-over", f"OpenEphemeral 0 {n - 2} 0; Integer 3 0 0; Integer 5 9 0; {row}; ResultRow 9 1 0; Halt 0 0 0")


def stored_limits(f):
    """A stored table of as many columns as fit, or one more."""
    for n in (509, 510, 511):
        f.no_tables()
        for i in range(n):
            f.table(record_text(0, 1, i, "INT", 1))
        f.quick(f"stored-{n}", "OpenRead 0 1 0; Column 0 508 1; ResultRow 1 1 0")
    f.no_tables()


def depth_limits(f):
    deeper = "MakeRecord 1 1 1"
    for first in ("MakeRecord 1 0 1", "Integer 1 1 0", "Null 0 1 0", ""):
        for n in (6, 7, 8, 9):
            f.quick(f"depth-{n}", "; ".join(([first] if first else []) + [deeper] * n + ["ResultRow 1 1 0"]))
    for n in (7, 8):
        made = "; ".join([deeper] * n)
        for name, rows in [("table", "OpenEphemeral 0 0 0; Insert 0 1 0; ResultRow 1 1 0"), ("row-data", "OpenEphemeral 0 0 0; Insert 0 1 0; RowData 0 2 0; ResultRow 2 1 0"),
                           ("twice", "OpenEphemeral 0 0 0; MakeRecord 1 1 2; Insert 0 2 0; Column 0 0 3; ResultRow 3 1 0"), ("pseudo", "OpenPseudo 0 1 0; RowData 0 2 0; ResultRow 2 1 0"),
                           ("copy", "Copy 1 2 0; Move 2 3 1; SCopy 3 4 0; ResultRow 2 3 0"), ("index", "MakeRecord 1 1 65536"), ("cells", "Null 0 2 503; MakeRecord 1 1 1")]:
            f.quick(f"depth-{n}-{name}", f"{made}; {rows}")


def count_limits(f):
    """Rows and records, and the order of the refusals before the walk."""
    good, damaged = record_text(0, 1, 0, "INT", 1), b"db=\n"
    for rows, records, fault, spoilt in [(2047, 0, b"", b""), (2048, 0, b"", b""), (2049, 0, b"", b""), (2049, 0, b"x", b""), (2049, 1, b"", damaged), (2048, 1, b"", damaged),
                                         (2048, 1, b"addr=2048\n", b""), (1, 4095, b"", b""), (1, 4096, b"", b""), (1, 4097, b"", b""), (1, 4097, b"", damaged),
                                         (1, 4097, b"x", b""), (1, 4096, b"", damaged), (2049, 4097, b"", damaged), (1, 1, b"x", damaged), (0, 4097, b"", b"")]:
        f.no_tables()
        if records:
            f.table(good, records)
        if spoilt:
            f.table(spoilt)
        f.case(f"counts-{rows}-{records}")
        if rows:
            f.add("Noop 0 0 0", rows)
        if fault:
            f.add(fault)
        for area in (0, 16 * (1024 + 2 * rows) - 1, 16 * (1024 + 2 * rows)):
            f.gives(area)
            f.gives(area, 0)
    f.no_tables()


def p4_limits(f):
    for op in ("Function", "AggStep", "AggValue", "AggFinal", "String8"):
        for text in GOOD_UTF8 + BAD_UTF8 + [b"count(".hex() + bad for bad in ("ff", "c3a9", "c3")]:
            f.quick(f"utf8-{op}-{text}", f"{op} 1 1 2 x:{text}; ResultRow 1 2 0")
        for text in ("61" * 255, "61" * 254 + "ff", "f0908080" * 63 + "efbfbf"):
            f.quick(f"utf8-{op}-long", f"{op} 1 1 2 x:{text}; ResultRow 1 2 0")
    for text in ("count(", "count", "row_number(0)", "rank(0)", "dense_rank(0)", "ntile(1)", "percent_rank(0)", "percent_rank", "cume_dist(0)", "cume_distx", "sum(", "sum",
                 "lead(1)", "lag(3)", "lag", "max(1)", "Count(1)", " count(1)"):
        for op in ("AggStep", "AggValue", "AggFinal"):
            f.quick(f"text-{op}-{text}".replace(" ", "_"), f"Integer 5 1 0; {op} 3 1 2 {text}; ResultRow 1 3 0")
    for text in [*f.walk.FUNCTIONS, "date(-1", "DATE(-1)", "unixepoch(-1) ", "now"]:
        for p2 in (0, 1, -1):
            f.quick(f"text-Function-{text}-{p2}".replace(" ", "_"), f"Function 0 {p2} 1 {text}; ResultRow 1 1 0")


def limits(f):
    for make in (area_limits, unit_limits, gas_limits, room_limits, width_limits, cell_limits, stored_limits, depth_limits, count_limits, p4_limits):
        make(f)


def spoilt_values(keys, good):
    """A good text with one value after another in the place of each of its values."""
    for key, values in keys:
        for i, value in enumerate(values):
            lines = [f"{key}={value}" if line.startswith(key + "=") else line for line in good]
            yield f"{key}-{i}", "\n".join(lines + [""]).encode("latin1")


def spoilt_lines(good):
    """A good text with lines missing, doubled, swapped, misspelt or not ended as they must be."""
    whole = "\n".join(good + [""])
    for i, line in enumerate(good):
        key = line.split("=")[0]
        for name, lines in [("missing", []), ("twice", [line, line]), ("empty", [""]), ("upper", [key.upper() + line[len(key):]]), ("no-sign", [key]), ("space", [" " + line]),
                            ("spaced", [line.replace("=", " = ")]), ("short", [line[1:]]), ("nul", [line + "\0"]), ("nul-first", ["\0" + line]), ("return", [line + "\r"])]:
            yield f"{key}-{name}", "\n".join(good[:i] + lines + good[i + 1:] + [""]).encode()
        swapped = good[:i] + good[i + 1:i + 2] + [line] + good[i + 2:]
        yield f"{key}-swapped", "\n".join(swapped + [""]).encode()
    for name, text in [("no-end", whole[:-1]), ("two-ends", whole + "\n"), ("nul-end", whole + "\0"), ("space-end", whole + " "), ("first-end", "\n" + whole), ("returns", whole.replace("\n", "\r\n")),
                       ("no-lines", whole.replace("\n", "")), ("mark", "\ufeff" + whole)]:
        yield name, text.encode()


def spoilt_bytes(text):
    """A good text cut at each place, and with each byte changed, left out and doubled."""
    for i in range(len(text)):
        yield f"cut-{i}", text[:i]
        yield f"nul-{i}", text[:i] + b"\0" + text[i + 1:]
        yield f"high-{i}", text[:i] + bytes([text[i] ^ 128]) + text[i + 1:]
        yield f"gone-{i}", text[:i] + text[i + 1:]
        yield f"double-{i}", text[:i + 1] + text[i:]


def row_lines(address, op, p4):
    return [f"addr={address}", f"op={op}", "p1=-1", "p2=20", "p3=0", f"p4={p4}"]


def damaged_listings(f):
    good = row_lines(0, "Halt", "0a")
    one = "\n".join(good + [""]).encode()
    spoilt = [("", one), *spoilt_values(ROW_KEYS, good), *spoilt_lines(good), *spoilt_bytes(one)]
    for address in ("0", "2", "01", "-1", "1 ", ""):
        spoilt.append((f"second-{address}", one + "\n".join(row_lines(address, "Noop", "") + [""]).encode()))
    spoilt.append(("third", one + one.replace(b"addr=0", b"addr=1") + one.replace(b"addr=0", b"addr=3")))
    for name, text in spoilt:
        f.case("listing-" + name)
        f.add(text)
        f.gives()


def damaged_catalogues(f):
    good = ["db=1", "page=7", "col=3", "type=INT4", "notnull=1"]
    one = "\n".join(good + [""]).encode()
    spoilt = [("", one), *spoilt_values(RECORD_KEYS, good), *spoilt_lines(good), *spoilt_bytes(one)]
    f.keep("OpenRead 0 7 1; Column 0 3 1; ResultRow 1 1 0; Halt 0 0 0")
    for name, text in spoilt:
        f.no_tables()
        if text:
            f.table(text)
        f.case("catalogue-" + name)
        f.gives()
    f.no_tables()
    f.keep("")


def read_catalogues(f):
    """Catalogues as the walk reads them: kinds, the last record of a column, databases, pages, gaps."""
    for notnull in (0, 1):
        for kind in KINDS:
            f.no_tables()
            f.table(record_text(0, 2, 0, kind, notnull))
            f.quick("kind-" + escaped(kind.encode()).replace(" ", "_"), "OpenRead 0 2 0; Column 0 0 1; ResultRow 1 1 0")
    f.no_tables()
    for record in [(0, 2, 1, "TEXT", 1), (1, 2, 0, "BLOB", 1), (0, 3, 0, "REAL", 0), (0, 2, 1, "INT", 0), (0, 2, 65535, "DATE", 1), (1, 0, 2, "BOOL", 1),
                   (0, 2147483647, 0, "INT4", 1), (0, 3, 0, "REAL", 1)]:
        f.table(record_text(*record))
    for page, db in [(2, 0), (2, 1), (3, 0), (3, 1), (0, 1), (0, 0), (2147483647, 0), (-1, 0), (2, -1), (2, 2), (2, 256), (-2147483648, 2147483647)]:
        for op in ("OpenRead", "OpenWrite"):
            f.quick(f"page-{op}-{page}-{db}", f"{op} 0 {page} {db}; Column 0 0 1; Column 0 1 2; Column 0 2 3; Column 0 65535 4; RowData 0 5 0; ResultRow 1 5 0")
    f.no_tables()


def texts(f):
    damaged_listings(f)
    damaged_catalogues(f)
    read_catalogues(f)


def reports(f, folder):
    paths = sorted(glob.glob(os.path.join(folder, "*.listing")))
    catalogues = {open(path[:-len("listing")] + "catalog", "rb").read() for path in paths}
    assert len(catalogues) == 1
    lines = catalogues.pop().splitlines(keepends=True)
    for i in range(0, len(lines), 5):
        f.table(b"".join(lines[i:i + 5]))
    for path in paths:
        f.case(os.path.basename(path)[:-len(".listing")])
        with open(path, "rb") as file:
            for row in f.walk.read_listing(file.read()):
                f.add(f"{row.op} {row.p1} {row.p2} {row.p3}" + (" x:" + row.p4.hex() if row.p4 else ""))
            file.seek(0)
            assert file.read() == f.listing, path
        f.gives(AREA, ROOM)
        f.gives(MOST_AREA, ROOM)


def reference(folder):
    spec = importlib.util.spec_from_file_location("walkref", os.path.join(folder, "walkref.py"))
    module = importlib.util.module_from_spec(spec)
    spec.loader.exec_module(module)
    return module


def main():
    walk, folder = reference(sys.argv[1]), sys.argv[2]
    numbers, out = [0] * 13, ""
    makers = (samples, corners, operations, limits, texts, reports)
    for make in makers:
        f = File(make.__name__, walk)
        make(f, folder) if make is reports else make(f)
        size = f.write()
        numbers = [a + b for a, b in zip(numbers, f.numbers)]
        out += f"{f.name}.txt: {sum(f.numbers)} cases\n"
        print(f.name, sum(f.numbers), "cases,", size, "bytes, by number", f.numbers)
    out += "".join(f"number {i}: {n}\n" for i, n in enumerate(numbers)) + f"{sum(numbers)} cases, 0 disagree\n"
    with open("crates/vectors/stdin", "w") as file:
        file.write("".join(make.__name__ + ".txt\n" for make in makers))
    with open("crates/vectors/stdout", "w") as file:
        file.write(out)


if __name__ == "__main__":
    main()
