#!/usr/bin/env python3
"""The tables of docs/LISTING.md. From the repository's root: python3 tests/listing.py names | lines

    names   the forms listed are the names of crates/forms/specs/Rows.antt, long words before halves and else in that order, each with as many operands
            as its example has
    lines   writes each example as WORD, tab, WORD that it assembles to, tab, LINE with tabs, for tests/listing_lines.c

Exits with 1 where the tables differ."""
import re
import sys


def read(path):
    with open(path, encoding="utf-8") as f:
        return f.read()


def tables():
    """Each table as its heading's cells and its rows."""
    found, rows = [], None
    for line in read("docs/LISTING.md").split("\n"):
        if not line.startswith("|"):
            rows = None
            continue
        cells = [cell.strip() for cell in line.strip("|").split("|")]
        if rows is None:
            rows = []
            found.append((cells, rows))
        elif not set("".join(cells)) <= {"-"}:
            rows.append(dict(zip(found[-1][0], cells)))
    return found


def source_names():
    """Name by name, from the bytes, not from the comments beside them."""
    text = re.sub(r"--.*", "", read("crates/forms/specs/Rows.antt"))
    body = text[text.index("names =\n"):text.index("abbrev pub row_count")]
    return ["".join(chr(int(n)) for n in re.findall(r"\d+", name)) for name in re.findall(r"\((\d[^()]*)\)", body)]


def examples():
    for heading, rows in tables():
        if "Listed as" in heading:
            for row in rows:
                yield row["Word"], row.get("Assembles to", row["Word"]), row["Listed as"].split(" ")


def names():
    forms = [row for heading, rows in tables() if "Operands" in heading for row in rows]
    listed, there = [row["Name"] for row in forms], sorted(source_names(), key=lambda name: name.startswith("c."))
    wrong = [f"{a} is listed where {b} is the name" for a, b in zip(listed, there) if a != b]
    if len(listed) != len(there):
        wrong.append(f"{len(listed)} forms are listed, {len(there)} names are there")
    for row in forms:
        operands = [] if row["Operands"] == "none" else row["Operands"].split(" ")
        example = row["Listed as"].split(" ")
        if example[0] != row["Name"] or len(example) - 1 != len(operands):
            wrong.append(f"{row['Name']}: its example has other operands")
    print("\n".join(wrong) if wrong else f"{len(listed)} forms")
    return 1 if wrong or not listed else 0


def lines():
    for word, chosen, fields in examples():
        print(word, chosen, "\t".join(fields), sep="\t")
    return 0


sys.exit({"names": names, "lines": lines}[sys.argv[1]]())
