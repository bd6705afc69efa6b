#!/usr/bin/env python3
"""Checks of `bench shelf`, for tests/shelf.sh: python3 tests/shelf.py WHAT ARGUMENTS..

    expected CSV COUNT          the rows of a shelf of tests/shelf_images.py on the large board are those that its images must have
    forms CSV JSON TABLE        the three forms of one shelf say the same
    alike CSV FOLDER BENCH      a sample of the rows says what `bench fit` and `bench run` say of those images by themselves
    memory LEAST MOST COMMAND.. the command with the folder LEAST and with MOST for @ has peaks of memory within 4 MB of each other

Exits with 1, and says why, where that is not so."""
import csv
import json
import os
import subprocess
import sys

sys.path.insert(0, os.path.dirname(os.path.abspath(__file__)))
import shelf_images

BOARD = ["examples/interlock_large.map", "examples/interlock_large.hex"]


def rows_of(path):
    with open(path, newline="", encoding="utf-8") as file:
        return list(csv.DictReader(file))


def expected(path, count):
    rows = rows_of(path)
    assert len(rows) == int(count), len(rows)
    kinds = set()
    for n, row in enumerate(rows):
        label, run, used = shelf_images.expected(n)
        assert row["file"] == f"image-{n:05}.img", row
        assert (row["label"], row["run"]) == (label, run), row
        assert row["stack_used"] == ("" if used is None else str(used)), row
        assert (row["why"] == "") == (run in ("ended", "running")), row
        kinds.add((label, run))
    assert len(kinds) == 7, kinds


def forms(csv_path, json_path, table_path):
    rows = rows_of(csv_path)
    with open(json_path, encoding="utf-8") as file:
        whole = json.load(file)
    text = lambda value: "" if value is None else str(value)
    assert [{name: text(value) for name, value in row.items()} for row in whole["rows"]] == rows
    counts = whole["counts"]
    assert counts["images"] == len(rows)
    assert counts["good"] == sum(row["label"] == "fits" and row["run"] == "ended" for row in rows)
    assert counts["running"] == sum(row["run"] == "running" for row in rows) > 0
    verdict = lambda row: {"ended": "good", "no": ""}.get(row["run"], row["run"])
    assert all(row["verdict"] == verdict(row) and row["map_stores"] == ("" if row["run"] == "no" else "0") for row in rows)
    assert counts["misfits"] == sum(row["label"] == "misfit" for row in rows)
    assert counts["trapped"] == sum(row["run"] == "trapped" for row in rows)
    assert counts["bad"] == sum(row["label"] == "bad" for row in rows)
    with open(table_path, encoding="utf-8") as file:
        lines = file.read().splitlines()
    assert len(lines) == len(rows) + 3 and lines[-1].startswith(f"{len(rows):,} images: {counts['good']:,} fit"), lines[-1]
    for line, row in zip(lines[1:], rows):
        assert line.startswith(row["file"]) and row["why"] in line, line


def asked(*command):
    done = subprocess.run(command, capture_output=True, text=True)
    return done.returncode, json.loads(done.stdout) if done.stdout.startswith("{") else None


def alike(csv_path, folder, bench):
    rows = rows_of(csv_path)
    sample = [0, 1, 57, 90, 94, 96, 98, 99, 219, 220, 221]
    for row in (rows[n] for n in sample):
        image = os.path.join(folder, row["file"])
        status, fit = asked(bench, "fit", "--json", BOARD[0], image)
        assert {0: "fits", 1: "misfit", 2: None}[status] == {"fits": "fits", "misfit": "misfit"}.get(row["label"]), (row, status)
        status, run = asked(bench, "run", "--json", "--steps", "20000", "--map", BOARD[0], BOARD[1], image)
        assert (status in (0, 1)) == (row["run"] != "no"), (row, status)
        if status not in (0, 1):
            continue
        trap = run["trap"] or {"at": "", "cause": "", "asked": None, "instruction": ""}
        said = [run["retired"], run["trapped"], trap["at"], trap["cause"], trap["instruction"], run["stack"]["used"], run["stack"]["mark"]]
        assert [str(word) for word in said] == [row[name] for name in ("retired", "trapped", "at", "why", "instruction", "stack_used", "stack_mark")], row


def memory(least, most, *command):
    peaks = []
    for folder in (least, most):
        words = [folder if word == "@" else word for word in command]
        timed = subprocess.run(["/usr/bin/env", "python3", "-c", PEAK, *words], capture_output=True, text=True)
        peaks.append(int(timed.stdout))
    print(f"{peaks[0]} KB and {peaks[1]} KB")
    assert peaks[0] > 1000 and abs(peaks[1] - peaks[0]) < 4096, peaks


PEAK = """import resource, subprocess, sys
subprocess.run(sys.argv[1:], stdout=subprocess.DEVNULL)
print(resource.getrusage(resource.RUSAGE_CHILDREN).ru_maxrss)"""

if __name__ == "__main__":
    try:
        {"expected": expected, "forms": forms, "alike": alike, "memory": memory}[sys.argv[1]](*sys.argv[2:])
    except AssertionError as error:
        sys.exit(f"{' '.join(sys.argv[1:3])}: {error}")
