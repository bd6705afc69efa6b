#!/usr/bin/env bash
# The cutting program and the label station's C program against document 01, by tests/cutting.py.
cd "$(dirname "$0")/.." && exec python3 tests/cutting.py
