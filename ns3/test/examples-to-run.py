#! /usr/bin/env python3
# SPDX-FileCopyrightText: 2026 the Ginavoru authors
# SPDX-License-Identifier: GPL-2.0-only

# The examples that ns-3's test.py runs: their names with words, and under which conditions they are run, and run with valgrind.
cpp_examples = [
    ("tora-line", "True", "True"),
]

# There are none in Python.
python_examples = []
