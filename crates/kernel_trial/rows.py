#!/usr/bin/env python3
"""Writes stdin and stdout of kernel_trial from rows.txt.

A row has what is read and, behind ` => `, what is told of it. Among the rules of a tree `(100 (Cut A) (Stated a))` stands
for these rules 100 times. A row that begins with `1..40` stands for 40 rows, in which `{}` is the number of the row and `{before}` the one
before that. Values are written as sexp_core spells them, with no blank between two lists.
"""
import re


def repeated(match):
    return " ".join([match[2]] * int(match[1]))


def numbered(line):
    match = re.match(r"1\.\.(\d+) ", line)
    if not match:
        return [line]
    text = line[match.end():]
    return [text.replace("{}", str(n)).replace("{before}", str(n - 1)) for n in range(1, int(match[1]) + 1)]


lines = open("rows.txt", encoding="utf-8").read().splitlines()
rows, answers = [], []
for line in [one for line in lines for one in numbered(line)]:
    row, _, told = line.partition(" => ")
    row = re.sub(r"\((\d+) ((?:\([^()]*\) ?)+)\)", repeated, row)
    row = row.replace(") (", ")(")
    rows.append(row)
    answers += [row, "  " + told]
open("stdin", "w").write("\n".join(rows) + "\n")
open("stdout", "w").write("\n".join(answers) + "\n")
