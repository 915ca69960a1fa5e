#!/usr/bin/env python3
"""Writes stdin and stdout of step_trial from the files of rows that are named, or from all.

A row has a sentence and, behind `=>`, the text of what it declares, `good`, or the lines of the goals that it leaves, with ` ; ` for a
line end and ` ;; ` for an empty line; or, behind `=!`, its fault; or, behind `=?`, the fault that it has where it is only tried.
A fault that stands at a part of the sentence has that part between « and »; its offsets are counted here.
"""

import sys

sentences, answers = [], []
lines = [line for name in sys.argv[1:] or ["rows.txt", "refinements.txt"] for line in open(name, encoding="utf-8").read().splitlines()]
for line in lines:
    if line == "reset":
        sentences.append(line)
        answers.append(line)
        continue
    tried, leaves = " =? " in line, " => " in line and ("====" in line or line.endswith(" => no goals"))
    sentence, _, told = line.partition(" => " if " => " in line else " =? " if tried else " =! ")
    if "«" in sentence:
        before, part = sentence.split("«")
        part, behind = part.split("»")
        sentence = before + part + behind
        told += f" at {len(before)}-{len(before) + len(part)}"
    if tried:
        sentence = "try " + sentence
    if leaves and sentence != "goals":
        sentences.append(sentence)
        answers += [sentence, "  good"]
        sentence = "goals"
    sentences.append(sentence)
    answers += [sentence, "  " + told.replace(" ;; ", "\n  \n  ").replace(" ; ", "\n  ")]
open("stdin", "w").write("\n".join(sentences) + "\n")
open("stdout", "w").write("\n".join(answers) + "\n")
