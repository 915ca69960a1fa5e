#!/usr/bin/env python3
"""Checks a script by vcheck, and writes its faults as an editor reads them, a line each: `FILE:LINE:COLUMN: MESSAGE`.

    examples/vcheck_lines.py FILE              runs the launcher ./vcheck
    examples/vcheck_lines.py FILE PROGRAM ..   runs this program, with the words behind it

vcheck names a sentence by its id: the first of a text has 2, the next 3. So the text is cut into sentences here too, by the
rules of docs/LANGUAGE.md. Lines and columns are counted from 1, and a column counts bytes. The exit status is the program's.
In Vim: `:set makeprg=examples/vcheck_lines.py\\ % errorformat=%f:%l:%c:\\ %m`, and then `:make`.
"""

import os
import re
import subprocess
import sys

FIRST_ID = 2
LONGEST = 65536
COMMENT = "\u0100"  # stands for a byte of a comment: no byte is read as it
GAP = re.compile(f"[\t\n\f\r {COMMENT}]*")
SHORT = re.compile(r"[{}]|-+|\++|\*+")  # a brace, or a bullet
END = re.compile(r"\.(?=[\t\n\f\r ]|\Z)|\(\*")  # a full stop that ends a sentence, or a comment that doesn't end
STOPS = {"Parse": "no sentence can be read here", "NoOpenProof": "no proof is open here", "ProofOpen": "a proof is still open here",
         "TooMany": "so many sentences are checked at most"}


def outside(text):
    """The text with each byte of a comment that ends as COMMENT. Comments nest."""
    seen, at = list(text), text.find("(*")
    while at >= 0:
        depth, end = 1, at + 2
        while depth and end < len(text):
            step = {"(*": 1, "*)": -1}.get(text[end : end + 2], 0)
            depth, end = depth + step, end + (2 if step else 1)
        if depth:
            break
        seen[at:end] = COMMENT * (end - at)
        at = text.find("(*", end)
    return "".join(seen)


def sentences(text):
    """Where the sentences of a text begin, up to the first fault of cutting."""
    seen, at = outside(text), 0
    while True:
        begin = GAP.match(seen, at).end()
        end = SHORT.match(seen, begin) or END.search(seen, begin)
        if not end or end[0] == "(*" or end.end() - begin > LONGEST:
            return
        yield begin
        at = end.end()


def main(file, *program):
    with open(file, "rb") as script:
        text = script.read().decode("latin-1")  # a character for each byte
        script.seek(0)
        words = program or (os.path.join(os.path.dirname(os.path.abspath(__file__)), "..", "vcheck"),)
        run = subprocess.run(words, stdin=script, stdout=subprocess.PIPE, check=False)
    begins = list(sentences(text))

    def line_of(offset):
        return text.count("\n", 0, offset) + 1

    def tell(offset, message):
        print(f"{file}:{line_of(offset)}:{offset - text.rfind(chr(10), 0, offset)}: {message}")

    for line in run.stdout.decode("latin-1").splitlines():
        if fault := re.fullmatch(r"fault (\d+): (.*?)(?: at (\d+)-\d+)?", line):
            blocked = re.fullmatch(r"blocked by (\d+)", fault[2])
            message = f"blocked by line {line_of(begins[int(blocked[1]) - FIRST_ID])}" if blocked else fault[2]
            tell(begins[int(fault[1]) - FIRST_ID] + int(fault[3] or 0), message)
        elif stop := re.fullmatch(r"stopped at (\d+): (\w+)", line):
            tell(int(stop[1]), STOPS[stop[2]])
    return run.returncode


if __name__ == "__main__":
    if len(sys.argv) < 2:
        sys.exit("usage: vcheck_lines.py FILE [PROGRAM ..]")
    sys.exit(main(*sys.argv[1:]))
