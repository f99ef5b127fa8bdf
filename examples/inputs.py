#!/usr/bin/env python3
"""Runs each shell line of docs/inputs.md, and compares what it prints with the text that stands below it.

    python3 examples/inputs.py
"""
import pathlib
import re
import subprocess
import sys

PAGE = pathlib.Path(__file__).resolve().parent.parent / "docs" / "inputs.md"


def main():
    pairs = re.findall(r"```sh\n(.*?)```\n```text\n(.*?)```", PAGE.read_text(), re.S)
    wrong = 0
    for line, wanted in pairs:
        printed = subprocess.run(["bash", "-c", line], capture_output=True, text=True).stdout
        if printed != wanted:
            wrong += 1
            print(f"{line}printed {printed!r}, wanted {wanted!r}")
    print(f"{len(pairs)} lines run, {wrong} wrong")
    return 1 if wrong or not pairs else 0


if __name__ == "__main__":
    sys.exit(main())
