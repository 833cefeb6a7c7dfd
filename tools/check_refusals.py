#!/usr/bin/env python3
"""Runs the listing on the logs of docs/REFUSALS.md and compares what it prints, and what the model of document 01 says, with the page.

    tools/check_refusals.py COMMAND [WORD ...]

COMMAND with its words starts the listing, which reads the log on standard input. To be run from the top of the repository. It ends with 1 where they
differ, or where the page has no log."""
import re
import sys

import model
from oracle import lines_text, run

ROW = re.compile(r"^\| (\d+) \|.*\| (`[0-9a-f]+`|any 65,537 bytes) \| (`.*`) \|$")


def main(command):
    if not command:
        sys.exit(__doc__)
    wrong = seen = 0
    for line in open("docs/REFUSALS.md", encoding="utf-8"):
        row = ROW.match(line.rstrip("\n"))
        if not row:
            continue
        number, log, lines = row.groups()
        data = bytes(65537) if log.startswith("any") else bytes.fromhex(log.strip("`"))
        page = lines_text(re.findall(r"`([^`]*)`", lines))
        seen += 1
        for who, printed in (("the listing", run(command, data)), ("the model", lines_text(model.listing(data)))):
            if printed != page:
                wrong += 1
                print(f"{number}: the page has {page!r}, {who} {printed!r}")
    print(f"{seen} logs, {wrong} wrong")
    return 1 if wrong or not seen else 0


if __name__ == "__main__":
    sys.exit(main(sys.argv[1:]))
