"""Reads a script, and prints what `dra replay` has to print. The exit status is that of the replay.

usage: python3 .ci/model/replay.py [BUDGET] < SCRIPT
"""

import sys

from script import Input, Output, replay
from selector_texts import UnknownText


def main():
    script = sys.stdin.buffer.read()
    budget = int(sys.argv[1]) if len(sys.argv) > 1 else 100_000
    output = Output(takes=None, failing=0)
    try:
        status = replay(Input(script, len(script), failing=0), output, budget, attempts=32, entries=10**6)
    except UnknownText as unknown:
        sys.exit(f"left out, since a selector is unknown: {unknown}")
    sys.stdout.buffer.write(output.content)
    return int(status.split(" ")[0])


if __name__ == "__main__":
    sys.exit(main())
