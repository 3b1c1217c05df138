"""Runs a script with several workers that step one after another or by chance, and prints the journal. A member of a
Together is the job of the worker whose number is the member's, modulo the number of workers.

usage: python3 .ci/model/crew.py SEED [budget=B] [attempts=A] [entries=E] [workers=W] < SCRIPT
"""

import random
import sys

from documents import Together
from jobs import History, HistoryFull, Job
from judge import asked_in, limits_of_words

# How many steps a worker makes as a rule until it is another's turn; 0 if all step one after another.
BURSTS = (0, 1, 3, 10)


def run_at_once(history, jobs, workers, chance):
    """Runs jobs until all have ended. The worker of the last row of jobs is the one that steps."""
    rows = [jobs[worker::workers] for worker in range(min(workers, len(jobs)))]
    burst = chance.choice(BURSTS)
    while rows:
        if burst == 0 or chance.randrange(burst) == 0:
            next_row = 0 if burst == 0 else chance.randrange(len(rows))
            rows.append(rows.pop(next_row))
        row = rows[-1]
        row[0].step(history)
        if row[0].end is not None:
            row.pop(0)
        if not row:
            rows.pop()


def journal_of(script, limits, chance):
    """The journal of a script without commands of the kubelet, and the status."""
    history = History(limits.entries)
    number = 0
    found, status = asked_in(script)
    for one in found:
        commands = one.commands if isinstance(one, Together) else [one]
        jobs = [Job(number + i, command, limits.budget, limits.attempts) for i, command in enumerate(commands, 1)]
        number += len(jobs)
        try:
            run_at_once(history, jobs, limits.workers or 1, chance)
        except HistoryFull:
            return "".join(history.lines), 8
    return "".join(history.lines) + ("" if status else history.summary(number)), status


def main():
    seed, *words = sys.argv[1:]
    text, status = journal_of(sys.stdin.buffer.read(), limits_of_words(words), random.Random(int(seed)))
    sys.stdout.buffer.write(text.encode())
    return status


if __name__ == "__main__":
    sys.exit(main())
