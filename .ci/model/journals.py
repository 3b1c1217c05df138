"""Judges the journals that are stored: the outputs of the examples, those of the scripts of `replay_cases` that are run
whole, and the entries of `job_cases`, whose jobs come between each other. Each is right, or is printed.

usage: python3 .ci/model/journals.py [NAME..]      NAME: replay_cases, job_cases, examples; all of them if none is given
"""

import sys
from pathlib import Path

import journal
from containers import Container
from job_cases import PLAIN, commands_of_list, jobs_of, run_front
from jobs import History, Job
from judge import Judge, Limits, Wrong, judged
from kubelet import Driver, NodeDisk
from replay_cases import PLAIN as PLAIN_REPLAY, found_bytes

ROOT = Path(__file__).resolve().parent.parent.parent


def blocks_of(text):
    """What is stored of each case, by its line; of a case that does something for each line of a list a block for each
    number."""
    blocks = {}
    for line in text.decode(errors="surrogateescape").splitlines(True):
        if line.startswith("== "):
            case, number = line[3:].rstrip("\n"), None
        elif line.startswith("-- "):
            number = int(line[3:])
        else:
            blocks[case, number] = blocks.get((case, number), "") + line
    return blocks


def options_of(words, plain):
    return {**plain, **{name: int(number) for name, number in (word.split("=") for word in words)}}


def limits_of(options, node=""):
    return Limits(budget=options["budget"], attempts=options["attempts"], entries=options["entries"], node=node)


def examples():
    """The names of the examples, each with a call that judges it."""
    for path in sorted(ROOT.glob("examples/*.json")):
        yield path.name, lambda: expect(judged(path.read_bytes(), path.with_suffix(".out").read_bytes()), 0)


def expect(status, stored):
    if status != stored:
        raise Wrong(0, f"the replay ends with status {status}, and {stored} is stored")


def replay_cases():
    """Runs that end by what the script and the limit of entries are, and not at a fault or at a command that isn't
    supported."""
    folder = ROOT / "crates/replay_cases"
    blocks = blocks_of((folder / "stdout").read_bytes())
    container = Container((folder / "stdin").read_bytes(), "script")
    for line in container.cases():
        verb, name, *words = line.split(" ")
        if verb != "run":
            continue
        head, _, text = blocks[line, None].partition("\n")
        status = int(head.split(" ")[0])
        if status in (0, 3, 8):
            text = text.encode(errors="surrogateescape")
            options = options_of(words, PLAIN_REPLAY)
            limits = limits_of(options, f"n{options['node']}" if options["node"] else "")
            disk, driver = NodeDisk(found_bytes(options)), Driver(options["fail-driver"])
            yield line, lambda: expect(judged(container.parts[name], text, limits, disk, driver), status)


def job_cases():
    """Steps of several jobs, some of which haven't ended."""
    folder = ROOT / "crates/job_cases"
    blocks = blocks_of((folder / "stdout").read_bytes())
    container = jobs_of((folder / "stdin").read_bytes())
    for line in container.cases():
        verb, front, works, *words = line.partition(": ")[0].split(" ")
        options = options_of(words, PLAIN)
        front, works = container.parts[front], container.parts[works]
        if verb == "steps":
            yield line, lambda: judge_steps(front, works, blocks[line, None], options)
            continue
        for number, work in enumerate(works.splitlines(), 1):
            yield f"{line} -- {number}", lambda: judge_steps(front, work, blocks[line, number], options)


def judge_steps(front, works, stored, options):
    """The entries of the front aren't stored, unless the history is full before its end. They come first."""
    *lines, made, summary = stored.splitlines(True)
    history = History(options["entries"])
    how = options["budget"], options["attempts"]
    fronts = [Job(number, command, *how) for number, command in enumerate(commands_of_list(front), 1)]
    is_whole = run_front(history, fronts)
    judge = Judge("".join((history.lines if is_whole else []) + lines), limits_of(options))
    commands = commands_of_list(works) if is_whole else []
    ends = []
    for job in fronts:
        if not judge.entries_of({job.number: job.command}):
            break
    else:
        jobs = judge.begin(dict(enumerate(commands, len(fronts) + 1)))
        judge.entries_of_jobs(jobs, may_stop=True)
        ends = [job.end for job in jobs.values()]
    judge.no_more("the steps")
    if made.rpartition(", ended")[2].split() != [str(end or "-") for end in ends]:
        raise Wrong(judge.read + 1, f"the jobs end at {ends}")
    if summary != journal.summary(judge.state, judge.length, len(fronts) + len(commands) if is_whole else 0):
        raise Wrong(judge.read + 2, "another summary is due")


def main():
    kinds = {"replay_cases": replay_cases, "job_cases": job_cases, "examples": examples}
    all_right = True
    for name in sys.argv[1:] or kinds:
        right = count = 0
        for case, judge in kinds[name]():
            count += 1
            try:
                judge()
                right += 1
            except Wrong as wrong:
                print(f"{case}\n    {wrong}")
        print(f"{name}: {right} of {count} journals are right", flush=True)
        all_right = all_right and right == count
    return 0 if all_right else 1


if __name__ == "__main__":
    sys.exit(main())
