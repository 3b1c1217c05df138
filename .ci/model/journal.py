"""The lines of a history, as docs/FORMATS.md has them."""


def clean(text):
    """Control characters are printed as `?`, so that a line has one line end."""
    return "".join("?" if character < " " or character == "\x7f" else character for character in text)


def line(index, job, kind, rest):
    return f"{index} {job} {kind} {clean(rest)}\n"


def summary(state, entries, commands):
    granted = sum(claim.grant is not None for claim in state.claims.values())
    bound = sum(state.is_bound(pod) for pod in state.pods)
    return f"summary entries={entries} commands={commands} granted={granted} bound={bound}\n"


def listed(texts):
    return ",".join(texts) or "-"


def result_text(result):
    return f"{result.name}@{result.device}" + ("!" if result.admin else "")


def grants_text(grants):
    return listed(f"{key}:" + "+".join(map(result_text, results)) for key, results in grants)


def fault_text(at):
    return f"fault:{at.claim}:{at.way.label}:{at.fault.index}:{at.device}:{at.fault.word}"


def causes_text(causes):
    """Why each of these nodes wasn't taken: pairs of a node and its cause."""
    return listed(f"{node}:{cause}" for node, cause in causes)
