"""The text the program prints for what it reads on standard input."""

from . import calls, recording, refusals
from .facts import FIRST_LINE, PROGRAM_PATTERN, PROGRAM_TRACE, Tables, windows


def inputs(data):
    """Pattern and trace in the input: the trace from the end, the pattern before it."""
    trace = [0] * PROGRAM_TRACE
    n, at = word("trace", recording.read, data, trace)
    pattern = [0] * PROGRAM_PATTERN
    m, _ = word("pattern", recording.read, data[:at], pattern)
    return pattern[:m], trace[:n]


def word(name, call, *arguments):
    """Make a call; a refusal learns under which word it is printed."""
    try:
        return call(*arguments)
    except refusals.Refused as refused:
        refused.word = name
        raise


def answer(pattern, trace):
    """Prepare and search with buffers of just the right length."""
    m = len(pattern)
    tables = Tables(*([0] * m for _ in range(4)))
    calls.prepare(pattern, tables)
    count = windows(m, len(trace))
    positions = [0] * count
    counts = calls.search(pattern, tables, trace, [0] * count, positions)
    return counts, positions[:counts.found]


def text(data):
    """The whole output, each line ended by a newline."""
    try:
        word("input", refusals.input_length, len(data))
        pattern, trace = inputs(data)
        counts, listed = word("search", answer, pattern, trace)
    except refusals.Refused as refused:
        return f"{refused.word} refusal {refused.number} place {refused.place}\n"
    first = " ".join(f"{name} {getattr(counts, name)}" for name in FIRST_LINE)
    return "".join(f"{line}\n" for line in [first, *listed])
