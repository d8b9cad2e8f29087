"""The definition itself, with no tables, no duels and no sweep."""

from .facts import LOST


def isomorphic(u, v):
    """u[i] <= u[j] exactly if v[i] <= v[j], tried on every pair."""
    return len(u) == len(v) and all(
        (u[i] <= u[j]) == (v[i] <= v[j]) for i in range(len(u)) for j in range(len(u)))


def ranks(values):
    """Each value replaced by how many different smaller ones there are.

    Two lists of one length are isomorphic exactly if their ranks are equal:
    the quick form of the same question, for long patterns.
    """
    rank = {value: k for k, value in enumerate(sorted(set(values)))}
    return [rank[value] for value in values]


def whole(m, trace):
    """Start and samples of each window that holds no lost stitch."""
    for x in range(len(trace) - m + 1):
        window = trace[x:x + m]
        if LOST not in window:
            yield x, window


def positions(pattern, trace):
    """All matching windows, each window judged by itself over all pairs."""
    return [x for x, window in whole(len(pattern), trace) if isomorphic(pattern, window)]


def positions_by_rank(pattern, trace):
    """The same list by ranks."""
    wanted = ranks(pattern)
    return [x for x, window in whole(len(pattern), trace) if ranks(window) == wanted]
