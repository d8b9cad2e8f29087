"""The rules step by step, counting from zero, with every comparison counted."""

from .facts import LOST, NONE, Tables, windows


def relation(a, b):
    """One comparison of two samples: -1 less, 0 equal, 1 greater."""
    return (a > b) - (a < b)


def low_neighbour(pattern, j):
    """Earlier place of the largest value not above that of j; rightmost of equals."""
    places = [i for i in range(j) if pattern[i] <= pattern[j]]
    return max(places, key=lambda i: (pattern[i], i), default=NONE)


def high_neighbour(pattern, j):
    """Earlier place of the smallest value not below that of j; rightmost of equals."""
    places = [i for i in range(j) if pattern[i] >= pattern[j]]
    return min(places, key=lambda i: (pattern[i], -i), default=NONE)


def test_place(pattern, low, high, j, values, at):
    """Test place j on the list that starts at values[at].

    Returns the comparisons made and the neighbour that failed (NONE: passed).
    """
    cost = 0
    i, k = low[j], high[j]
    if i != NONE:
        cost += 1
        if relation(values[at + j], values[at + i]) != relation(pattern[j], pattern[i]):
            return cost, i
    if k != i and k != NONE:
        cost += 1
        if relation(values[at + j], values[at + k]) != relation(pattern[j], pattern[k]):
            return cost, k
    return cost, NONE


def witness(pattern, low, high, a):
    """The pair (failing neighbour, first failing place) at offset a, or two NONEs."""
    for j in range(len(pattern) - a):
        _, failed = test_place(pattern, low, high, j, pattern, a)
        if failed != NONE:
            return failed, j
    return NONE, NONE


def tables(pattern):
    """The four tables of a pattern, one entry for each place or offset."""
    places = range(len(pattern))
    low = [low_neighbour(pattern, j) for j in places]
    high = [high_neighbour(pattern, j) for j in places]
    pairs = [witness(pattern, low, high, a) for a in places]
    return Tables(low, high, [i for i, _ in pairs], [j for _, j in pairs])


def agree(m, witness_i, x, y):
    """Whether two windows can both match, as far as the tables tell."""
    offset = abs(y - x)
    return offset == 0 or offset >= m or witness_i[offset] == NONE


def arrivals(m, trace):
    """The windows that no lost stitch strikes, in ascending order."""
    return [x for x in range(windows(m, len(trace))) if LOST not in trace[x:x + m]]


def duels(pattern, table, trace, arriving):
    """Returns the survivors in ascending order and the number of duels."""
    m, wi, wj = len(pattern), table.witness_i, table.witness_j
    stack, fought = [], 0
    for y in arriving:
        y_falls = False
        while stack and not y_falls and not agree(m, wi, stack[-1], y):
            a = y - stack[-1]
            i, j = wi[a], wj[a]
            fought += 1
            seen = relation(trace[y + i], trace[y + j])
            y_falls = seen != relation(pattern[i], pattern[j])
            x_falls = seen != relation(pattern[a + i], pattern[a + j])
            if not (x_falls or y_falls):
                raise AssertionError(f"windows {stack[-1]} and {y} both stand")
            if x_falls:
                stack.pop()
        if not y_falls:
            stack.append(y)
    return stack, fought


def sweep(pattern, table, trace, survivors):
    """Returns the windows listed and the comparisons made."""
    m, listed, made, end = len(pattern), [], 0, 0
    for x in survivors:
        end = max(end, x)
        while end < x + m:
            cost, failed = test_place(pattern, table.low, table.high, end - x, trace, x)
            made += cost
            if failed != NONE:
                break
            end += 1
        else:
            listed.append(x)
    return listed, made
