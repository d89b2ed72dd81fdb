"""A guess of how long crates take that are still to be proved, by the pace of those that are."""
import pathlib
import re

# What a crate costs beside its lines, in lines: what it stands on is loaded first.
LOADING = 200
# Seconds of the clock for a line, until crates were proved on this machine; it weighs like so many lines of them.
FIRST_PACE = 0.14
FIRST_WEIGHT = 5000
# What takes longer than by the guess is taken to need so much of its time once more.
OVERDUE = 0.25


def lines_of(folder):
    """How many lines of code a crate has without its tests, which a build doesn't prove."""
    texts = {path: path.read_text(encoding="utf-8") for path in sorted(pathlib.Path(folder).glob("src/**/*.rt"))}
    tests = {name for text in texts.values() for name in re.findall(r"#\[cfg\(test\)\]\s*mod (\w+);", text)}
    return sum(text.count("\n") for path, text in texts.items() if path.stem not in tests)


def cost_of(folder):
    return LOADING + lines_of(folder)


def pace(finished):
    """Seconds of the clock for each line, of pairs of a cost and the seconds that it took."""
    cost, seconds = sum(one for one, _ in finished), sum(one for _, one in finished)
    return (FIRST_WEIGHT * FIRST_PACE + seconds) / (FIRST_WEIGHT + cost)


def seconds_left(left, waits, begun, places):
    """How long the crates take that are left, if as many go at a time as there are places, the longest chain first.

    left: seconds for each crate that isn't proved; waits: the crates that each waits for; begun: for how many seconds
    each crate in hand has been so.
    """
    behind = {}

    def chain(name):
        if name not in behind:
            above = [one for one in left if name in waits[one]]
            behind[name] = left[name] + max(map(chain, above), default=0)
        return behind[name]

    now, ends = 0.0, {name: max(left[name] - spent, OVERDUE * spent) for name, spent in begun.items() if name in left}
    open_ones = sorted((name for name in left if name not in ends), key=lambda name: -chain(name))
    unfinished = set(left)
    while unfinished:
        for name in [one for one in open_ones if not unfinished.intersection(waits[one])]:
            if len(ends) < max(places, 1):
                open_ones.remove(name)
                ends[name] = now + left[name]
        if not ends:
            break
        first = min(ends, key=ends.get)
        now = max(now, ends.pop(first))
        unfinished.discard(first)
    return now


def in_words(seconds):
    return "under a minute" if seconds < 60 else f"some {round(seconds / 60)} minutes" if seconds >= 90 else "a minute"
