"""A search of a line of 300 commits in rounds, as slower.py simulates it. With W workers a round has W tests at once: those of a
search of one test at a time that may come next, whatever their outcomes are. The answer and its parent are tested again, and what most
tests deny is taken back.
"""
COMMITS, TIMES = 300, 3


def next_tests(low, high, known, workers):
    """The commits that a search asks for next, and those that it may ask for behind them, the nearest ones first."""
    found, waiting = [], [(low, high)]
    while waiting and len(found) < workers:
        below, above = waiting.pop(0)
        if above - below < 2:
            continue
        middle = (below + above) // 2
        if middle in known:
            waiting.insert(0, (below, middle) if known[middle] else (middle, above))
            continue
        found.append(middle)
        waiting += [(below, middle), (middle, above)]
    return found


def search(ask, known, workers):
    """The first bad commit by what is known, and by tests."""
    while True:
        low, high = 0, COMMITS
        while high - low > 1 and (low + high) // 2 in known:
            middle = (low + high) // 2
            low, high = (low, middle) if known[middle] else (middle, high)
        if high - low < 2:
            return high
        for commit in next_tests(low, high, known, workers):
            known[commit] = ask(commit)


def denied_alone(ask, known, answer, looked_at):
    """Whether two tests alone deny what the answer says of it, or of its parent."""
    for commit in (answer, answer - 1):
        if commit in (0, COMMITS) or commit in looked_at:
            continue
        looked_at.add(commit)
        is_bad = commit == answer
        if ask(commit) != is_bad and ask(commit) != is_bad:
            known[commit] = not is_bad
            return True
    return False


def confirmed(tester, workers):
    """What a search names, once the answer and its parent were tested again."""
    known, runs, looked_at = {}, {}, set()

    def ask(commit):
        runs.setdefault(commit, []).append(tester.is_bad(commit))
        return runs[commit][-1]
    while True:
        answer = search(ask, known, workers)
        if workers > 1 and denied_alone(ask, known, answer, looked_at):
            continue
        changed = False
        for commit in (answer - 1, answer):
            while commit not in (0, COMMITS) and (len(runs.get(commit, [])) < 1 + TIMES or 2 * sum(runs[commit]) == len(runs[commit])):
                ask(commit)
            if commit in known and known[commit] != (2 * sum(runs[commit]) > len(runs[commit])):
                known[commit], changed = not known[commit], True
        if not changed:
            return answer
