"""What the tree of guesses costs: picks, posts, whole runs and runs of skips, beside one weighing of all candidates."""
from measure import least, measure

SHAPES = ("line", "mixed")


def above(cost, before):
    """The processor seconds of one above those of another."""
    return max(cost.processor - before.processor, 0)


def told(label, seconds, weighing, peak):
    print(f"{label}: {seconds * 1000:.1f} ms, {seconds / max(weighing, 0.0005):.1f} weighings, {peak} KiB", flush=True)


def history(program, shape, size, workers):
    def cost(task, number):
        return least(lambda: measure([program, "farm", task, shape, str(size), str(number)]))

    built, waits = cost("builds", 1), cost("waits", 1)
    weighing = above(waits, built)
    label = f"{shape} {size}"
    told(f"{label}: one weighing", weighing, weighing, waits.peak - built.peak)
    for number in workers:
        picks, posts, runs = (cost(task, number) for task in ("picks", "posts", "runs"))
        told(f"{label}: picks of {number} workers", above(picks, waits), weighing, picks.peak)
        told(f"{label}: a post before {number} workers", above(posts, picks), weighing, posts.peak)
        told(f"{label}: a run by {number} workers", above(runs, built), weighing, runs.peak)
    skips = cost("skips", 1)
    told(f"{label}: {size} skips", above(skips, built), weighing, skips.peak)
    return above(skips, built)


def costs(bench, sizes, workers=(1, 8, 64)):
    """Prints what each task of a farm costs; whether twice the commits to skip cost less than three times as much."""
    right = True
    for shape in SHAPES:
        skips = [history(bench.program, shape, size, workers) for size in sizes]
        for size, one, (twice, other) in zip(sizes, skips, list(zip(sizes, skips))[1:]):
            if twice == 2 * size:
                print(f"{shape}: {twice} skips cost {other / max(one, 0.001):.1f} times as much as {size}", flush=True)
                right &= other < 3 * max(one, 0.02)
    return right
