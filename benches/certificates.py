"""What certificates cost: of many steps, and texts of many steps from commits with many parents."""
import hashlib

import streams

TREE = b"4b825dc642cb6eb9a060e54bf8d69288fbee4904"  # the tree without files
STACK = 256 << 10
LONGEST = 16 << 20


def far_apart(out, steps):
    """A line of commits, and one more behind its first, whose parent the end of the line reaches by so many steps."""
    for place in range(steps + 1):
        streams.commit(out, place, streams.before(place))
    streams.commit(out, steps + 1, [0], ref="refs/heads/side")


def star(out, leaves):
    """So many commits without parents, and two merges of all of them."""
    for place in range(leaves):
        streams.commit(out, place, ref=f"refs/heads/r{place}")
    for place in (leaves, leaves + 1):
        streams.commit(out, place, range(leaves), ref=f"refs/heads/m{place}")


def name_of(place, parents=()):
    """The object name of a commit as `streams.commit` writes it."""
    person = b"gen <gen> %d +0000" % place
    lines = b"".join(b"parent %b\n" % parent for parent in parents)
    body = b"tree %b\n%bauthor %b\ncommitter %b\n\nc%d\n" % (TREE, lines, person, person, place)
    return hashlib.sha1(b"commit %d\0%b" % (len(body), body)).hexdigest().encode()


def steps_to_and_fro(out, leaves, length):
    """A certificate of about so many bytes, whose steps lead from the two merges of a star in turn to its leaves."""
    names = [name_of(place) for place in range(leaves)]
    merges = [name_of(leaves, names), name_of(leaves + 1, names)]
    head = b"certificate 1\nbad %b\ngood %b\ngood %b\n" % (names[0], *merges)
    out.write(head)
    line = len(b"reach %b from %b\n" % (names[0], merges[0]))
    for number in range((length - len(head) - 4) // line):
        out.write(b"reach %b from %b\n" % (names[-1 - number % 1000], merges[number % 2]))
    out.write(b"end\n")


def certificates(bench, size, growth, no_commit):
    """Whether certificates cost no more than twice an import, and what is read no more than twice as much for twice its size."""
    right, costs = True, []
    for steps in (size // 2, size - 2):
        bench.write(far_apart, steps)
        imported = bench.ask("next", "no-commit", "refs/heads/side", due=(8,), stack=STACK)
        made = bench.ask("certify", "simulate", "refs/heads/side", "refs/heads/main", "g", stack=STACK)
        with open(bench.path("certificate"), "wb") as out:
            out.write(made.output)
        checked = bench.ask("check", "certificate", stack=STACK)
        fair = all(cost.processor <= 2 * max(imported.processor, 0.05) for cost in (made, checked))
        right &= fair and checked.output.startswith(b"certificate holds for ") and imported.output == no_commit
        print(f"{steps} steps: import {imported}; certify {made}; check {checked}{'' if fair else '; ABOVE TWICE THE IMPORT'}")
    leaves = max(size - 1000, 1001)
    bench.write(star, leaves)
    for length in (LONGEST // 2, LONGEST):
        bench.write(steps_to_and_fro, leaves, length, to="certificate")
        costs.append(bench.ask("check", "certificate", stack=STACK, due=(0, 20)))
        print(f"{length} bytes of steps from two commits with {leaves} parents: check {costs[-1]}, status {costs[-1].status}")
    return right and max(costs[1].processor, 0.05) <= growth * max(costs[0].processor, 0.05)
