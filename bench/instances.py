#!/usr/bin/env python3
"""Writes the instances on which the search is measured: NAME.uvl and NAME.conf into a folder.

    bench/instances.py FOLDER [PROGRAM]

With PROGRAM the product lines that it generates are written too. What each is:

    chain-N, chain-back-N   N optional features, each needs the next, or the one before; the first and not the last are required
    pigeons-H               H + 3 guests, each optional and in one of H slots, no two in one; all guests are required
    random-N-S              N optional features, 3.5 N random constraints of three literals and N such requirements, from the seed S; the seeds
                            are some whose requirements can't all be met
    loose-N                 N optional features and nothing else
    keys-N-K                a tree of N features beside the root, and K requirements, each second the negation of the one before it
    line-N                  the product line of N features that `generate 1 N` draws
"""

import os
import random
import subprocess
import sys


def optional(names):
    return ["features", "\tR", "\t\toptional"] + ["\t\t\t" + name for name in names]


def chain(count, back):
    names = ["X%d" % i for i in range(1, count + 1)]
    pairs = list(zip(names, names[1:]))
    rules = ["\t%s => %s" % ((later, first) if back else (first, later)) for first, later in pairs]
    first, last = (names[-1], names[0]) if back else (names[0], names[-1])
    return optional(names) + ["constraints"] + rules, [first, "!" + last]


def pigeons(slots):
    guests = range(slots + 3)
    model = ["features", "\tR", "\t\toptional"]
    for guest in guests:
        model += ["\t\t\tP%d" % guest, "\t\t\t\talternative"] + ["\t\t\t\t\tP%dS%d" % (guest, slot) for slot in range(slots)]
    model.append("constraints")
    for slot in range(slots):
        model += ["\t!P%dS%d | !P%dS%d" % (one, slot, two, slot) for one in guests for two in guests if one < two]
    return model, ["P%d" % guest for guest in guests]


def random_clauses(count, seed):
    rng = random.Random("%d %d" % (count, seed))
    clause = lambda: " | ".join(rng.choice(("", "!")) + "V%d" % it for it in rng.sample(range(count), 3))
    model = optional(["V%d" % i for i in range(count)]) + ["constraints"]
    model += ["\t" + clause() for _ in range(count * 7 // 2)]
    return model, [clause() for _ in range(count)]


def keys(size, count):
    """The tree has four children to a feature, in optional groups."""
    model, todo = ["features"], [(0, 0)]
    while todo:
        number, depth = todo.pop()
        model.append("\t" * (2 * depth + 1) + "F%d" % number)
        children = [it for it in range(4 * number + 1, 4 * number + 5) if it <= size]
        if children:
            model.append("\t" * (2 * depth + 2) + "optional")
            todo += [(it, depth + 1) for it in reversed(children)]
    step = size // count
    return model, [("!F%d" if i % 2 else "F%d") % (1 + i // 2 * step) for i in range(count)]


def generated(program, size):
    draw = lambda what: subprocess.run([program, "generate", "1", str(size), what], capture_output=True, check=True, text=True).stdout.split("\n")[:-1]
    return draw("model"), draw("config")


def instances(program):
    for count in (4000, 40000):
        yield "chain-%d" % count, chain(count, False)
        yield "chain-back-%d" % count, chain(count, True)
    for slots in (5, 6, 7):
        yield "pigeons-%d" % slots, pigeons(slots)
    for count, seeds in ((50, (1, 2)), (75, (5, 6)), (100, (1, 3))):
        for seed in seeds:
            yield "random-%d-%d" % (count, seed), random_clauses(count, seed)
    yield "loose-20000", (optional(["X%d" % i for i in range(1, 20000)]), [])
    yield "keys-60000-680", keys(60000, 680)
    if program:
        for size in (400, 2000, 10000, 60000):
            yield "line-%d" % size, generated(program, size)


def main():
    if len(sys.argv) not in (2, 3):
        sys.exit(__doc__.strip())
    folder, program = sys.argv[1], os.path.abspath(sys.argv[2]) if len(sys.argv) == 3 else None
    os.makedirs(folder, exist_ok=True)
    for name, (model, config) in instances(program):
        for ending, lines in ((".uvl", model), (".conf", config)):
            with open(os.path.join(folder, name + ending), "w", encoding="utf-8") as f:
                f.write("".join(line + "\n" for line in lines))
        print(name)


if __name__ == "__main__":
    main()
