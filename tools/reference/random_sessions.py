#!/usr/bin/env python3
"""python3 random_sessions.py SEED COUNT: prints COUNT random documents for session_script, separated by `---`.

Each is a chunk of random_names.py, and behind it some calls, granted and refused ones, on its symbols and on names of the
same small pool. Now and then a line of the calls is none. The same SEED and COUNT give the same text.
"""
import random_names
from random_names import BASES, CHUNK_NAMES, GLOBALS, RESERVED, old

POOL = BASES + RESERVED + GLOBALS + ["now$1", "now$2", "oil$1", "require_alarms$1", "level"]


def name_of(rng):
    if rng.random() < 0.03:
        return old.long_name(rng, rng.choice([92, 93, 100, 101, 105, 106]))
    return rng.choice(POOL)


def symbol_of(rng):
    return "%d.%d" % (rng.choice([0, 0, 1, 1, 2, 3, 9]), rng.choice([0, 0, 1, 1, 2, 3, 4, 5, 77]))


def open_call(rng):
    return rng.choice([
        lambda: ["reserve", name_of(rng)],
        lambda: ["root", symbol_of(rng)],
        lambda: ["root", symbol_of(rng)],
        lambda: ["root", symbol_of(rng), rng.choice(["authored", "synthesized"])],
        lambda: ["helper", name_of(rng)],
        lambda: ["require", rng.choice(CHUNK_NAMES + [old.long_name(rng, rng.choice([92, 93]))])],
        lambda: ["veto", rng.choice(["bare", "numbered", "both"]), name_of(rng)],
        lambda: ["veto", rng.choice(["all", "none", "none"])],
        lambda: ["policy", name_of(rng)],
        lambda: ["policy", name_of(rng), str(rng.choice([1, 2, 3, 7]))],
        lambda: ["records"],
        lambda: told_call(rng),
    ])()


def told_call(rng):
    return rng.choice([["printed", symbol_of(rng)], ["names"], ["names", str(rng.randrange(5))]])


def calls(rng):
    made = [open_call(rng) for _ in range(rng.choice([0, 3, 8, 20, 40]))]
    if rng.random() < 0.7:
        made += [["repair"]] + [told_call(rng) for _ in range(rng.randrange(6))]
    if rng.random() < 0.05:
        odd = rng.choice([["root", "0"], ["policy", "now", "0"], ["reserve"], ["veto", "some"], ["session"], ["oil"],
                          ["names", "few"], ["helper", "a", "b"], ["root", "0.0", "both"], ["reserve", "", "now"]])
        made.insert(rng.randrange(len(made) + 1), odd)
    return [" ".join(call) for call in made]


def document(rng):
    return random_names.document(rng) + ["session"] + calls(rng)


if __name__ == "__main__":
    old.main(document)
