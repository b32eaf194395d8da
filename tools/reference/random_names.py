#!/usr/bin/env python3
"""python3 random_names.py SEED COUNT: prints COUNT random documents for name_chunk, separated by `---`, mostly granted ones
that name something.

It is the generator of random_tables.py, with names from a small pool and their `$1`, `$2`, `$3` forms (also names that helpers
are given), so that clashes and captures are common; what statements, lists, hot and this give stands mostly in a root;
now and then there are few records. One document in nine is changed in one place, as there. Now and then a document
has a run of numbered forms, some reserved and some inner names, so that a search is long. The same SEED and COUNT give
the same text.
"""
import importlib.util
import os
import sys

HERE = os.path.dirname(os.path.abspath(__file__))
spec = importlib.util.spec_from_file_location("random_tables", os.path.join(HERE, "random_tables.py"))
old = importlib.util.module_from_spec(spec)
sys.dont_write_bytecode = True
spec.loader.exec_module(old)

BASES = ["now", "hours", "oil", "status", "render", "machine", "require_alarms", "require_pages_oil"]
FEW = BASES[:3] + ["require_alarms"]
RESERVED = ["default", "await", "exports", "module", "require", "Object", "Promise", "URL", "Symbol", "__filename"]
GLOBALS = ["window", "screen", "fetch", "console"]
CHUNK_NAMES = ["alarms", "alarms", "pages/oil", "pages-oil", "pages_oil", "hours.of-shift", "\u00f6l", "a$1", "x"]


class Builder(old.Builder):
    """One valid chunk whose run names much."""

    def pool_name(self, bases):
        rng = self.rng
        if self.chance(0.06):
            return rng.choice(RESERVED)
        name = rng.choice(bases)
        if self.chance(0.4):
            name += "$%d" % rng.choice([1, 1, 1, 2, 2, 3])
            if self.chance(0.1):
                name += "$%d" % rng.choice([1, 2])
        return name

    def name(self, narrow):
        if self.chance(0.004):
            return old.long_name(self.rng, 100)
        return self.pool_name(FEW if narrow else BASES)

    def build(self):
        self.sequence = None
        if self.chance(0.06):
            base = self.rng.choice(FEW)
            size = self.rng.choice([6, 12, 25, 50, 93])
            kinds = self.rng.choice([[0.5, 0.9], [0.9, 1.0], [0.1, 0.9], [0.02, 1.0], [0.0, 0.95], [0.8, 0.9]])
            self.sequence = base, []
            for k in range(1, size + 1):
                roll = self.rng.random()
                self.sequence[1].append((k, 0 if roll < kinds[0] else 1 if roll < kinds[1] else 2))
            if self.chance(0.4):    # vetoed up to one that is reserved
                self.sequence = base, [(k, 1) for k in range(1, size)] + [(size, 0)]
        return old.Builder.build(self)

    def tables(self, external):
        rng = self.rng
        mod = old.Builder.tables(self, external)
        if not external and mod["scopes"] and self.chance(0.6):
            # more inner names
            taken = {(symbol["scope"], symbol["name"]) for symbol in mod["symbols"] if symbol["bound"]}
            for _ in range(rng.randint(1, 4)):
                if len(mod["scopes"]) == 1:
                    mod["scopes"].append(0)
                scope, name = rng.randrange(1, len(mod["scopes"])), self.pool_name(FEW)
                if (scope, name) not in taken:
                    taken.add((scope, name))
                    mod["symbols"].append({"name": name, "scope": scope, "bound": True})
        if not external and mod["scopes"] and self.sequence:
            base, kinds = self.sequence
            taken = {(symbol["scope"], symbol["name"]) for symbol in mod["symbols"] if symbol["bound"]}
            if len(mod["scopes"]) == 1:
                mod["scopes"].append(0)
            for k, kind in kinds:
                if kind == 1 and (1, "%s$%d" % (base, k)) not in taken:
                    mod["symbols"].append({"name": "%s$%d" % (base, k), "scope": 1, "bound": True})
            mod["symbols"].append({"name": base, "scope": 0, "bound": False})
        return mod

    def roots(self, own=None):
        """Symbols whose canonical one stands in a root, of one module or of all."""
        return [pair for pair in self.pairs if self.symbol(self.canonical(pair))["scope"] == 0 and (own is None or pair[0] == own)]

    def some_pairs(self, most, least=0, own=None):
        rng = self.rng
        roots = self.roots(own)
        pairs = []
        for _ in range(rng.randint(least, most)):
            if self.pairs and self.chance(0.004):
                pairs.append(rng.choice(self.pairs))
            elif roots:
                pairs.append(rng.choice(roots))
        return pairs

    def lists_of_module(self, mod):
        rng = self.rng
        old.Builder.lists_of_module(self, mod)
        m = self.mods.index(mod)
        # names of its own for the unresolved ones
        mod["unresolved"] = []
        if mod["scopes"]:
            for _ in range(rng.choice([0, 0, 1, 2])):
                scope = rng.randrange(len(mod["scopes"]))
                name = rng.choice(GLOBALS + BASES + ["now$1", "oil$1"])
                if name not in self.visible(mod, scope):
                    mod["unresolved"].append(["unresolved", name, scope])
        mod["statements"] = []
        for _ in range(rng.choice([0, 1, 2, 2, 3, 4])):
            words = ["statement", "kept" if self.chance(0.85) else "dropped"]
            if self.chance(0.25):
                words.append("external")
            words += self.some_pairs(4, 1, m)
            if self.chance(0.3):
                words += self.some_pairs(1, 1)
            if mod["wrapped"] and words[2:] and words[2] != "external" and self.chance(0.3):
                words.append(rng.choice(self.pairs))
            if isinstance(words[-1], tuple):
                mod["statements"].append(words)
        mod["gives"] = {}
        own = [s for module, s in self.roots(m)]
        for key in ("hot", "this", "default"):
            if own and self.chance(0.3):
                mod["gives"][key] = rng.choice(own)
            elif mod["symbols"] and self.chance(0.01):
                mod["gives"][key] = rng.randrange(len(mod["symbols"]))
        if own:
            mod["shims"] = [["shim", rng.choice(own)] for _ in range(rng.choice([0, 0, 1, 2]))]

    def lines(self):
        rng = self.rng
        count = len(self.mods)
        joined = self.in_order(0.9)
        externals = [m for m in range(count) if self.mods[m]["external"]]
        if count and (not externals or self.chance(0.1)):
            externals.append(rng.randrange(count))
        of_externals = [pair for pair in self.pairs if pair[0] in externals and self.symbol(self.canonical(pair))["scope"] == 0]

        others, number = [], 0
        for _ in range(rng.choice([0, 1, 1, 2, 3])):
            number += rng.randint(1, 3)
            name = old.long_name(rng, 92) if self.chance(0.01) else rng.choice(CHUNK_NAMES)
            others.append(["other", number - 1, name] + self.some_pairs(3))
        heads = [["format", rng.choice(["esm", "esm", "cjs", "iife", "umd"])]]
        records = 4096
        if self.chance(0.3):
            records = rng.choice([4095, 4096, 100, 80] + [rng.randint(44, 72) for _ in range(4)])
            heads.append(["records", records])
        if self.chance(0.1):
            sizes = [records, len(self.pairs), len(self.pairs), count, len(others)]
            heads.append(["memory"] + [size + rng.choice([0, 0, 1, 9]) for size in sizes])
        if count and self.chance(0.25):
            heads.append(["runtime", rng.randrange(count)])
        rng.shuffle(heads)
        globals_ = self.some(GLOBALS + BASES + ["now$1", "now$2", "hours$1", "oil$1", "require_alarms$1"], 4)
        if self.sequence:
            globals_ += [self.sequence[0]] + ["%s$%d" % (self.sequence[0], k) for k, kind in self.sequence[1] if kind == 0]
        synthetic = self.some_pairs(3)
        if self.sequence:
            base = self.sequence[0]
            found = [pair for pair in self.roots() if self.symbol(pair)["name"] == base and not self.symbol(pair).get("link")]
            synthetic += found[:3]
        lists = [("globals", globals_), ("chunk", joined), ("direct", self.some(externals, 3)),
                 ("entry_externals", self.some(externals, 2)), ("indirect", self.some(externals, 2)),
                 ("used", self.some(of_externals or self.roots(), 5)), ("synthetic", synthetic)]
        return self.laid_out(heads, lists, self.some_pairs(3), others)


def document(rng):
    lines = Builder(rng).build()
    if rng.random() < 0.11:
        old.Changer(rng, lines).change()
    texts = [" ".join(old.text_of(word) for word in line) for line in lines]
    if rng.random() < 0.003:
        old.spoil(rng, texts)
    return old.set_out(rng, texts, False)


if __name__ == "__main__":
    old.main(document)
