#!/usr/bin/env python3
"""python3 random_tables.py SEED COUNT: prints COUNT random documents for name_chunk, separated by `---`.

A document is first a valid chunk of up to five modules; then it is changed in zero to three places. The
same SEED and COUNT give the same text. List lines and statements always name something, so that the reading
of `NAME ...` with nothing there is not asked; only `other` may import nothing.
"""
import random
import sys

NAMES = ["now", "clock", "hours", "oil", "status", "render", "level", "pump", "valve", "alarm", "shift", "feed",
         "now$1", "now$2", "read", "write", "machine", "exports", "module", "require", "Object", "Promise", "URL"]
GLOBALS = ["window", "screen", "console", "fetch", "setTimeout"] + NAMES
CHUNK_NAMES = ["alarms", "reports", "pages/oil", "hours-of-shift", "a.b", "7", "x"]


def long_name(rng, size):
    return (rng.choice(["hours_of_the_", "status_of_", "temperature_in_"]) * 20)[:size]


class Builder:
    """One valid chunk."""

    def __init__(self, rng):
        self.rng = rng

    def chance(self, p):
        return self.rng.random() < p

    def name(self, narrow):
        if self.chance(0.01):
            return long_name(self.rng, 100)
        return self.rng.choice(NAMES[:6] if narrow else NAMES)

    def build(self):
        rng = self.rng
        count = rng.choice([0, 1, 1, 2, 2, 2, 3, 3, 4, 5])
        self.mods = [self.tables(self.chance(0.2)) for _ in range(count)]
        self.pairs = [(m, s) for m, mod in enumerate(self.mods) for s in range(len(mod["symbols"]))]
        self.links_and_aliases()
        for mod in self.mods:
            self.references(mod)
            self.lists_of_module(mod)
        return self.lines()

    def tables(self, external):
        rng = self.rng
        mod = {"external": external, "order": rng.choice([0, 1, 1, 2, 3, 3, 5]), "wrapped": self.chance(0.25),
               "scopes": [None], "symbols": [], "imports": [], "gives": {}}
        narrow = self.chance(0.6)
        if external:
            for _ in range(rng.randint(1, 4)):
                mod["symbols"].append({"name": self.name(narrow), "scope": 0, "bound": False})
            return mod
        if self.chance(0.03):
            mod["scopes"] = []      # a module without anything
            return mod
        for scope in range(1, rng.choice([1, 1, 2, 3, 4, 5, 7])):
            mod["scopes"].append(scope - 1 if self.chance(0.5) else rng.randrange(scope))
        taken = set()
        for _ in range(rng.choice([0, 1, 2, 3, 4, 5, 6, 8, 10])):
            if self.chance(0.25):
                mod["symbols"].append({"name": self.name(narrow), "scope": 0, "bound": False})
                continue
            scope = 0 if self.chance(0.5) else rng.randrange(len(mod["scopes"]))
            name = self.name(narrow)
            if (scope, name) not in taken:
                taken.add((scope, name))
                mod["symbols"].append({"name": name, "scope": scope, "bound": True})
        for number, symbol in enumerate(mod["symbols"]):
            if self.chance(0.6 if symbol["scope"] == 0 and symbol["bound"] else 0.05):
                mod["imports"].append(number)
        rng.shuffle(mod["imports"])
        return mod

    def symbol(self, pair):
        return self.mods[pair[0]]["symbols"][pair[1]]

    def canonical(self, pair):
        while self.symbol(pair).get("link") is not None:
            pair = self.symbol(pair)["link"]
        return pair

    def links_and_aliases(self):
        rng = self.rng
        order = self.pairs[:]
        rng.shuffle(order)
        free = []
        for place, (m, s) in enumerate(order):
            symbol = self.symbol((m, s))
            if symbol["bound"] and (symbol["scope"] != 0 or s not in self.mods[m]["imports"]):
                continue
            free.append((m, s))
            if place > 0 and self.chance(0.4):
                symbol["link"] = order[rng.randrange(place)]
        ends = set()        # symbols that an alias leads to, and that so must not have one
        for pair in free:
            if self.chance(0.3) and pair not in ends:
                target = rng.choice(self.pairs)
                end = self.canonical(target)
                if self.symbol(end).get("alias") is None and end != pair:
                    self.symbol(pair)["alias"] = target
                    ends.add(end)

    def around(self, mod, scope):
        around = [scope]
        while scope != 0:
            scope = mod["scopes"][scope]
            around.append(scope)
        return around

    def visible(self, mod, scope):
        """name -> the number of its nearest binding"""
        seen = {}
        for place in self.around(mod, scope):
            for number, symbol in enumerate(mod["symbols"]):
                if symbol["bound"] and symbol["scope"] == place:
                    seen.setdefault(symbol["name"], number)
        return seen

    def references(self, mod):
        rng = self.rng
        mod["references"] = []
        if not mod["scopes"]:
            return
        for _ in range(rng.choice([0, 1, 2, 3, 5, 8])):
            scope = rng.randrange(len(mod["scopes"]))
            seen = sorted(self.visible(mod, scope).values())
            if not seen:
                continue
            target = rng.choice(seen)
            symbol = mod["symbols"][target]
            linked = symbol.get("link") is not None or symbol.get("alias") is not None
            if self.chance(0.5):
                words = ["reference", scope, target]
            else:
                words = ["member", scope, target]
                good = symbol["scope"] == 0 and target in mod["imports"] and (linked or not mod["wrapped"])
                if good and self.chance(0.7):
                    words.append(rng.choice(self.pairs))
            mod["references"].append(words)

    def lists_of_module(self, mod):
        rng = self.rng
        count = len(mod["symbols"])
        mod["unresolved"] = []
        if mod["scopes"]:
            for _ in range(rng.choice([0, 0, 1, 2, 3])):
                scope = rng.randrange(len(mod["scopes"]))
                name = rng.choice(GLOBALS)
                if name not in self.visible(mod, scope):
                    mod["unresolved"].append(["unresolved", name, scope])
        mod["shims"] = [["shim", rng.randrange(count)] for _ in range(rng.choice([0, 0, 0, 1, 2])) if count]
        mod["statements"] = []
        for _ in range(rng.choice([0, 1, 1, 2, 3])):
            if self.pairs:
                words = ["statement", rng.choice(["kept", "kept", "dropped"])]
                if self.chance(0.2):
                    words.append("external")
                mod["statements"].append(words + [rng.choice(self.pairs) for _ in range(rng.randint(1, 3))])
        for key in ("hot", "this", "default"):
            if count and self.chance(0.15):
                mod["gives"][key] = rng.randrange(count)

    def merge(self, parts):
        """Shuffles lists of items into one, each in its own order."""
        parts = [list(part) for part in parts if part]
        if self.chance(0.3):
            return [item for part in parts for item in part]
        merged = []
        while parts:
            part = self.rng.choices(parts, [len(part) for part in parts])[0]
            merged.append(part.pop(0))
            parts = [part for part in parts if part]
        return merged

    def block(self, mod):
        scopes = [["scope", "-" if parent is None else parent] for parent in mod["scopes"]]
        symbols = []
        for symbol in mod["symbols"]:
            words = ["symbol", symbol["name"], symbol["scope"], "bound" if symbol["bound"] else "facade"]
            for key in ("link", "alias"):
                if symbol.get(key) is not None:
                    words += [key, symbol[key]]
            symbols.append(words)
        flags = [["wrapped"]] if mod["wrapped"] else []
        flags += [[flag] for flag in ("dynamic_import", "file_url", "uses_module", "uses_module_or_exports") if self.chance(0.1)]
        gives = [[key, value] for key, value in sorted(mod["gives"].items())]
        imports = [["import", number] for number in mod["imports"]]
        inside = self.merge([scopes, symbols, mod["references"], flags, gives, imports, mod["shims"], mod["unresolved"], mod["statements"]])
        return [["module", "external" if mod["external"] else "normal", mod["order"]]] + inside + [["end"]]

    def split(self, first, items):
        lines = []
        while items:
            size = self.rng.randint(1, len(items))
            lines.append([first] + items[:size])
            items = items[size:]
        return lines

    def some(self, items, most):
        return [self.rng.choice(items) for _ in range(self.rng.randint(0, most))] if items else []

    def in_order(self, share):
        """This share of the normal modules, by execution order."""
        normal = [m for m, mod in enumerate(self.mods) if not mod["external"] and self.chance(share)]
        self.rng.shuffle(normal)
        normal.sort(key=lambda m: self.mods[m]["order"])
        return normal

    def laid_out(self, heads, lists, entry, others):
        """The lines of a chunk in any order; the lines of one list stay in theirs."""
        blocks = [self.block(mod) for mod in self.mods]
        rows = [[[line] for line in self.split(word, items)] for word, items in lists]
        entries = [[["entry", pair] + (["cjs"] if self.chance(0.3) else [])] for pair in entry]
        merged = self.merge([[[line] for line in heads], blocks] + rows + [entries, [[line] for line in others]])
        return [line for block in merged for line in block]

    def lines(self):
        rng = self.rng
        count = len(self.mods)
        normal = self.in_order(0.85)
        externals = [m for m in range(count) if self.mods[m]["external"]] or list(range(count))
        others, number = [], 0
        for _ in range(rng.choice([0, 0, 1, 2, 3])):
            number += rng.randint(0 if number == 0 else 1, 3)
            name = long_name(rng, 92) if self.chance(0.03) else rng.choice(CHUNK_NAMES)
            others.append(["other", number, name] + self.some(self.pairs, 2))
            number = max(number, 1)
        if len(others) > 1 and others[0][1] == 1 and others[1][1] == 1:
            others[0][1] = 0
        heads = [["format", rng.choice(["esm", "esm", "cjs", "iife", "umd"])]]
        records = 4096
        if self.chance(0.5):
            records = rng.choice([1, 2, 7, 64, 4095, 4096])
            heads.append(["records", records])
        if self.chance(0.3):
            sizes = [records, len(self.pairs), len(self.pairs), count, len(others)]
            heads.append(["memory"] + [size + rng.choice([0, 0, 0, 1, 9]) for size in sizes])
        if count and self.chance(0.3):
            heads.append(["runtime", rng.randrange(count)])
        rng.shuffle(heads)
        lists = [("globals", self.some(GLOBALS, 3)), ("chunk", normal), ("direct", self.some(externals, 2)),
                 ("entry_externals", self.some(externals, 1)), ("indirect", self.some(externals, 1)),
                 ("used", self.some(self.pairs, 2)), ("synthetic", self.some(self.pairs, 2))]
        return self.laid_out(heads, lists, self.some(self.pairs, 2), others)


# ---------------------------------------------------------------- changes


class Changer:
    """Changes a list of lines, each a list of words: ints, pairs and texts."""

    def __init__(self, rng, lines):
        self.rng = rng
        self.lines = lines

    def with_first(self, *first):
        return [line for line in self.lines if line[0] in first]

    def pick(self, items):
        return self.rng.choice(items) if items else None

    def near(self, value):
        return value + 1 if value == 0 or self.rng.random() < 0.6 else value - 1

    def owner(self, line):
        """The module that the line stands in, its rows, or None."""
        module = None
        for other in self.lines:
            if other[0] == "module":
                module = []
            if other is line:
                return module
            if module is not None:
                module.append(other)
            if other[0] == "end":
                module = None
        return None

    def number(self):
        kinds = [kind for kind in sorted({line[0] for line in self.lines}) if kind not in ("format", "end", "globals")]
        line = self.pick(self.with_first(self.pick(kinds))) if kinds else None
        if line is None:
            return
        places = [i for i, word in enumerate(line) if isinstance(word, (int, tuple))]
        place = self.pick(places)
        if place is None:
            return
        if isinstance(line[place], int):
            line[place] = self.near(line[place])
        else:
            pair = list(line[place])
            which = self.rng.randrange(2)
            pair[which] = self.near(pair[which])
            line[place] = tuple(pair)

    def name(self):
        into = self.pick(self.with_first("symbol", "symbol", "unresolved"))
        out = self.pick(self.with_first("symbol", "unresolved", "globals"))
        if into and out:
            into[1] = out[1]

    def name_of_unresolved(self):
        into, out = self.pick(self.with_first("unresolved")), self.pick(self.with_first("symbol"))
        if into and out:
            into[1] = out[1]

    def longer(self):
        line = self.pick(self.with_first("symbol", "unresolved", "globals", "other"))
        if line:
            most = 92 if line[0] == "other" else 100
            place = 2 if line[0] == "other" else 1
            line[place] = long_name(self.rng, most + self.rng.choice([0, 1, 1, 1, 5, 6]))

    def rows(self):
        return [i for i, line in enumerate(self.lines) if line[0] not in ("module", "end", "format")]

    def drop(self):
        place = self.pick(self.rows())
        if place is not None:
            del self.lines[place]

    def drop_format(self):
        self.lines[:] = [line for line in self.lines if line[0] != "format"]

    def drop_import(self):
        line = self.pick(self.with_first("import"))
        if line:
            self.lines[:] = [other for other in self.lines if other is not line]

    def double(self):
        places = [i for i in self.rows() if self.lines[i][0] not in ("records", "memory", "runtime", "hot", "this", "default")]
        place = self.pick(places)
        if place is not None:
            self.lines.insert(place, list(self.lines[place]))

    def swap(self):
        kind = self.pick(["scope", "symbol", "reference", "unresolved", "other", "chunk", "import", "module"])
        lines = self.with_first(kind)
        if kind == "chunk" and lines:
            line = self.pick(lines)
            line[1:] = self.rng.sample(line[1:], len(line) - 1)
        elif len(lines) > 1:
            one, other = self.rng.sample(lines, 2)
            one[:], other[:] = other[:], one[:]

    def join(self):
        line = self.pick(self.with_first("chunk"))
        if line:
            line.insert(self.rng.randint(1, len(line)), self.rng.randrange(len(self.with_first("module")) + 1))

    def bound(self):
        line = self.pick(self.with_first("symbol"))
        if line:
            line[3] = "facade" if line[3] == "bound" else "bound"

    def external(self):
        line = self.pick(self.with_first("module"))
        if line:
            line[1] = "external" if line[1] == "normal" else "normal"

    def wrapped(self):
        wrapped = [i for i, line in enumerate(self.lines) if line[0] == "wrapped"]
        modules = [i for i, line in enumerate(self.lines) if line[0] == "module"]
        if wrapped and self.rng.random() < 0.3:
            del self.lines[self.pick(wrapped)]
        elif modules:
            self.lines.insert(self.pick(modules) + 1, ["wrapped"])

    def format(self):
        line = self.pick(self.with_first("format"))
        if line:
            line[1] = self.rng.choice(["esm", "cjs", "iife", "umd", "system", "ESM"])

    def pairs(self):
        pairs, module, symbol = [], -1, 0
        for line in self.lines:
            if line[0] == "module":
                module, symbol = module + 1, 0
            if line[0] == "symbol":
                pairs.append((module, symbol))
                symbol += 1
        return pairs

    def link(self):
        """Gives a symbol a link or an alias, takes them away, or leads one elsewhere."""
        line, pair = self.pick(self.with_first("symbol")), self.pick(self.pairs())
        if not line:
            return
        places = [i for i, word in enumerate(line) if isinstance(word, tuple)]
        if places and self.rng.random() < 0.3:
            del line[4:]
        elif places and self.rng.random() < 0.6:
            line[self.pick(places)] = pair
        elif len(line) == 4:
            line += [self.rng.choice(["link", "alias"]), pair]
        elif len(line) == 6 and line[4] == "link":
            line += ["alias", pair]

    def circle(self):
        """Leads a facade's or an import's link back to where it comes from."""
        pairs = self.pairs()
        lines = self.with_first("symbol")
        linked = [i for i, line in enumerate(lines) if "link" in line[4:5]]
        place = self.pick(linked)
        if place is None:
            return
        goal = lines[place][5]
        if goal in pairs:
            other = lines[pairs.index(goal)]
            if len(other) == 4:
                other += ["link", pairs[place]]
            else:
                other[4:] = ["link", pairs[place]]

    def target(self):
        line = self.pick(self.with_first("reference", "member"))
        if line:
            count = sum(1 for row in self.owner(line) or [] if row[0] == "symbol")
            line[2] = self.rng.randrange(count + 1)

    def resolve(self):
        line, pair = self.pick(self.with_first("member")), self.pick(self.pairs())
        if line and pair:
            line[3:] = [pair]

    def records(self):
        line = self.pick(self.with_first("records"))
        value = self.rng.choice([0, 1, 4096, 4097])
        if line:
            line[1] = value
        else:
            self.lines.insert(0, ["records", value])

    def memory(self):
        records = 4096
        for line in self.with_first("records"):
            records = line[1]
        sizes = [records, len(self.pairs()), len(self.pairs()), len(self.with_first("module")), len(self.with_first("other"))]
        place = self.rng.randrange(5)
        if sizes[place] > 0 and self.rng.random() < 0.8:
            sizes[place] -= 1
        self.lines[:] = [line for line in self.lines if line[0] != "memory"]
        self.lines.append(["memory"] + sizes)

    def number_of_chunk(self):
        line = self.pick(self.with_first("other"))
        if line:
            line[1] = self.pick(self.with_first("other"))[1]

    def change(self):
        changes = [
            (6, self.number), (3, self.name), (2, self.name_of_unresolved), (2, self.longer), (2, self.drop), (1, self.drop_import),
            (0.3, self.drop_format), (2, self.double), (2, self.swap), (1.5, self.join), (2, self.bound), (0.7, self.external),
            (2, self.wrapped), (1, self.format), (2, self.link), (1.5, self.circle), (2, self.target), (1.5, self.resolve),
            (0.5, self.records), (1, self.memory), (0.8, self.number_of_chunk),
        ]
        self.rng.choices([change for _, change in changes], [weight for weight, _ in changes])[0]()


def spoil(rng, texts):
    """Makes a line faulty, or takes or adds one where it does not belong. Some of it changes nothing."""
    if not texts:
        return
    place = rng.randrange(len(texts))
    words = texts[place].split(" ")
    what = rng.choice([0, 1, 2, 3, 4, 5, 5, 6, 7, 8, 8, 9, 10, 11])
    if what == 0:
        texts[place] += " "
    elif what == 1 and len(words) > 1:
        texts[place] = texts[place].replace(" ", "  ", 1)
    elif what == 2:
        texts[place] += rng.choice([" 0", " now", " 0.0", " cjs", " link 0.0", " alias 0.0"])
    elif what == 3 and len(words) > 2 and words[0] not in ("globals", "chunk", "direct", "entry_externals", "indirect", "used", "synthetic", "other", "statement"):
        texts[place] = " ".join(words[:-1])
    elif what == 4:
        words[0] = rng.choice(["modul", "row", words[0].upper(), "end", "scope", "chunk"])
        texts[place] = " ".join(words) if words[0] not in ("chunk", "end") else words[0] + " 0"
    elif what == 5 and len(words) > 1:
        words[rng.randrange(1, len(words))] = rng.choice(["-1", "4294967296", "x", "1.", ".1", "1.2.3", "-", "0x1", "4294967296.0", "007", "00.00"])
        texts[place] = " ".join(words)
    elif what == 6:
        del texts[place]
    elif what == 7:
        texts.insert(place, texts[place])
    elif what == 8:
        texts.insert(place, rng.choice(["end", "module normal 0", "format esm", "hot 0", "hot 0", "this 0", "scope -", "runtime 0", "records 9", "memory 9999 99 99 99 99"]))
    elif what == 9 and len(words) > 1:
        words[rng.randrange(1, len(words))] = rng.choice(["bound", "facade", "normal", "external", "kept", "free", "cjs", "link"])
        texts[place] = " ".join(words)
    elif what == 10:
        texts[place] = " " + texts[place]
    else:
        texts[place] = texts[place] + rng.choice(["\t", " #", "\r"])


def text_of(word):
    return "%d.%d" % word if isinstance(word, tuple) else str(word)


def set_out(rng, texts, noise):
    """The lines of a document: with or without spaces in front of a module's lines, and with comments among them."""
    inside, result = False, []
    indent = rng.random() < 0.6
    for text in texts:
        if noise and rng.random() < 0.1:
            result.append(rng.choice(["", "  ", "# a comment", "   #  spaces  in  it ", "#"]))
        if text == "end":
            inside = False
        result.append("  " + text if indent and inside else text)
        if text.startswith("module "):
            inside = True
    return result or ["# nothing"]


def document(rng):
    lines = Builder(rng).build()
    changer = Changer(rng, lines)
    spoils = 0
    for _ in range(rng.choices([0, 1, 2, 3], [5, 22, 34, 39])[0]):
        if rng.random() < 0.06:
            spoils += 1
        else:
            changer.change()
    texts = [" ".join(text_of(word) for word in line) for line in lines]
    for _ in range(spoils):
        spoil(rng, texts)
    return set_out(rng, texts, rng.random() < 0.2)


def main(document):
    seed, count = int(sys.argv[1]), int(sys.argv[2])
    rng = random.Random(seed)
    out = []
    for number in range(count):
        if number:
            out.append("---" if rng.random() < 0.95 else " ---")
        out += document(rng)
    sys.stdout.buffer.write(("\n".join(out) + "\n").encode())


if __name__ == "__main__":
    main(document)
