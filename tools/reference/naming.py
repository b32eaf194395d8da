#!/usr/bin/env python3
"""A second program for the naming of a chunk up to the repair of inner bindings, written from docs/RULES.md alone.

It reads and checks a chunk as tables.py does, opens it, carries the run out, and tells the names.

    naming.py < TEXT            the answers
    naming.py check             tries some worked searches, and a worked chunk
"""
import sys

import tables
from tables import REFUSED, canonical, symbol_of

REFUSED = dict(REFUSED)
REFUSED.update({
    8: b"no such symbol",
    9: b"the canonical symbol is not in a root scope",
    10: b"no free record",
    11: b"a number would pass 9999",
    12: b"more than 4096 probes would be needed",
    15: b"the buffer is too short",
})

RESERVED_WORDS = b"""
    await break case catch class const continue debugger default delete do else enum export extends
    false finally for function if import in instanceof new null return super switch this throw true
    try typeof var void while with yield
    implements interface let package private protected public static
""".split()

ESM, CJS, IIFE, UMD = 1, 2, 3, 4

MOST = 9999             # the largest counter and the largest k
MOST_PROBES = 4096


class Refused(Exception):
    def __init__(self, number):
        Exception.__init__(self)
        self.number = number


# ---------------------------------------------------------------- reading: two marks more than tables.py keeps


class Reader(tables.Reader):
    def __init__(self):
        tables.Reader.__init__(self)
        self.chunk.entry_came_from_cjs = []     # beside chunk.pairs[b"entry"]

    def chunk_line(self, first, rest):
        tables.Reader.chunk_line(self, first, rest)
        if first == b"module":
            self.module.statement_kept = []         # both beside module.statements
            self.module.statement_external = []
        if first == b"entry":
            self.chunk.entry_came_from_cjs.append(len(rest) == 2)

    def module_line(self, first, rest):
        module = self.module
        tables.Reader.module_line(self, first, rest)
        if first == b"statement":
            module.statement_kept.append(rest[0] == b"kept")
            module.statement_external.append(rest[1:2] == [b"external"])


# ---------------------------------------------------------------- name records and the search


class Records:
    def __init__(self, most):
        self.most = most
        self.counters = {}      # name -> counter

    def reserve(self, name):
        if name in self.counters:
            return
        if not 1 <= len(name) <= 100:
            raise Refused(7)
        self.record(name)

    def record(self, name):
        if len(self.counters) == self.most:
            raise Refused(10)
        self.counters[name] = 0

    def raise_counter(self, name):
        """The counter, raised by 1."""
        if self.counters[name] == MOST:
            raise Refused(11)
        self.counters[name] += 1
        return self.counters[name]

    def resolve(self, base, vetoed):
        """The name and the number of probes. `vetoed(candidate, bare)` is the policy."""
        if not 1 <= len(base) <= 100:
            raise Refused(7)
        if len(self.counters) == self.most:
            raise Refused(10)
        if base in self.counters:
            k = self.raise_counter(base)
        elif vetoed(base, True):
            k = 1
        else:
            self.record(base)
            return base, 0
        probes = 0
        while True:
            if probes == MOST_PROBES:
                raise Refused(12)
            probes += 1
            form = b"%s$%d" % (base, k)
            if form in self.counters:
                k = self.raise_counter(form)
            elif vetoed(form, False):
                k += 1
                if k > MOST:
                    raise Refused(11)
            else:
                self.record(form)
                return form, probes


# ---------------------------------------------------------------- policies


def own_module_policy(module):
    """Vetoes a numbered form that some scope of the module binds."""
    bound = {symbol.name for symbol in module.symbols if symbol.bound}
    return lambda candidate, bare: not bare and candidate in bound


def inner_names(chunk):
    names = set()
    for m in chunk.numbers[b"chunk"]:
        module = chunk.modules[m]
        for symbol in module.symbols:
            if symbol.scope != 0 or (module.wrapped() and symbol.bound):
                names.add(symbol.name)
    return names


def file_policy(inner):
    """Vetoes an inner name, bare or numbered."""
    return lambda candidate, bare: candidate in inner


# ---------------------------------------------------------------- opening


def fixed_names(chunk, module):
    names = []
    if b"dynamic_import" in module.flags:
        names += [b"Promise", b"Object"]
    if b"file_url" in module.flags:
        names += [b"URL"]
    if chunk.format == CJS:
        names += [b"require", b"__filename", b"__dirname"]
    return names


def wrapper_parameters(module):
    if b"this" in module.given or b"uses_module" in module.flags:
        return [b"exports", b"module"]
    if b"uses_module_or_exports" in module.flags:
        return [b"exports"]
    return []


def names_to_reserve(chunk):
    names = RESERVED_WORDS + chunk.globals + [b"Object", b"Promise"]
    if chunk.format == CJS:
        names += [b"module", b"require", b"__filename", b"__dirname", b"exports", b"Symbol"]
    if chunk.format in (IIFE, UMD):
        names += [b"exports", b"Symbol"]
    for m in chunk.numbers[b"chunk"]:
        module = chunk.modules[m]
        names += [name for name, scope in module.unresolved]
        names += fixed_names(chunk, module)
        if module.wrapped():
            names += wrapper_parameters(module)
    return names


# ---------------------------------------------------------------- the run

AUTHORED, SYNTHESIZED = "authored", "synthesized"


def root_binding_kind(chunk, pair):
    m, s = canonical(chunk, pair)
    if m == chunk.runtime:
        return SYNTHESIZED
    module = chunk.modules[m]
    if module.external or module.symbols[s].bound:
        return AUTHORED
    if s in module.imports or s in module.shims or s == module.given.get(b"default"):
        return AUTHORED
    return SYNTHESIZED


def hint(name):
    letters = b"abcdefghijklmnopqrstuvwxyzABCDEFGHIJKLMNOPQRSTUVWXYZ0123456789_$"
    return b"require_" + bytes(byte if byte in letters else ord("_") for byte in name)


class Session:
    """A granted chunk, opened."""

    def __init__(self, chunk):
        self.chunk = chunk
        self.records = Records(4096 if chunk.records is None else chunk.records)
        for name in names_to_reserve(chunk):
            self.records.reserve(name)
        self.names = {}         # canonical symbol -> name
        self.file_policy = file_policy(inner_names(chunk))

    def name_symbol(self, pair, kind):
        """The name of the canonical symbol, and the number of probes, or None if it has the name already."""
        chunk = self.chunk
        if symbol_of(chunk, pair) is None:
            raise Refused(8)
        pair = canonical(chunk, pair)
        symbol = symbol_of(chunk, pair)
        if symbol.scope != 0:
            raise Refused(9)
        if pair in self.names:
            return self.names[pair], None
        policy = self.file_policy
        if kind == AUTHORED:
            policy = own_module_policy(chunk.modules[pair[0]])
        self.names[pair], probes = self.records.resolve(symbol.name, policy)
        return self.names[pair], probes

    def name_by_kind(self, pair):
        return self.name_symbol(pair, root_binding_kind(self.chunk, pair))

    def name_helper(self, base):
        """The name, and the number of probes."""
        return self.records.resolve(base, self.file_policy)

    def run(self):
        """Everything in front of the repair. Returns the names of the helpers."""
        chunk = self.chunk
        modules = chunk.modules

        if chunk.format != ESM:
            for key in (b"direct", b"entry_externals", b"indirect"):
                for m in chunk.numbers[key]:
                    if modules[m].external:
                        self.name_symbol((m, 0), AUTHORED)

        for pair, came_from_cjs in zip(chunk.pairs[b"entry"], chunk.entry_came_from_cjs):
            if not came_from_cjs:
                self.name_by_kind(pair)

        if chunk.format == ESM:
            used = set(chunk.pairs[b"used"])
            for m in chunk.numbers[b"direct"]:
                for s in range(len(modules[m].symbols)):
                    if (m, s) in used:
                        self.name_symbol((m, s), AUTHORED)

        for m in reversed(chunk.numbers[b"chunk"]):
            module = modules[m]
            if b"hot" in module.given:
                self.name_symbol((m, module.given[b"hot"]), SYNTHESIZED)
            if b"this" in module.given and module.wrapped():
                self.name_symbol((m, module.given[b"this"]), SYNTHESIZED)
            for declared, kept, external in zip(module.statements, module.statement_kept, module.statement_external):
                if not kept:
                    continue
                for pair in declared:
                    end = canonical(chunk, pair)
                    if end[0] != m:
                        continue
                    if module.wrapped() and module.symbols[end[1]].bound and not external:
                        continue
                    self.name_by_kind(pair)

        for pair in chunk.pairs[b"synthetic"]:
            self.name_symbol(pair, SYNTHESIZED)

        for number, name, imported in chunk.others:
            for pair in imported:
                self.name_by_kind(pair)

        return [self.name_helper(hint(name))[0] for number, name, imported in chunk.others]


# ---------------------------------------------------------------- the answers


def refusal(refused):
    return b"refused %d %s" % (refused.number, REFUSED[refused.number])


def name_lines(session):
    return [b"name %d %d %s" % (m, s, name) for (m, s), name in sorted(session.names.items())]


def record_lines(session):
    return [b"record %s %d" % record for record in sorted(session.records.counters.items())]


def opened(chunk):
    faults = tables.faults_of(chunk)
    if faults:
        raise Refused(min(faults)[2])
    return Session(chunk)


def answer_chunk(chunk):
    try:
        session = opened(chunk)
        helpers = session.run()
    except Refused as refused:
        return [refusal(refused), b"done"]
    answer = name_lines(session)
    for (number, _, _), helper in zip(chunk.others, helpers):
        answer.append(b"helper %d %s" % (number, helper))
    return answer + record_lines(session) + [b"done"]


def answer_text(text):
    return tables.answer_text(text, Reader, answer_chunk)


# ---------------------------------------------------------------- worked cases


def check():
    def none(candidate, bare):
        return False

    def bare_a(candidate, bare):
        return bare and candidate == b"a"

    def every(candidate, bare):
        return True

    def case(before, policy, want, probes, after):
        records = Records(4096)
        records.counters = dict(before)
        try:
            got = records.resolve(b"a", policy)
        except Refused as refused:
            got = refused.number
        assert got == ((want, probes) if probes is not None else want), (before, got)
        if after is not None:
            assert records.counters == after, (before, records.counters)

    case({}, none, b"a", 0, {b"a": 0})
    case({b"a": 0}, none, b"a$1", 1, {b"a": 1, b"a$1": 0})
    case({b"a": 0, b"a$1": 0, b"a$2": 0}, none, b"a$3", 5, {b"a": 1, b"a$1": 3, b"a$2": 1, b"a$3": 0})
    case({b"a": 4, b"a$5": 0}, none, b"a$1", 2, {b"a": 5, b"a$5": 1, b"a$1": 0})
    case({}, bare_a, b"a$1", 1, {b"a$1": 0})
    case({b"a$1": 0}, bare_a, b"a$2", 3, {b"a$1": 2, b"a$2": 0})
    case({b"a": 9998}, none, b"a$9999", 1, {b"a": 9999, b"a$9999": 0})
    case({b"a": 9999}, none, 11, None, {b"a": 9999})
    case({b"a": 5902}, every, 12, None, {b"a": 5903})
    case({b"a": 5903}, every, 11, None, {b"a": 5904})
    # Not the lowest unrecorded number: the search goes on behind the counter.
    case({b"a": 4}, none, b"a$5", 1, {b"a": 5, b"a$5": 0})

    chunk_n = b"""format esm
module normal 0
  scope -
  symbol now 0 bound
  statement kept 0.0
end
module normal 1
  scope -
  scope 0
  symbol now 0 bound
  symbol read 0 bound link 0.0
  symbol now$1 1 bound
  import 1
  reference 1 1
  statement kept 1.0 1.1
end
chunk 0 1
"""
    lines = answer_text(chunk_n).split(b"\n")[:-1]
    reserved = RESERVED_WORDS + [b"Object", b"Promise"]
    assert len(set(RESERVED_WORDS)) == 46 and len(set(reserved)) == 48
    want = [b"name 0 0 now$1", b"name 1 0 now"]
    for name in sorted(reserved + [b"now", b"now$1"]):
        want.append(b"record %s %d" % (name, 1 if name == b"now" else 0))
    assert lines == want + [b"done"], lines
    print("the cases hold")


if __name__ == "__main__":
    if sys.argv[1:] == ["check"]:
        check()
    else:
        sys.stdout.buffer.write(answer_text(sys.stdin.buffer.read()))
        sys.stdout.buffer.flush()
