#!/usr/bin/env python3
"""A second program for `session_script`, written from docs/RULES.md alone: opens a chunk as naming.py does, makes the calls
that stand behind the line `session`, and tells their answers.

    session.py < TEXT
"""
import sys

import naming
import tables
from naming import AUTHORED, SYNTHESIZED, Refused, refusal
from tables import COUNT, NO_LINE, NO_NUMBER, NO_WORD, SPACE, Faulty, read_number, read_pair, read_word

KINDS = {b"authored": AUTHORED, b"synthesized": SYNTHESIZED}
VETOES = (b"bare", b"numbered", b"both")
# The fewest and the most words of a call, the first one included.
CALLS = {
    b"session": (1, 1),
    b"reserve": (2, 2),
    b"root": (2, 3),
    b"helper": (2, 2),
    b"require": (2, 2),
    b"veto": (2, 3),
    b"policy": (2, 3),
    b"printed": (2, 2),
    b"names": (1, 2),
    b"records": (1, 1),
    b"repair": (1, 1),
}
IN_REPAIR = (b"printed", b"names")


# ---------------------------------------------------------------- reading


def read_call(line):
    """The words of a call, or None where the line says nothing."""
    line = line.lstrip(b" ")
    if line == b"" or line.startswith(b"#"):
        return None
    words = line.split(b" ")
    if words[-1] == b"" or b"" in words:
        raise Faulty(SPACE)
    verb, rest = words[0], words[1:]
    if verb not in CALLS:
        raise Faulty(NO_LINE)
    fewest, most = CALLS[verb]
    if not fewest <= len(words) <= most:
        raise Faulty(COUNT)
    if verb in (b"root", b"printed"):
        rest[0] = read_pair(rest[0])
    if verb == b"root" and len(rest) == 2:
        rest[1] = KINDS[read_word(rest[1], KINDS)]
    if verb == b"veto":
        read_word(rest[0], VETOES if len(rest) == 2 else (b"all", b"none"))
    if verb in (b"names", b"policy") and rest and len(words) == most:
        rest[-1] = read_number(rest[-1])
        if verb == b"policy" and rest[-1] == 0:
            raise Faulty(NO_WORD)
    return verb, rest


def read_calls(first, lines):
    """The calls of the lines behind `session`; the first line of all has the number `first`."""
    calls, repairing = [], False
    for place, line in enumerate(lines):
        try:
            call = read_call(line)
            if call is None:
                continue
            if call[0] == b"session" or repairing and call[0] not in IN_REPAIR:
                raise Faulty(NO_LINE)
        except Faulty as faulty:
            return None, [b"line %d: %s" % (first + place, faulty.words)]
        repairing = repairing or call[0] == b"repair"
        calls.append(call)
    return calls, None


# ---------------------------------------------------------------- calling


class Caller:
    def __init__(self, session):
        self.session = session
        self.all = False
        self.vetoes = []    # (kind, name)

    def vetoed(self, candidate, bare):
        kinds = (b"bare", b"both") if bare else (b"numbered", b"both")
        return self.all or any((kind, candidate) in self.vetoes for kind in kinds)

    def search(self, base, times):
        for _ in range(times - 1):
            try:
                self.session.records.resolve(base, self.vetoed)
            except Refused:
                pass
        return self.session.records.resolve(base, self.vetoed)

    def veto(self, kind, name=None):
        if name is None:
            self.all = kind == b"all"
            if kind == b"none":
                self.vetoes = []
        elif len(name) > 105:
            raise Refused(7)
        else:
            self.vetoes.append((kind, name))

    def root(self, pair, kind=None):
        if kind is None and tables.symbol_of(self.session.chunk, pair) is not None:
            kind = naming.root_binding_kind(self.session.chunk, pair)
        return self.session.name_symbol(pair, kind)

    def require(self, name):
        hint = naming.hint(name)
        if len(hint) > 100:
            raise Refused(7)
        return self.session.name_helper(hint)

    def granted(self, verb, rest):
        """What a granted call answers behind the words that it is about, or None where it answers nothing."""
        if verb == b"reserve":
            self.session.records.reserve(rest[0])
            return None
        if verb == b"veto":
            self.veto(*rest)
            return None
        if verb == b"root":
            name, probes = self.root(*rest)
            return b"has " + name if probes is None else b"%s %d" % (name, probes)
        if verb == b"helper":
            return b"%s %d" % self.session.name_helper(rest[0])
        if verb == b"require":
            return b"%s %d" % self.require(rest[0])
        return b"%s %d" % self.search(*(rest + [1])[:2])

    def printed(self, pair):
        chunk = self.session.chunk
        end = tables.printed(chunk, pair) if tables.symbol_of(chunk, pair) is not None else None
        if end not in self.session.names:
            return b"unnamed %d.%d" % pair
        return b"printed %d.%d %s" % (pair + (self.session.names[end],))

    def call(self, verb, rest):
        if verb == b"repair":
            return []
        if verb == b"printed":
            return [self.printed(rest[0])]
        if verb == b"records":
            return naming.record_lines(self.session)
        if verb == b"names":
            if rest and rest[0] < len(self.session.names):
                return [b"names " + refusal(Refused(15))]
            return naming.name_lines(self.session)
        about = rest[1] if verb == b"veto" and len(rest) == 2 else rest[0]
        about = b"%d.%d" % about if verb == b"root" else about
        try:
            answer = self.granted(verb, rest)
        except Refused as refused:
            answer = refusal(refused)
        return [] if answer is None else [b"%s %s %s" % (verb, about, answer)]


# ---------------------------------------------------------------- the answers


def memory_line(chunk):
    """What is given back: what is told, but no more than can be used, or else what the chunk needs."""
    symbols = sum(len(module.symbols) for module in chunk.modules)
    records = 4096 if chunk.records is None else chunk.records
    marks, helpers = len(chunk.modules), len(chunk.others)
    given = chunk.memory or [records, symbols, symbols, marks, helpers]
    most = [4096, 16384, 16384, marks, helpers]
    return b"memory %d %d %d %d %d" % tuple(min(pair) for pair in zip(given, most))


def answer_calls(chunk, calls):
    try:
        caller = Caller(naming.opened(chunk))
    except Refused as refused:
        return [refusal(refused)]
    return [line for verb, rest in calls for line in caller.call(verb, rest)]


def answer_document(first, lines):
    ends = [place for place, line in enumerate(lines) if line.lstrip(b" ") == b"session"]
    end = ends[0] if ends else len(lines)

    def answer(chunk):
        calls, faulty = read_calls(first + end + 1, lines[end + 1:])
        return faulty or answer_calls(chunk, calls) + [memory_line(chunk), b"done"]

    return tables.answer_document(first, lines[:end], naming.Reader, answer)


if __name__ == "__main__":
    for number, document in tables.documents(sys.stdin.buffer.read()):
        sys.stdout.buffer.write(b"".join(line + b"\n" for line in answer_document(number, document)))
    sys.stdout.buffer.flush()
