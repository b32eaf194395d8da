#!/usr/bin/env python3
"""A second program for `name_chunk`, written from docs/RULES.md alone.

Reads documents as bytes on standard input, writes the answers to standard output.
It collects all faults of a chunk as (table, record, number) and takes the least.
"""
import sys

# ---------------------------------------------------------------- words

REFUSED = {
    1: b"outside a limit, or too little memory",
    2: b"a number or the format is out of range",
    3: b"modules, chunk numbers or scopes out of order",
    4: b"two bindings of one name, or a misplaced scope or symbol",
    5: b"a link or alias that leads nowhere or does not belong there",
    6: b"a reference or unresolved name that is bound otherwise",
    7: b"a name that is empty or over 100 bytes",
}

SPACE = b"a space too many"
NO_LINE = b"no such line here"
COUNT = b"too many words, or too few"
NO_NUMBER = b"not a number of at most 32 bits"
NO_SYMBOL = b"not a symbol, as M.S"
NO_WORD = b"not a word that can stand here"
TWICE = b"given a second time"
NO_END = b"a module without its end"

FORMATS = {b"esm": 1, b"cjs": 2, b"iife": 3, b"umd": 4}

# The fewest and the most words of a line, the first one included (None: no most).
# A line that ends in `...` may have nothing there.
CHUNK_LINES = {
    b"format": (2, 2),
    b"records": (2, 2),
    b"memory": (6, 6),
    b"globals": (1, None),
    b"runtime": (2, 2),
    b"module": (3, 3),
    b"chunk": (1, None),
    b"direct": (1, None),
    b"entry_externals": (1, None),
    b"indirect": (1, None),
    b"entry": (2, 3),
    b"used": (1, None),
    b"synthetic": (1, None),
    b"other": (3, None),
}
FLAGS = (b"wrapped", b"dynamic_import", b"file_url", b"uses_module", b"uses_module_or_exports")
MODULE_LINES = {
    b"scope": (2, 2),
    b"symbol": (4, None),
    b"hot": (2, 2),
    b"this": (2, 2),
    b"default": (2, 2),
    b"shim": (2, 2),
    b"import": (2, 2),
    b"unresolved": (3, 3),
    b"reference": (3, 3),
    b"member": (3, 4),
    b"statement": (2, None),
    b"end": (1, 1),
}
for flag in FLAGS:
    MODULE_LINES[flag] = (1, 1)


# ---------------------------------------------------------------- tables


class Symbol:
    def __init__(self, name, scope, bound, link, alias):
        self.name = name
        self.scope = scope
        self.bound = bound
        self.link = link      # a pair, or None
        self.alias = alias    # a pair, or None


class Reference:
    def __init__(self, scope, target, resolved):
        self.scope = scope
        self.target = target
        self.resolved = resolved    # a pair, or None


class Module:
    def __init__(self, external, order):
        self.external = external
        self.order = order
        self.flags = set()
        self.given = {}         # hot, this, default -> number
        self.scopes = []        # parents; None for a root written as `-`
        self.symbols = []
        self.references = []
        self.shims = []
        self.imports = []
        self.unresolved = []    # (name, scope)
        self.statements = []    # lists of pairs

    def wrapped(self):
        return b"wrapped" in self.flags


class Chunk:
    def __init__(self):
        self.format = None      # a code, or None where no line gives it
        self.records = None
        self.memory = None
        self.runtime = None
        self.modules = []
        self.globals = []
        self.numbers = {b"chunk": [], b"direct": [], b"entry_externals": [], b"indirect": []}
        self.pairs = {b"entry": [], b"used": [], b"synthetic": []}
        self.others = []        # (number, name, list of pairs)


# ---------------------------------------------------------------- reading


class Faulty(Exception):
    def __init__(self, words):
        Exception.__init__(self)
        self.words = words


def once(given, value):
    """The value of what can be given once only."""
    if given is not None:
        raise Faulty(TWICE)
    return value


def number_or_none(word):
    if len(word) == 0:
        return None
    for byte in word:
        if byte not in b"0123456789":
            return None
    digits = word.lstrip(b"0")
    if len(digits) > 10:
        return None
    value = int(digits) if digits else 0
    return value if value < 2 ** 32 else None


def read_number(word):
    value = number_or_none(word)
    if value is None:
        raise Faulty(NO_NUMBER)
    return value


def read_pair(word):
    left, dot, right = word.partition(b".")
    module, number = number_or_none(left), number_or_none(right)
    if dot == b"" or module is None or number is None:
        raise Faulty(NO_SYMBOL)
    return (module, number)


def read_word(word, allowed):
    if word not in allowed:
        raise Faulty(NO_WORD)
    return word


class Reader:
    """Reads the lines of one document into a chunk."""

    def __init__(self):
        self.chunk = Chunk()
        self.module = None      # the module whose block is open

    def line(self, text):
        text = text.lstrip(b" ")
        if text == b"" or text.startswith(b"#"):
            return
        words = text.split(b" ")
        if b"" in words:
            raise Faulty(SPACE)
        lines = CHUNK_LINES if self.module is None else MODULE_LINES
        if words[0] not in lines:
            raise Faulty(NO_LINE)
        fewest, most = lines[words[0]]
        if len(words) < fewest or (most is not None and len(words) > most):
            raise Faulty(COUNT)
        if self.module is None:
            self.chunk_line(words[0], words[1:])
        else:
            self.module_line(words[0], words[1:])

    def chunk_line(self, first, rest):
        chunk = self.chunk
        if first == b"format":
            chunk.format = once(chunk.format, FORMATS.get(rest[0], 0))
        elif first == b"records":
            chunk.records = once(chunk.records, read_number(rest[0]))
        elif first == b"memory":
            chunk.memory = once(chunk.memory, [read_number(word) for word in rest])
        elif first == b"globals":
            chunk.globals += rest
        elif first == b"runtime":
            chunk.runtime = once(chunk.runtime, read_number(rest[0]))
        elif first == b"module":
            kind = read_word(rest[0], (b"normal", b"external"))
            order = read_number(rest[1])
            self.module = Module(kind == b"external", order)
            chunk.modules.append(self.module)
        elif first in chunk.numbers:
            chunk.numbers[first] += [read_number(word) for word in rest]
        elif first == b"entry":
            pair = read_pair(rest[0])
            if len(rest) == 2:
                read_word(rest[1], (b"cjs",))    # the mark plays no part in the checks
            chunk.pairs[first].append(pair)
        elif first in chunk.pairs:
            chunk.pairs[first] += [read_pair(word) for word in rest]
        else:
            assert first == b"other"
            value = read_number(rest[0])
            chunk.others.append((value, rest[1], [read_pair(word) for word in rest[2:]]))

    def module_line(self, first, rest):
        module = self.module
        if first in FLAGS:
            module.flags.add(first)
        elif first == b"end":
            self.module = None
        elif first == b"scope":
            if rest[0] == b"-" and len(module.scopes) == 0:
                module.scopes.append(None)
            else:
                module.scopes.append(read_number(rest[0]))
        elif first == b"symbol":
            scope = read_number(rest[1])
            bound = read_word(rest[2], (b"bound", b"facade")) == b"bound"
            found = {}
            tail = rest[3:]
            for key in (b"link", b"alias"):
                if len(tail) >= 2 and tail[0] == key:
                    found[key] = read_pair(tail[1])
                    tail = tail[2:]
            if tail:
                raise Faulty(COUNT)
            module.symbols.append(Symbol(rest[0], scope, bound, found.get(b"link"), found.get(b"alias")))
        elif first in (b"hot", b"this", b"default"):
            value = read_number(rest[0])
            if first in module.given:
                raise Faulty(TWICE)
            module.given[first] = value
        elif first == b"shim":
            module.shims.append(read_number(rest[0]))
        elif first == b"import":
            module.imports.append(read_number(rest[0]))
        elif first == b"unresolved":
            module.unresolved.append((rest[0], read_number(rest[1])))
        elif first in (b"reference", b"member"):
            scope = read_number(rest[0])
            target = read_number(rest[1])
            resolved = read_pair(rest[2]) if len(rest) == 3 else None
            module.references.append(Reference(scope, target, resolved))
        else:
            assert first == b"statement"
            read_word(rest[0], (b"kept", b"dropped"))
            declared = rest[1:]
            if declared and declared[0] == b"external":
                declared = declared[1:]
            module.statements.append([read_pair(word) for word in declared])


# ---------------------------------------------------------------- what the tables say


def symbol_of(chunk, pair):
    """The symbol that a pair names, or None."""
    module, number = pair
    if module < len(chunk.modules) and number < len(chunk.modules[module].symbols):
        return chunk.modules[module].symbols[number]
    return None


def follow(chunk, pair):
    """The pair that at most 16,384 links lead to, and whether the chain ends there."""
    for _ in range(16384):
        symbol = symbol_of(chunk, pair)
        if symbol is None or symbol.link is None:
            return pair, True
        pair = symbol.link
    symbol = symbol_of(chunk, pair)
    return pair, symbol is None or symbol.link is None


def canonical(chunk, pair):
    return follow(chunk, pair)[0]


def printed(chunk, pair):
    pair = canonical(chunk, pair)
    symbol = symbol_of(chunk, pair)
    if symbol is None or symbol.alias is None:
        return pair
    return canonical(chunk, symbol.alias)


def scopes_around(module, scope):
    """The scope, its parent, and so on, nearest first."""
    around = [scope]
    if scope >= len(module.scopes):
        return around
    while scope != 0:
        parent = module.scopes[scope]
        if parent >= scope:
            break
        scope = parent
        around.append(scope)
    return around


def first_bindings(module):
    """(scope, name) -> the number of the first bound symbol there of that name."""
    bindings = {}
    for number, symbol in enumerate(module.symbols):
        if symbol.bound and (symbol.scope, symbol.name) not in bindings:
            bindings[(symbol.scope, symbol.name)] = number
    return bindings


def nearest_binding(module, bindings, scope, name):
    for around in scopes_around(module, scope):
        if (around, name) in bindings:
            return bindings[(around, name)]
    return None


# ---------------------------------------------------------------- the checks

LIMITS, FORMAT, MODULES, SCOPES, SYMBOLS, REFERENCES, LISTS = range(7)


def faults_of(chunk):
    faults = []

    def fault(table, record, number, condition):
        if condition:
            faults.append((table, record, number))

    modules = chunk.modules
    all_scopes = sum(len(module.scopes) for module in modules)
    all_symbols = sum(len(module.symbols) for module in modules)
    all_references = sum(len(module.references) for module in modules)
    records = 4096 if chunk.records is None else chunk.records
    memory = chunk.memory
    if memory is None:
        memory = [4096, 16384, 16384, 256, len(chunk.others)]
    room_records, room_given, room_inner, room_marks, room_helpers = memory

    def no_module(number):
        return number >= len(modules)

    def no_symbol(pair):
        return symbol_of(chunk, pair) is None

    # The limits: one record.
    fault(LIMITS, 0, 1, len(modules) > 256)
    fault(LIMITS, 0, 1, all_scopes > 16384)
    fault(LIMITS, 0, 1, all_symbols > 16384)
    fault(LIMITS, 0, 1, all_references > 32768)
    fault(LIMITS, 0, 1, records == 0)
    fault(LIMITS, 0, 1, records > 4096)
    fault(LIMITS, 0, 1, room_records < records)
    fault(LIMITS, 0, 1, room_given < all_symbols)
    fault(LIMITS, 0, 1, room_inner < all_symbols)
    fault(LIMITS, 0, 1, room_marks < len(modules))
    fault(LIMITS, 0, 1, room_helpers < len(chunk.others))

    # The format: one record.
    fault(FORMAT, 0, 2, chunk.format not in (1, 2, 3, 4))

    # The modules.
    runtime_missing = chunk.runtime is not None and no_module(chunk.runtime)
    if len(modules) == 0:
        fault(MODULES, 0, 2, chunk.runtime is not None)
    for m, module in enumerate(modules):
        for number in module.given.values():
            fault(MODULES, m, 2, number >= len(module.symbols))
        fault(MODULES, m, 2, module.external and len(module.symbols) == 0)
        fault(MODULES, m, 2, m == 0 and runtime_missing)

    # The scopes of all modules.
    record = 0
    for module in modules:
        for number, parent in enumerate(module.scopes):
            if number != 0:
                fault(SCOPES, record, 2, parent >= len(module.scopes))
                fault(SCOPES, record, 3, parent >= number)
                fault(SCOPES, record, 4, module.external)
            record += 1

    # The symbols of all modules.
    record = 0
    for m, module in enumerate(modules):
        bindings = first_bindings(module)
        imports = set(module.imports)
        for number, symbol in enumerate(module.symbols):
            fault(SYMBOLS, record, 2, symbol.scope >= len(module.scopes))
            fault(SYMBOLS, record, 2, symbol.link is not None and no_symbol(symbol.link))
            fault(SYMBOLS, record, 2, symbol.alias is not None and no_symbol(symbol.alias))
            fault(SYMBOLS, record, 4, symbol.bound and bindings[(symbol.scope, symbol.name)] < number)
            fault(SYMBOLS, record, 4, symbol.bound and module.external)
            fault(SYMBOLS, record, 4, not symbol.bound and symbol.scope != 0)
            fault(SYMBOLS, record, 5, not follow(chunk, (m, number))[1])
            if symbol.alias is not None:
                last, ends = follow(chunk, symbol.alias)
                second = symbol_of(chunk, last)
                fault(SYMBOLS, record, 5, ends and second is not None and second.alias is not None)
            root_named_import = symbol.scope == 0 and number in imports
            linked_or_aliased = symbol.link is not None or symbol.alias is not None
            fault(SYMBOLS, record, 5, symbol.bound and linked_or_aliased and not root_named_import)
            fault(SYMBOLS, record, 7, not 1 <= len(symbol.name) <= 100)
            record += 1

    # The references of all modules.
    record = 0
    for module in modules:
        bindings = first_bindings(module)
        imports = set(module.imports)
        for reference in module.references:
            fault(REFERENCES, record, 2, reference.scope >= len(module.scopes))
            fault(REFERENCES, record, 2, reference.target >= len(module.symbols))
            fault(REFERENCES, record, 2, reference.resolved is not None and no_symbol(reference.resolved))
            if reference.target < len(module.symbols):
                target = module.symbols[reference.target]
                fault(REFERENCES, record, 6, not target.bound)
                nearest = nearest_binding(module, bindings, reference.scope, target.name)
                fault(REFERENCES, record, 6, nearest != reference.target)
                if reference.resolved is not None:
                    root_named_import = target.scope == 0 and reference.target in imports
                    linked_or_aliased = target.link is not None or target.alias is not None
                    fault(REFERENCES, record, 6, not root_named_import)
                    fault(REFERENCES, record, 6, module.wrapped() and not linked_or_aliased)
            record += 1

    # The lists.
    record = 0
    for name in chunk.globals:
        fault(LISTS, record, 7, not 1 <= len(name) <= 100)
        record += 1
    joined = chunk.numbers[b"chunk"]
    for place, number in enumerate(joined):
        fault(LISTS, record, 2, no_module(number))
        fault(LISTS, record, 3, not no_module(number) and modules[number].external)
        fault(LISTS, record, 3, number in joined[:place])
        if place > 0 and not no_module(number) and not no_module(joined[place - 1]):
            fault(LISTS, record, 3, modules[number].order < modules[joined[place - 1]].order)
        record += 1
    for module in modules:
        bindings = first_bindings(module)
        for number in module.shims:
            fault(LISTS, record, 2, number >= len(module.symbols))
            record += 1
        for number in module.imports:
            fault(LISTS, record, 2, number >= len(module.symbols))
            record += 1
        for name, scope in module.unresolved:
            fault(LISTS, record, 2, scope >= len(module.scopes))
            fault(LISTS, record, 6, nearest_binding(module, bindings, scope, name) is not None)
            fault(LISTS, record, 7, not 1 <= len(name) <= 100)
            record += 1
        for declared in module.statements:
            for pair in declared:
                fault(LISTS, record, 2, no_symbol(pair))
            record += 1
    for key in (b"direct", b"entry_externals", b"indirect"):
        for number in chunk.numbers[key]:
            fault(LISTS, record, 2, no_module(number))
            record += 1
    for key in (b"entry", b"used", b"synthetic"):
        for pair in chunk.pairs[key]:
            fault(LISTS, record, 2, no_symbol(pair))
            record += 1
    for place, (number, name, imported) in enumerate(chunk.others):
        for pair in imported:
            fault(LISTS, record, 2, no_symbol(pair))
        fault(LISTS, record, 3, place > 0 and number <= chunk.others[place - 1][0])
        fault(LISTS, record, 7, len(name) > 92)
        record += 1

    return faults


# ---------------------------------------------------------------- the answers


def answer_chunk(chunk):
    faults = faults_of(chunk)
    if faults:
        number = min(faults)[2]
        return [b"refused %d %s" % (number, REFUSED[number]), b"done"]
    answer = []
    for m, module in enumerate(chunk.modules):
        for s in range(len(module.symbols)):
            pair = (m, s)
            answer.append(b"symbol %d %d canonical %d.%d printed %d.%d"
                          % (pair + canonical(chunk, pair) + printed(chunk, pair)))
    answer.append(b"done")
    return answer


def answer_document(first, lines, make_reader, answer):
    """The answer to the document whose first line is the line `first` of the input."""
    reader = make_reader()
    for place, line in enumerate(lines):
        try:
            reader.line(line)
        except Faulty as faulty:
            return [b"line %d: %s" % (first + place, faulty.words)]
    if reader.module is not None:
        return [b"line %d: %s" % (first + len(lines), NO_END)]
    return answer(reader.chunk)


def documents(text):
    """The number of the first line of each document, and its lines."""
    lines = text.split(b"\n")
    if len(lines) > 1 and lines[-1] == b"":
        lines.pop()     # a line end at the very end begins no line
    first, document = 1, []
    for place, line in enumerate(lines, 1):
        if line.lstrip(b" ") == b"---":
            if document:
                yield first, document
            first, document = place + 1, []
        else:
            document.append(line)
    if document:
        yield first, document


def answer_text(text, make_reader=Reader, answer=answer_chunk):
    answers = []
    for first, lines in documents(text):
        answers += answer_document(first, lines, make_reader, answer)
    return b"".join(line + b"\n" for line in answers)


if __name__ == "__main__":
    sys.stdout.buffer.write(answer_text(sys.stdin.buffer.read()))
    sys.stdout.buffer.flush()
