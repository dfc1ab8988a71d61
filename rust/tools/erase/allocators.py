"""Allocators, which no call of Rust's takes, and the handle of a test. They are known by their types, whatever their names:
std's `Global`, a parameter with the bound `Allocator`, and a type that implements `Allocator` in the source."""
import re

from tokens import HANDLE, OPEN, TYPE, VALUE, Token

# What gives an allocator: a handle, and what owns memory.
CALLS = ('alloc', 'allocator')
SIGNS = {VALUE: '@', TYPE: '%', HANDLE: '^'}
# An argument, a parameter or a field, a type, a parameter for a type, and the trait, where it is imported.
ELEMENT = re.compile(r'(@: ?)?&?(self\.)?@|@: ?&?%|\^: ?\w+|&?%(: ?Allocator( ?\+ ?\w+)*)?( ?= ?%)?|Allocator')


def is_named(source, i):
    """Whether a token is a name without a path or a value before it."""
    return source.is_name(i) and source.at(i - 1) not in ('.', '::')


def type_parameters(source, opening):
    """The type parameters of a list that are allocators."""
    parts = source.parts(opening) if source.at(opening) == '<' and source.angle(opening) else ()
    return {source.at(first) for first, end in parts if 'Allocator' in source.names(first + 1, end)}


def is_of(source, first, end, types):
    """Whether this is a type of these, or a reference to one."""
    while first < end and (source.at(first) in ('&', 'mut') or source.tokens[first].kind == 'lifetime'):
        first += 1
    return source.at(first) in types and (end == first + 1 or source.at(first + 1) == '<')


def typed(source, opening):
    """The parameters or fields of a list: (index of the name, first token of the type, index after it)."""
    for first, end in source.parts(opening):
        colon = next((i for i in range(first, end) if source.at(i) == ':'), None)
        if colon and source.is_name(colon - 1):
            yield colon - 1, colon + 1, end


def call_before(source, end):
    """The first token of a value of which a call ends before an index: a name, or names with dots between them."""
    i = end - 1
    while source.at(i - 1) == '.' and source.is_name(i - 2):
        i -= 2
    return i


class Allocators:
    """The types of the source that implement `Allocator`; and its functions that call a closure with an allocator: which of
    their parameters it is, and which of its own the allocator is."""

    def __init__(self, sources):
        self.types, self.closures = set(), {}
        for source in sources:
            for _, keyword, _ in source.items():
                names = source.names(keyword, source.until(keyword, '{')) if source.at(keyword) == 'impl' else ()
                if 'for' in names and names[names.index('for') - 1] == 'Allocator':
                    self.types.add(source.item_name(keyword))
        for source in sources:
            for i in self.functions(source):
                self.learn(source, i)

    @staticmethod
    def functions(source):
        return [i for i in range(len(source.tokens) - 2) if source.is_name(i, 'fn') and source.is_name(i + 1)]

    def learn(self, source, keyword):
        """Takes down which parameters of a function are closures that take allocators."""
        types, bounds = {'Global', *self.types, *type_parameters(source, keyword + 2)}, {}
        for i in range(keyword, source.body(keyword)):
            if source.is_name(i, 'Fn', 'FnMut', 'FnOnce') and source.at(i + 1) == '(' and source.at(i - 1) == ':':
                bounds[source.at(i - 2)] = {n for n, (first, end) in enumerate(source.parts(i + 1)) if is_of(source, first, end, types)}
        for n, (first, end) in enumerate(source.parts(source.parameters(keyword))):
            if taken := bounds.get(source.at(end - 1)):
                self.closures.setdefault(source.at(keyword + 1), {})[n] = taken

    def mark(self, source):
        """Marks the values and types of a file that are allocators, and handles."""
        self.join_calls(source)
        for i, token in enumerate(source.tokens):
            own = token.text in self.types and (source.at(i + 1) == '<' or source.at(i - 1) == '&')
            if token.kind == 'name' and (token.text == 'Global' or own):
                token.kind = TYPE
        fields = set()
        for i in range(len(source.tokens) - 2):
            if source.is_name(i, 'enum', 'fn', 'impl', 'struct', 'trait', 'type'):
                self.mark_types(source, i)
            if source.is_name(i, 'struct') and source.at(body := source.until(i + 1, '{', ';', '(')) == '{':
                fields |= {source.at(name) for name, *kind in typed(source, body) if self.is_one(source, *kind)}
        for i in self.functions(source):
            self.mark_values(source, i)
        for i, token in enumerate(source.tokens):
            field = source.at(i - 1) == '.' and source.at(i - 2) == 'self' or source.at(i + 1) == ':'
            if token.kind == 'name' and token.text in fields and field:
                token.kind = VALUE

    @staticmethod
    def join_calls(source):
        """Makes one token of a call that gives an allocator, also of its copy."""
        for i in range(len(source.tokens) - 1, 1, -1):
            if source.is_name(i, *CALLS) and source.at(i - 1) == '.' and source.code(i + 1, i + 3) == '()' and source.is_name(i - 2):
                first, end = call_before(source, i + 1), i + 3
                end += 5 * (source.code(end, end + 5) == '.clone()?')
                source.tokens[first:end] = [Token(VALUE, source.code(first, end), source.tokens[first].space, source.tokens[first].line)]

    @staticmethod
    def is_one(source, first, end):
        """Whether the type that is there is one of an allocator."""
        while source.at(first) in ('&', 'mut') or source.tokens[first].kind == 'lifetime':
            first += 1
        return source.tokens[first].kind == TYPE and (end == first + 1 or source.at(first + 1) == '<')

    def mark_types(self, source, keyword):
        """Marks the type parameters of an item that are allocators."""
        types = type_parameters(source, keyword + 1 + (source.at(keyword) != 'impl'))
        if types:
            for i in range(keyword, source.after(source.body(keyword))):
                if is_named(source, i) and source.at(i) in types:
                    source.tokens[i].kind = TYPE

    def mark_values(self, source, keyword):
        """Marks the allocators of a function: its parameters, those of its closures, and what it binds."""
        opening, end = source.parameters(keyword), source.after(source.body(keyword))
        kinds = {source.at(name): VALUE for name, *kind in typed(source, opening) if self.is_one(source, *kind)}
        kinds |= {source.at(name): HANDLE for name, first, _ in typed(source, opening) if source.at(first) == 'HostRuntime'}
        made = set()
        for i in range(source.close(opening), end):
            if source.at(i) == 'let' and source.at(i + 2) == '=':
                kinds |= {source.at(i + 1): VALUE} if source.tokens[i + 3].kind == VALUE and source.at(i + 4) == ';' else {}
                made |= {source.at(i + 1)} if source.at(i + 3) in self.types else set()
            elif source.at(i) == '(' and source.at(i - 1) in self.closures:
                kinds |= {source.at(name): VALUE for name in self.of_closures(source, i)}
        for i in range(opening, end):
            if is_named(source, i) and source.at(i) in kinds and source.at(i + 1) not in ('(', '::', '!'):
                source.tokens[i].kind = kinds[source.at(i)]
            elif source.at(i) in made and source.at(i - 1) in ('&', '(', ',') and source.at(i + 1) in (')', ','):
                # It stays where it is made, and calls don't take it.
                source.tokens[i].kind = VALUE

    def of_closures(self, source, opening):
        """The parameters of closures in a call that are allocators."""
        for n, (first, end) in enumerate(source.parts(opening)):
            start, taken = first + (source.at(first) in ('&', 'move')), self.closures[source.at(opening - 1)].get(n, ())
            if taken and source.at(start) == '|':
                last = next(i for i in range(start + 1, source.close(opening)) if source.at(i) == '|')
                yield from (name for m, (name, _) in enumerate(source.parts(start, last)) if m in taken)


def code(source, first, end):
    """The tokens as text, with a sign for each that is marked."""
    return ''.join(' ' * bool(token.space) + SIGNS.get(token.kind, token.text) for token in source.tokens[first:end]).strip()


def drop(source):
    """Drops the allocators from lists, from those of closures too."""
    for i in range(len(source.tokens) - 3, 0, -1):
        if source.at(i) == '|' and source.tokens[i + 1].kind == VALUE and source.at(i + 2) in ('|', ','):
            is_last = source.at(i + 2) == '|'
            source.tokens[i].text += '|' * is_last
            source.tokens[i + 3].space = source.tokens[i + 3].space if is_last else ''
            del source.tokens[i + 1:i + 3]
    for i in range(len(source.tokens) - 1, -1, -1):
        sign = source.tokens[i].kind == 'sign' and source.at(i)
        close = source.close(i) if sign in OPEN else source.angle(i) if sign == '<' else None
        if close:
            drop_elements(source, i, close)


def drop_elements(source, opening, close):
    """Drops allocators from a list, and the brackets of a list of types of which nothing is left."""
    count, i = len(source.tokens), close
    while i > opening:
        start = next(j for j in range(i - 1, opening - 1, -1) if j == opening or source.at(j) == ',')
        if start + 1 < i and (ELEMENT.fullmatch(code(source, start + 1, i)) or is_writer(source, start + 1, i)):
            last = source.at(i) != ','
            source.tokens[i + 1 - last].space = source.tokens[start + 1].space if not last else source.tokens[i].space
            del source.tokens[start + (not last or source.at(start) != ','):i + (not last)]
        i = start
    close -= count - len(source.tokens)
    if source.at(opening) == '<' and close == opening + 1:
        del source.tokens[opening - (source.at(opening - 1) == '::'):close + 1]


def is_writer(source, first, end):
    """Whether an element is a type parameter for what a formatter writes to, which no formatter of Rust's has."""
    if source.code(first + 1, end) not in (': fmt::Write', ':fmt::Write'):
        return False
    after = source.after(source.body(first))
    return source.at(first) not in source.names(end, after)
