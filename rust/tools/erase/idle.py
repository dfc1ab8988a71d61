"""Functions that do nothing when they run, such as laws. They aren't written, nor are calls of them and modules of them alone."""
import os
import re

from exports import imported, module_of
from hidden import write_import

# What a function that does nothing may read: a value, or its length.
READ = re.compile(r'[&*]*\w+(\.\w+)*(\.len\(\))?')


def home(source):
    """The path of a file's module from the crates on."""
    before, _, stem = source.path.removesuffix('.rt').partition('/src/')
    return (os.path.basename(before), *module_of(stem)) if stem else (before,)


def imports(source):
    """What a file imports: (first token, keyword, index after it, names, and the path of each from the crates on)."""
    here = home(source)
    for start, keyword, end in source.items():
        if source.at(keyword) == 'use':
            path, names = imported(source, keyword)
            roots = {'crate': here[:1], 'self': here, 'super': here[:-1]}
            path = (*roots.get(path[0], path[:1]), *path[1:])
            yield start, keyword, end, names, [(*path, name.partition(' as ')[0]) for name in names]


def statements(source, body):
    """The statements of a body: (first token, index of the semicolon, or of the bracket that closes the body)."""
    i, close = body + 1, source.close(body)
    while i < close:
        end = i
        while end < close and source.at(end) != ';':
            end = source.after(end)
        yield i, end
        i = end + 1


def may_be_idle(source, keyword):
    """Whether a function returns nothing and has nothing that it can change."""
    opening = source.parameters(keyword)
    names, close = source.names(opening, source.close(opening)), source.close(opening)
    return source.at(close + 1) != '->' and not {'mut', 'self', 'HostRuntime'} & set(names)


class Idle:
    """The paths of the functions that do nothing, and of the modules that have no others."""

    def __init__(self, sources):
        found = [(source, home(source), [keyword for _, keyword, _ in source.items() if source.at(keyword) == 'fn']) for source in sources]
        self.functions, self.modules, before = set(), set(), -1
        while before != len(self.functions):
            before = len(self.functions)
            for source, here, keywords in found:
                known = self.names(source) if keywords else {}
                self.functions |= {(*here, source.at(i + 1)) for i in keywords if may_be_idle(source, i) and self.is_idle(source, i, known)}
        for source, here, keywords in found:
            others = any(source.at(keyword) not in ('use', 'ghost', 'fn') for _, keyword, _ in source.items())
            if keywords and not others and {(*here, source.at(i + 1)) for i in keywords} <= self.functions:
                self.modules.add(here)

    def names(self, source):
        """The names that a file has for functions that do nothing."""
        own = {function[-1] for function in self.functions if function[:-1] == home(source)}
        return own | {name.rpartition(' as ')[2] for *_, names, paths in imports(source) for name, path in zip(names, paths) if path in self.functions}

    def is_idle(self, source, keyword, known):
        """Whether the body of a function reads at most, and calls functions that do nothing."""
        body = source.body(keyword)
        return source.at(body) == '{' and all(self.does_nothing(source, i, end, known) for i, end in statements(source, body))

    @staticmethod
    def does_nothing(source, first, end, known):
        """Whether a statement binds what is read to a name that isn't used, or calls a function that does nothing."""
        if source.at(first) == 'let':
            return source.at(first + 1).startswith('_') and source.at(first + 2) == '=' and bool(READ.fullmatch(source.code(first + 3, end)))
        return source.at(first) in known and source.at(end) == ';' and source.after(first + 1) == end

    def erase(self, source):
        """Drops from a file the functions that do nothing, calls and imports of them, and the modules of them."""
        here, known = home(source), self.names(source)
        for i in range(len(source.tokens) - 1, -1, -1):
            if source.is_name(i) and source.at(i) in known and source.at(i + 1) == '(' and source.at(i - 1) in ('{', '}', ';'):
                if source.at(source.after(i + 1)) == ';':
                    source.cut(i, source.after(i + 1) + 1)
        for start, keyword, end, names, paths in reversed(list(imports(source))):
            kept = [name for name, path in zip(names, paths) if path not in self.functions | self.modules]
            if len(kept) < len(names):
                write_import(source, start, keyword, end, [(source.code(start, keyword) + ' ' * (start < keyword), kept)])
        for start, keyword, end in reversed(list(source.items())):
            path = (*here, source.item_name(keyword))
            if source.at(keyword) == 'fn' and path in self.functions or source.at(keyword) == 'mod' and path in self.modules:
                source.cut(start, end)
