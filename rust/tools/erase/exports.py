"""Which items are public: those of the table `exports`, by the paths that a user of the package has. A row is the path of
an item, and the names of its members: fields, variants, and what its own `impl` blocks and its trait have. The others are
`pub(crate)`. A function is `const` after CONST. A private field that what is by hand reads is `pub(crate)` after CRATE.
OPEN is for what may get more fields or variants, SEALED for a trait that no other package implements."""
from tokens import lex

CONST, CRATE, OPEN, SEALED = 'const:', 'crate:', '[non_exhaustive]', '[sealed]'
NAMED = ('const', 'enum', 'fn', 'static', 'struct', 'trait', 'type')


def read(path):
    """The rows: for each path the names of its members."""
    with open(path, encoding='utf-8') as file:
        rows = (line.rstrip('\n').partition(':  ') for line in file)
        return {item.removesuffix(':'): set(members.split()) for item, _, members in rows}


def module_of(stem):
    """The path of the module of a file in its crate."""
    return () if stem in ('lib', 'main') else tuple(stem.split('/'))


def imported(source, keyword):
    """The path of an import, and the names after it."""
    end = source.until(keyword, ';')
    opening = next((i for i in range(keyword, end) if source.at(i) == '{'), end - 1)
    return tuple(source.names(keyword + 1, opening)), source.code(opening, end).strip('{}, ').split(', ')


def places(source, first=0, end=None, module=()):
    """What the package's `lib.rs` re-exports: (module, crate, module of the crate, names)."""
    for _, keyword, after in source.items(first, end):
        if source.at(keyword) == 'mod' and source.at(source.body(keyword)) == '{':
            yield from places(source, source.body(keyword) + 1, after - 1, (*module, source.item_name(keyword)))
        elif source.at(keyword) == 'use' and source.at(keyword - 1) == 'pub':
            path, names = imported(source, keyword)
            if path[:2] == ('crate', 'formats'):
                yield module, path[2], path[3:], names


def visibility(source, keyword):
    """The index of the `pub` of an item that is public, or None."""
    i = keyword - 1
    while source.at(i) in ('const', 'unsafe'):
        i -= 1
    return i if source.at(i) == 'pub' else None


def restrict(source, at):
    """Makes what follows a `pub` visible in the package alone."""
    new = lex('pub(crate)')[:-1]
    new[0].space = source.tokens[at].space
    source.tokens[at:at + 1] = new


def attribute(source, i, text):
    """The tokens of a text that goes before an index, which the token there is moved after."""
    new = lex(text)[:-1]
    new[0].space = source.tokens[i].space
    source.tokens[i].space = '\n' if text.startswith('#') else ' '
    return new


def restrict_fields(source, keyword, end, members):
    """Makes fields `pub(crate)` that aren't among these members."""
    for i in range(end - 1, keyword, -1):
        name = source.at(i + 1) if source.at(i + 2) == ':' else '0'
        if source.at(i) == 'pub' and source.at(i + 1) not in ('(', 'ghost') and name not in members:
            restrict(source, i)


def open_fields(source, keyword, members):
    """Makes private fields `pub(crate)` that these members name so."""
    for i in range(source.after(source.until(keyword, ';', '{')) - 1, keyword, -1):
        if source.at(i + 1) == ':' and source.at(i - 1) in ('{', ',') and f'{CRATE}{source.at(i)}' in members:
            source.tokens[i:i] = attribute(source, i, 'pub(crate)')


class Exports:
    """The rows, and the files of the libraries: (crate, path of its module, source)."""

    def __init__(self, rows, lib, files):
        self.rows, self.lib, self.places, self.files = rows, lib, list(places(lib)), files
        self.crates = {crate for crate, _, _ in files}
        self.open, self.types, self.hidden, self.associated = set(), {}, set(), set()
        for crate, module, source in files:
            for _, keyword, _ in source.items():
                name, kind = source.item_name(keyword), source.at(keyword)
                if kind == 'mod' and source.at(keyword - 1) == 'pub':
                    self.open.add((crate, (*module, name)))
                elif kind in ('enum', 'struct', 'trait'):
                    self.types.setdefault((crate, name), []).append(module)
            # A type that is another one's associated type is public, also without a path.
            self.associated |= {source.at(i + 3) for i in range(len(source.tokens)) if source.is_name(i, 'type') and source.at(i + 2) == '='}

    def unseen(self):
        """The names that no public item has."""
        return self.hidden - {row.rpartition('::')[2] for row in self.rows} - {name.removeprefix(CONST) for name in set().union(*self.rows.values())}

    def paths(self, crate, module, name):
        """The paths by which a user would have an item of a module."""
        while module and (crate, module) not in self.open:
            module = module[:-1]
        path = (*module, name)
        for place, of, inside, names in self.places:
            rest = path[len(inside):]
            if of == crate and path[:len(inside)] == inside and rest and (names == ['*'] or rest[0] in names):
                yield '::'.join([*place, *rest])

    def members(self, crate, module, name):
        """The members of an item that is public, or None."""
        rows = [self.rows[path] for path in self.paths(crate, module, name) if path in self.rows]
        return {name.removeprefix(CONST) for name in set().union(*rows)} | set().union(*rows) if rows else None

    def is_public(self, crate, module, name):
        """Whether an item is public, or a module has one that is."""
        paths = list(self.paths(crate, module, name))
        return any(row == path or row.startswith(f'{path}::') for path in paths for row in self.rows)

    def module_with(self, crate, module, name):
        """The module of the type of this name that is meant in a module: the nearest."""
        def shared(other):
            return next((n for n, (a, b) in enumerate(zip(module, other)) if a != b), min(len(module), len(other)))
        return max(self.types.get((crate, name), [module]), key=shared)

    def restrict(self):
        """Makes what has no row `pub(crate)`."""
        for crate, module, source in self.files:
            for start, keyword, end in reversed(list(source.items())):
                kind, name, at = source.at(keyword), source.item_name(keyword), visibility(source, keyword)
                if kind == 'impl' and 'for' not in source.names(keyword, source.until(keyword, '{')):
                    self.restrict_members(source, keyword, end, self.members(crate, self.module_with(crate, module, name), name))
                elif at is None or kind not in (*NAMED, 'mod'):
                    continue
                elif not self.is_public(crate, module, name):
                    if name in self.associated:
                        continue
                    restrict(source, at)
                    self.hidden.update([name] if kind != 'mod' else [])
                elif kind == 'trait':
                    self.drop_bounds(crate, source, keyword)
                elif kind in ('enum', 'struct'):
                    members = self.members(crate, module, name)
                    restrict_fields(source, keyword, end if kind == 'struct' else keyword, members)
                    open_fields(source, keyword, members)
                    source.tokens[start:start] = attribute(source, start, '#[non_exhaustive]') if OPEN in members else []
        for crate, module, source in self.files:
            self.seal(crate, module, source)

    def restrict_members(self, source, keyword, end, members):
        """Makes members of a public type `pub(crate)` that aren't among these."""
        opening = source.until(keyword, '{')
        for _, inner, _ in reversed(list(source.items(opening + 1, end - 1)) if members is not None else []):
            at = visibility(source, inner)
            name = source.item_name(inner)
            if at is not None and name not in members:
                restrict(source, at)
            elif at is not None and f'{CONST}{name}' in members:
                source.tokens[inner:inner] = attribute(source, inner, 'const')

    def seal(self, crate, module, source):
        """Seals traits, and what implements them."""
        for start, keyword, end in reversed(list(source.items())):
            body, name = source.until(keyword, ';', '{'), source.item_name(keyword)
            header = source.code(start, body)
            trait = name if source.at(keyword) == 'trait' else header.partition(' for ')[0].rpartition(' ')[2] if source.at(keyword) == 'impl' else None
            if trait and SEALED in (self.members(crate, self.module_with(crate, module, trait), trait) or ()):
                if source.at(keyword) == 'trait':
                    source.tokens[body:body] = lex(': sealed::Sealed')[:-1]
                else:
                    new = lex(header.replace(f'{trait} for', 'sealed::Sealed for') + ' {}')[:-1]
                    new[0].space = '\n\n'
                    source.tokens[end:end] = new

    def drop_bounds(self, crate, source, keyword):
        """Drops bounds of a public trait that aren't public themselves."""
        imports = {name: path for _, other, _ in source.items() if source.at(other) == 'use'
                   for path, names in [imported(source, other)] for name in names}
        for i in range(source.until(keyword, '{'), keyword, -1):
            path = imports.get(source.at(i), ())
            if source.at(i + 1) == '+' and path[:1] and path[0] in self.crates and not self.is_public(path[0], path[1:], source.at(i)):
                source.tokens[i + 2].space = source.tokens[i].space
                del source.tokens[i:i + 2]
