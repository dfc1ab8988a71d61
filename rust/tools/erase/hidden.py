"""What isn't public and nothing calls: neither it is written, nor its imports and tests."""
import gate
from calls import Calls, implemented
from exports import NAMED, imported, visibility
from tokens import lex

ELSEWHERE = '// For the functions for C, or for tests: they compile these files too.\n'


def functions(source, keyword, end):
    """The names of the functions of a trait."""
    inner = source.items(source.until(keyword, '{') + 1, end - 1)
    return {source.item_name(i) for _, i, _ in inner if source.at(i) == 'fn'}


def is_inner(source, keyword):
    """Whether an item is `pub(crate)`."""
    i = keyword - (source.at(keyword - 1) in ('const', 'unsafe'))
    return source.code(i - 4, i) == 'pub(crate)'


def keep_for_others(source, start, keyword):
    """Says of an item that it is for the functions for C, or for tests."""
    if source.at(start) != '#' or 'dead_code' not in source.names(start, keyword):
        source.insert(start, '#[allow(dead_code)]')
        token = source.tokens[start]
        token.space += ELSEWHERE + token.space.rpartition('\n')[2]


def write_import(source, start, keyword, end, kinds):
    """Writes an import anew, as one for each kind: what is before `use`, and names."""
    opening = next((i for i in range(keyword, end) if source.at(i) == '{'), end - 2)
    path, space = source.code(keyword, opening), source.tokens[start].space
    text = '\n'.join(before + gate.import_of(path, names) for before, names in kinds if names)
    new = lex(text)[:-1]
    if new:
        new[0].space = space + new[0].space
        source.tokens[start:end] = new
    else:
        source.cut(start, end)


class Hidden:
    """The libraries, the package's `lib.rs`, the functions for C, and tests."""

    def __init__(self, exports, lib, for_c, tests):
        self.exports, self.files, self.lib = exports, exports.files, lib
        self.elsewhere = self.uses([('', (), source) for source in (*for_c, *tests)])
        self.of_c, self.of_tests = Calls(for_c), Calls(tests)
        # For each item that isn't written its name, and those of a trait's functions; and its crate.
        self.gone, self.gone_in = {}, set()

    def settle(self):
        """Drops what isn't public and nothing calls, with its imports."""
        self.split_imports()
        while self.drop_items() or self.drop_members() or self.drop_imports() or self.drop_modules():
            pass

    def split_imports(self):
        """Re-exports what isn't public in the package alone."""
        for crate, module, source in self.files:
            for start, keyword, end in reversed(list(source.items())):
                if source.at(keyword) == 'use' and source.at(keyword - 1) == 'pub':
                    _, names = imported(source, keyword)
                    public = [name for name in names if self.exports.is_public(crate, module, name)]
                    if len(public) < len(names):
                        write_import(source, start, keyword, end, [('pub ', public), ('pub(crate) ', [it for it in names if it not in public])])

    def mentions(self):
        """What the libraries call, but for an item in itself and a type in what implements it."""
        found = Calls([source for _, _, source in self.files])
        found.names.update(self.lib.names())
        found.methods.update(self.lib.names())
        return found

    def drop_items(self):
        """Drops items that nothing mentions. Those that only the functions for C call stay."""
        found, before = self.mentions(), len(self.gone)
        called = found.methods | {name for _, name in found.paths}
        for crate, _, source in self.files:
            for start, keyword, end in reversed(list(source.items())):
                name, kind = source.item_name(keyword), source.at(keyword)
                if kind not in NAMED or not is_inner(source, keyword) or found.names[name] or kind == 'trait' and called & functions(source, keyword, end):
                    continue
                if name not in self.of_c.names:
                    self.gone[name] = {name} | (functions(source, keyword, end) if kind == 'trait' else set())
                    self.gone_in.add((crate, name))
                    source.cut(start, end)
                else:
                    keep_for_others(source, start, keyword)
        for crate, _, source in self.files:
            for start, keyword, end in reversed(list(source.items())):
                if source.at(keyword) == 'impl' and (implemented(source, keyword) in self.gone or (crate, source.item_name(keyword)) in self.gone_in):
                    source.cut(start, end)
        return len(self.gone) > before

    def drop_members(self):
        """Drops functions and constants of types, and of traits of the package, that nothing calls."""
        found, dropped = self.mentions(), set()
        inner = {(crate, source.item_name(keyword)) for crate, _, source in self.files for _, keyword, _ in source.items()
                 if source.at(keyword) in ('enum', 'struct', 'trait') and is_inner(source, keyword)}
        traits = {name for _, name in inner}
        for crate, _, source in self.files:
            for _, keyword, end in reversed(list(source.items())):
                trait = source.item_name(keyword) if source.at(keyword) == 'trait' else implemented(source, keyword)
                if source.at(keyword) in ('impl', 'trait') and (not trait or trait in traits):
                    whole = (crate, source.item_name(keyword)) in inner
                    dropped |= self.drop_members_of(source, (keyword, end), (trait, whole), found)
        return bool(dropped)

    def drop_members_of(self, source, block, kind, found):
        """Drops what nothing calls of a block of a type or a trait, and returns the names. With `whole`, no member is public."""
        (keyword, end), (trait, whole), dropped = block, kind, set()
        around = trait or source.item_name(keyword)
        for start, i, after in reversed(list(source.items(source.until(keyword, '{') + 1, end - 1))):
            is_public = not whole and visibility(source, i) is not None and not is_inner(source, i)
            if source.at(i) not in ('const', 'fn') or is_public or found.calls(source, i, around, trait):
                continue
            if any(other.calls(source, i, around, trait) for other in (self.of_c, self.of_tests)):
                if not trait or source.at(keyword) == 'trait':
                    keep_for_others(source, start, i)
            else:
                dropped.add(source.item_name(i))
                source.cut(start, after)
        return dropped

    def uses(self, files):
        """What the files import: the paths from the crates on."""
        found = set()
        for crate, module, source in files:
            for i in range(len(source.tokens)):
                if source.is_name(i, 'use'):
                    path, names = imported(source, i)
                    roots = {'crate': (crate,), 'self': (crate, *module), 'super': (crate, *module[:-1])}
                    path = path[2:] if path[:2] == ('crate', 'formats') else roots.get(path[0], path[:1]) + path[1:]
                    found.update((*path, name.partition(' as ')[0]) for name in names)
        return found

    def drop_imports(self):
        """Drops imports of what was dropped, and re-exports in the package that nothing imports."""
        uses, dropped = self.uses([*self.files, ('', (), self.lib)]), False
        for crate, module, source in self.files:
            for start, keyword, end in reversed(list(source.items())):
                if source.at(keyword) != 'use' or 'unused_imports' in source.names(start, keyword):
                    continue
                names, inner = imported(source, keyword)[1], is_inner(source, keyword)
                kept = [it for it in names if it not in self.gone and (not inner or (crate, *module, it) in uses)]
                other = [it for it in names if inner and it not in (*kept, *self.gone) and (crate, *module, it) in self.elsewhere]
                if len(kept) < len(names):
                    before = source.code(start, keyword) + ' ' * (start < keyword)
                    write_import(source, start, keyword, end, [(before, kept), (f'{ELSEWHERE}#[allow(unused_imports)]\n{before}', other)])
                    dropped = True
        return dropped

    def drop_modules(self):
        """Drops files without an item."""
        empty = [(crate, module) for crate, module, source in self.files
                 if module and all(source.at(keyword) == 'use' and keyword == start for start, keyword, _ in source.items())]
        self.files[:] = [file for file in self.files if file[:2] not in empty]
        for crate, module, source in self.files:
            for start, keyword, end in reversed(list(source.items())):
                if source.at(keyword) == 'mod' and (crate, (*module, source.item_name(keyword))) in empty:
                    source.cut(start, end)
        return bool(empty)


class GoneTests:
    """What tests don't call, since it isn't written."""

    def __init__(self, gone, files):
        self.gone, self.crates = gone, {crate for crate, _, _ in files}

    def drop(self, source):
        """Drops imports of what isn't written, and what calls it."""
        gone = set()
        for start, keyword, end in reversed(list(source.items())):
            path, names = imported(source, keyword) if source.at(keyword) == 'use' else ((), [])
            kept = [name for name in names if name not in self.gone]
            if path and path[0] in self.crates and len(kept) < len(names):
                gone.update(*(self.gone[name] for name in names if name in self.gone))
                write_import(source, start, keyword, end, [('', kept)])
        while self.drop_items(source, gone):
            pass

    def drop_items(self, source, gone):
        """Drops items that call what is gone, which then are gone too."""
        before = len(gone)
        for start, keyword, end in reversed(list(source.items())):
            if source.at(keyword) not in ('mod', 'use') and gone & set(source.names(keyword, end)):
                gone |= {source.item_name(keyword)} if source.at(keyword) == 'fn' else set()
                source.cut(start, end)
        return len(gone) > before
