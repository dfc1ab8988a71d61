"""The programs: their files call the package `uefi-formats` by the paths that a user has, and the host by `crate::host`."""
import re

import as_bytes
import gate
import idle
import rust
from exports import OPEN, imported
from tokens import Rule, lex, rewrite

HOST, COLLECTIONS, STD = {'env', 'fs', 'io', 'rt'}, {'collections'}, {'process'}
# What Rattle has in scope everywhere.
HANDLES = {'Eprint', 'Input', 'Print'}
PROGRAMS = [Rule(before, after) for before, after in [
    # The handle of the host, whose allocator goes.
    ('fn main($handle: HostRuntime) -> ExitCode {', 'pub fn main() -> ExitCode { \n    let $handle = host::HostRuntime;'),
    ('+ AllocGlobal', ''), ('DirEntry<$handle>', 'DirEntry'), ('use std::{$a, $b};', 'use std::$a;\nuse std::$b;'),
    ('eprintln!($handle; $next', 'fallible_eprintln!($handle, $next'), ('eprint!($handle; $next', 'fallible_eprint!($handle, $next'),
    ('json!(in $alloc; $next', 'json!($next'),
    ('vec![in $alloc; $$item; $$count]', 'Vec::fallible_from_elem($$item, $$count)'), ('vec![in $alloc; $$items]', 'fallible_vec![$$items]'),
    ('unsafe { String::from_utf8_unchecked($$bytes) }', 'String::from_utf8($$bytes).expect("UTF-8")'),
    ('.sort()', '.fallible_sort()'), ('.join($alloc, $next', '.fallible_join($next'), ('.to_string($alloc)', '.fallible_to_string()'),
]]


class Library:
    """What of the libraries a program calls: by the table of public items, or a copy in the programs' package."""

    def __init__(self, public, copies):
        self.public, self.copies = public, {tuple(name.split('/')) for name in copies}
        self.open = {row.rpartition('::')[2] for row, members in public.rows.items() if OPEN in members}

    def path(self, crate, module, name):
        """The module in which a user has an item, or in which its copy is, or None."""
        if {(crate, *module[:n]) for n in range(len(module) + 1)} & self.copies:
            return '::'.join([crate, *module])
        paths = [path for path in self.public.paths(crate, module, name) if path in self.public.rows]
        return '::'.join(['uefi_formats', *paths[0].split('::')[:-1]]) if paths else None

    def link(self, found):
        """A link of docs to an item of the libraries, or to a library, by the path that a user has."""
        crate, *rest = found[0].split('::')
        if not rest:
            whole = (module for module, of, inside, names in self.public.places if of == crate and not inside and names == ['*'])
            return '::'.join(['uefi_formats', *next(whole)])
        for n, name in enumerate(rest):
            if module := self.path(crate, tuple(rest[:n]), name):
                return '::'.join([module, *rest[n:]])
        return '::'.join(['uefi_formats', next(self.public.paths(crate, tuple(rest[:-1]), rest[-1]))])

    def rewrite(self, source):
        """Imports from the libraries by the paths that a user has. What isn't public is refused, unless it is copied."""
        for start, keyword, end in reversed(list(source.items())):
            if source.at(keyword) != 'use':
                continue
            path, names = imported(source, keyword)
            if path[0] not in self.public.crates:
                continue
            modules = {}
            for name in names:
                module = self.path(path[0], path[1:], name)
                if not module:
                    source.refuse(keyword, f'not public: {"::".join(path)}::{name}')
                modules.setdefault(module, []).append(name)
            space = source.tokens[start].space
            new = lex('\n'.join(gate.import_of(f'use {module}::', found) for module, found in sorted(modules.items())))[:-1]
            new[0].space = space
            source.tokens[start:end] = new


def patterns(source, opening):
    """The patterns of the arms of a `match`: (first token, index after the last)."""
    i, close = opening + 1, source.close(opening)
    while i < close:
        start = i
        i = source.until(i, '=>')
        yield start, i
        i = source.after(i + 1)
        while i < close and source.at(i - 1) != '}' and source.at(i) != ',':
            i = source.after(i)
        i += source.at(i) == ','


def close_matches(source, library):
    """An arm for the variants that a type of the library gets in a later version, where its variants are matched and no arm
    takes all."""
    uses = (imported(source, keyword) for _, keyword, _ in source.items() if source.at(keyword) == 'use')
    names = {name for path, found in uses if path[0] == 'uefi_formats' for name in found} & library
    for i in range(len(source.tokens) - 1, -1, -1):
        if not source.is_name(i, 'match'):
            continue
        opening = source.until(i, '{')
        arms = list(patterns(source, opening))
        is_open = any(source.at(j) in names and source.at(j + 1) == '::' for first, end in arms for j in range(first, end))
        if is_open and all(end > first + 1 or source.at(first) in names for first, end in arms):
            close = source.close(opening)
            new = lex(', ' * (source.at(close - 1) not in (',', '}')) + '_ => unreachable!(),')[:-1]
            new[0].space = source.tokens[arms[-1][0]].space
            source.tokens[close:close] = new


def tests_of(files, crates):
    """The modules of a crate of tests that import from these crates, and those that have no others."""
    gone, before = set(), -1
    while before != len(gone):
        before = len(gone)
        for stem, source in files:
            path = '/'.join(idle.home(source))
            kinds = [(source.at(keyword), f'{path}/{source.item_name(keyword)}') for _, keyword, _ in source.items()]
            imports = any(it[0] in crates for *_, paths in idle.imports(source) for it in paths)
            has_others = not kinds or any(kind not in ('mod', 'use') or kind == 'mod' and it not in gone for kind, it in kinds)
            gone |= {path} if stem != 'lib' and (imports or not has_others) else set()
    return frozenset(gone)


def drop_makers(source, names):
    """Drops functions of tests that make a value of a type that may get more fields: only its package can."""
    for start, keyword, end in reversed(list(source.items())):
        made = (i for i in range(keyword, end) if source.at(i) in names and source.at(i + 1) == '{' and source.at(i - 1) != '->')
        if source.at(keyword) == 'fn' and any(made):
            source.cut(start, end)


def std(source, i, root):
    """What stands for `std` in a program."""
    parts = set(source.names(i + 2, source.after(i + 2)))
    for names, module in (HOST, 'crate::host'), (COLLECTIONS, 'crate::support'), (STD, 'std'):
        if parts <= names:
            return module
    return rust.std(source, i, 'crate::formats')


FORMS = rust.Forms(std, ['fallible_eprint', 'fallible_eprintln', 'fallible_vec', 'json', 'value_parser'], handle=True, inline=False)


def drop_uncalled(source):
    """Drops private functions that nothing calls, and imports of modules: what called them was ghost text."""
    for start, keyword, end in reversed(list(source.items())):
        name = source.at(end - 2) if source.at(start) == 'use' else source.item_name(keyword) if source.at(start) == 'fn' else ''
        if name.islower() and source.names().count(name) == 1:
            source.cut(start, end)


def to_program(source, library, crate, crates):
    """Writes a file without ghost text of the programs' package."""
    rewrite(source, PROGRAMS)
    as_bytes.to_as_ref(source)
    crate_names = '|'.join(library.public.crates)
    links = re.compile(rf'(?<=[`(\[])({crate_names})(::\w+)+|(?<=\[`)({crate_names})(?=`\])')
    for token in source.tokens:
        if '///' in token.space or '//!' in token.space:
            token.space = links.sub(library.link, token.space)
    library.rewrite(source)
    drop_uncalled(source)
    close_matches(source, library.open)
    modules = {name: f'crate::{name}' for name in (*crates, *(it[0] for it in library.copies), 'clap', 'host', 'serde_json')}
    rust.to_rust(source, modules, f'crate::{crate}', False, FORMS)


def text_of(source):
    """The text, with imports of what Rattle has in scope everywhere."""
    handles = sorted(HANDLES & set(source.names()))
    lines = [f'use crate::host::rt::{{{", ".join(handles)}}};' if len(handles) > 1 else f'use crate::host::rt::{it};' for it in handles[:1]]
    return rust.text_of(source, False, '', lines)
