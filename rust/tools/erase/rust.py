"""Writes what is left in Rust: without allocators, over `core`, in the modules of this package."""
import re

import allocators
from rules import ATTRIBUTES, CORE, EMPTY, MACROS, MAIN, NO_RULE, RUST, STD, SUPPORT, TESTS
from tokens import HANDLE, OPEN, TYPE, VALUE, Rule, lex, rewrite


class Forms:
    """What a file may have beside what `rules.py` allows: macros, and the handle of the host; what stands for `std`; and
    whether its functions have callers in other crates."""
    def __init__(self, std, macros=(), handle=False, inline=True):
        self.std, self.macros, self.handle, self.inline = std, set(macros), handle, inline


def to_rust(source, modules, root, tests, more=None):
    """Writes a file without ghost text in Rust. `root` is the module of its crate, `modules` those of others."""
    more = more or Forms(std)
    fallible_writes(source)
    rewrite(source, TESTS + RUST if tests else RUST)
    for start, keyword, end in reversed(list(source.items())):
        # What the macro has.
        if source.code(keyword, keyword + 3) == 'impl Flags for':
            source.cut(start, end)
    allocators.drop(source)
    rewrite(source, EMPTY)
    for i, token in enumerate(source.tokens):
        if token.kind == 'name' and source.at(i + 1) == '::' and source.at(i - 1) not in ('::', '.'):
            token.text = root if token.text == 'crate' else modules.get(token.text, token.text)
            if token.text == 'std':
                token.text = more.std(source, i, root)
    labels(source)
    attributes(source, more.inline and not tests)
    specified(source)
    check(source, more)


def main_to_test(source, files):
    """Makes a test of the `main` of a program that answers the rows of files."""
    texts = ''.join(f'\n        ("{name}", include_str!("{name}")),' for name in files)
    handle = next(token.text for token in source.tokens if token.kind == HANDLE)
    rewrite(source, [*MAIN, Rule(f'(&{handle},', f'(&[{texts}\n    ],')])


def fallible_writes(source):
    """What is written returns the error of its memory, but to a formatter."""
    formatters = {}
    for keyword in (i for i in range(len(source.tokens) - 2) if source.is_name(i, 'fn') and source.is_name(i + 1)):
        names = {source.at(name) for name, first, end in allocators.typed(source, source.parameters(keyword)) if 'Formatter' in source.names(first, end)}
        formatters |= {i: names for i in range(keyword, source.after(source.body(keyword)))}
    for i, token in enumerate(source.tokens):
        if source.is_name(i, 'write', 'writeln') and source.at(i + 1) == '!' and source.at(i + 3) not in formatters.get(i, ()):
            token.text, source.tokens[i + 3].space = f'fallible_{token.text}', ''


def labels(source):
    """Drops the names of loops, which proofs call them by, where no `break` or `continue` does."""
    called = {source.at(i + 1) for i in range(len(source.tokens)) if source.is_name(i, 'break', 'continue')}
    for i in range(len(source.tokens) - 1, -1, -1):
        named = source.tokens[i].kind == 'lifetime' and source.at(i + 1) == ':' and source.at(i + 2) in ('for', 'loop', 'while')
        if named and source.at(i) not in called:
            source.tokens[i + 2].space = source.tokens[i].space
            del source.tokens[i:i + 2]


def std(source, i, root):
    """What stands for `std`."""
    parts = source.names(i + 2, source.after(i + 2))
    if set(parts) <= CORE:
        return 'core'
    if len(parts) == 1 and parts[0] in SUPPORT:
        return 'crate::support'
    if not set(parts) <= STD or root.startswith('crate::formats'):
        source.refuse(i, f'no rule: std::{"/".join(parts)}')
    return 'std'


def head(source, keyword):
    """The index of the first attribute of an item."""
    i = keyword - (source.at(keyword - 1) == 'const')
    if source.at(i - 1) == ')':
        while source.at(i - 1) != 'pub':
            i -= 1
    i -= source.at(i - 1) == 'pub'
    while source.at(i - 1) == ']':
        i -= 1
        while source.at(i) != '#':
            i -= 1
    return i


def attributes(source, inline):
    """`Debug` for each type without an `impl` of it; `#[inline]` for each function of the library but those
    that display, since a caller in another crate sees only such bodies."""
    by_hand = re.findall(r'impl (?:fmt::)?Debug for (\w+)', source.text())
    for i in range(len(source.tokens) - 2, -1, -1):
        if not source.is_name(i, 'struct', 'enum', 'fn') or not source.is_name(i + 1):
            continue
        start = head(source, i)
        given = source.names(start, i)
        if source.at(i) == 'fn':
            has_body = source.at(source.until(i, ';', '{')) == '{'
            if has_body and inline and 'inline' not in given and source.at(i + 1) != 'fmt':
                source.insert(start, '#[inline]')
        elif source.at(i + 1) in by_hand:
            continue
        elif 'derive' not in given:
            source.insert(start, '#[derive(Debug)]')
        elif 'Debug' not in given:
            derive = next(j for j in range(start, i) if source.at(j) == 'derive')
            close = source.close(derive + 1)
            source.tokens[close:close] = lex(', Debug')[:-1]


def must_use(source):
    """`#[must_use]` for public functions whose value is all that they do."""
    for start, keyword, end in reversed(list(source.items())):
        kind, is_public = source.at(keyword), source.at(keyword - 1) == 'pub'
        inner = source.items(source.until(keyword, '{') + 1, end - 1) if kind in ('impl', 'trait') else ()
        own = 'for' not in source.names(keyword, source.until(keyword, '{')) if kind == 'impl' else is_public
        for first, i, _ in reversed([(start, keyword, end), *inner]):
            visible = source.at(i - 1 - (source.at(i - 1) == 'const')) == 'pub' or kind == 'trait' and is_public
            if own and visible and source.at(i) == 'fn' and is_value(source, i):
                source.insert(first, '#[must_use]')


def is_value(source, keyword):
    """Whether a function returns a value other than a `Result`, and takes nothing that it writes to."""
    opening = source.until(keyword, '(')
    close = source.close(opening)
    taken = re.search(r"&('\w+ )?mut ", source.code(opening, close))
    returned = source.code(close + 2, source.until(close + 1, ';', '{', 'where')) if source.at(close + 1) == '->' else 'fmt'
    # What is a `Result`, or refers to some, has to be used already.
    return not taken and not re.match(r"(&('\w+ )?)?\[?(Result|fmt)\b", returned)


def specified(source):
    """Variants whose names are those of a standard."""
    for start, keyword, end in reversed(list(source.items())):
        if source.at(keyword) == 'enum' and any('_' in name and name.isupper() for name in source.names(keyword, end)):
            source.insert(start, '#[allow(non_camel_case_types)]')
            source.tokens[start].space += '// The names are those of the standard.\n'


def check(source, more):
    """Stops at what has no rule."""
    for i, token in enumerate(source.tokens):
        following = source.at(i + 1)
        if token.kind == 'sign' and token.text == '#' and following in ('[', '!'):
            if source.at(i + 2 + (following == '!')) not in ATTRIBUTES:
                source.refuse(i, 'an attribute without a rule')
        # `if !(..)` is none.
        macro = following == '!' and not source.tokens[i + 1].space and source.at(i + 2) in OPEN and token.text not in MACROS | more.macros
        left = token.kind in (VALUE, TYPE) or token.kind == HANDLE and not more.handle
        if left or token.kind == 'name' and (macro or token.text in NO_RULE and '::' not in (source.at(i - 1), following)):
            source.refuse(i, f'no rule: {token.text}')


def calls_fallible(source, i, in_library):
    """Whether a name is that of a call of the support's traits, and no macro."""
    name, following = source.at(i), source.at(i + 1)
    return name.startswith('fallible_') and following != '!' or name == 'text' and source.code(i - 4, i) == 'to_string().' and not in_library


def text_of(source, in_library, gate, imports=()):
    """The text, with imports of what Rattle has in scope everywhere, and of traits whose methods calls became. `imports` are
    those of a program."""
    names, owned = set(source.names()), (('string', 'String'), ('vec', 'Vec')) if in_library else ()
    lines = [*imports] + [f'{gate}\nuse alloc::{module}::{name};' for module, name in owned if name in names]
    if any(calls_fallible(source, i, in_library) for i in range(len(source.tokens))):
        lines.append(f'{gate}\nuse crate::support::fallible::*;' if in_library else 'use crate::support::fallible::*;')
    if 'write_char' in names:
        lines.append('use core::fmt::Write as _;')
    if 'to_signed' in names:
        lines.append('use crate::support::signed::ToSigned;')
    text = source.text()
    docs = re.match(r'(//![^\n]*\n)*', text)[0]
    parts = [docs.strip(), '\n'.join(lines), text[len(docs):].strip()]
    return '\n\n'.join(part for part in parts if part) + '\n'
