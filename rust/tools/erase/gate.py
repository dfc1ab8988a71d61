"""The feature `alloc`: what speaks of owned memory stands behind it."""
import textwrap

from tokens import lex

GATE = '#[cfg(feature = "alloc")]'


def owners(sources):
    """The names of types and functions that speak of `Vec` or `String`, or of one that does."""
    names, before = {'Vec', 'String'}, 0
    while len(names) != before:
        before = len(names)
        names |= {source.item_name(keyword) for source in sources for _, keyword, end in source.items()
                  if source.at(keyword) in ('struct', 'enum', 'type', 'trait', 'fn')
                  and speaks_of(source, keyword, end, names)}
        names |= set().union(*(gated_iterators(source, names) for source in sources))
    return names


def speaks_of(source, first, end, names):
    """Whether a type of these names is there, or a call of a function."""
    return any(source.at(i) in names and source.at(i - 1) != '.'
               and (source.at(i)[0].isupper() or source.at(i + 1) == '(') for i in range(first, end))


def implementor(source, keyword, trait):
    """The name of the type that an `impl` block implements the trait for, if it is one of this trait."""
    names = source.names(keyword, source.until(keyword, '{'))
    return names[names.index('for') + 1] if trait in names[:names.index('for') if 'for' in names else 0] else None


def gated_iterators(source, names):
    """The types that are iterators with owned memory alone."""
    blocks = [(keyword, end) for _, keyword, end in source.items() if source.at(keyword) == 'impl']
    return {implementor(source, keyword, 'Iterator') for keyword, end in blocks
            if speaks_of(source, keyword, end, names)} - {None}


def gate(source, names):
    """Puts the feature before what speaks of owned memory."""
    iterators = gated_iterators(source, names)
    for start, keyword, end in reversed(list(source.items())):
        kind = source.at(keyword)
        if kind == 'use':
            gate_import(source, start, keyword, end, names)
        elif kind == 'impl':
            body = source.until(keyword, '{')
            whole = 'for' in source.names(keyword, body) and speaks_of(source, body, end, names)
            fused = implementor(source, keyword, 'FusedIterator') in iterators
            if whole or fused or speaks_of(source, keyword, body, names):
                source.insert(start, GATE)
                continue
            for first, inner, last in reversed(list(source.items(body + 1, end - 1))):
                if speaks_of(source, inner, last, names):
                    source.insert(first, GATE)
        elif kind != 'mod' and speaks_of(source, keyword, end, names):
            source.insert(start, GATE)


def gate_import(source, start, keyword, end, names):
    """An import of owning names is behind the feature; one of both kinds becomes two."""
    opening = next((i for i in range(keyword, end) if source.at(i) == '{'), end - 2)
    every = source.code(opening, end - 1).strip('{}, ').split(', ')
    gone = [name for name in every if name in names]
    kept = [name for name in every if name not in names]
    if gone and '{' in ''.join(every):
        source.refuse(keyword, 'an import of imports')
    if gone and kept:
        path, space = source.code(start, opening), source.tokens[start].space
        source.tokens[start:end] = lex(import_of(path, kept))[:-1]
        source.tokens[start].space = space
        source.insert(start, import_of(path, gone))
    if gone:
        source.insert(start, GATE)


def import_of(path, names):
    text = f'{path}{{{", ".join(names)}}};' if len(names) > 1 else f'{path}{names[0]};'
    lines = textwrap.wrap(', '.join(names) + ',', 96, initial_indent='    ', subsequent_indent='    ')
    return text if len(text) < 100 else '\n'.join([f'{path}{{', *lines, '};'])
