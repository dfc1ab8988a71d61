"""Conditions: a public function that requires something asserts it, by a row of the table `conditions`."""
from exports import visibility
from tokens import lex


def read(path):
    """The rows: for each function and its condition what is asserted, and when the function panics."""
    with open(path, encoding='utf-8') as file:
        lines = [line.rstrip('\n').split(' | ') for line in file]
    return {(function, condition): (asserted, when) for function, condition, asserted, when in lines}


def functions(source, crate):
    """The public functions of a file: (name, first token, index of `fn`)."""
    for start, keyword, end in source.items():
        kind, public = source.at(keyword), visibility(source, keyword) is not None
        if kind == 'fn' and public:
            yield f'{crate}::{source.item_name(keyword)}', start, keyword
        elif kind == 'trait' and public or kind == 'impl':
            owner = source.item_name(keyword)
            for first, inner, _ in source.items(source.body(keyword) + 1, end - 1):
                if source.at(inner) == 'fn' and (kind == 'trait' or visibility(source, inner) is not None):
                    yield f'{crate}::{owner}::{source.item_name(inner)}', first, inner


def assert_all(source, crate, rows, used):
    """Asserts the conditions of a file's public functions, and says in their docs when they panic."""
    for name, first, keyword in reversed(list(functions(source, crate))):
        body, found = source.body(keyword), []
        for i in range(keyword, body):
            if source.is_name(i, 'requires'):
                opening = source.until(i, '{')
                found.append((name, source.code(opening + 1, source.close(opening))))
                if found[-1] not in rows:
                    source.refuse(i, f'no row for the condition of {": ".join(found[-1])}')
        used.update(found)
        if found and source.at(body) == '{':
            indent = '\n' + source.tokens[first].space.rpartition('\n')[2]
            for row in reversed(found):
                asserted = lex(f'assert!({rows[row][0]});')[:-1]
                asserted[0].space = f'{indent}    '
                source.tokens[body + 1:body + 1] = asserted
            when = ''.join(f'{indent}/// If {rows[row][1]}.' for row in found)
            docs = source.tokens[first].space.rstrip(' ').rstrip('\n')
            source.tokens[first].space = f'{docs}{indent}///{indent}/// # Panics{indent}///{when}{indent}'
