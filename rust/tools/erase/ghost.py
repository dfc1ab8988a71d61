"""Deletes ghost text: what only the prover reads."""
from allocators import Allocators
from idle import Idle
from rules import GHOST
from tokens import CLAUSES, CLOSE, rewrite


class Known:
    """What the whole source says: which functions do nothing, and what is an allocator."""

    def __init__(self, sources):
        self.idle, self.allocators = Idle(sources), Allocators(sources)


def erase(source, known):
    """Deletes the ghost text of a file, and marks its allocators."""
    for names, delete in ((('ghost',), member), (CLAUSES, clause)):
        for i in range(len(source.tokens) - 1, -1, -1):
            if source.is_name(i, *names):
                delete(source, i)
    rewrite(source, GHOST)
    known.idle.erase(source)
    known.allocators.mark(source)
    for i, token in enumerate(source.tokens):
        if token.kind in ('name', 'sign') and not token.text.isascii():
            source.refuse(i, f'ghost text is left: {token.text}')


def member(source, i):
    """`ghost use ..;`, `ghost NAME = ..;`, and fields `ghost NAME: ..,`, with `pub` before them."""
    start = i
    if source.at(i - 1) == ')':
        while source.at(start) != '(':
            start -= 1
    start -= source.at(start - 1) == 'pub'
    end = i
    while source.at(end) not in (';', ',', '', *CLOSE):
        end = source.after(end)
    source.cut(start, end + (source.at(end) in (';', ',')))


def clause(source, i):
    """`requires NAME { .. }`, `ensures NAME { .. }`, `ensures* NAME { .. }`, of functions and bounds."""
    opening = i + 1
    while source.at(opening) != '{':
        if source.at(opening) != '*' and not source.is_name(opening):
            source.refuse(i, 'a clause without braces')
        opening += 1
    end = source.after(opening)
    if source.at(end) == '{':
        # The body is in the line of its function's head, or below its bounds.
        source.tokens[end].space = bounds(source, i) if source.at(i - 1) == ',' else ' '
    elif source.at(end) == ';':
        source.tokens[end].space = ''
    del source.tokens[i:end]


def bounds(source, i):
    """The blanks before the last `where` that is before an index."""
    while not source.is_name(i, 'where'):
        i -= 1
    return source.tokens[i].space
