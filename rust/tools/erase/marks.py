"""What the source leaves out of `rust/`: an item, or a row, after a comment that begins as MARK and says why; a library's own
tests; and what is by hand there."""
import os
import re

import idle
from tokens import Refused

MARK = 'Left out of rust/: '


def drop_items(source):
    """Drops the items of a file that have a mark. A mark before anything else is refused."""
    def marked():
        return [i for i, token in enumerate(source.tokens) if f'// {MARK}' in token.space]
    for start, _, end in reversed(list(source.items()) if marked() else []):
        if start in marked():
            source.cut(start, end)
    for i in marked():
        source.refuse(i, 'a mark that no item has')


def without_rows(path, text):
    """A file of rows without those that have a mark. A mark before anything else is refused."""
    kept = re.sub(rf'(?m)^# {MARK}.*\n[^#\n].*\n', '', text)
    if MARK in kept:
        raise Refused(f'{path}: a mark that no row has')
    return kept


def own_tests(source):
    """The modules that a file has for tests alone."""
    crate = '/'.join(idle.home(source))
    return {f'{crate}/{source.item_name(keyword)}' for start, keyword, _ in source.items()
            if source.at(keyword) == 'mod' and source.code(start, keyword).startswith('#[cfg(test)]')}


def is_by_hand(path, mark):
    """Whether a file exists that doesn't begin with the mark of those that are written."""
    if not os.path.exists(path):
        return False
    with open(path, encoding='utf-8') as file:
        return not file.read().startswith(mark)
