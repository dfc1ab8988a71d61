"""Tokens of Rattle, and moves over them. A token holds the blanks and comments before it."""
import re

TOKEN = re.compile(r'''
  (?P<space>(?:\s+|//[^\n]*|/\*(?:[^*]|\*(?!/))*\*/)+)
| (?P<text>b?"(?:\\.|[^"\\])*"|b?r(?P<hashes>\#*)"(?:.|\n)*?"(?P=hashes)|b?'(?:\\(?:u\{[^}]*\}|x..|.)|[^'\\\n])')
| (?P<lifetime>'[A-Za-z_]\w*)
| (?P<number>\d\w*(?:\.\d\w*)?)
| (?P<name>\$*[^\W\d]\w*)
| (?P<sign>::|->|=>|\.\.=|\.\.|==|!=|<=|>=|&&|\|\||.)
''', re.X | re.S)
OPEN, CLOSE, CLAUSES = {'(', '[', '{'}, {')', ']', '}'}, {'requires', 'ensures'}
# The kinds of names that are marked: allocators, their types, and handles of the host.
VALUE, TYPE, HANDLE = 'allocator', 'type of allocators', 'handle'


class Refused(Exception):
    """A form that no rule covers."""


class Token:
    """A token: its kind, its text, the blanks and comments before it, and its line."""
    def __init__(self, kind, text, space='', line=0):
        self.kind, self.text, self.space, self.line = kind, text, space, line


def lex(text):
    """The tokens of a text, and an empty one with the blanks and comments at its end."""
    tokens, space, line, at = [], '', 1, 0
    while at < len(text):
        found = TOKEN.match(text, at)
        if found['space'] is not None:
            space = found['space']
        else:
            kind = next(kind for kind in ('text', 'lifetime', 'number', 'name', 'sign') if found[kind])
            tokens.append(Token(kind, found[kind], space, line))
            space = ''
        line, at = line + found[0].count('\n'), found.end()
    return [*tokens, Token('end', '', space, line)]


class Source:
    """The tokens of a file."""

    def __init__(self, path, text):
        self.path, self.tokens = path, lex(text)

    def refuse(self, i, why):
        raise Refused(f'{self.path}:{self.tokens[i].line}: {why}')

    def at(self, i):
        """The text of the token at an index, empty outside of the file."""
        return self.tokens[i].text if 0 <= i < len(self.tokens) else ''

    def is_name(self, i, *names):
        return self.tokens[i].kind == 'name' and (not names or self.at(i) in names)

    def names(self, first=0, end=None):
        return [token.text for token in self.tokens[first:end] if token.kind == 'name']

    def code(self, first, end):
        """The tokens as text, without comments, each blank one space."""
        return ''.join(' ' * bool(token.space) + token.text for token in self.tokens[first:end]).strip()

    def close(self, i):
        """The index of the bracket that closes the one at an index."""
        depth = 0
        for j in range(i, len(self.tokens)):
            if self.tokens[j].kind == 'sign':
                depth += (self.at(j) in OPEN) - (self.at(j) in CLOSE)
                if depth == 0:
                    return j
        return self.refuse(i, 'an unclosed bracket')

    def after(self, i):
        """The index after the token at an index, or after the bracket that opens there."""
        return (self.close(i) if self.tokens[i].kind == 'sign' and self.at(i) in OPEN else i) + 1

    def parameters(self, keyword):
        """The index of the bracket before the parameters of a function."""
        generic = self.at(keyword + 2) == '<'
        return self.until(self.angle(keyword + 2) + 1 if generic else keyword + 2, '(')

    def parts(self, opening, close=None):
        """The parts of a list between its commas: (first token, index after the last)."""
        close = close or (self.angle(opening) if self.at(opening) == '<' else self.close(opening))
        start = i = opening + 1
        while i < close:
            if self.at(i) == ',':
                yield start, i
                start = i + 1
            i = self.angle(i) + 1 if self.at(i) == '<' and self.angle(i) else self.after(i)
        if start < close:
            yield start, close

    def angle(self, i):
        """The index of the `>` that closes the `<` at an index, or None where it is a comparison."""
        depth, j = 0, i
        while self.at(j) not in (';', '{', '', *CLOSE):
            depth += (self.at(j) == '<') - (self.at(j) == '>')
            if depth == 0:
                return j
            j = self.after(j)
        return None

    def until(self, i, *signs):
        """The index of the first of the signs from an index on, outside of brackets."""
        while self.at(i) not in signs:
            if not self.at(i) or self.at(i) in CLOSE:
                self.refuse(i, f'no {" or ".join(signs)}')
            i = self.after(i)
        return i

    def body(self, i):
        """The index of the `{` of an item's body, or of its `;`, past its clauses."""
        i = self.until(i, ';', '{')
        while self.at(i) == '{' and {self.at(i - 1), self.at(i - 2), self.at(i - 3)} & {*CLAUSES, 'ghost'}:
            i = self.until(self.after(i), ';', '{')
        return i

    def cut(self, first, end):
        """Deletes tokens with the comments that belong to them: those after the last empty line."""
        apart, blank, _ = self.tokens[first].space.rpartition('\n\n')
        space = self.tokens[end].space
        if blank and ('//' in apart or '\n\n' not in space and '\n' in space):
            self.tokens[end].space = apart + '\n' * ('\n\n' not in space) + space
        del self.tokens[first:end]

    def insert(self, i, text):
        """Inserts tokens before an index, in a line of their own with the comments of what is there."""
        space, added = self.tokens[i].space, lex(text)[:-1]
        self.tokens[i].space = '\n' + space.rpartition('\n')[2]
        added[0].space = space
        self.tokens[i:i] = added

    def items(self, first=0, end=None):
        """The items between two indices: (first token, index of the keyword, index after it)."""
        i, end = first, len(self.tokens) - 1 if end is None else end
        while i < end:
            start = i
            while self.at(i) == '#':
                inner = self.at(i + 1) == '!'
                i = self.close(i + 1 + inner) + 1
                start = i if inner else start
            i += self.at(i) == 'pub'
            i = self.after(i) if self.at(i) == '(' else i
            while self.at(i) in ('const', 'unsafe') and self.at(i + 1) in ('fn', 'unsafe', 'trait', 'impl'):
                i += 1
            if i >= end:
                return
            plain = self.at(i) in ('use', 'const', 'static', 'type', 'ghost')
            after = self.after(self.until(i, ';') if plain else self.body(i))
            yield start, i, after
            i = after

    def item_name(self, keyword):
        """The name of an item; of an `impl`, that of its type."""
        if self.at(keyword) != 'impl':
            return self.at(keyword + 1)
        i, name = keyword + 1, ''
        while self.at(i) not in ('{', 'where'):
            name = '' if self.at(i) == 'for' else self.at(i) if self.is_name(i) else name
            i = self.angle(i) + 1 if self.at(i) == '<' else i + 1
        return name

    def text(self):
        for i, token in enumerate(self.tokens):
            if self.at(i - 1) in OPEN or self.at(i) == '}':
                token.space = re.sub(r'^\n\n+', '\n', token.space)
            if self.at(i - 1) == '{' and self.at(i) == '}':
                token.space = token.space.strip()
        text = ''.join(token.space + token.text for token in self.tokens)
        return re.sub(r'[ \t]+\n', '\n', re.sub(r'\n{3,}', '\n\n', text)).strip() + '\n'


class Rule:
    """Tokens, and what they are written as. `$x` is one token or bracket; `$$x` is what comes before the
    next token of the rule, without braces and semicolons; `$alloc` is an allocator."""

    def __init__(self, before, after):
        self.before = [token.text for token in lex(before)[:-1]]
        self.after = lex(after)[:-1]

    def bindings(self, source, i):
        """Where the rule's tokens end that begin at an index, and what its variables are, or None."""
        bound = {}
        for n, want in enumerate(self.before):
            start = i
            if not want.startswith('$') and source.at(i) != want or not source.at(i):
                return None
            if want == '$alloc' and source.tokens[i].kind != VALUE:
                return None
            while want.startswith('$$') and source.at(i) != self.before[n + 1]:
                if source.at(i) in ('{', ';', '', *CLOSE):
                    return None
                i = source.after(i)
            i = i if want.startswith('$$') else source.after(i) if want.startswith('$') else i + 1
            bound[want] = source.tokens[start:i]
        return i, {want: tokens for want, tokens in bound.items() if want.startswith('$')}

    def apply(self, source, i):
        """Rewrites what begins at an index, if it is this rule's."""
        end, bound = self.bindings(source, i) or (None, None)
        if end and not self.after and self.before[-1] != ']':
            source.cut(i, end)
        elif end and self.before != [token.text for token in self.after]:
            new = [Token(token.kind, token.text, token.space if n else part.space, token.line)
                   for part in self.after for n, token in enumerate(bound.get(part.text, [part]))]
            [*new, source.tokens[end]][0].space = source.tokens[i].space
            source.tokens[i:end] = new
        return end


def rewrite(source, rules):
    """Applies the first rule that covers what begins at each token, from the last token on; those that begin with a variable
    are tried last."""
    beginning = {}
    for rule in rules:
        beginning.setdefault('$' if rule.before[0].startswith('$') else rule.before[0], []).append(rule)
    for i in range(len(source.tokens) - 1, -1, -1):
        any(rule.apply(source, i) for rule in (*beginning.get(source.at(i), ()), *beginning.get('$', ())))
