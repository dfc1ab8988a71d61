"""Docs: Rust's examples for Rattle's, paths of this package, and no sentence that only a prover needs, or that
links to what isn't written."""
import os
import re
import textwrap

BLOCK = re.compile(r'(?:^|(?<=\n))([ ]*)//([/!])[^\n]*(?:\n\1//\2[^\n]*)*')
# Of what a sentence doesn't speak here: a caller in Rust sees no contract, and passes no allocator.
PROOF = re.compile(r'specs/|\b(contracts?|prove[sdn]?|proofs?|laws?|clauses?|ghost|allocators?)\b')
ASIDE = r', with\s+their\s+contracts,'
SENTENCE = re.compile(r'(?<=[.:])\s+(?=[A-Z`\[])')


class Docs:
    """The folder of the examples, and which of them have been used; and the paths of functions that aren't written, to which
    no link is."""

    def __init__(self, folder, libraries, home='crate::formats', gone=()):
        self.folder, self.home, self.used, self.unsaid = folder, home, set(), PROOF
        links = (rf' ?\(\[`\w+`\]\((?:crate|{crate})::{"::".join(path)}\)\)' for crate, *path in sorted(gone))
        self.aside = re.compile('|'.join([ASIDE, *links]))
        self.path = re.compile(rf'(?<=[`(\[])(crate|{"|".join(libraries)})::')

    def files(self):
        return {os.path.join(folder, name) for folder, _, names in os.walk(self.folder) for name in names}

    def rewrite(self, source, crate, shown, left_out=()):
        """Writes the docs of a file anew, without the sentences that link to names that are left out."""
        self.unsaid = re.compile('|'.join([PROOF.pattern, *(rf'\[`{name}\b' for name in sorted(left_out))]))
        words, folder = {}, f'{self.folder}/{crate}/{os.path.dirname(shown.partition("/src/")[2])}'
        for start, keyword, end in source.items():
            name, kind = source.item_name(keyword), source.at(keyword)
            words[start] = os.path.normpath(f'{folder}/{name}.md')
            if kind in ('impl', 'trait'):
                for first, inner, _ in source.items(source.until(keyword, '{') + 1, end - 1):
                    words[first] = os.path.normpath(f'{folder}/{name}.{source.item_name(inner)}.md')
        for i, token in enumerate(source.tokens):
            if '///' in token.space or '//!' in token.space:
                token.space = BLOCK.sub(lambda it: self.block(it, source, i, crate, words.get(i)), token.space)

    def block(self, found, source, i, crate, example):
        """A block of docs, written anew."""
        indent, mark = found[1], found[2]
        text = '\n'.join(line.strip()[3:].removeprefix(' ') for line in found[0].split('\n'))
        text = self.with_example(source, i, text, example) if '```' in text else text
        parts = [paragraph(part, 96 - len(indent), self.unsaid) for part in self.aside.sub('', text).split('\n\n')]
        text = '\n\n'.join(part for part in parts if part)
        text = self.path.sub(lambda it: f'{self.home}::{crate if it[1] == "crate" else it[1]}::', text)
        return '\n'.join(f'{indent}//{mark} {line}'.rstrip() for line in text.split('\n')) if text else ''

    def with_example(self, source, i, text, example):
        """The docs with the examples of the item's file, in place of the source's: of a last section Examples, or
        of what begins with the first example."""
        before = re.split(r'(?m)^# Examples$|^```', text)[0]
        if re.search(r'(?m)^# [A-Z]', re.sub(r'(?ms)^```.*?^```', '', text[len(before) + 2:])):
            source.refuse(i, 'a section after the examples')
        if not example or not os.path.exists(example):
            source.refuse(i, f'no example in Rust: {example}')
        self.used.add(example)
        with open(example, encoding='utf-8') as file:
            return before + file.read().strip()


def without_examples(source):
    """Deletes the examples of a file: lines of docs from one with a fence to the next."""
    for token in source.tokens:
        if '```' in token.space:
            token.space = re.sub(r'(?ms)^[ ]*//[/!] ?```.*?^[ ]*//[/!] ?```\n', '', token.space)


def paragraph(text, width, unsaid):
    """A paragraph without the sentences that speak of what is unsaid."""
    if '```' in text or text.startswith(('|', '#')) or not unsaid.search(text):
        return text
    if text.startswith('- '):
        return '\n'.join(item for item in re.split(r'\n(?=- )', text) if not unsaid.search(item))
    sentences = [sentence for sentence in SENTENCE.split(' '.join(text.split('\n'))) if not unsaid.search(sentence)]
    return textwrap.fill(' '.join(sentences), width, break_on_hyphens=False)
