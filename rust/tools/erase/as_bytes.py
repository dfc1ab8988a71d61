"""What is taken as bytes: by `AsRef` in Rust, by `AsSlice` in Rattle."""
import allocators
from tokens import Rule, rewrite

BYTES = [Rule(before, after) for before, after in [('use std::convert::AsSlice;', ''), ('AsSlice<u8>', 'AsRef<[u8]>')]]


def to_as_ref(source):
    """Writes the bound of what is taken as bytes, and what reads it."""
    for keyword in [i for i in range(len(source.tokens) - 2) if source.is_name(i, 'fn', 'impl')]:
        opening = keyword + 1 + (source.at(keyword) == 'fn')
        parts = list(source.parts(opening)) if source.at(opening) == '<' and source.angle(opening) else ()
        types = {source.at(first) for first, end in parts if 'AsSlice' in source.names(first, end)}
        if not types:
            continue
        taken = {'self'} if source.at(keyword) == 'impl' else {
            source.at(name) for name, first, end in allocators.typed(source, source.parameters(keyword)) if allocators.is_of(source, first, end, types)}
        for i in range(keyword, source.after(source.body(keyword))):
            if source.at(i) in taken and source.at(i + 1) == '.' and source.is_name(i + 2, 'as_slice'):
                source.tokens[i + 2].text = 'as_ref'
    rewrite(source, BYTES)
