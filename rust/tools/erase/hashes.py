"""The hash functions: they take what is as bytes, and their copies are Rust's, since none needs memory."""
import as_bytes
import rust
from tokens import Rule, rewrite

HASHES = [Rule(before, after) for before, after in [
    ('use std::alloc::AllocError;', ''),
    ("'bytes: for i in 0..N { out[i] = digest[i]; }", 'out.copy_from_slice(&digest[..N]);'),
    # Functions of a trait that no type has in another form, and what is left of a bound.
    ('final fn', 'fn'), ('Self: Sized, Self::Output,', 'Self: Sized,'),
]]


def to_core(source):
    """Writes a file of hash functions over what Rust's `core` has."""
    copied = set()
    for start, keyword, end in reversed(list(source.items())):
        if source.at(keyword) == 'impl' and source.code(keyword + 1, source.body(keyword)).startswith('Clone for'):
            copied.add(source.item_name(keyword))
            source.cut(start, end)
    for i in range(len(source.tokens) - 2, -1, -1):
        if source.is_name(i, 'struct') and source.at(i + 1) in copied:
            source.insert(rust.head(source, i), '#[derive(Clone)]')
    as_bytes.to_as_ref(source)
    rewrite(source, HASHES)
