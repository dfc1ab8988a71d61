"""Short `Debug` of what has bytes: by hand in the support module `debug`, or written here, with the bytes in hex."""
import re

from tokens import lex

BYTES = re.compile(r"(&('\w+ )?(mut )?)?\[u8(; \w+)?\]|Vec<u8>")
MAY_BE_BYTES = re.compile(r"Option<&'\w+ \[u8\]>")


def by_hand(support):
    """The names of the types whose `Debug` the support module has."""
    return set(re.findall(r"impl Debug for (?:v[12]::)?(\w+)", support))


def fields(source, keyword, end):
    """The fields of a struct: (name, type)."""
    body = source.body(keyword)
    i = body + 1
    while source.at(body) == '{' and i < end - 1:
        after = next((j for j in range(i, end - 1) if source.at(j) == ':'), None)
        if after is None:
            return
        last = after + 1
        while last < end - 1 and source.at(last) != ',':
            last = source.angle(last) + 1 if source.at(last) == '<' else source.after(last)
        yield source.at(after - 1), source.code(after + 1, last)
        i = last + 1


def shown(name, kind):
    """What a field is shown as."""
    if found := BYTES.fullmatch(kind):
        reference = '&*' if found[3] else '' if found[1] else '&'
        return f'&crate::support::debug::Bytes({reference}self.{name})'
    if MAY_BE_BYTES.fullmatch(kind):
        return f'&self.{name}.map(crate::support::debug::Bytes)'
    return f'&self.{name}'


def without_debug(source, start, keyword):
    """Takes `Debug` from the derives of an item. Returns whether it was there."""
    derive = next((i for i in range(start, keyword) if source.at(i) == 'derive'), None)
    names = source.names(derive + 1, source.close(derive + 1)) if derive else []
    if 'Debug' not in names:
        return False
    names.remove('Debug')
    first, end = derive - 2, source.close(derive + 1) + 2
    new = lex(f'#[derive({", ".join(names)})]')[:-1] if names else []
    (new or [source.tokens[end]])[0].space = source.tokens[first].space
    source.tokens[first:end] = new
    return True


def short(source, names):
    """Writes `Debug` of structs with bytes, but for those of these names."""
    flags = set(re.findall(r'bitflag_items! \{ impl (\w+)', source.code(0, len(source.tokens))))
    for start, keyword, end in reversed(list(source.items())):
        if source.at(keyword) not in ('enum', 'struct'):
            continue
        name, parts = source.item_name(keyword), list(fields(source, keyword, end)) if source.at(keyword) == 'struct' else []
        has_bytes = any(BYTES.fullmatch(kind) or MAY_BE_BYTES.fullmatch(kind) for _, kind in parts)
        if not (has_bytes or name in names | flags) or not without_debug(source, start, keyword) or name in names | flags:
            continue
        keyword, end = next((i, after) for _, i, after in source.items() if source.at(i) == 'struct' and source.item_name(i) == name)
        generics = "<'_>" if source.at(keyword + 2) == '<' else ''
        lines = ''.join(f'\n            .field("{field}", {shown(field, kind)})' for field, kind in parts)
        new = lex(f"""

impl core::fmt::Debug for {name}{generics} {{
    fn fmt(&self, f: &mut core::fmt::Formatter<'_>) -> core::fmt::Result {{
        f.debug_struct("{name}"){lines}
            .finish()
    }}
}}""")[:-1]
        source.tokens[end:end] = new
