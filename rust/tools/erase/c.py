"""The functions for C: slices cross as structures, and what is only written may be uninitialized."""
import re

import idle
from tokens import Rule, lex, rewrite

# What C hands over for a slice, and a slice of what it hands over.
PARAMETERS = {"[u8]": ("Bytes", "as_slice"), "mut [u8]": ("Buffer", "into_slice")}
# What a parameter is that refers to what a call writes: C sets it before, or needn't; or it is memory in which the call works.
SET, WRITTEN, WORKSPACE = 'set', 'written', 'workspace'
EXPORTS = [Rule('#[unsafe(no_mangle)]', ''), Rule('pub extern "C" fn', 'pub fn')]


def exported(source):
    """Takes from the functions for C what makes them so, and returns what the parameters of each are that refer to what it
    writes."""
    found = {source.item_name(keyword + 2): parameters(source, keyword + 2) for _, keyword, _ in source.items() if source.at(keyword) == 'extern'}
    rewrite(source, EXPORTS)
    return found


def parameters(source, keyword):
    """By the contract of a function: of what C sets it says more of the value before the call than that it stays; of memory
    in which the call works it says nothing."""
    opening = source.until(keyword, '(')
    clauses = source.code(source.close(opening), source.body(keyword))
    found = {}
    for first, end in source.parts(opening):
        name = source.at(first)
        if '&' in source.code(first, end) and 'mut' in source.names(first, end):
            said = re.sub(rf'\b{name}\.new ≡ {name}\.old(?= ?[}})×])', f'{name}.new', clauses)
            found[name] = WORKSPACE if not re.search(rf'\b{name}\b', said) else SET if re.search(rf'\b{name}\.old\b', said) else WRITTEN
    return found


def uncalled(files):
    """The modules of a crate, of its files (path, source), that have no function for C, and that no other module imports."""
    modules, called = {stem.partition('/')[0] for stem, _ in files}, {'lib'}
    for stem, source in files:
        if any(source.at(keyword) == 'extern' for _, keyword, _ in source.items()):
            called.add(stem.partition('/')[0])
        for *_, paths in idle.imports(source):
            called |= {path[1] for path in paths if path[0] == idle.home(source)[0] and path[1] != stem.partition('/')[0]}
    return modules - called


def to_c(source, exports, structs):
    """Writes the functions that C calls, and the structures that they fill. `structs` has the slices of each."""
    for start, keyword, end in reversed(list(source.items())):
        if source.at(keyword) == 'struct' and source.item_name(keyword) in structs:
            fields_to_c(source, keyword, end)
        elif source.at(keyword) == 'fn' and source.item_name(keyword) in exports:
            function_to_c(source, keyword, exports[source.item_name(keyword)], structs)
            replace(source, keyword, keyword + 1, 'extern "C" fn')
            inline = source.after(start + 1)
            if source.code(start, inline) != '#[inline]':
                source.refuse(start, 'attributes of a function for C')
            replace(source, start, inline, '#[unsafe(no_mangle)]')
    for i in range(len(source.tokens) - 1, -1, -1):
        if source.at(i) in structs and source.at(i + 1) == '{' and source.at(i - 1) not in ('struct', '->'):
            literal_to_c(source, i + 1, structs[source.at(i)])


def text_of(source):
    """The text, with the imports of what C hands over."""
    names = set(source.names())
    lines = ['use core::mem::MaybeUninit;'] * ('MaybeUninit' in names)
    used = sorted(names & {'Buffer', 'Bytes', 'workspace_in'})
    lines += [f'use crate::bytes::{used[0]};' if len(used) == 1 else f'use crate::bytes::{{{", ".join(used)}}};'] * bool(used)
    text = source.text()
    docs = re.match(r'(//![^\n]*\n)*', text)[0]
    return '\n\n'.join(part for part in (docs.strip(), '\n'.join(lines), text[len(docs):].strip()) if part) + '\n'


def slices_of(source):
    """For each structure of a file for C the fields that are slices."""
    found = {}
    for start, keyword, end in source.items():
        if source.at(keyword) == 'struct' and 'repr' in source.names(start, keyword):
            opening = source.until(keyword, '{')
            found[source.item_name(keyword)] = {source.at(i - 1) for i in range(opening, source.close(opening))
                                                if source.at(i) == ':' and source.code(i + 1, i + 6) == "&'a [u8]"}
    return found


def replace(source, first, end, text):
    new = lex(text)[:-1]
    new[0].space = source.tokens[first].space
    source.tokens[first:end] = new


def fields_to_c(source, keyword, end):
    """A field that is a slice is `Bytes`."""
    for i in range(end - 1, keyword, -1):
        if source.at(i) == ':' and source.code(i + 1, i + 6) == "&'a [u8]":
            replace(source, i + 1, i + 6, " Bytes<'a>")
            source.tokens[i + 1].space = ' '


def literal_to_c(source, opening, slices):
    for first, end in reversed(list(source.parts(opening))):
        name = source.at(first)
        if name in slices:
            value = source.code(first + 2, end) if source.at(first + 1) == ':' else name
            replace(source, first, end, f'{name}: Bytes::new({value})')


def function_to_c(source, keyword, kinds, structs):
    """A function: `Bytes` for slices, and `MaybeUninit` for what C needn't set."""
    opening = source.until(keyword, '(')
    body = source.body(keyword)
    before, outs, inputs = [], {}, {}
    for first, end in reversed(list(source.parts(opening))):
        colon = next(i for i in range(first, end) if source.at(i) == ':')
        name, kind = source.at(first), source.code(colon + 1, end)
        life = source.at(colon + 2) if source.at(colon + 2).startswith("'") else None
        plain = kind.removeprefix('&').replace(f'{life} ', '', 1)
        if plain in PARAMETERS:
            of, call = PARAMETERS[plain]
            before.insert(0, f"let {name} = {name}.{call}();")
            replace(source, colon + 1, end, f"{of}<{life or chr(39) + '_'}>")
        elif kinds.get(name) == WORKSPACE:
            before.insert(0, f"let {name} = workspace_in({name});")
            replace(source, colon + 1, end, f"&mut MaybeUninit<{plain.removeprefix('mut ')}>")
        elif kinds.get(name) == WRITTEN:
            of = plain.removeprefix('mut ')
            outs[name] = of.endswith('[u8]')
            replace(source, colon + 1, end, f"&mut MaybeUninit<{'Bytes<' + chr(39) + 'a>' if outs[name] else of}>")
        elif plain.removeprefix('mut ').split('<')[0] in structs:
            inputs[name] = structs[plain.removeprefix('mut ').split('<')[0]]
        source.tokens[colon + 1].space = ' '
    body = source.body(keyword)
    writes_to_c(source, body, outs)
    reads_to_c(source, body, inputs)
    for text in reversed(before):
        new = lex(text)[:-1]
        new[0].space = '\n    '
        source.tokens[body + 1:body + 1] = new


def reads_to_c(source, body, inputs):
    """A field that is `Bytes`, of a structure that C hands over, is read as a slice."""
    for i in range(source.close(body), body, -1):
        if source.at(i) in inputs and source.at(i + 1) == '.' and source.at(i + 2) in inputs[source.at(i)]:
            source.tokens[i + 3:i + 3] = lex('.as_slice()')[:-1]


def writes_to_c(source, body, outs):
    """`*out = value;` becomes a write."""
    i = source.close(body)
    while i > body:
        i -= 1
        is_field = source.at(i - 1) == '.' or source.at(i + 1) == ':'
        if source.at(i) not in outs or source.tokens[i].kind != 'name' or is_field:
            continue
        if source.at(i - 1) != '*' or source.at(i + 1) != '=':
            source.refuse(i, 'what C may leave uninitialized is read, or written in part')
        end, name = source.until(i, ';'), source.at(i)
        # The braces of a structure, of a block.
        value = source.tokens[i + 2:end]
        value[0].space = ''
        call = lex(f'{name}.write(')[:-1] + (lex('Bytes::new(')[:-1] if outs[name] else [])
        call[0].space = source.tokens[i - 1].space
        source.tokens[i - 1:end] = call + value + lex('))' if outs[name] else ')')[:-1]
        i -= 1
