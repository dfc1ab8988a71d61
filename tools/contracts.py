"""Reads what contracts cite: the clauses of functions, the models of types, and the definitions in `specs/`.

It follows each name to its definition, and each definition to the names that it is made of. A text that it can't
read, or a name that is no variable and has no meaning, raises `Unread`: nothing is left out of what is counted.
"""
import collections
import glob
import os
import re

import crates

TOP = crates.TOP
NAME = r"(?<![\w'])[^\W\d][\w'-]*"
# Words of the language, tactics among them, which no file defines, and variants that a clause needs no import for.
KEYWORDS = set("Err None Ok Some abbrev data do else ghost hlevel if in let omega open pub record result self Self then tt Type Unit unfoldable where λ _ 𝓛".split())


class Unread(Exception):
    """What can't be read, and where."""


# The operator that the lines of a `do` stand for.
CHAIN = "◌>>=◌"


def imported(line):
    """The names that a `use` line brings in, each with its module and its name there."""
    use = r"(?:(?:unfoldable|pub|open|ghost) )*use\s+(\S+?)\.(?:\{(.*)\}|([^.\s]+(?:\s+as\s+\S+)?)$)"
    found = re.match(use, line.strip())
    if not found:
        raise Unread(line)
    items = [it.strip().partition(" as ") for it in (found[2] or found[3]).split(",") if it.strip()]
    return {(other or name).strip(): (found[1], name.strip()) for name, _, other in items}


def bound_in(text):
    """The variables that a piece of text binds: by a type, a λ, a `let`, a step of a `do`, or below `where`."""
    groups = re.findall(r"[({]([^(){}:=]+?)\s*:", text)
    groups += re.findall(r"λ\s*([^.]*)\.", text)
    groups += re.findall(r"\blet\s+([^:=]+?)\s*[:=]", text)
    groups += re.findall(r"^\s*(\S+)\s*←", text, re.M)
    groups += re.findall(r"^\s+([^:=]+?)\s[:=]\s", text.partition("\n  where\n")[2], re.M)
    return {name for group in groups for name in re.findall(NAME, group)}


def free_names(text, bound=()):
    """The names in a piece of text that it doesn't bind. Fields are none; `M.name` is one."""
    bound = bound_in(text) | set(bound)
    text = re.sub(r"\"(?:\\.|[^\"\\])*\"|«\w+»|∥₁", " ", text)
    names = {it for it in re.findall(r"(?<![\w.'-])[A-Za-z]\w*\.[A-Za-z_][\w'-]*", text) if it.partition(".")[0] not in bound}
    text = re.sub(r"(?<=[\w)' ])\.[\w'-]+", " ", text)
    text = re.sub(r"\b[\w'-]+ =(?=[^=>])", " ", text)
    names |= set(re.findall(NAME, text)) - bound
    return names | {CHAIN} if re.search(r"\bdo\b|>>=", text) else names


class Definition:
    """A word of `specs/`: its file, its lines without comments, and the names that it is made of."""

    def __init__(self, file, name, number, is_type):
        self.file, self.name, self.number, self.is_type = file, name, number, is_type
        self.text = []

    @property
    def path(self):
        return f"{self.file.module}.{self.name}".removeprefix("Rattle.")

    def constructors(self):
        if not self.is_type or not re.match(r"(pub )?data ", self.text[0]):
            return []
        heads = [line.partition(":")[0] for line in self.text[1:] if re.match(r"  (?:pub )?[^\s(]", line) and ":" in line]
        return [name for head in heads for name in head.removeprefix("  pub ").split()]

    def parts(self):
        """The text of its type, and its equations, each with the names on its left side."""
        head, *equations = re.split(r"\n(?=[^\s})])", "\n".join(self.text))
        return head, [(it, re.findall(NAME, re.split(r"\s=(?:\s|$)", it, maxsplit=1)[0])) for it in equations]

    def names(self):
        """The names in its type, and in each equation but those that its left side binds."""
        if self.is_type:
            fields = re.findall(r"^\s+(?:pub )?([^\s:(){}]+)\s*:", "\n".join(self.text[1:]), re.M)
            return free_names("\n".join(self.text), fields) - {self.name}
        head, equations = self.parts()
        # A constructor that the left side names, as the file's other words do, begins with a capital.
        found = [free_names(text, {it for it in left if it[0].islower()}) for text, left in equations]
        return free_names(head).union(*found) - {self.name}

    def variables(self):
        """The names that the left sides of its equations may bind."""
        return {name for _, left in self.parts()[1] for name in left}


class SpecFile:
    """A file of `specs/`: what it imports, and what it defines."""

    def __init__(self, crate, path):
        self.crate, self.shown = crate, os.path.relpath(path, TOP)
        parts = os.path.relpath(path, f"{TOP}/crates/{crate}/specs").removesuffix(".antt").split("/")
        self.module = ".".join(["Rattle", crate, "specs", *parts])
        self.is_private = "private" in parts
        self.imports, self.definitions = {}, {}
        with open(path, encoding="utf-8") as text:
            self.read(text.read())
        self.words = dict(self.definitions)
        for it in self.definitions.values():
            self.words.update(dict.fromkeys(it.constructors(), it))

    def read(self, text):
        text = re.sub(r"^ *--.*", "", text, flags=re.M)
        uses = re.compile(r"^ *(?:(?:unfoldable|pub|open) )*use (?:[^{\n]*\{[^}]*\}|.*)", re.M)
        for use in uses.findall(text):
            self.imports.update(imported(" ".join(use.split())))
        current, margin = None, 0
        for number, line in enumerate(uses.sub(lambda it: "\n" * it[0].count("\n"), text).split("\n"), 1):
            if re.match(r"module _ .* where", line):
                # Parameters that all definitions of the module share; these stand indented.
                margin = 2
            elif line.strip() and not re.match(r"\s*((pub )?mod |infix|unfolding |ruleset )", line):
                if not line.startswith(" "):
                    margin = 0
                line = line[margin:]
                begins = re.match(r"(?:(?:abbrev|unfoldable|pub) )*(?:(?:record|data) (\S+)|(\S+) :(?:\s|$))", line)
                if begins:
                    current = Definition(self, begins[1] or begins[2], number, bool(begins[1]))
                    self.definitions[current.name] = current
                # An equation has each part of its word's name, which may be an operator.
                elif current is None or line[0] not in " })" and not all(
                        part in line for part in current.name.split("◌")):
                    raise Unread(f"{self.shown}:{number}: {line.strip()}")
                current.text.append(line)


class Block:
    """A file, an impl or a trait: what it imports, for all of its items, and its ghost members by their names."""

    def __init__(self, crate, modules, imports, owner=None, trait=None, is_public=False):
        self.crate, self.modules, self.imports, self.ghosts = crate, modules, imports, {}
        self.owner, self.trait, self.is_public = owner, trait, is_public

    @property
    def path(self):
        return "::".join(it for it in (self.crate, *self.modules, self.owner) if it)


class Function:
    """A function, which begins at an offset: its clauses, and the types, variables and buffers in its signature."""

    def __init__(self, block, text, start):
        self.block, self.crate = block, block.crate
        signature, clauses, self.end = function_at(text, start)
        self.name = re.match(r"fn\s+(\w+)", signature)[1]
        self.path = f"{block.path}::{self.name}"
        self.has_requires = any(kind == "requires" for kind, _ in clauses)
        self.texts = [it for _, it in clauses]
        self.ensured = [it for kind, it in clauses if kind == "ensures"]
        is_named_public = re.search(r"\bpub\s+(?:(?:const|unsafe|extern)\s+)*$", text[max(0, start - 40) : start])
        self.is_public = block.is_public or bool(is_named_public)
        self.types = {*re.findall(r"\b[A-Z]\w+", signature), block.owner} - {None}
        self.variables = {*re.findall(r"\b(\w+)\s*:", signature), *re.findall(r"\b[A-Z]\b", signature)}
        # A ghost value is named in a clause of its own.
        self.variables |= {*re.findall(r"\bghost\s+(\w+)\s*:", text[start : self.end])}
        self.buffers = re.findall(r"\b(\w+)\s*:\s*&\s*(?:'\w+\s+)?mut\s+\[u8\]", signature)

    def unsaid_buffers(self):
        """The buffers of which no clause says what they hold afterwards, or who holds them."""
        return [it for it in self.buffers if not any(re.search(rf"\b{it}\.(new|entry)\b", text) for text in self.ensured)]


def after(text, start, brackets="{}"):
    """The offset after the bracket that closes the one at `start`."""
    depth = 0
    for i in range(start, len(text)):
        depth += (text[i] == brackets[0]) - (text[i] == brackets[1] and text[i - 1] != "-")
        if not depth:
            return i + 1
    raise Unread(f"no bracket closes: {text[start : start + 80]}")


def function_at(text, start):
    """The signature of a function, its clauses, each with its first word, and the offset at which it ends."""
    i = start + re.match(r"fn\s+\w+\s*", text[start:]).end()
    if text[i] == "<":
        i = after(text, i, "<>")
    i = after(text, text.index("(", i), "()")
    signature, clauses = None, []
    while True:
        # A semicolon in brackets is that of an array.
        stop = re.compile(r"\b(?:requires|ensures|ghost)\b|\{|;(?![^\[\]]*\])").search(text, i)
        signature = signature or text[start : stop.start()]
        if stop[0] == ";":
            return signature, clauses, stop.end()
        end = after(text, text.index("{", stop.start()))
        if stop[0] == "{":
            return signature, clauses, end
        clauses.append((stop[0], text[text.index("{", stop.start()) + 1 : end - 1]))
        i = end


def sources(crate):
    """The files of a crate's code, tests aside, each with its text, whose comments and literals are blanked."""
    blanked = re.compile(r"//[^\n]*|/\*.*?\*/|b?\"(?:\\.|[^\"\\])*\"|b?'(?:\\.[^']*|[^'\\])'", re.S)
    for path, text in crates.sources(crate):
        yield path, blanked.sub(lambda it: re.sub(r"[^\n]", " ", it[0]), text)


class Code:
    """The functions of a crate, and the models of its types."""

    def __init__(self, crate):
        self.items, self.models, self.names = [], [], set()
        texts = dict(sources(crate))
        types = re.findall(r"^\s*(pub )?(?:pub\(\w+\) )?(?:enum|struct) (\w+)", "\n".join(texts.values()), re.M)
        # What a trait's method promises of a type of a library that no other crate sees is private.
        is_library = os.path.isfile(f"{TOP}/crates/{crate}/src/lib.rt")
        self.hidden = {it for _, it in types} - {it for pub, it in types if pub} if is_library else set()
        for path, text in texts.items():
            self.names |= set(re.findall(r"\b(?:enum|struct|trait|type|const|ghost)\s+(\w+)", text))
            modules = [it for it in path.removesuffix(".rt").split("/")[3:] if it != "lib"]
            self.read(Block(crate, modules, collections.ChainMap()), text, 0, len(text))

    def read(self, block, text, at, end):
        """Reads the items of a block, and of those in it, which see its imports."""
        item = re.compile(r"\bghost use\b|\bghost\s+([\w-]+)\s*[:=]|\b(?:impl|trait)\b|\bfn\s+\w|\{")
        while found := item.search(text, at, end):
            start = found.start()
            if found[0] == "ghost use":
                at = text.index(";", start) + 1
                block.imports.update(imported(text[start : at - 1]))
            elif found[0].startswith("fn"):
                self.items.append(Function(block, text, start))
                at = self.items[-1].end
            else:
                opening = text.index("{", start)
                at = after(text, opening)
                if found[1]:
                    block.ghosts[found[1]] = text[opening + 1 : at - 1]
                    proof = re.compile(r"\s*by\s*\{").match(text, at)
                    at = after(text, proof.end() - 1) if proof else at
                elif found[0] != "{":
                    inner = self.block_of(block, text[start:opening], text[:start].split()[-1:] == ["pub"])
                    self.read(inner, text, opening + 1, at - 1)

    def block_of(self, outer, head, is_public):
        """The block that the head of a trait or an impl begins."""
        owner, trait = head.split()[1].rstrip(":"), None
        if head.startswith("impl"):
            while (shorter := re.sub(r"<[^<>]*>", "", head)) != head:
                head = shorter
            trait, _, owner = head.removeprefix("impl").partition(" where ")[0].rpartition(" for ")
            owner, trait = re.findall(r"\w+", owner)[-1], trait.strip().split("::")[-1]
            is_public = bool(trait) and owner not in self.hidden
        block = Block(outer.crate, outer.modules, outer.imports.new_child(), owner, trait, is_public)
        self.models += [block] if trait == "Model" else []
        return block


class Repository:
    """The words and the clauses of all crates."""

    def __init__(self):
        self.crates = list(crates.read())
        self.files, self.code, self.order, self.unread, self.rust_names = {}, {}, {}, set(), set()
        for crate in self.crates:
            self.code[crate] = Code(crate)
            self.rust_names |= self.code[crate].names
            for path in sorted(glob.glob(f"{TOP}/crates/{crate}/specs/**/*.antt", recursive=True)):
                file = SpecFile(crate, path)
                self.files[file.module] = file
            self.put_in_order(crate, f"{TOP}/crates/{crate}/specs/Lib.antt", [])

    def put_in_order(self, crate, path, parents):
        """Numbers the files in the order of the `pub mod` lines."""
        if os.path.isfile(path):
            with open(path, encoding="utf-8") as file:
                for name in re.findall(r"^\s*(?:pub )?mod (\S+)", file.read(), re.M):
                    parts = [*parents, name]
                    self.order[".".join(["Rattle", crate, "specs", *parts])] = len(self.order)
                    self.put_in_order(crate, f"{TOP}/crates/{crate}/specs/{'/'.join(parts)}.antt", parts)

    def meaning(self, imports, name):
        """What a name means by these imports: a definition of some `specs/`, or a path elsewhere."""
        alias, _, inner = name.partition(".")
        if alias not in imports:
            return None
        module, item = imports[alias]
        if not inner and f"{module}.{item}" in self.files:
            return ""
        if inner and f"{module}.{item}" in self.files:
            module, item = f"{module}.{item}", inner
        if module in self.files:
            file = self.files[module]
            return file.words.get(item) or self.meaning(file.imports, item)
        return f"{module}.{item}"

    def reach(self, cited):
        """What texts with their imports reach: the definitions, each with what cites it first, and other paths."""
        found, others = {}, set()
        waiting = [(free_names(text), imports, {}, variables, reason) for text, imports, reason, variables in cited]
        while waiting:
            names, imports, words, variables, reason = waiting.pop()
            for name in names:
                meaning = words.get(name.partition(".")[0]) or self.meaning(imports, name)
                if isinstance(meaning, str):
                    others.add(meaning)
                elif meaning is None:
                    if not {name.partition(".")[0]} & (KEYWORDS | variables | self.rust_names):
                        self.unread.add(f"{reason}: {name}")
                elif meaning not in found:
                    found[meaning] = reason
                    file, path = meaning.file, meaning.path
                    waiting.append((meaning.names(), file.imports, file.words, meaning.variables(), path))
        return found, others - {""}

    def models_of(self, item):
        """The models of the types that a function's signature names."""
        for model in (it for code in self.code.values() for it in code.models if it.owner in item.types):
            versions = [{"v1", "v2"} & set(it.modules) for it in (model, item.block)]
            if not all(versions) or versions[0] == versions[1]:
                yield model

    def reached_by(self, items):
        """What clauses reach, what they cite elsewhere, and what models reach beyond that."""
        cited, computed = [], []
        for item in items:
            block = item.block
            cited += [(text, block.imports, item.path, item.variables) for text in item.texts]
            if block.trait:
                cited += [(text, block.imports, item.path, set()) for text in block.ghosts.values()]
            for model in self.models_of(item):
                reason = f"the model of {model.path}"
                computed += [(model.ghosts[it], model.imports, reason, set()) for it in ("Value", "view")]
        believed, others = self.reach(cited)
        more, _ = self.reach(computed)
        return believed, others, {it: reason for it, reason in more.items() if it not in believed}

    def named(self, path):
        """The functions that a path names: crate, modules or types, and the function's name."""
        crate, *middle, name = path.split("::")
        if crate not in self.code:
            return []
        return [it for it in self.code[crate].items if it.name == name
                and set(middle) <= {*it.block.modules, it.block.owner} and (middle or not it.block.owner)]

    def believed_files(self):
        """The files of definitions that stand outside `specs/private/`."""
        return [it for it in self.files.values() if not it.is_private and crates.is_for_users(it.crate)]

    def writers(self):
        """The public functions that take a caller's buffer. The clauses of a trait's method are the trait's."""
        return [it for it in self.public() if it.buffers and not it.block.trait]

    def public(self):
        return [it for crate in self.crates if crates.is_for_users(crate)
                for it in self.code[crate].items if it.is_public]


