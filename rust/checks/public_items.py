"""The public items of the package, as `cargo doc` found them, beside the table `rust/tools/erase/exports`."""
import re

ITEM = re.compile(r'<li><a href="([^"]+)">')
MEMBER = re.compile(r'id="(?:structfield|variant|method|tymethod|associatedconstant|associatedtype)\.([A-Za-z_0-9]+)"')
CONST = re.compile(r'const (?:unsafe )?fn <a href="#method\.([a-z_0-9]+)"')
# What says that a type may get more, and that no other package implements a trait.
MARKS = {"[non_exhaustive]": re.compile(r"marked as non-exhaustive"), "[sealed]": re.compile(r"trait \w+:[^{]*\bSealed\b")}
SOURCE = re.compile(r'<a class="src[^"]*" href="(?:\.\./)*([^"]+)"')
# What is after the members of a type and of a trait: what it implements, and what implements it.
AFTER = re.compile(r'id="(?:trait-implementations|synthetic-implementations|implementors|foreign-impls)"')


def public_items(folder):
    """For each item of a folder of docs, its path, the shortest if there are more, and its members: fields, variants, and
    what its own `impl` blocks and its trait have."""
    found = {}
    with open(f"{folder}/all.html", encoding="utf-8") as file:
        pages = ITEM.findall(file.read())
    for page in pages:
        module, _, name = page.removesuffix(".html").rpartition("/")
        path = "::".join([*module.split("/"), name.partition(".")[2]] if module else [name.partition(".")[2]])
        with open(f"{folder}/{page}", encoding="utf-8") as file:
            text = file.read()
        own = AFTER.split(text)[0]
        consts = set(CONST.findall(own))
        names = sorted(f"const:{name}" if name in consts else name for name in set(MEMBER.findall(own)))
        members = " ".join([*names, *(mark for mark, says in MARKS.items() if says.search(own))])
        place = SOURCE.search(text)[1]
        found[place] = min(found.get(place, (path, members)), (path, members), key=lambda row: (row[0].count("::"), row))
    return {f"{path}:  {members}".rstrip() for path, members in found.values()}


def differing(folder, table):
    """The rows that one of them has alone."""
    with open(table, encoding="utf-8") as file:
        rows = set(re.sub(r" crate:\w+", "", file.read()).splitlines())
    return sorted(rows ^ public_items(folder))
