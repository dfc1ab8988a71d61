"""The modules of the written files, with the lints of clippy that their forms have, each with its reason."""

LINTS = {
    'A loop has the form that its proof is about.': ['explicit_counter_loop', 'needless_range_loop', 'while_let_on_iterator'],
    'So has a test of what is returned.': ['question_mark', 'redundant_pattern_matching'],
    'Rattle has neither this call of numbers nor `let` in a condition of several parts.': ['collapsible_if', 'manual_div_ceil'],
    'A part and what follows it are a pair, also of pairs.': ['type_complexity'],
    "The parameters are those of `uefi`, or a record's fields.": ['too_many_arguments'],
}
# What clippy doesn't say of what is public.
OF_NAMES = {'The names are those of `uefi`.': ['enum_variant_names', 'wrong_self_convention']}


def allowed(lints):
    """The attributes that allow lints."""
    return ''.join(f'// {why}\n#![allow({", ".join(f"clippy::{name}" for name in names)})]\n' for why, names in lints.items())


def of_libraries(names):
    """The module of the libraries."""
    return f"""//! The libraries, a module each.

{allowed(LINTS)}
{''.join(f'pub(crate) mod {name};{chr(10)}' for name in sorted(names))}"""


def shared_modules(names):
    """The modules of libraries, from the files of the package."""
    return ''.join(f'#[path = "../../src/formats/{name}/mod.rs"]\npub(crate) mod {name};\n' for name in sorted(names))


def of_tests(names):
    """The module of the libraries in the tests."""
    return f"""//! The libraries, from the files of the package: what is private there is tested too.

// The tests call a part of the libraries.
#![allow(dead_code, unused_imports)]
{allowed(LINTS | OF_NAMES)}
{shared_modules(names)}"""


def of_c(libraries, functions):
    """The module of the functions for C and of the libraries below them."""
    return f"""//! The functions for C, and the libraries that they call, whose files are those of the package `uefi-formats`.

// The functions call a part of the libraries.
#![allow(dead_code, unused_imports)]
{allowed(LINTS | OF_NAMES)}
{shared_modules(libraries)}pub(crate) mod {functions};
"""
