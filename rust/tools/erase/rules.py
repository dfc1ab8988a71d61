"""The forms that are deleted, and those that have another form in Rust."""
from tokens import Rule


def rules(table):
    return [Rule(before, after) for before, after in table]


# What is left of ghost text: attributes, models, and `Drop` (each type of Rust may be dropped).
GHOST = rules([
    ("#![tactic $x]", ""), ("#[tactic $x]", ""), ("#[cycle]", ""), ("#[cycle $x]", ""), ("#[derive(Drop)]", ""),
    ("use std::marker::Model;", ""), ("impl Model for $$type { }", ""), ("impl<$a> Model for $$type { }", ""),
    ("(Drop, $next", "($next"), (", Drop, ", ", "), (", Drop)", ")"), (": Drop +", ":"), ("+ Drop", ""), (": Drop", ""),
])
FLAGS = ('bits', 'contains', 'difference', 'empty', 'from_bits', 'from_bits_retain', 'insert', 'intersects', 'is_all', 'is_empty',
         'remove', 'union')
RUST = rules([
    ("fmt::Formatter<$writer>", "fmt::Formatter<'_>"),
    # What allocates returns an error where Rust's own calls end the program.
    *((f"Vec::{call}(", f"Vec::fallible_{call}(") for call in ("with_capacity", "from_slice", "from_elem")),
    *((f"String::{call}(", f"String::fallible_{call}(") for call in ("with_capacity", "from_str")),
    # A copy that owns memory: Rust's `Clone` returns no error.
    ("impl<$type: Allocator + Clone> Clone for", "impl"), ("fn clone(&self) -> Result", "pub fn fallible_clone(&self) -> Result"),
    ("let $name = $alloc;", ""),
    # What is pushed to a builder of a path, in place of an item of a vector, is behind a reference.
    (".push(&", ".push(&"),
    *((f".{call}", f".fallible_{call}") for call in ("push(", "push_str(", "extend_from_slice(", "resize(", "collect(", "collect::")),
    ("vec![in $alloc; $$item; $$count]", "Vec::fallible_from_elem($$item, $$count)"),
    ("format!(in $alloc; $next", "fallible_format!($next"),
    ("fallible_writeln!($out)", 'fallible_writeln!($out, "")'),
    # What rustc 1.85 lacks.
    (".cast_signed()", ".to_signed()"), ("str::from_utf8(", "core::str::from_utf8("),
    ("unsafe { str::from_utf8_unchecked($$bytes) }", 'core::str::from_utf8($$bytes).expect("UTF-8")'),
    # What is proved of a constant is asserted as it is compiled.
    ("prove!($$fact)", "assert!($$fact)"),
    # The calls of flag sets, as functions that are `const`.
    *((f"<$set as Flags>::{call}(", f"$set::{call}_of(") for call in FLAGS),
    ("use bitflags::{Flag, Flags, bitflag_items};", "use bitflags::bitflag_items;"),
    # A product that fits 64 bits: in 32 bits it is past every length, as it is in 64.
    ("$length * $count as usize", "$length.saturating_mul($count as usize)"),
])
# What only tests do.
TESTS = rules([
    (".to_string($alloc)", ".to_string().text()"), (".replace($alloc, $next", ".fallible_replace($next"), (".clone()", ".fallible_clone()"),
])
# The program that answers rows of files is a test, which has their texts.
MAIN = rules([
    ("use std::process::ExitCode;", ""),
    ("fn main($handle: HostRuntime) -> Result<ExitCode, Fail>", "#[test]\nfn each_row_is_as_wanted() -> Result<(), Fail>"),
])
# The imports of which nothing is left without allocators.
EMPTY = rules([("use std::alloc::{};", ""), ("use std::alloc::Allocator;", ""), ("use std::alloc::Global;", ""),
               ("use std::alloc::{AllocError};", "use std::alloc::AllocError;")])
# The modules of std that are in core, in this package's support, and in std.
CORE, SUPPORT, STD = {'cell', 'cmp', 'error', 'fmt', 'iter', 'mem', 'ops', 'slice', 'str'}, {'alloc', 'simd', 'test'}, {'io'}
# All that may be left.
ATTRIBUTES = {'allow', 'cfg', 'derive', 'inline', 'must_use', 'non_exhaustive', 'repr', 'test'}
MACROS = {'assert', 'bitflag_items', 'fallible_format', 'fallible_write', 'fallible_writeln', 'format_args', 'include_str', 'matches',
          'unreachable', 'write', 'writeln'}
# Names of which none may be left.
NO_RULE = {'Allocator', 'Drop', 'Global', 'HostRuntime', 'Model', 'ghost', 'unsafe'}
