//! Sets of flags over the bits of a number.

macro_rules! items {
    (impl $name:ident: $bits:ty { $($(#[$attr:meta])* const $flag:ident = $value:expr;)* }) => {
        impl $name {
            $($(#[$attr])* pub const $flag: $name = $name($value);)*

            /// The bits that have a name.
            const NAMED: $bits = 0 $(| $name::$flag.0)*;
        }

        // What the public calls of these names do.
        impl $name {
            const fn empty_of() -> $name {
                $name(0)
            }

            const fn bits_of(set: &$name) -> $bits {
                set.0
            }

            const fn from_bits_of(bits: $bits) -> Option<$name> {
                if bits & $name::NAMED == bits { Some($name(bits)) } else { None }
            }

            const fn from_bits_retain_of(bits: $bits) -> $name {
                $name(bits)
            }

            const fn is_empty_of(set: &$name) -> bool {
                set.0 == 0
            }

            const fn is_all_of(set: &$name) -> bool {
                set.0 & $name::NAMED == $name::NAMED
            }

            const fn intersects_of(set: &$name, other: $name) -> bool {
                set.0 & other.0 != 0
            }

            const fn contains_of(set: &$name, other: $name) -> bool {
                set.0 & other.0 == other.0
            }

            const fn union_of(set: $name, other: $name) -> $name {
                $name(set.0 | other.0)
            }

            const fn difference_of(set: $name, other: $name) -> $name {
                $name(set.0 & !other.0)
            }

            const fn insert_of(set: &mut $name, other: $name) {
                set.0 |= other.0;
            }

            const fn remove_of(set: &mut $name, other: $name) {
                set.0 &= !other.0;
            }
        }

        impl core::fmt::Debug for $name {
            fn fmt(&self, f: &mut core::fmt::Formatter<'_>) -> core::fmt::Result {
                let flags = [$((stringify!($flag), u64::from($name::$flag.0))),*];
                crate::support::shown::write_flags(f, stringify!($name), &flags, u64::from(self.0))
            }
        }

        impl core::ops::BitOr for $name {
            type Output = $name;

            fn bitor(self, other: $name) -> $name {
                $name(self.0 | other.0)
            }
        }

        impl core::ops::BitOrAssign for $name {
            fn bitor_assign(&mut self, other: $name) {
                self.0 |= other.0;
            }
        }

        impl core::ops::BitAnd for $name {
            type Output = $name;

            fn bitand(self, other: $name) -> $name {
                $name(self.0 & other.0)
            }
        }

        impl core::ops::BitAndAssign for $name {
            fn bitand_assign(&mut self, other: $name) {
                self.0 &= other.0;
            }
        }

        impl core::ops::Sub for $name {
            type Output = $name;

            fn sub(self, other: $name) -> $name {
                $name(self.0 & !other.0)
            }
        }

        impl core::ops::SubAssign for $name {
            fn sub_assign(&mut self, other: $name) {
                self.0 &= !other.0;
            }
        }

        impl core::ops::Not for $name {
            type Output = $name;

            fn not(self) -> $name {
                $name(!self.0 & $name::NAMED)
            }
        }
    };
}
pub(crate) use items as bitflag_items;
