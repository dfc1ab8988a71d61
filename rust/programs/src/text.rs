// @generated: a copy of rust/tests/formats/text.rs. It is not edited.

//! Text that is appended to, with an error if an allocation fails.

use crate::support::alloc::AllocError;
use std::fmt;

/// Appends what is displayed.
pub(crate) trait Append {
    /// Appends what is displayed. If an allocation fails, a prefix of it is appended.
    fn append_form(&mut self, form: fmt::Arguments<'_>) -> Result<(), AllocError>;
}

impl Append for String {
    fn append_form(&mut self, form: fmt::Arguments<'_>) -> Result<(), AllocError> {
        /// A text that reserves before it appends.
        struct Checked<'a>(&'a mut String);

        impl fmt::Write for Checked<'_> {
            fn write_str(&mut self, part: &str) -> fmt::Result {
                self.0.try_reserve(part.len()).map_err(|_| fmt::Error)?;
                self.0.push_str(part);
                Ok(())
            }
        }

        fmt::Write::write_fmt(&mut Checked(self), form).map_err(|_| AllocError)
    }
}

/// `write!` to a text.
macro_rules! fallible_write {
    ($out:expr, $($form:tt)*) => {{
        use $crate::text::Append as _;
        $out.append_form(format_args!($($form)*))
    }};
}

/// `writeln!` to a text.
macro_rules! fallible_writeln {
    ($out:expr, $($form:tt)*) => {{
        use $crate::text::Append as _;
        $out.append_form(format_args!("{}\n", format_args!($($form)*)))
    }};
}

/// `format!`.
macro_rules! fallible_format {
    ($($form:tt)*) => {{
        use $crate::text::Append as _;
        let mut text = String::new();
        text.append_form(format_args!($($form)*)).map(|()| text)
    }};
}
