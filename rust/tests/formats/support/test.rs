//! Why a test failed.

use std::fmt::{Debug, Display, Formatter, Result};

/// Why a test failed.
pub struct Fail(String);

impl Fail {
    pub fn new(why: impl Display) -> Fail {
        Fail(why.to_string())
    }
}

impl Debug for Fail {
    fn fmt(&self, f: &mut Formatter<'_>) -> Result {
        f.write_str(&self.0)
    }
}

impl<E: Display> From<E> for Fail {
    fn from(error: E) -> Fail {
        Fail::new(error)
    }
}
