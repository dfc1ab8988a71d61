// @generated from proved source. It is not edited.

use crate::support::alloc::AllocError;
use core::error::Error;
use core::fmt;

/// The part of a configuration's header that is missing or wrong.
#[derive(Clone, Copy, PartialEq, Eq, Debug)]
pub enum ConfigHdrSection {
    /// The pair `GUID`, whose value has 16 bytes.
    Guid,
    /// The pair `NAME`, whose value is a name.
    Name,
    /// The pair whose value begins with a device path.
    Path,
    /// The pair `ALTCFG`, whose value is a number.
    DescHdr,
}

/// Why no configuration was read from a group of pairs.
///
/// The first pair that is missing or wrong decides, unless an allocation fails before it is found.
///
/// Errors and requests for memory come in the order of the pairs. No memory is asked for before the
/// group's first pair is a good GUID and its second has the key `NAME` and a value, so the errors of
/// these two are never replaced by [`Memory`](ParseError::Memory). After them every reader of
/// configurations may return `Memory` although a later pair is missing or wrong: the name, the path
/// and each element take memory as they are read. For a name and for a path memory is asked before
/// the value is judged, so even a wrong one may be `Memory`; the pairs `ALTCFG`, `OFFSET`, `WIDTH`
/// and `VALUE` are judged first, and then memory is asked.
#[derive(Clone, Copy, PartialEq, Eq, Debug)]
pub enum ParseError {
    /// A pair of the header is missing or wrong.
    ConfigHdr(ConfigHdrSection),
    /// The pair `OFFSET` or `WIDTH` of an element is missing, or its value is no number.
    BlockName,
    /// The pair `VALUE` of an element is missing, or has no value.
    BlockConfig,
    /// An allocation failed.
    Memory,
}

/// Writes the name of the part: `GUID`, `name`, `path` or `identifier`.
impl fmt::Display for ConfigHdrSection {
    fn fmt(&self, f: &mut fmt::Formatter<'_>) -> fmt::Result {
        let name = match self {
            ConfigHdrSection::Guid => "GUID",
            ConfigHdrSection::Name => "name",
            ConfigHdrSection::Path => "path",
            ConfigHdrSection::DescHdr => "identifier",
        };
        f.write_str(name)
    }
}

/// Writes what is missing or wrong, for example `the header's GUID is missing or wrong`, or
/// `out of memory`.
impl fmt::Display for ParseError {
    fn fmt(&self, f: &mut fmt::Formatter<'_>) -> fmt::Result {
        match self {
            ParseError::ConfigHdr(section) => {
                write!(f, "the header's {section} is missing or wrong")
            }
            ParseError::BlockName => {
                f.write_str("an element's offset or width is missing or wrong")
            }
            ParseError::BlockConfig => f.write_str("an element's value is missing"),
            ParseError::Memory => f.write_str("out of memory"),
        }
    }
}

impl Error for ParseError {}

/// An allocation that failed is [`ParseError::Memory`].
impl From<AllocError> for ParseError {
    #[inline]
    fn from(_error: AllocError) -> ParseError {
        ParseError::Memory
    }
}
