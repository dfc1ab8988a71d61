// @generated from proved source. It is not edited.

/// The shape of digits whose count is fixed.
#[derive(Clone, Copy, Debug)]
pub(crate) enum Shape {
    /// A GUID (UEFI 2.10, Appendix A).
    Guid,
    /// An IEEE extended unique identifier, the highest byte first.
    Eui64,
    /// A GUID of IEEE 1394, the highest byte first.
    Ieee1394,
    /// An address of six bytes.
    Address,
}

/// A piece of a text of a shape.
#[derive(Clone, Copy, Debug)]
pub(crate) enum Piece {
    /// The two digits of the byte at an index.
    Digits(usize),
    /// A character.
    Mark(u8),
}

impl Shape {
    /// Returns the pieces, in the order of the text.
    #[inline]
    pub(crate) fn pieces(self) -> &'static [Piece] {
        match self {
            Shape::Guid => &[
                Piece::Digits(3),
                Piece::Digits(2),
                Piece::Digits(1),
                Piece::Digits(0),
                Piece::Mark(b'-'),
                Piece::Digits(5),
                Piece::Digits(4),
                Piece::Mark(b'-'),
                Piece::Digits(7),
                Piece::Digits(6),
                Piece::Mark(b'-'),
                Piece::Digits(8),
                Piece::Digits(9),
                Piece::Mark(b'-'),
                Piece::Digits(10),
                Piece::Digits(11),
                Piece::Digits(12),
                Piece::Digits(13),
                Piece::Digits(14),
                Piece::Digits(15),
            ],
            Shape::Eui64 => &[
                Piece::Digits(7),
                Piece::Mark(b'-'),
                Piece::Digits(6),
                Piece::Mark(b'-'),
                Piece::Digits(5),
                Piece::Mark(b'-'),
                Piece::Digits(4),
                Piece::Mark(b'-'),
                Piece::Digits(3),
                Piece::Mark(b'-'),
                Piece::Digits(2),
                Piece::Mark(b'-'),
                Piece::Digits(1),
                Piece::Mark(b'-'),
                Piece::Digits(0),
            ],
            Shape::Ieee1394 => &[
                Piece::Digits(7),
                Piece::Digits(6),
                Piece::Digits(5),
                Piece::Digits(4),
                Piece::Digits(3),
                Piece::Digits(2),
                Piece::Digits(1),
                Piece::Digits(0),
            ],
            Shape::Address => &[
                Piece::Digits(0),
                Piece::Digits(1),
                Piece::Digits(2),
                Piece::Digits(3),
                Piece::Digits(4),
                Piece::Digits(5),
            ],
        }
    }

    /// Returns the number of bytes.
    #[inline]
    pub(crate) fn size(self) -> usize {
        match self {
            Shape::Guid => 16,
            Shape::Eui64 | Shape::Ieee1394 => 8,
            Shape::Address => 6,
        }
    }
}

/// Returns the pieces of an IPv6 address: eight groups of two bytes.
#[inline]
pub(crate) fn ipv6_pieces() -> &'static [Piece] {
    &[
        Piece::Digits(0),
        Piece::Digits(1),
        Piece::Mark(b':'),
        Piece::Digits(2),
        Piece::Digits(3),
        Piece::Mark(b':'),
        Piece::Digits(4),
        Piece::Digits(5),
        Piece::Mark(b':'),
        Piece::Digits(6),
        Piece::Digits(7),
        Piece::Mark(b':'),
        Piece::Digits(8),
        Piece::Digits(9),
        Piece::Mark(b':'),
        Piece::Digits(10),
        Piece::Digits(11),
        Piece::Mark(b':'),
        Piece::Digits(12),
        Piece::Digits(13),
        Piece::Mark(b':'),
        Piece::Digits(14),
        Piece::Digits(15),
    ]
}
