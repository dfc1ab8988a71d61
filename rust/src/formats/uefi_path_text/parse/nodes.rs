// @generated from proved source. It is not edited.

use crate::formats::uefi_path_text::parse::error::FromTextError;
use crate::formats::uefi_path_text::parse::piece::read_piece;
use crate::formats::uefi_path_text::parse::place::Place;
use crate::formats::uefi_path_text::parse::text_node::TextNode;

/// The nodes of a path's text that weren't taken yet.
#[derive(Clone, Copy, Debug)]
pub(crate) struct TextNodes<'a> {
    /// What is left of the text.
    rest: &'a str,
    /// How many bytes are before it.
    offset: usize,
    /// Where the next node is.
    place: Place,
}

impl<'a> TextNodes<'a> {
    /// Returns the nodes of a text.
    #[inline]
    pub(crate) fn new(text: &'a str) -> TextNodes<'a> {
        TextNodes {
            rest: text,
            offset: 0,
            place: Place::Start,
        }
    }

    /// Takes the next node. At the end of the text there is none.
    #[inline]
    pub(crate) fn next(&mut self) -> Result<Option<TextNode<'a>>, FromTextError> {
        let text = self.rest;
        if text.is_empty() {
            return Ok(None);
        }
        if let Some(rest) = after_mark(text, ',') {
            self.go_to(rest);
            self.place = Place::AfterComma;
            return Ok(Some(TextNode::EndInstance));
        }
        let Some(piece) = after_slash(text, self.place) else {
            return Err(FromTextError::Argument(self.offset));
        };
        let start = self.offset + (text.len() - piece.len());
        match read_piece(piece, start) {
            Ok((node, rest)) => {
                self.go_to(rest);
                self.place = Place::AfterNode;
                Ok(Some(node))
            }
            Err(error) => Err(error),
        }
    }

    /// Returns an error at the next node if there is one.
    #[inline]
    pub(crate) fn end(&self) -> Result<(), FromTextError> {
        if self.rest.is_empty() {
            Ok(())
        } else {
            Err(FromTextError::Argument(self.offset))
        }
    }

    /// Goes to an end of what is left.
    #[inline]
    fn go_to(&mut self, rest: &'a str) {
        self.offset += self.rest.len() - rest.len();
        self.rest = rest;
    }
}

/// Returns what follows the slash before a node, if one is where it has to be.
#[inline]
fn after_slash(text: &str, place: Place) -> Option<&str> {
    match place {
        Place::Start => Some(text),
        Place::AfterComma => Some(after_mark(text, '/').unwrap_or(text)),
        Place::AfterNode => after_mark(text, '/'),
    }
}

/// Returns what follows a character at the start of a text.
#[inline]
fn after_mark(text: &str, mark: char) -> Option<&str> {
    text.strip_prefix(mark)
}
