// @generated from proved source. It is not edited.

//! The words that an argument can be, read.

use crate::formats::uefi_path_text::form::words::Words;

impl Words {
    /// Returns whether a number can be in the place of a word.
    #[inline]
    pub(crate) fn are_numbers(self) -> bool {
        matches!(
            self,
            Words::Channel | Words::Drive | Words::Protocol | Words::Default | Words::BootDevice
        )
    }

    /// Returns the number of a word.
    ///
    /// # Errors
    ///
    /// The offset of the first character that no word has there.
    #[inline]
    pub(crate) fn number(self, text: &[u8]) -> Result<u64, usize> {
        let mut farthest = 0;
        for (word, number) in self.list() {
            if word.as_bytes() == text {
                return Ok(*number);
            }
            farthest = farthest.max(common_length(word.as_bytes(), text));
        }
        Err(farthest)
    }
}

/// Returns how many bytes are the same at the start of both.
#[inline]
fn common_length(a: &[u8], b: &[u8]) -> usize {
    a.iter().zip(b).take_while(|(x, y)| x == y).count()
}
