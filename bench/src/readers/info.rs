//! File information records: a plain reader.

pub const NAME_OFFSET: usize = 80;
pub const ALIGNMENT: usize = 8;

pub struct FileInfo<'a> {
    pub size: u64,
    pub file_size: u64,
    pub physical_size: u64,
    pub create_time: &'a [u8],
    pub last_access_time: &'a [u8],
    pub modification_time: &'a [u8],
    pub attribute: u64,
    /// The bytes of the name with its NUL.
    pub name: &'a [u8],
}

impl<'a> FileInfo<'a> {
    /// The record in the first `written` bytes, up to its name's NUL, where the buffer has room for
    /// all of it, or the status of a read without a name or without the room.
    pub fn read(buffer: &'a [u8], written: usize) -> Result<FileInfo<'a>, String> {
        let end = name_end(&buffer[..written.min(buffer.len())]).ok_or("BAD_BUFFER_SIZE")?;
        let size = end.next_multiple_of(ALIGNMENT);
        if size > buffer.len() {
            return Err(format!("BUFFER_TOO_SMALL({size})"));
        }
        let u64_at =
            |offset: usize| u64::from_le_bytes(buffer[offset..offset + 8].try_into().unwrap());
        let time_at = |offset: usize| &buffer[offset..offset + 16];
        Ok(FileInfo {
            size: u64_at(0),
            file_size: u64_at(8),
            physical_size: u64_at(16),
            create_time: time_at(24),
            last_access_time: time_at(40),
            modification_time: time_at(56),
            attribute: u64_at(72),
            name: &buffer[NAME_OFFSET..end],
        })
    }
}

/// Where the name ends with its NUL.
fn name_end(written: &[u8]) -> Option<usize> {
    let name = written.get(NAME_OFFSET..)?;
    let nul = name.chunks_exact(2).position(|unit| u16::from_le_bytes([unit[0], unit[1]]) == 0)?;
    Some(NAME_OFFSET + 2 * (nul + 1))
}
