// @generated from proved source. It is not edited.

//! The compression of a block (GB/T 32905-2016, 4 and 5.3). Names and section numbers are the
//! standard's.

/// The initial value IV (4.1).
pub(crate) const IV: [u32; 8] = [
    0x7380_166f,
    0x4914_b2b9,
    0x1724_42d7,
    0xda8a_0600,
    0xa96f_30bc,
    0x1631_38aa,
    0xe38d_ee4d,
    0xb0fb_0e4e,
];

/// The length of a block in bytes.
pub(crate) const BLOCK_LENGTH: usize = 64;

/// How many words a block is expanded into.
const WORD_COUNT: usize = 68;

/// How many rounds a block takes.
const ROUND_COUNT: usize = 64;

/// Returns the constant T of round `j` (4.2).
#[inline]
fn t(j: usize) -> u32 {
    if j < 16 { 0x79cc_4519 } else { 0x7a87_9d8a }
}

/// Returns the Boolean function FF of round `j` at three words (4.3).
#[inline]
fn ff(j: usize, x: u32, y: u32, z: u32) -> u32 {
    if j < 16 {
        x ^ y ^ z
    } else {
        (x & y) | (x & z) | (y & z)
    }
}

/// Returns the Boolean function GG of round `j` at three words (4.3).
#[inline]
fn gg(j: usize, x: u32, y: u32, z: u32) -> u32 {
    if j < 16 {
        x ^ y ^ z
    } else {
        (x & y) | (!x & z)
    }
}

/// Returns the permutation P0 of a word (4.4).
#[inline]
fn p0(x: u32) -> u32 {
    x ^ x.rotate_left(9) ^ x.rotate_left(17)
}

/// Returns the permutation P1 of a word (4.4).
#[inline]
fn p1(x: u32) -> u32 {
    x ^ x.rotate_left(15) ^ x.rotate_left(23)
}

/// Returns word `j` of a block, which is big-endian (5.3.2).
#[inline]
fn word_at(block: &[u8; BLOCK_LENGTH], j: usize) -> u32 {
    let i = 4 * j;
    u32::from_be_bytes([block[i], block[i + 1], block[i + 2], block[i + 3]])
}

/// Returns W of index `j` from the words before it (5.3.2).
#[inline]
fn next_word(words: &[u32; WORD_COUNT], j: usize) -> u32 {
    p1(words[j - 16] ^ words[j - 9] ^ words[j - 3].rotate_left(15))
        ^ words[j - 13].rotate_left(7)
        ^ words[j - 6]
}

/// Returns W of index `j`, from the block or from the words before it (5.3.2).
#[inline]
fn word(block: &[u8; BLOCK_LENGTH], words: &[u32; WORD_COUNT], j: usize) -> u32 {
    if j < 16 {
        word_at(block, j)
    } else {
        next_word(words, j)
    }
}

/// Expands a block into its words W (5.3.2).
#[inline]
fn expand(block: &[u8; BLOCK_LENGTH]) -> [u32; WORD_COUNT] {
    let mut words = [0; WORD_COUNT];
    for j in 0..WORD_COUNT {
        words[j] = word(block, &words, j);
    }
    words
}

/// Returns the registers after round `j`, whose words are `w` and `w_prime` (5.3.3).
#[inline]
fn round(j: usize, registers: [u32; 8], w: u32, w_prime: u32) -> [u32; 8] {
    let [a, b, c, d, e, f, g, h] = registers;
    let ss1 = a
        .rotate_left(12)
        .wrapping_add(e)
        .wrapping_add(t(j).rotate_left((j % 32) as u32))
        .rotate_left(7);
    let ss2 = ss1 ^ a.rotate_left(12);
    let tt1 = ff(j, a, b, c)
        .wrapping_add(d)
        .wrapping_add(ss2)
        .wrapping_add(w_prime);
    let tt2 = gg(j, e, f, g)
        .wrapping_add(h)
        .wrapping_add(ss1)
        .wrapping_add(w);
    [
        tt1,
        a,
        b.rotate_left(9),
        c,
        p0(tt2),
        e,
        f.rotate_left(19),
        g,
    ]
}

/// Returns the compression function CF of the value V so far and the next block (5.3.3).
#[inline]
pub(crate) fn compress(value: [u32; 8], block: &[u8; BLOCK_LENGTH]) -> [u32; 8] {
    let words = expand(block);
    let mut registers = value;
    for j in 0..ROUND_COUNT {
        registers = round(j, registers, words[j], words[j] ^ words[j + 4]);
    }
    [
        registers[0] ^ value[0],
        registers[1] ^ value[1],
        registers[2] ^ value[2],
        registers[3] ^ value[3],
        registers[4] ^ value[4],
        registers[5] ^ value[5],
        registers[6] ^ value[6],
        registers[7] ^ value[7],
    ]
}
