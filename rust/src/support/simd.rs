//! Bytes side by side, sixteen at a time, in words of eight: on each target, and without `unsafe`.

const HIGH: u64 = 0x8080_8080_8080_8080;
const LOW: u64 = 0x0101_0101_0101_0101;

/// Sixteen bytes. The first is the lowest of the first word.
#[allow(non_camel_case_types)]
#[derive(Clone, Copy)]
pub(crate) struct u8x16([u64; 2]);

/// A truth value for each lane: its highest bit.
#[derive(Clone, Copy)]
pub(crate) struct Mask([u64; 2]);

#[inline(always)]
fn word(bytes: &[u8], at: usize) -> u64 {
    let mut part = [0; 8];
    part.copy_from_slice(&bytes[at..at + 8]);
    u64::from_le_bytes(part)
}

/// A lane's highest bit where the first is at least the second.
#[cfg(feature = "alloc")]
#[inline(always)]
const fn at_least(a: u64, b: u64) -> u64 {
    let lower = (a | HIGH).wrapping_sub(b & !HIGH);
    ((a & !b) | (!(a ^ b) & lower)) & HIGH
}

/// A lane's highest bit where the lane is zero.
#[inline(always)]
const fn zeros(a: u64) -> u64 {
    !(((a & !HIGH) + !HIGH) | a) & HIGH
}

/// The bytes at even places, in the lower half.
#[cfg(feature = "alloc")]
#[inline(always)]
const fn even(a: u64) -> u64 {
    let a = a & 0x00ff_00ff_00ff_00ff;
    let a = (a | a >> 8) & 0x0000_ffff_0000_ffff;
    (a | a >> 16) & 0xffff_ffff
}

/// The highest bits of eight lanes, side by side.
#[inline(always)]
const fn gathered(a: u64) -> u64 {
    (a >> 7).wrapping_mul(0x0102_0408_1020_4080) >> 56
}

impl u8x16 {
    #[inline(always)]
    fn each(self, other: u8x16, f: impl Fn(u64, u64) -> u64) -> [u64; 2] {
        [f(self.0[0], other.0[0]), f(self.0[1], other.0[1])]
    }

    #[inline(always)]
    pub const fn splat(byte: u8) -> u8x16 {
        u8x16([byte as u64 * LOW; 2])
    }

    /// The first sixteen bytes, which have to be there.
    #[inline(always)]
    pub fn from_slice(bytes: &[u8]) -> u8x16 {
        let part = &bytes[..16];
        u8x16([word(part, 0), word(part, 8)])
    }

    #[cfg(feature = "alloc")]
    #[inline(always)]
    pub fn copy_to_slice(self, out: &mut [u8]) {
        let part = &mut out[..16];
        part[..8].copy_from_slice(&self.0[0].to_le_bytes());
        part[8..].copy_from_slice(&self.0[1].to_le_bytes());
    }

    /// The lanes at even places of both, and those at odd places.
    #[cfg(feature = "alloc")]
    #[inline(always)]
    pub fn deinterleave(self, other: u8x16) -> (u8x16, u8x16) {
        let ([a, b], [c, d]) = (self.0, other.0);
        (
            u8x16([even(a) | even(b) << 32, even(c) | even(d) << 32]),
            u8x16([
                even(a >> 8) | even(b >> 8) << 32,
                even(c >> 8) | even(d >> 8) << 32,
            ]),
        )
    }

    #[inline(always)]
    pub fn simd_eq(self, other: u8x16) -> Mask {
        Mask(self.each(other, |a, b| zeros(a ^ b)))
    }

    #[cfg(feature = "alloc")]
    #[inline(always)]
    pub fn simd_ge(self, other: u8x16) -> Mask {
        Mask(self.each(other, at_least))
    }

    #[cfg(feature = "alloc")]
    #[inline(always)]
    pub fn simd_lt(self, other: u8x16) -> Mask {
        Mask(self.each(other, |a, b| !at_least(a, b) & HIGH))
    }
}

impl core::ops::Add for u8x16 {
    type Output = u8x16;

    #[inline(always)]
    fn add(self, other: u8x16) -> u8x16 {
        u8x16(self.each(other, |a, b| ((a & !HIGH) + (b & !HIGH)) ^ ((a ^ b) & HIGH)))
    }
}

impl core::ops::Sub for u8x16 {
    type Output = u8x16;

    #[inline(always)]
    fn sub(self, other: u8x16) -> u8x16 {
        u8x16(self.each(other, |a, b| {
            (a | HIGH).wrapping_sub(b & !HIGH) ^ ((a ^ !b) & HIGH)
        }))
    }
}

impl core::ops::Mul for u8x16 {
    type Output = u8x16;

    #[inline(always)]
    fn mul(self, other: u8x16) -> u8x16 {
        u8x16(self.each(other, |a, b| {
            let (a, b) = (a.to_le_bytes(), b.to_le_bytes());
            let mut lanes = [0; 8];
            for i in 0..8 {
                lanes[i] = a[i].wrapping_mul(b[i]);
            }
            u64::from_le_bytes(lanes)
        }))
    }
}

impl core::ops::BitOr for u8x16 {
    type Output = u8x16;

    #[inline(always)]
    fn bitor(self, other: u8x16) -> u8x16 {
        u8x16(self.each(other, |a, b| a | b))
    }
}

impl core::ops::BitAnd for Mask {
    type Output = Mask;

    #[inline(always)]
    fn bitand(self, other: Mask) -> Mask {
        Mask([self.0[0] & other.0[0], self.0[1] & other.0[1]])
    }
}

impl core::ops::BitOr for Mask {
    type Output = Mask;

    #[inline(always)]
    fn bitor(self, other: Mask) -> Mask {
        Mask([self.0[0] | other.0[0], self.0[1] | other.0[1]])
    }
}

impl Mask {
    /// A bit for each lane, the first lane's lowest.
    #[inline(always)]
    pub fn to_bitmask(self) -> u64 {
        // Most blocks have no lane that is sought.
        if self.0[0] | self.0[1] == 0 {
            return 0;
        }
        gathered(self.0[0]) | gathered(self.0[1]) << 8
    }

    #[cfg(feature = "alloc")]
    #[inline(always)]
    pub fn select(self, yes: u8x16, no: u8x16) -> u8x16 {
        let all = self.0.map(|bits| (bits << 1).wrapping_sub(bits >> 7));
        u8x16([
            (all[0] & yes.0[0]) | (!all[0] & no.0[0]),
            (all[1] & yes.0[1]) | (!all[1] & no.0[1]),
        ])
    }
}

/// Thirty-two bytes.
#[allow(non_camel_case_types)]
#[derive(Clone, Copy)]
pub(crate) struct u8x32([u64; 4]);

impl u8x32 {
    /// The first thirty-two bytes, which have to be there.
    #[inline(always)]
    pub fn from_slice(bytes: &[u8]) -> u8x32 {
        let part = &bytes[..32];
        u8x32([word(part, 0), word(part, 8), word(part, 16), word(part, 24)])
    }
}

/// Sixteen units of two bytes, little-endian.
#[allow(non_camel_case_types)]
#[derive(Clone, Copy)]
pub(crate) struct u16x16([u64; 4]);

/// A truth value for each unit: its highest bit.
#[derive(Clone, Copy)]
pub(crate) struct UnitMask([u64; 4]);

const HIGH_UNIT: u64 = 0x8000_8000_8000_8000;

impl u16x16 {
    #[inline(always)]
    pub fn splat(unit: u16) -> u16x16 {
        u16x16([unit as u64 * 0x0001_0001_0001_0001; 4])
    }

    #[inline(always)]
    pub fn from_le_bytes(bytes: u8x32) -> u16x16 {
        u16x16(bytes.0)
    }

    #[inline(always)]
    pub fn simd_eq(self, other: u16x16) -> UnitMask {
        let same = |i: usize| {
            let a = self.0[i] ^ other.0[i];
            !(((a & !HIGH_UNIT) + !HIGH_UNIT) | a) & HIGH_UNIT
        };
        UnitMask([same(0), same(1), same(2), same(3)])
    }
}

impl UnitMask {
    /// A bit for each unit, the first unit's lowest.
    #[inline(always)]
    pub fn to_bitmask(self) -> u64 {
        if self.0[0] | self.0[1] | self.0[2] | self.0[3] == 0 {
            return 0;
        }
        // Of each lane the bits of the four words side by side, then four apart, then lane after lane.
        let [a, b, c, d] = self.0;
        let bits = a >> 15 | b >> 14 | c >> 13 | d >> 12;
        let bits = (bits | bits << 6) & 0x0303_0303_0303_0303;
        let bits = (bits | bits << 3) & 0x1111_1111_1111_1111;
        bits.wrapping_mul(0x0001_0002_0004_0008) >> 48
    }
}

pub(crate) mod prelude {
    pub(crate) use super::{u8x16, u8x32, u16x16};
}

#[cfg(all(test, feature = "alloc"))]
mod tests {
    use super::*;

    fn lanes(f: impl Fn(usize) -> u8) -> [u8; 16] {
        core::array::from_fn(f)
    }

    fn out(x: u8x16) -> [u8; 16] {
        let mut lanes = [0; 16];
        x.copy_to_slice(&mut lanes);
        lanes
    }

    /// Each operation on each pair of bytes, beside other pairs, is that of Rust on each lane.
    #[test]
    fn lanes_are_apart() {
        for a in 0..=255u8 {
            for b in 0..=255u8 {
                let x = lanes(|i| a.wrapping_add((i as u8).wrapping_mul(77)));
                let y = lanes(|i| b.wrapping_sub((i as u8).wrapping_mul(i as u8)));
                let (p, q) = (u8x16::from_slice(&x), u8x16::from_slice(&y));
                let bits = |f: &dyn Fn(u8, u8) -> bool| {
                    (0..16).fold(0, |m, i| m | (f(x[i], y[i]) as u64) << i)
                };
                assert_eq!(out(p + q), lanes(|i| x[i].wrapping_add(y[i])));
                assert_eq!(out(p - q), lanes(|i| x[i].wrapping_sub(y[i])));
                assert_eq!(out(p * q), lanes(|i| x[i].wrapping_mul(y[i])));
                assert_eq!(out(p | q), lanes(|i| x[i] | y[i]));
                assert_eq!(p.simd_eq(q).to_bitmask(), bits(&|a, b| a == b));
                assert_eq!(p.simd_ge(q).to_bitmask(), bits(&|a, b| a >= b));
                assert_eq!(p.simd_lt(q).to_bitmask(), bits(&|a, b| a < b));
                assert_eq!(
                    (p.simd_lt(q) | p.simd_eq(q)).to_bitmask(),
                    bits(&|a, b| a <= b)
                );
                assert_eq!(
                    (p.simd_ge(q) & p.simd_eq(q)).to_bitmask(),
                    bits(&|a, b| a == b)
                );
                assert_eq!(out(p.simd_lt(q).select(p, q)), lanes(|i| x[i].min(y[i])));
                let all: [u8; 32] = core::array::from_fn(|i| if i < 16 { x[i] } else { y[i - 16] });
                let (even, odd) = p.deinterleave(q);
                assert_eq!(out(even), lanes(|i| all[2 * i]));
                assert_eq!(out(odd), lanes(|i| all[2 * i + 1]));
                let unit = |i: usize| u16::from_le_bytes([all[2 * i], all[2 * i + 1]]);
                let units = u16x16::from_le_bytes(u8x32::from_slice(&all));
                for k in [0, unit(3), unit(15)] {
                    let want = (0..16).fold(0, |m, i| m | ((unit(i) == k) as u64) << i);
                    assert_eq!(units.simd_eq(u16x16::splat(k)).to_bitmask(), want);
                }
            }
        }
    }
}
