//! A plain accumulator of a total's size, for speed alone: the measure that the library's adding and joining are held to.
//!
//! It has a total's 640 bits in limbs of 64. It does not ask what fits or is finite, and terms are counted only in joining.
use crate::pattern::FRACTION;

const LIMBS: usize = 10;

/// A two's-complement count of 2^-298, lowest limb first.
#[repr(C)]
pub struct Plain {
    limbs: [u64; LIMBS],
}

impl Plain {
    pub const CLEARED: Plain = Plain { limbs: [0; LIMBS] };

    /// The number as a total's words have it.
    pub fn words(&self) -> Vec<u32> {
        self.limbs.iter().flat_map(|&limb| [limb as u32, (limb >> 32) as u32]).collect()
    }

    /// A term is at most 48 bits, which shifted by at most 63 reach into two limbs.
    #[inline(always)]
    fn add(&mut self, sign: u32, significand: u64, place: u32) {
        let (shift, lowest) = (place & 63, (place >> 6) as usize & 7);
        let term = u128::from(significand << shift) | u128::from(significand >> 1 >> (63 - shift)) << 64;
        // Without a branch for the sign, which would be guessed wrong half the time: a negative term is its
        // complement, one more carried in, and all ones above.
        let ones = u64::from(sign).wrapping_neg();
        let term = term ^ (u128::from(ones) << 64 | u128::from(ones));
        let held = u128::from(self.limbs[lowest]) | u128::from(self.limbs[lowest + 1]) << 64;
        let (sum, over) = held.overflowing_add(term);
        let (sum, again) = sum.overflowing_add(u128::from(sign));
        self.limbs[lowest] = sum as u64;
        self.limbs[lowest + 1] = (sum >> 64) as u64;
        let above = ones.wrapping_add(u64::from(over | again));
        if above != 0 {
            self.carry(lowest + 2, above);
        }
    }

    /// Goes on with 1, or with -1, for as long as it runs. It seldom does: the two limbs have bits to spare.
    #[cold]
    fn carry(&mut self, from: usize, above: u64) {
        for limb in &mut self.limbs[from..] {
            *limb = limb.wrapping_add(above);
            // A carry ends where no 0 came out, a borrow where no -1 did.
            let stops = if above == 1 { *limb != 0 } else { *limb != u64::MAX };
            if stops {
                return;
            }
        }
    }
}

/// A finite pattern's significand, and by how many places it is raised above 2^-149.
#[inline(always)]
fn parts(x: u32) -> (u64, u32) {
    let field = x >> 23 & 0xFF;
    let normal = u32::from(field != 0);
    (u64::from(x & FRACTION | normal << 23), field - normal)
}

pub extern "C" fn add_pattern(total: &mut Plain, x: u32) {
    let (significand, raised) = parts(x);
    total.add(x >> 31, significand, 149 + raised);
}

pub extern "C" fn add_product(total: &mut Plain, x: u32, y: u32) {
    let ((a, i), (b, j)) = (parts(x), parts(y));
    total.add((x ^ y) >> 31, a * b, i + j);
}

/// A number, and how many terms are in it.
#[repr(C)]
pub struct Counted {
    pub number: Plain,
    pub count: u32,
}

impl Counted {
    pub const CLEARED: Counted = Counted { number: Plain::CLEARED, count: 0 };

    /// What a total's words hold.
    pub fn of(words: &[u32]) -> Counted {
        let limb = |i: usize| u64::from(words[2 * i]) | u64::from(words[2 * i + 1]) << 32;
        Counted { number: Plain { limbs: std::array::from_fn(limb) }, count: words[2 * LIMBS] }
    }

    /// Number and count as a total's words have them.
    pub fn words(&self) -> Vec<u32> {
        let mut words = self.number.words();
        words.push(self.count);
        words
    }
}

pub extern "C" fn join(first: &mut Counted, second: &Counted) {
    let mut carry = false;
    for (limb, other) in first.number.limbs.iter_mut().zip(&second.number.limbs) {
        let (sum, over) = limb.overflowing_add(*other);
        let (sum, again) = sum.overflowing_add(u64::from(carry));
        (*limb, carry) = (sum, over | again);
    }
    first.count = first.count.wrapping_add(second.count);
}

/// The sum that a program without care would keep.
pub extern "C" fn float_pattern(total: &mut f32, x: u32) {
    *total += f32::from_bits(x);
}

pub extern "C" fn float_product(total: &mut f32, x: u32, y: u32) {
    *total += f32::from_bits(x) * f32::from_bits(y);
}
