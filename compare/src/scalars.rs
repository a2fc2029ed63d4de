//! Scalars to read: every short one, and numbers about each power, each cutoff and each half-way.

use crate::rng::Rng;

const SIGNS: &[u8] = b"019+-.fE_yn";

/// The bytes that tell the kinds apart.
const KIND_SIGNS: &[u8] = b"+-.09fexysno";

/// The scalar of this number among all of up to so many signs, or how far the number is past the last of them.
pub fn spelt(signs: &[u8], longest: u32, number: usize) -> Result<Vec<u8>, usize> {
    let mut left = number;
    for length in 0..=longest {
        let all = signs.len().pow(length);
        if left < all {
            let sign = |i: u32| signs[left / signs.len().pow(i) % signs.len()];
            return Ok((0..length).map(sign).collect());
        }
        left -= all;
    }
    Err(left)
}

/// The short scalars in order: all of up to three signs, then each single byte.
pub fn short(number: usize) -> Option<Vec<u8>> {
    spelt(SIGNS, 3, number).or_else(|left| u8::try_from(left).map(|byte| vec![byte])).ok()
}

/// Every scalar of up to five of the bytes that tell the kinds apart.
pub fn kinds() -> impl Iterator<Item = Vec<u8>> {
    (0..).map_while(|number| spelt(KIND_SIGNS, 5, number).ok())
}

pub fn any(rng: &mut Rng) -> Vec<u8> {
    match rng.weighted(&[30, 20, 18, 8, 8, 6, 4]) {
        0 => {
            let number = edge(rng);
            dress(rng, number.to_string())
        }
        1 => {
            let length = rng.between(13, 25);
            let digits = digits(rng, length);
            dress(rng, digits)
        }
        2 => {
            let number = half_way(rng);
            dress(rng, number.to_string())
        }
        3 => fraction(rng),
        4 => (0..rng.between(1, 8)).map(|_| *rng.pick(SIGNS)).collect(),
        5 => rng
            .pick(&[
                "yes",
                "no",
                "Yes",
                "NO",
                "ye",
                "yess",
                "n",
                "noo",
                "yes ",
                "109E4",
                "1936.1.12",
                "1e5",
                "0x10",
                "1_000",
                "--1",
                "+-1",
                "1.5.",
                ".",
                "-.",
                "+.f",
                "-f",
                "inf",
                "nan",
                "NaN",
                "\u{661}",
                "1,5",
                " 1",
                "1 ",
                "00",
                "-0",
                "+0",
                "-00.00",
                "0f",
                "f",
                "-",
            ])
            .bytes()
            .collect(),
        _ => (0..rng.between(1, 24)).map(|_| rng.below(256) as u8).collect(),
    }
}

pub fn digits(rng: &mut Rng, length: usize) -> String {
    let narrow = rng.chance(30);
    let from: &[u8] = if narrow { b"09" } else { b"0123456789" };
    (0..length).map(|_| char::from(*rng.pick(from))).collect()
}

/// A number near a power of ten, a power of two, or a place where a reading changes its answer.
fn edge(rng: &mut Rng) -> u128 {
    let edge = match rng.below(4) {
        0 => 10_u128.pow(rng.below(26) as u32),
        1 => 1 << rng.below(81),
        _ => *rng.pick(&[
            9_007_199_254_740_991,
            999_999_999_999_999,
            9_223_372_036_854_775_807,
            18_446_744_073_709_551_615,
            184_467_440_737_095_516_150,
            18_446_744_073_709_551_615 * 100,
            1_844_674_407_370_955_161,
            36_893_488_147_419_103_232,
        ]),
    };
    match rng.below(4) {
        0 => edge,
        1 => edge + rng.below(12) as u128,
        2 => edge.saturating_sub(rng.below(12) as u128),
        _ => edge * rng.between(1, 9) as u128,
    }
}

/// A number in the middle between two neighbouring floats, or one beside it.
fn half_way(rng: &mut Rng) -> u128 {
    let shift = rng.between(1, 12);
    let float = 1 << 52 | u128::from(rng.word() >> 12);
    let middle = (float << shift) + (1 << (shift - 1));
    match rng.below(4) {
        0 => middle + 1,
        1 => middle - 1,
        _ => middle,
    }
}

fn fraction(rng: &mut Rng) -> Vec<u8> {
    let (length, behind) = (rng.below(4), rng.between(17, 25));
    let whole = digits(rng, length);
    let zeros = "0".repeat(rng.below(behind + 1));
    let length = behind - zeros.len();
    let tail = digits(rng, length);
    let sign = *rng.pick(&["", "-", "+"]);
    let close = *rng.pick(&["", "", "f"]);
    format!("{sign}{whole}.{zeros}{tail}{close}").into_bytes()
}

/// A sign, zeros in front, a point somewhere, and something behind.
fn dress(rng: &mut Rng, number: String) -> Vec<u8> {
    let mut number = number;
    if rng.chance(25) {
        number.insert_str(0, &"0".repeat(rng.below(9)));
    }
    if rng.chance(45) {
        let at = rng.between(0, number.len());
        number.insert(at, '.');
    }
    let sign = *rng.pick(&["", "", "", "", "-", "-", "-", "+", "+", "+-", "a"]);
    number.insert_str(0, sign);
    if rng.chance(40) {
        number +=
            *rng.pick(&["f", "f", ".", ".0", ".f", "a", "E4", "_", "ff", ".5f", "-", " ", "0"]);
    }
    if rng.chance(4) {
        let at = rng.between(0, number.len());
        number.insert(at, *rng.pick(&['.', 'f', '-', '+', 'E', '_', 'x']));
    }
    number.into_bytes()
}
