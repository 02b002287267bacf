//! Tests of octets that read many of them at once.
//! None of them stops at the first wrong octet: a loop without a way out is made into vectors.

/// Octets that are tested in one step of the loop.
const STEP: usize = 64;

/// Whether all are 0. The last step may look once more at octets that were seen before, so that no
/// short rest is left.
#[inline(always)]
pub fn are_zeros(octets: &[u8]) -> bool {
    let Some(last) = octets.last_chunk::<STEP>() else {
        return few_are_zeros(octets);
    };
    let any = octets.as_chunks().0.iter().fold(words_of(last), |any, step| {
        let words = words_of(step);
        std::array::from_fn(|i| any[i] | words[i])
    });
    any.iter().fold(0, |all, word| all | word) == 0
}

#[inline(always)]
fn words_of(step: &[u8; STEP]) -> [u64; STEP / 8] {
    std::array::from_fn(|i| u64::from_ne_bytes(std::array::from_fn(|j| step[8 * i + j])))
}

/// The same for fewer than a step.
#[inline(always)]
fn few_are_zeros(octets: &[u8]) -> bool {
    let (eights, rest) = octets.as_chunks::<8>();
    let any = eights.iter().fold(0, |any, eight| any | u64::from_ne_bytes(*eight));
    rest.iter().fold(any, |any, &octet| any | u64::from(octet)) == 0
}

/// Digits and the letters `A` to `F` (L3).
#[inline]
pub fn are_hex_characters(octets: &[u8]) -> bool {
    let is_wrong = |octet: u8| (octet.wrapping_sub(b'0') > 9) & (octet.wrapping_sub(b'A') > 5);
    octets.iter().fold(0, |any, &octet| any | u8::from(is_wrong(octet))) == 0
}

/// The characters that a port description may have (T10): those from space to `z` but for a few.
#[inline]
pub fn are_words(octets: &[u8]) -> bool {
    let is_wrong = |octet: u8| {
        (octet.wrapping_sub(b' ') > b'z' - b' ')
            | (octet == b'"')
            | (octet == b'&')
            | (octet == b'<')
            | (octet == b'>')
            | (octet.wrapping_sub(b'[') <= b'^' - b'[')
            | (octet == b'`')
    };
    octets.iter().fold(0, |any, &octet| any | u8::from(is_wrong(octet))) == 0
}
