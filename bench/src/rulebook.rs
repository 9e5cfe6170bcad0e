//! The proved library: an image of the rows, and a listing over it.
use crate::input::{Input, Kind, VALUES};

#[repr(C)]
struct Answer {
    rules: u32,
    refusal: u32,
}

unsafe extern "C" {
    fn rulebook_list(
        band: bool,
        image: *const u8,
        image_length: usize,
        target: u16,
        value: u16,
        cannot: bool,
        rules: *mut u8,
        rules_length: usize,
    ) -> Answer;
}

/// The packed log of an input: a header of 32 bytes, and 16 bytes for each row.
pub fn image(input: &Input) -> Vec<u8> {
    let mut bytes = vec![0; 32 + 16 * input.rows.len()];
    bytes[0..3].copy_from_slice(b"OBS");
    bytes[4] = 1;
    bytes[5] = input.features as u8;
    bytes[6] = 1;
    bytes[8..10].copy_from_slice(&(input.rows.len() as u16).to_be_bytes());
    bytes[16..16 + input.features].fill(input.size);
    bytes[24] = VALUES;
    for (place, row) in bytes[32..].chunks_exact_mut(16).zip(&input.rows) {
        place[0] = 1;
        place[4..12].copy_from_slice(&row.state);
        place[12] = row.outcome;
    }
    bytes
}

/// Lists the rules of a value of the target in the sense can, and answers their number.
pub fn list(kind: Kind, image: &[u8], value: u8, rules: &mut [u8]) -> usize {
    // The pointers and lengths are those of two slices, one of them lent for writing.
    let answer = unsafe {
        rulebook_list(
            kind == Kind::Band,
            image.as_ptr(),
            image.len(),
            0,
            u16::from(value),
            false,
            rules.as_mut_ptr(),
            rules.len(),
        )
    };
    assert_eq!(answer.refusal, 0, "the library refused the listing");
    answer.rules as usize
}
