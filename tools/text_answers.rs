// Writes the sums that crates/text_answers is run on, from the answers of Rust's own checks of UTF-8 and UTF-16.
//
//     rustc -O -o target/answers tools/text_answers.rs
//     target/answers > crates/text_answers/stdin
//
// The sums go to standard output, as little-endian numbers of four bytes; the counts go to standard error, a line for each
// family. The order:
//
//   1. The families: any bytes (length 1, 2), border bytes (3, 4), border units (1 to 4), bytes and zeros (0 to 6), units and
//      zeros (0 to 6); within each, by length.
//   2. In a family, the sequences as an odometer goes: the last element changes fastest, each in the order of its list below.
//   3. A block is the sequences that have all but their last two elements the same (any bytes: all but the last one). A sequence
//      of fewer elements than that leaves one block.
//   4. An answer is 0 for a text that is refused, else 1 and its length in bytes without trailing zeros (UTF-16: zero units).
//      A block's sum starts at 0, and each answer makes it sum * 31 + answer, modulo 2^32.
use std::io::Write;

const BORDER_BYTES: [u16; 37] = [
    0x00, 0x01, 0x7E, 0x7F, 0x80, 0x81, 0x8E, 0x8F, 0x90, 0x91, 0x9E, 0x9F, 0xA0, 0xA1, 0xBE, 0xBF, 0xC0, 0xC1, 0xC2, 0xC3,
    0xDE, 0xDF, 0xE0, 0xE1, 0xEB, 0xEC, 0xED, 0xEE, 0xEF, 0xF0, 0xF1, 0xF2, 0xF3, 0xF4, 0xF5, 0xFE, 0xFF,
];
const BORDER_UNITS: [u16; 15] = [
    0x0000, 0x0001, 0x0041, 0xD7FF, 0xD800, 0xD801, 0xDBFE, 0xDBFF, 0xDC00, 0xDC01, 0xDFFE, 0xDFFF, 0xE000, 0xFFFE, 0xFFFF,
];
const ZERO_BYTES: [u16; 4] = [0x00, 0x41, 0xC3, 0xA9];
const ZERO_UNITS: [u16; 5] = [0x0000, 0x0041, 0x4100, 0xD83D, 0xDE00];

fn utf8_answer(sequence: &[u16]) -> u32 {
    let bytes: Vec<u8> = sequence.iter().map(|&b| b as u8).collect();
    match std::str::from_utf8(&bytes) {
        Ok(text) => 1 + text.trim_end_matches('\0').len() as u32,
        Err(_) => 0,
    }
}

fn wide_answer(sequence: &[u16]) -> u32 {
    match String::from_utf16(sequence) {
        Ok(text) => 1 + 2 * text.trim_end_matches('\0').encode_utf16().count() as u32,
        Err(_) => 0,
    }
}

// The sum of the answers to the sequences that begin as `sequence` and have `varied` elements more, after `sum`.
fn summed(set: &[u16], answer: fn(&[u16]) -> u32, sequence: &mut Vec<u16>, varied: usize, sum: u32) -> u32 {
    if varied == 0 {
        return sum.wrapping_mul(31).wrapping_add(answer(sequence));
    }
    let mut sum = sum;
    for &element in set {
        sequence.push(element);
        sum = summed(set, answer, sequence, varied - 1, sum);
        sequence.pop();
    }
    sum
}

// The sums of the blocks that begin as `sequence` and have `fixed` elements more in common.
fn blocks(set: &[u16], answer: fn(&[u16]) -> u32, sequence: &mut Vec<u16>, fixed: usize, varied: usize, sums: &mut Vec<u32>) {
    if fixed == 0 {
        sums.push(summed(set, answer, sequence, varied, 0));
        return;
    }
    for &element in set {
        sequence.push(element);
        blocks(set, answer, sequence, fixed - 1, varied, sums);
        sequence.pop();
    }
}

fn family(name: &str, set: &[u16], answer: fn(&[u16]) -> u32, length: usize, most_varied: usize) {
    let varied = length.min(most_varied);
    let mut sums = Vec::new();
    blocks(set, answer, &mut Vec::new(), length - varied, varied, &mut sums);
    let bytes: Vec<u8> = sums.iter().flat_map(|sum| sum.to_le_bytes()).collect();
    std::io::stdout().write_all(&bytes).unwrap();
    eprintln!("{name}, length {length}: {} sequences, {} blocks", set.len().pow(length as u32), sums.len());
}

fn main() {
    let any_bytes: Vec<u16> = (0..256).collect();
    for length in 1..=2 {
        family("utf8, any bytes", &any_bytes, utf8_answer, length, 1);
    }
    for length in 3..=4 {
        family("utf8, border bytes", &BORDER_BYTES, utf8_answer, length, 2);
    }
    for length in 1..=4 {
        family("wide, border units", &BORDER_UNITS, wide_answer, length, 2);
    }
    for length in 0..=6 {
        family("utf8, bytes and zeros", &ZERO_BYTES, utf8_answer, length, 2);
    }
    for length in 0..=6 {
        family("wide, units and zeros", &ZERO_UNITS, wide_answer, length, 2);
    }
}
