//! Callers that pass what no good caller would.

use sleepplan::{check, sleep, Refusal};

extern "C" {
    fn bolzighes_check(text: *const u8, len: usize) -> u32;
    fn bolzighes_sleep(text: *const u8, len: usize, row: u64) -> u32;
}

const TABLE: &[u8] = b"(table 2)\n(task a (run 1) (due 4) (gap 5))\n(task b (run 1) (due 4) (gap 6))\n";
const FAR_ROWS: [u64; 8] = [2, 63, 64, u32::MAX as u64, 1 << 32, (1 << 32) + 1, 1 << 63, u64::MAX];

#[test]
fn an_empty_slice() {
    for empty in [&[][..], &TABLE[..0], &TABLE[TABLE.len()..], &Vec::new()] {
        assert_eq!(check(empty), Err(Refusal::TextLength));
        assert_eq!(sleep(empty, 0), Err(Refusal::TextLength));
        assert_eq!(sleep(empty, u64::MAX), Err(Refusal::TextLength));
    }
}

/// No slice of Rust has a null pointer, but a caller in C may pass one with length 0. include/bolzighes.h allows it.
#[test]
fn a_null_pointer_of_length_0() {
    // SAFETY: with length 0 the calls read no byte.
    unsafe {
        assert_eq!(bolzighes_check(std::ptr::null(), 0), 1);
        assert_eq!(bolzighes_sleep(std::ptr::null(), 0, 0), 1_000_001);
        assert_eq!(bolzighes_sleep(std::ptr::null(), 0, 1 << 63), 1_000_001);
    }
}

#[test]
fn rows_far_beyond_the_table() {
    assert_eq!(sleep(TABLE, 0), Ok(2));
    assert_eq!(sleep(TABLE, 1), Ok(2));
    for row in FAR_ROWS {
        assert_eq!(sleep(TABLE, row), Err(Refusal::NoSuchRow));
    }
}

#[test]
fn the_text_is_refused_before_the_row() {
    for row in FAR_ROWS {
        assert_eq!(sleep(b"(table 1)", row), Err(Refusal::LineForm));
    }
}

#[test]
fn very_long_texts() {
    let mut long = vec![b'('; 50_000_000];
    assert_eq!(check(&long), Err(Refusal::TextLength));
    long[..TABLE.len()].copy_from_slice(TABLE);
    assert_eq!(check(&long), Err(Refusal::TextLength));
    assert_eq!(sleep(&long, 0), Err(Refusal::TextLength));
    assert_eq!(check(&long[..8193]), Err(Refusal::TextLength));
    assert_eq!(check(&long[..8192]), Err(Refusal::TextAfter));
}

/// A text that is all of a block of memory, at each offset to a word's start.
#[test]
fn a_text_at_any_address() {
    for offset in 0..16 {
        let mut block = vec![0xff; offset];
        block.extend_from_slice(TABLE);
        let block = block.into_boxed_slice();
        assert_eq!(check(&block[offset..]), Ok(()));
        assert_eq!(check(&block[offset..block.len() - 1]), Err(Refusal::LineForm));
    }
}

#[test]
fn calls_from_many_threads() {
    std::thread::scope(|scope| {
        for _ in 0..8 {
            scope.spawn(|| {
                for row in (0..200).map(|turn| turn % 3) {
                    assert_eq!(sleep(TABLE, row), if row < 2 { Ok(2) } else { Err(Refusal::NoSuchRow) });
                }
            });
        }
    });
}

#[test]
fn a_refusal_reads_as_a_sentence() {
    assert_eq!(check(b"").unwrap_err().to_string(), "refusal 1: the text is empty or longer than 8,192 bytes");
}
