//! Calls that are not made: nothing is written then.

use sleepboard::{make_calls, Alarm, AnswerRecord, Call, Unmade};

const TABLE: &[u8] = b"(table 1)\n(task a (run 1) (due 2) (gap 4))\n";
const MARK: AnswerRecord =
    AnswerRecord { now: 1, ran: 2, slept: 3, due: 4, row: 5, kind: 6, number: 7, busy: 8, rang: 9, given: 10 };

#[track_caller]
fn unmade(text: &[u8], warm: u32, places: usize, why: Unmade) {
    let mut records = vec![MARK; places];
    let calls = [Call::release(0), Call::tick(), Call::tick()];
    for alarm in [Alarm::Counter, Alarm::Divider, Alarm::TopUpOverDivider] {
        assert_eq!(make_calls(text, alarm, warm, &calls, &mut records), Err(why));
        assert!(records.iter().all(|record| *record == MARK));
    }
}

#[test]
fn too_few_places() {
    for places in 0..3 {
        unmade(TABLE, 0, places, Unmade::TooFewPlaces);
        unmade(b"", 5_000, places, Unmade::TooFewPlaces);
    }
}

#[test]
fn refused_texts() {
    unmade(b"", 0, 3, Unmade::Refused(1));
    unmade(b"", 1_001, 3, Unmade::Refused(1));
    unmade(&TABLE[..20], 0, 5, Unmade::Refused(2));
    unmade(b"(table 1)\n(task a (run 2) (due 1) (gap 4))\n", 0, 3, Unmade::Refused(4));
}

#[test]
fn warm_ups_past_their_limit() {
    unmade(TABLE, 1_001, 3, Unmade::Refused(17));
    unmade(TABLE, u32::MAX, 4, Unmade::Refused(17));
}

#[test]
fn an_alarm_that_is_none() {
    extern "C" {
        fn bolzighes_calls(
            text: *const u8,
            text_len: usize,
            alarm: u32,
            warm: u32,
            calls: *const u64,
            calls_len: usize,
            answers: *mut AnswerRecord,
            answers_len: usize,
        ) -> u32;
    }
    let mut records = [MARK; 2];
    let calls = [2u64, 2];
    for alarm in [3, 4, 1 << 31, u32::MAX] {
        for warm in [0, 9, 1_001] {
            // SAFETY: the three slices are as long as it says.
            let number = unsafe {
                bolzighes_calls(TABLE.as_ptr(), TABLE.len(), alarm, warm, calls.as_ptr(), 2, records.as_mut_ptr(), 2)
            };
            assert_eq!(number, 100);
            assert_eq!(records, [MARK; 2]);
        }
    }
    // SAFETY: with length 0 nothing is read or written.
    let number =
        unsafe { bolzighes_calls(TABLE.as_ptr(), TABLE.len(), 0, 0, std::ptr::null(), 0, std::ptr::null_mut(), 0) };
    assert_eq!(number, 0);
}
