//! The proved library, `crates/exports/out/libexports.a`, behind the same
//! signatures as the second implementation. `host/analyser.h` says what its
//! functions promise.

use crate::replay::ReplayReply;
use crate::services::GuideReply;

// A slice of the proved library is a pointer and a length here, as in C.
unsafe extern "C" {
    fn analyser_saturate(
        case: *const u8,
        case_length: usize,
        moves: *mut u64,
        moves_length: usize,
        entries: *mut u64,
        entries_length: usize,
        moves_used: *mut u64,
        entries_used: *mut u64,
    ) -> u64;

    fn analyser_judge(
        case: *const u8,
        case_length: usize,
        start: *const u8,
        start_length: usize,
        rounds: u64,
        moves: *mut u64,
        moves_length: usize,
        entries: *mut u64,
        entries_length: usize,
        answers: *mut u16,
        answers_length: usize,
        rounds_used: *mut u64,
    ) -> u64;

    fn analyser_guide(
        case: *const u8,
        case_length: usize,
        start: *const u8,
        start_length: usize,
        number: u64,
        rounds: u64,
        moves: *mut u64,
        moves_length: usize,
        entries: *mut u64,
        entries_length: usize,
        cells: *mut u16,
        cells_length: usize,
        trace: *mut u16,
        trace_length: usize,
        steps: *mut u64,
        cells_used: *mut u64,
    ) -> u64;

    fn analyser_replay(
        case: *const u8,
        case_length: usize,
        start: *const u8,
        start_length: usize,
        number: u64,
        trace: *const u8,
        trace_length: usize,
        cells: *mut u8,
        cells_length: usize,
        step: *mut u64,
    ) -> u64;

    fn analyser_brackets(
        case: *const u8,
        case_length: usize,
        start: *const u8,
        start_length: usize,
        number: u64,
        text: *mut u8,
        text_length: usize,
        length: *mut usize,
    ) -> u64;

    fn analyser_listing(
        case: *const u8,
        case_length: usize,
        start: *const u8,
        start_length: usize,
        text: *mut u8,
    ) -> usize;
}

/// The bytes lent for a listing.
const LISTING_BYTES: usize = 4306;

/// What the printing program prints; the bytes behind it must be zero.
pub fn listing(case: &[u8], start: &[u8]) -> String {
    let mut text = [u8::MAX; LISTING_BYTES];
    // Safety: the slices are valid for their lengths, and so are the bytes lent.
    let length = unsafe {
        analyser_listing(
            case.as_ptr(),
            case.len(),
            start.as_ptr(),
            start.len(),
            text.as_mut_ptr(),
        )
    };
    assert!(text[length..].iter().all(|&byte| byte == 0));
    String::from_utf8(text[..length].to_vec()).expect("text")
}

/// As `services::saturate`.
pub fn saturate(case: &[u8], moves: &mut [u64], entries: &mut [u64]) -> (u64, u64, u64) {
    // Not zero, so that a word that is not written is noticed.
    let (mut moves_used, mut entries_used) = (u64::MAX, u64::MAX);
    // Safety: the slices are valid for their lengths, and those that are
    // written overlap nothing, since they are borrowed as mutable.
    let code = unsafe {
        analyser_saturate(
            case.as_ptr(),
            case.len(),
            moves.as_mut_ptr(),
            moves.len(),
            entries.as_mut_ptr(),
            entries.len(),
            &mut moves_used,
            &mut entries_used,
        )
    };
    (code, moves_used, entries_used)
}

/// As `services::judge`.
pub fn judge(
    case: &[u8],
    start: &[u8],
    rounds: u64,
    moves: &mut [u64],
    entries: &mut [u64],
    answers: &mut [u16],
) -> (u64, u64) {
    let mut rounds_used = u64::MAX;
    // Safety: as above.
    let code = unsafe {
        analyser_judge(
            case.as_ptr(),
            case.len(),
            start.as_ptr(),
            start.len(),
            rounds,
            moves.as_mut_ptr(),
            moves.len(),
            entries.as_mut_ptr(),
            entries.len(),
            answers.as_mut_ptr(),
            answers.len(),
            &mut rounds_used,
        )
    };
    (code, rounds_used)
}

/// As `services::guide`.
#[expect(clippy::too_many_arguments, reason = "those of the call from C")]
pub fn guide(
    case: &[u8],
    start: &[u8],
    number: u64,
    rounds: u64,
    moves: &mut [u64],
    entries: &mut [u64],
    cells: &mut [u16],
    trace: &mut [u16],
) -> GuideReply {
    let (mut steps, mut cells_used) = (u64::MAX, u64::MAX);
    // Safety: as above.
    let number = unsafe {
        analyser_guide(
            case.as_ptr(),
            case.len(),
            start.as_ptr(),
            start.len(),
            number,
            rounds,
            moves.as_mut_ptr(),
            moves.len(),
            entries.as_mut_ptr(),
            entries.len(),
            cells.as_mut_ptr(),
            cells.len(),
            trace.as_mut_ptr(),
            trace.len(),
            &mut steps,
            &mut cells_used,
        )
    };
    reply(number, steps, cells_used)
}

/// The answer of a number and two counts.
fn reply(number: u64, steps: u64, cells: u64) -> GuideReply {
    match number {
        0 => GuideReply::Arrived { steps, cells },
        256 => GuideReply::TraceFull { steps, cells },
        257 => GuideReply::CellsShort { steps, cells },
        _ => {
            assert_eq!((steps, cells), (0, 0), "counts of answer {number}");
            match number {
                258 => GuideReply::NoRun,
                259 => GuideReply::Open,
                1..=255 => GuideReply::Refused(number),
                _ => panic!("guide answers {number}"),
            }
        }
    }
}

/// As `replay::replay`.
pub fn replay(
    case: &[u8],
    start: &[u8],
    number: u64,
    trace: &[u8],
    cells: &mut [u8],
) -> ReplayReply {
    let mut step = u64::MAX;
    // Safety: as above.
    let answer = unsafe {
        analyser_replay(
            case.as_ptr(),
            case.len(),
            start.as_ptr(),
            start.len(),
            number,
            trace.as_ptr(),
            trace.len(),
            cells.as_mut_ptr(),
            cells.len(),
            &mut step,
        )
    };
    if answer == 260 {
        return ReplayReply::Fails { step };
    }
    assert_eq!(step, 0, "the step of answer {answer}");
    match answer {
        0 => ReplayReply::Accepted,
        1..=255 => ReplayReply::Refused(answer),
        _ => panic!("replay answers {answer}"),
    }
}

/// As `brackets::brackets`.
pub fn brackets(case: &[u8], start: &[u8], number: u64, text: &mut [u8]) -> (u64, usize) {
    let mut length = usize::MAX;
    // Safety: as above.
    let code = unsafe {
        analyser_brackets(
            case.as_ptr(),
            case.len(),
            start.as_ptr(),
            start.len(),
            number,
            text.as_mut_ptr(),
            text.len(),
            &mut length,
        )
    };
    (code, length)
}
