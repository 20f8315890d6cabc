//! What the library told, tested before it is passed on.

use crate::raw;
use crate::{Measure, Refusal, Trip};

/// The archive told what the library cannot tell, so it is another one. There is no answer that a caller could be given, and no
/// refusal of the eighteen says it; a panic keeps it from being taken for one.
#[cold]
fn another_archive() -> ! {
    panic!("the archive linked as libjuzontefa.a is not the library of this crate")
}

/// A number of strict export, which has two of its own.
fn strictly_refused(number: u64) -> Result<(), Refusal> {
    match (number, Refusal::from_number(number)) {
        (0, _) => Ok(()),
        (_, Some(refusal)) => Err(refusal),
        (_, None) => another_archive(),
    }
}

/// A number of any other call.
pub fn refused(number: u64) -> Result<(), Refusal> {
    match strictly_refused(number) {
        Err(Refusal::ReservedKey | Refusal::WideIndex) => another_archive(),
        refused => refused,
    }
}

pub fn length_of(told: raw::Answer, room: usize) -> Result<usize, Refusal> {
    refused(told.number)?;
    length_within(told.length, room)
}

pub fn strict_length_of(told: raw::Answer, room: usize) -> Result<usize, Refusal> {
    strictly_refused(told.number)?;
    length_within(told.length, room)
}

fn length_within(length: u64, room: usize) -> Result<usize, Refusal> {
    match usize::try_from(length) {
        Ok(length) if length <= room => Ok(length),
        _ => another_archive(),
    }
}

/// 16 is none of a measure's numbers: it has no buffer.
pub fn measure_of(told: raw::Measure) -> Result<Measure, Refusal> {
    match refused(told.number) {
        Err(Refusal::NoRoom) => another_archive(),
        refused => refused?,
    }
    match (usize::try_from(told.length), usize::try_from(told.lines)) {
        (Ok(length), Ok(lines)) => Ok(Measure { length, lines }),
        _ => another_archive(),
    }
}

pub fn yes_or_no(told: raw::YesNo) -> Result<bool, Refusal> {
    refused(told.number)?;
    match told.answer {
        0 => Ok(false),
        1 => Ok(true),
        _ => another_archive(),
    }
}

pub fn trip_of(told: raw::Trip) -> Trip {
    trip(told.answer, refused(told.number))
}

/// Nothing differs in a strict one, and its two numbers are its exports'; the second export, of a plain form, does not give them.
pub fn strict_trip_of(told: raw::Trip) -> Trip {
    match trip(told.answer, strictly_refused(told.number)) {
        Trip::ImportDiffers | Trip::AgainDiffers => another_archive(),
        Trip::ImportRefused(refusal) | Trip::PlainRefused(refusal) | Trip::AgainRefused(refusal)
            if refusal > Refusal::NoRoom =>
        {
            another_archive()
        }
        trip => trip,
    }
}

fn trip(answer: u64, refused: Result<(), Refusal>) -> Trip {
    match (answer, refused) {
        (0, Ok(())) => Trip::AllSame,
        (1, Err(refusal)) => Trip::ExportRefused(refusal),
        (2, Err(refusal)) => Trip::ImportRefused(refusal),
        (3, Err(refusal)) => Trip::PlainRefused(refusal),
        (4, Err(refusal)) => Trip::AgainRefused(refusal),
        (5, Ok(())) => Trip::ImportDiffers,
        (6, Ok(())) => Trip::AgainDiffers,
        _ => another_archive(),
    }
}

#[cfg(test)]
mod tests {
    extern crate std;

    use super::*;
    use std::panic::{catch_unwind, UnwindSafe};

    /// Whether it is taken for another archive's.
    fn is_another<T>(told: impl FnOnce() -> T + UnwindSafe) -> bool {
        catch_unwind(told).is_err()
    }

    #[test]
    fn numbers() {
        assert_eq!((refused(0), strictly_refused(0)), (Ok(()), Ok(())));
        assert!((1..=16).all(|number| refused(number).is_err_and(|refusal| refusal.number() == number)));
        assert!((1..=18).all(|number| strictly_refused(number).is_err_and(|refusal| refusal.number() == number)));
        for number in [17, 18, 19, 255, 256, 257, 1 << 32, u64::MAX] {
            assert!(is_another(|| refused(number)), "{number}");
            assert!(number <= 18 || is_another(|| strictly_refused(number)), "{number}");
        }
    }

    #[test]
    fn lengths() {
        let told = |number, length| raw::Answer { number, length };
        assert_eq!(length_of(told(0, 100), 100), Ok(100));
        assert_eq!(length_of(told(16, 0), 0), Err(Refusal::NoRoom));
        assert_eq!(strict_length_of(told(0, 100), 100), Ok(100));
        assert_eq!(strict_length_of(told(17, 0), 0), Err(Refusal::ReservedKey));
        assert!(is_another(|| length_of(told(17, 0), 0)));
        assert!(is_another(|| strict_length_of(told(0, 101), 100)));
        assert!(is_another(|| length_of(told(0, 101), 100)));
        assert!(is_another(|| length_of(told(0, u64::MAX), 100)));
    }

    #[test]
    fn measures() {
        let told = |number, length, lines| raw::Measure { number, length, lines };
        assert_eq!(measure_of(told(0, 66, 1)), Ok(Measure { length: 66, lines: 1 }));
        assert_eq!(measure_of(told(6, 0, 0)), Err(Refusal::UnsupportedFormat));
        assert!(is_another(|| measure_of(told(16, 0, 0))));
        assert!(is_another(|| measure_of(told(17, 0, 0))));
    }

    #[test]
    fn yes_and_no() {
        let told = |number, answer| raw::YesNo { number, answer };
        assert_eq!(yes_or_no(told(0, 0)), Ok(false));
        assert_eq!(yes_or_no(told(0, 1)), Ok(true));
        assert_eq!(yes_or_no(told(3, 0)), Err(Refusal::TooDeep));
        assert!(is_another(|| yes_or_no(told(0, 2))));
    }

    /// Every answer, without a refusal's number and with one.
    #[test]
    fn trips() {
        let told = |answer, number| catch_unwind(|| trip_of(raw::Trip { answer, number })).ok();
        let (same, differs) = (Some(Trip::AllSame), [Some(Trip::ImportDiffers), Some(Trip::AgainDiffers)]);
        let without = [0, 1, 2, 3, 4, 5, 6, 7].map(|answer| told(answer, 0));
        assert_eq!(without, [same, None, None, None, None, differs[0], differs[1], None]);
        let refused = [Trip::ExportRefused, Trip::ImportRefused, Trip::PlainRefused, Trip::AgainRefused];
        let [export, import, plain, again] = refused.map(|trip| Some(trip(Refusal::ZeroByte)));
        let with = [0, 1, 2, 3, 4, 5, 6, 7].map(|answer| told(answer, 14));
        assert_eq!(with, [None, export, import, plain, again, None, None, None]);
    }

    /// The numbers of strict export come from the first step alone.
    #[test]
    fn strict_trips() {
        let told = |answer, number| catch_unwind(|| strict_trip_of(raw::Trip { answer, number })).ok();
        let without = [0, 1, 2, 3, 4, 5, 6, 7].map(|answer| told(answer, 0));
        assert_eq!(without, [Some(Trip::AllSame), None, None, None, None, None, None, None]);
        let with = [0, 1, 2, 3, 4, 5].map(|answer| told(answer, 18));
        assert_eq!(with, [None, Some(Trip::ExportRefused(Refusal::WideIndex)), None, None, None, None]);
        assert_eq!(told(2, 16), Some(Trip::ImportRefused(Refusal::NoRoom)));
        let present = [17, 18].map(|number| catch_unwind(|| trip_of(raw::Trip { answer: 1, number })).ok());
        assert_eq!(present, [None, None]);
    }
}
