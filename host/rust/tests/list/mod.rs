//! The recorded list of answers, `crates/replay/stdin`; differential/ANSWERS.md has its format.

/// A call with the buffer that is lent, and what it answers.
pub struct Record {
    pub call: u64,
    pub argument: u64,
    pub room: usize,
    pub number: u64,
    pub first: u64,
    pub second: u64,
    pub input: Vec<u8>,
    pub output: Vec<u8>,
}

/// All records; ends the test where the list is not in order.
pub fn records() -> Vec<Record> {
    let path = concat!(env!("CARGO_MANIFEST_DIR"), "/../../crates/replay/stdin");
    let text = std::fs::read(path).expect("the recorded list");
    let mut rest = &text[..];
    let [count, longest_input, longest_output] = numbers(&mut rest);
    let records: Vec<Record> = (0..count).map(|_| record(&mut rest)).collect();
    assert!(rest.is_empty(), "bytes after the last record");
    assert!(records.iter().all(|record| record.input.len() as u64 <= longest_input), "an input is too long");
    assert!(records.iter().all(|record| record.output.len() as u64 <= longest_output), "an output is too long");
    records
}

fn record(rest: &mut &[u8]) -> Record {
    let [call, argument, room, number, first, second, input, output] = numbers(rest);
    let (input, output) = (part(rest, input), part(rest, output));
    Record { call, argument, room: room as usize, number, first, second, input, output }
}

fn take<'a>(rest: &mut &'a [u8], count: usize) -> &'a [u8] {
    let (taken, left) = rest.split_at_checked(count).expect("the list goes on");
    *rest = left;
    taken
}

/// A line of so many numbers.
fn numbers<const N: usize>(rest: &mut &[u8]) -> [u64; N] {
    let end = rest.iter().position(|byte| *byte == b'\n').expect("a line");
    let line = std::str::from_utf8(take(rest, end)).expect("a line of numbers");
    take(rest, 1);
    let numbers: Vec<u64> = line.split(' ').map(|word| word.parse().expect("a number")).collect();
    numbers.try_into().expect("a line of so many numbers")
}

/// So many bytes, a backslash and two digits being one of them, and a byte 10.
fn part(rest: &mut &[u8], count: u64) -> Vec<u8> {
    let next = |rest: &mut &[u8]| match take(rest, 1)[0] {
        b'\\' => {
            let digits = std::str::from_utf8(take(rest, 2)).expect("two digits");
            u8::from_str_radix(digits, 16).expect("two digits")
        }
        byte => byte,
    };
    let bytes = (0..count).map(|_| next(rest)).collect();
    assert_eq!(take(rest, 1), b"\n", "a part's end");
    bytes
}
