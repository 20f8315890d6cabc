//! The recorded list: its records, written and read. `ANSWERS.md` describes the format.

use crate::answer::{Answer, Answered, Outcome};
use crate::call::{Call, Request};
use crate::compare::Case;

/// No recorded buffer is longer.
const LONGEST_BUFFER: u64 = 1 << 20;

/// A call with the buffer that is lent, and what it answers.
#[derive(Debug, Clone, PartialEq, Eq)]
pub struct Record {
    pub request: Request,
    pub room: u64,
    pub number: u64,
    /// The length, or the first value.
    pub first: u64,
    pub second: u64,
    pub input: Vec<u8>,
    /// The bytes within the length.
    pub output: Vec<u8>,
}

impl Record {
    pub fn of(request: Request, room: usize, input: &[u8], answered: &Answered) -> Record {
        let outcome = Outcome::of(answered, vec![0; room]);
        let written = matches!(answered, Ok(Answer::Sheet(_))) as u64 * outcome.first;
        Record {
            request,
            room: room as u64,
            number: outcome.number as u64,
            first: outcome.first,
            second: outcome.second,
            input: input.to_vec(),
            output: outcome.buffer[..written as usize].to_vec(),
        }
    }

    pub fn case(&self) -> Case<'_> {
        Case { request: self.request, sheet: &self.input, room: self.room as usize }
    }

    /// Whether the outcome is the recorded one: on success the output with the lent bytes after it, else zeros.
    pub fn is(&self, outcome: &Outcome, lent: &[u8]) -> bool {
        let buffer = match self.number {
            0 => [&self.output, lent.get(self.output.len()..).unwrap_or(&[])].concat(),
            _ => vec![0; lent.len()],
        };
        let numbers = (outcome.number as u64, outcome.first, outcome.second);
        numbers == (self.number, self.first, self.second) && outcome.buffer == buffer
    }

    fn write(&self, out: &mut Vec<u8>) {
        let header = [
            self.request.call.code(),
            self.request.argument,
            self.room,
            self.number,
            self.first,
            self.second,
            self.input.len() as u64,
            self.output.len() as u64,
        ];
        out.extend(header.map(|number| number.to_string()).join(" ").bytes());
        for bytes in [&b""[..], &self.input, &self.output] {
            put_escaped(bytes, out);
            out.push(b'\n');
        }
    }
}

fn put_escaped(bytes: &[u8], out: &mut Vec<u8>) {
    for byte in bytes {
        match byte {
            b'\\' => out.extend(b"\\5c"),
            b'\n' | b' '..=b'~' => out.push(*byte),
            _ => out.extend(format!("\\{byte:02x}").bytes()),
        }
    }
}

/// The first line: how many records, the longest input and the longest output.
pub fn write(records: &[Record]) -> Vec<u8> {
    let longest = |bytes: fn(&Record) -> usize| records.iter().map(bytes).max().unwrap_or(0);
    let (input, output) = (longest(|record| record.input.len()), longest(|record| record.output.len()));
    let mut out = format!("{} {input} {output}\n", records.len()).into_bytes();
    records.iter().for_each(|record| record.write(&mut out));
    out
}

/// Reads the list in one pass.
pub fn read(list: &[u8]) -> Result<Vec<Record>, String> {
    let mut reader = Reader { list, at: 0 };
    let [count, input, output] = reader.numbers().ok_or("the first line is not three numbers")?;
    let mut records = Vec::new();
    for record in 0..count {
        let record = reader.record().ok_or_else(|| format!("record {record} is not in order (byte {})", reader.at))?;
        if record.input.len() as u64 > input || record.output.len() as u64 > output {
            return Err(format!("record {} is longer than the first line says", records.len()));
        }
        records.push(record);
    }
    match reader.at == list.len() {
        true => Ok(records),
        false => Err(format!("bytes are left after {count} records")),
    }
}

struct Reader<'a> {
    list: &'a [u8],
    at: usize,
}

impl Reader<'_> {
    fn next(&mut self) -> Option<u8> {
        let byte = self.list.get(self.at).copied()?;
        self.at += 1;
        Some(byte)
    }

    /// A line of so many decimal numbers, split by one space.
    fn numbers<const N: usize>(&mut self) -> Option<[u64; N]> {
        let end = self.at + self.list[self.at..].iter().position(|byte| *byte == b'\n')?;
        let line = std::str::from_utf8(&self.list[self.at..end]).ok()?;
        self.at = end + 1;
        let numbers: Option<Vec<u64>> = line.split(' ').map(number).collect();
        numbers?.try_into().ok()
    }

    fn record(&mut self) -> Option<Record> {
        let [code, argument, room, number, first, second, input, output] = self.numbers()?;
        let call = Call::of_code(code)?;
        if room > LONGEST_BUFFER {
            return None;
        }
        let input = self.escaped(input)?;
        let output = self.escaped(output)?;
        Some(Record { request: Request::new(call, argument), room, number, first, second, input, output })
    }

    /// So many bytes and a byte 10.
    fn escaped(&mut self, count: u64) -> Option<Vec<u8>> {
        let mut bytes = Vec::new();
        for _ in 0..count {
            bytes.push(match self.next()? {
                b'\\' => self.hex_digit()? * 16 + self.hex_digit()?,
                byte @ (b'\n' | b' '..=b'~') => byte,
                _ => return None,
            });
        }
        (self.next()? == b'\n').then_some(bytes)
    }

    fn hex_digit(&mut self) -> Option<u8> {
        match self.next()? {
            digit @ b'0'..=b'9' => Some(digit - b'0'),
            digit @ b'a'..=b'f' => Some(digit - b'a' + 10),
            _ => None,
        }
    }
}

/// Digits without a sign or spare zeros.
fn number(word: &str) -> Option<u64> {
    let value = word.parse::<u64>().ok()?;
    (value.to_string() == word).then_some(value)
}
