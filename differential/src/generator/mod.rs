//! Sheets of both kinds from a seed: valid ones of every kind and shape, faulty ones, the limits, and damaged copies.

mod damage;
mod field;
pub mod limits;
pub mod published;
mod random;
mod schema;
mod strict;
mod texts;

use crate::call::Order;
pub use random::Random;
use schema::Plan;

pub type Bytes = Vec<u8>;

/// A line's columns.
pub type Line = Vec<Bytes>;

#[derive(Debug, Clone, Copy, PartialEq, Eq)]
pub enum Kind {
    Schema,
    Field,
}

pub struct Sheet {
    pub kind: Kind,
    pub bytes: Bytes,
}

const SCHEMA_HEADING: &[u8] = b"format name flags metadata children dictionary\n";
const FIELD_HEADING: &[u8] = b"kind p q text more name nullable pairs children\n";

pub fn hex(bytes: &[u8]) -> Bytes {
    bytes.iter().flat_map(|byte| format!("{byte:02x}").into_bytes()).collect()
}

/// A text's column.
pub fn hex_text(text: Option<&[u8]>) -> Bytes {
    match text {
        None => b"~".to_vec(),
        Some(b"") => b"-".to_vec(),
        Some(bytes) => hex(bytes),
    }
}

pub fn decimal_text(number: impl std::fmt::Display) -> Bytes {
    number.to_string().into_bytes()
}

/// A metadata block, as document 01 has it, in an order.
pub fn block(pairs: &[(Bytes, Bytes)], order: Order) -> Bytes {
    let mut block = word(pairs.len() as i32, order).to_vec();
    for side in pairs.iter().flat_map(|(key, value)| [key, value]) {
        block.extend(word(side.len() as i32, order));
        block.extend(side);
    }
    block
}

/// A count or a length of a block.
fn word(value: i32, order: Order) -> [u8; 4] {
    match order {
        Order::Little => value.to_le_bytes(),
        Order::Big => value.to_be_bytes(),
    }
}

/// The sheet of some lines.
pub fn join_lines(kind: Kind, lines: &[Line]) -> Bytes {
    let mut sheet = match kind {
        Kind::Schema => SCHEMA_HEADING.to_vec(),
        Kind::Field => FIELD_HEADING.to_vec(),
    };
    for line in lines {
        sheet.extend(line.join(&b' '));
        sheet.push(b'\n');
    }
    sheet
}

pub struct Generator {
    pub random: Random,
    /// Sheets at the limits of length are slow: one of so many sheets is one.
    long_one_in: usize,
    /// Whether field sheets have names about as long as a page shows. The recorded list was begun without them.
    long_names: bool,
    /// Whether a third of the schema sheets have big-endian blocks. The recorded list was begun without these too.
    both_orders: bool,
    /// Whether a sixth of the field sheets are rich in what strict export refuses. The recorded list was begun without these too.
    strict_causes: bool,
}

impl Generator {
    pub fn new(seed: u64) -> Generator {
        let random = Random::new(seed);
        Generator { random, long_one_in: 400, long_names: true, both_orders: true, strict_causes: true }
    }

    /// Without the sheets of tens of thousands of bytes, without the long names, the big-endian blocks and the causes.
    pub fn short(seed: u64) -> Generator {
        let random = Random::new(seed);
        Generator { random, long_one_in: 0, long_names: false, both_orders: false, strict_causes: false }
    }

    /// `short`, but with the long names.
    pub fn short_with_long_names(seed: u64) -> Generator {
        Generator { long_names: true, ..Generator::short(seed) }
    }

    /// `short`, but with the big-endian blocks.
    pub fn short_with_both_orders(seed: u64) -> Generator {
        Generator { both_orders: true, ..Generator::short(seed) }
    }

    pub fn sheet(&mut self) -> Sheet {
        let kind = if self.random.chance(1, 2) { Kind::Schema } else { Kind::Field };
        self.sheet_of(kind)
    }

    pub fn sheet_of(&mut self, kind: Kind) -> Sheet {
        if kind == Kind::Field && self.strict_causes && self.random.chance(1, 6) {
            return self.strict_sheet();
        }
        let order = self.order(kind);
        if self.long_one_in > 0 && self.random.chance(1, self.long_one_in) {
            return Sheet { kind, bytes: self.long_sheet(kind, order) };
        }
        let mut lines = match self.random.below(40) {
            0 | 1 => {
                let levels = self.random.between(30, 35);
                limits::levels(&mut self.random, kind, levels)
            }
            2 => limits::huge_counts(&mut self.random, kind),
            3..=5 if kind == Kind::Schema => schema::format_alone(&mut self.random),
            _ => self.tree(kind, order),
        };
        if kind == Kind::Field && self.long_names {
            field::lengthen_names(&mut self.random, &mut lines);
        }
        self.damaged(kind, lines)
    }

    /// The sheet of the lines; four of ten are damaged in some way.
    fn damaged(&mut self, kind: Kind, mut lines: Vec<Line>) -> Sheet {
        let damaged = self.random.below(10);
        match damaged {
            0 => damage::damage_lines(&mut self.random, &mut lines),
            1 => damage::damage_column(&mut self.random, &mut lines),
            2 => damage::break_rule(&mut self.random, &mut lines),
            _ => {}
        }
        let mut bytes = join_lines(kind, &lines);
        match damaged {
            3 => damage::damage_bytes(&mut self.random, &mut bytes),
            4 if self.random.chance(1, 8) => damage::damage_heading(&mut self.random, &mut bytes),
            _ => {}
        }
        Sheet { kind, bytes }
    }

    /// A field sheet that is rich in what strict export refuses, and in what looks like it; damaged as others are.
    pub fn strict_sheet(&mut self) -> Sheet {
        let lines = self.strict_lines();
        self.damaged(Kind::Field, lines)
    }

    /// The same without damage.
    pub fn strict_field(&mut self) -> Bytes {
        join_lines(Kind::Field, &self.strict_lines())
    }

    fn strict_lines(&mut self) -> Vec<Line> {
        let random = &mut self.random;
        let mut lines = match random.below(12) {
            _ if self.long_one_in > 0 && random.chance(1, self.long_one_in) => strict::wide(random),
            0 => {
                let levels = random.between(30, 35);
                limits::levels(random, Kind::Field, levels)
            }
            _ => strict::lines(random),
        };
        strict::enrich(random, &mut lines);
        lines
    }

    /// The order of a sheet's blocks; a field sheet has none.
    fn order(&mut self, kind: Kind) -> Order {
        match self.both_orders && kind == Kind::Schema && self.random.chance(1, 3) {
            true => Order::Big,
            false => Order::Little,
        }
    }

    /// A tree of a few lines, faultless or with faults here and there.
    fn tree(&mut self, kind: Kind, order: Order) -> Vec<Line> {
        let lines = self.random.pick(&[1, 1, 2, 3, 4, 6, 10, 20]);
        let fault = self.random.pick(&[0, 0, 0, 30, 12, 5]);
        let plan = Plan { lines, fault, order };
        match kind {
            Kind::Schema => schema::schema(&mut self.random, plan),
            Kind::Field => field::field(&mut self.random, plan),
        }
    }

    /// A sheet at the limit of length, or of thousands of levels.
    fn long_sheet(&mut self, kind: Kind, order: Order) -> Bytes {
        match self.random.below(6) {
            0 => {
                let levels = self.random.between(100, 3_000);
                let mut lines = limits::levels(&mut self.random, kind, levels);
                if self.random.chance(1, 2) {
                    damage::damage_lines(&mut self.random, &mut lines);
                }
                join_lines(kind, &lines)
            }
            1 => limits::sized(&mut self.random, kind, 65_535),
            2 => limits::sized(&mut self.random, kind, 65_536),
            3 => {
                let pairs = self.random.between(100, 2_950);
                join_lines(kind, &limits::many_pairs(&mut self.random, kind, pairs, order))
            }
            4 => {
                let ids = self.random.between(100, 3_000);
                join_lines(kind, &limits::many_ids(&mut self.random, kind, ids))
            }
            _ => {
                let bytes = self.random.between(60_000, 66_000);
                limits::sized(&mut self.random, kind, bytes)
            }
        }
    }

    /// A faultless field, and one that differs from it in a point or two.
    pub fn two_fields(&mut self) -> (Bytes, Bytes) {
        let lines = self.random.pick(&[1, 2, 3, 5, 8, 14]);
        let mut field = field::field(&mut self.random, Plan { lines, fault: 0, order: Order::Little });
        let first = join_lines(Kind::Field, &field);
        for _ in 0..self.random.between(1, 2) {
            damage::vary(&mut self.random, &mut field);
        }
        (first, join_lines(Kind::Field, &field))
    }
}
