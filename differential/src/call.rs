//! The calls, their names and codes, and what a call is asked with.

use std::fmt;

/// In the order of their codes in the recorded list.
#[derive(Debug, Clone, Copy, PartialEq, Eq)]
pub enum Call {
    Import,
    Export,
    Plain,
    ToPhysicalType,
    UnderlyingPhysicalType,
    ToStorage,
    ToStorageRecursive,
    InnerDtype,
    GetChild,
    IsNested,
    ContainsDictionary,
    FromIntegerType,
    FromPrimitiveType,
    Page,
    MeasureImport,
    MeasureExport,
    StrictExport,
}

pub const CALLS: [(Call, &str); 17] = [
    (Call::Import, "import"),
    (Call::Export, "export"),
    (Call::Plain, "plain"),
    (Call::ToPhysicalType, "to_physical_type"),
    (Call::UnderlyingPhysicalType, "underlying_physical_type"),
    (Call::ToStorage, "to_storage"),
    (Call::ToStorageRecursive, "to_storage_recursive"),
    (Call::InnerDtype, "inner_dtype"),
    (Call::GetChild, "get_child"),
    (Call::IsNested, "is_nested"),
    (Call::ContainsDictionary, "contains_dictionary"),
    (Call::FromIntegerType, "from_integer_type"),
    (Call::FromPrimitiveType, "from_primitive_type"),
    (Call::Page, "page"),
    (Call::MeasureImport, "measure_import"),
    (Call::MeasureExport, "measure_export"),
    (Call::StrictExport, "strict_export"),
];

/// What a call takes besides the buffer.
#[derive(Debug, Clone, Copy, PartialEq, Eq)]
pub enum Input {
    SchemaSheet,
    FieldSheet,
    /// No sheet: the argument is the place.
    Place,
}

impl Call {
    pub fn code(self) -> u64 {
        self as u64
    }

    pub fn of_code(code: u64) -> Option<Call> {
        CALLS.iter().map(|(call, _)| *call).find(|call| call.code() == code)
    }

    pub fn name(self) -> &'static str {
        CALLS[self as usize].1
    }

    pub fn named(name: &str) -> Option<Call> {
        CALLS.iter().find(|(_, n)| *n == name).map(|(call, _)| *call)
    }

    pub fn input(self) -> Input {
        match self {
            Call::Import | Call::MeasureImport => Input::SchemaSheet,
            Call::FromIntegerType | Call::FromPrimitiveType => Input::Place,
            _ => Input::FieldSheet,
        }
    }

    /// Whether the call takes an index or a place.
    pub fn takes_argument(self) -> bool {
        matches!(self, Call::GetChild | Call::FromIntegerType | Call::FromPrimitiveType)
    }

    /// The conversion whose answer the call measures, if it measures one (document 02, #105).
    pub fn measured(self) -> Option<Call> {
        match self {
            Call::MeasureImport => Some(Call::Import),
            Call::MeasureExport => Some(Call::Export),
            _ => None,
        }
    }

    /// Whether the call reads or writes metadata blocks, or measures what does, and so takes their byte order.
    pub fn takes_order(self) -> bool {
        matches!(self.measured().unwrap_or(self), Call::Import | Call::Export | Call::StrictExport)
    }

    /// Whether the call writes a sheet or a page; the others answer numbers and have no buffer.
    pub fn writes(self) -> bool {
        !matches!(self, Call::ToPhysicalType | Call::IsNested | Call::ContainsDictionary) && self.measured().is_none()
    }

    /// Whether an answer is never longer than its sheet, as `include/juzontefa.h` says of the mappings from sheet to sheet.
    pub fn never_lengthens(self) -> bool {
        let lengthens = matches!(self, Call::Import | Call::Export | Call::StrictExport | Call::Plain | Call::Page);
        self.writes() && self.input() != Input::Place && !lengthens
    }
}

/// The byte order of the count and the lengths in a metadata block (document 02, #104).
#[derive(Debug, Clone, Copy, PartialEq, Eq)]
pub enum Order {
    Little,
    Big,
}

pub const ORDERS: [Order; 2] = [Order::Little, Order::Big];

/// Some of the numbers that mean big-endian: every number but 0 does.
pub const BIG_NUMBERS: [u64; 4] = [1, 2, 255, u64::MAX];

impl Order {
    pub fn of_number(number: u64) -> Order {
        match number {
            0 => Order::Little,
            _ => Order::Big,
        }
    }

    /// The number that the recorded list has for it.
    pub fn number(self) -> u64 {
        self as u64
    }

    pub fn name(self) -> &'static str {
        match self {
            Order::Little => "little-endian",
            Order::Big => "big-endian",
        }
    }
}

/// A call with its index or place, or the number of its byte order; 0 where it takes none of these.
#[derive(Debug, Clone, Copy, PartialEq, Eq)]
pub struct Request {
    pub call: Call,
    pub argument: u64,
}

impl Request {
    pub fn new(call: Call, argument: u64) -> Request {
        Request { call, argument }
    }

    /// The call under the order of this number, where it takes one.
    pub fn under(call: Call, order: u64) -> Request {
        Request::new(call, if call.takes_order() { order } else { 0 })
    }

    /// Little-endian for a call that takes no order.
    pub fn order(self) -> Order {
        match self.call.takes_order() {
            true => Order::of_number(self.argument),
            false => Order::Little,
        }
    }

    pub fn is_big(self) -> bool {
        self.order() == Order::Big
    }

    /// What is measured, under the same order.
    pub fn measured(self) -> Option<Request> {
        self.call.measured().map(|call| Request::new(call, self.argument))
    }

    /// The conversion that a part of the answer comes from, under the same order: what is measured, and for strict export the present
    /// one (document 02, #106).
    pub fn rests_on(self) -> Option<Request> {
        match self.call {
            Call::StrictExport => Some(Request::new(Call::Export, self.argument)),
            _ => self.measured(),
        }
    }

    /// Plain form, the page, the measures and strict export are not in the Rust, and it takes the machine's order, which is
    /// little-endian: what it has not is answered by the plain reading.
    pub fn is_in_rust(self) -> bool {
        !matches!(self.call, Call::Plain | Call::Page) && self.rests_on().is_none() && !self.is_big()
    }

    /// Whether the Rust has the call, or what it rests on, and so a part of the answer.
    pub fn is_partly_in_rust(self) -> bool {
        self.rests_on().unwrap_or(self).is_in_rust()
    }
}

/// The call's name, with the order if that is big-endian.
impl fmt::Display for Request {
    fn fmt(&self, f: &mut fmt::Formatter<'_>) -> fmt::Result {
        match self.is_big() {
            true => f.pad(&format!("{}, {}", self.call.name(), Order::Big.name())),
            false => f.pad(self.call.name()),
        }
    }
}
