//! Who is turned back, and why: the table of README.md.

use core::fmt;

/// Why a call gives no answer. The names are those of `crates/refusal`, the numbers those of `include/juzontefa.h`.
///
/// ```
/// use juzontefa::{Party, Refusal};
///
/// let refusal = Refusal::BadLines;
/// assert_eq!(refusal.number(), 2);
/// assert_eq!(refusal.whose(), Party::SheetMaker);
/// assert_eq!(refusal.to_string(), "a line breaks its rules, or lines are missing or left over (the sheet's maker)");
/// ```
#[derive(Debug, Clone, Copy, PartialEq, Eq, PartialOrd, Ord, Hash)]
#[repr(u8)]
pub enum Refusal {
    /// The sheet has over 65,535 bytes, a wrong heading, or no byte 10 after it.
    NotSheet = 1,
    /// A line breaks its rules, or lines are missing or left over.
    BadLines = 2,
    /// The sheet has over 32 levels.
    TooDeep = 3,
    /// A format is null.
    NullFormat = 4,
    /// A format, a name or a metadata text is not UTF-8.
    NotUtf8 = 5,
    /// A format is unsupported.
    UnsupportedFormat = 6,
    /// A number in a format is bad.
    BadNumber = 7,
    /// A decimal does not have 2 or 3 parts.
    BadDecimal = 8,
    /// A dictionary's index format is outside `c C s S i I l L`.
    BadIndex = 9,
    /// A needed child is absent.
    NoChild = 10,
    /// Metadata is cut short or has a negative length.
    BadMetadata = 11,
    /// A type has no format: Time32 in micro- or nanoseconds, Time64 in seconds or milliseconds, MonthDayMillis or Unknown.
    NoFormat = 12,
    /// The ids of a union are `-`, or `~` over no fields.
    NoUnionIds = 13,
    /// Byte 00 stands in a line's name or timezone.
    ZeroByte = 14,
    /// The mapping is undefined there, there is no such child (`inner_dtype` of other kinds too), or no such place to convert.
    UndefinedMapping = 15,
    /// The sheet that is the answer is longer than the buffer. It is tested last, though it is not the greatest number.
    NoRoom = 16,
    /// A reserved key, `ARROW:extension:name` or `ARROW:extension:metadata`, stands among the pairs of a line. Of strict export alone.
    ReservedKey = 17,
    /// A dictionary has an index of 128 bits. Of strict export alone.
    WideIndex = 18,
}

/// Whose a refusal is: who can do something about it.
///
/// ```
/// use juzontefa::{Party, Refusal};
///
/// assert_eq!(Refusal::NullFormat.whose(), Party::SchemaProducer);
/// assert_eq!(Party::SchemaProducer.text(), "the schema's producer");
/// ```
#[derive(Debug, Clone, Copy, PartialEq, Eq, PartialOrd, Ord, Hash)]
pub enum Party {
    /// Who wrote the sheet: 1 to 3.
    SheetMaker,
    /// Who made the schema that the sheet tells: 4 to 11.
    SchemaProducer,
    /// Whose field it is: 12 to 15, 17 and 18.
    FieldOwner,
    /// Who lent the buffer: 16.
    Caller,
}

impl Refusal {
    /// All of them, in the order of their numbers.
    ///
    /// ```
    /// use juzontefa::Refusal;
    ///
    /// assert_eq!(Refusal::ALL.len(), 18);
    /// assert!(Refusal::ALL.iter().all(|refusal| Refusal::from_number(refusal.number()) == Some(*refusal)));
    /// ```
    pub const ALL: [Refusal; 18] = [
        Refusal::NotSheet,
        Refusal::BadLines,
        Refusal::TooDeep,
        Refusal::NullFormat,
        Refusal::NotUtf8,
        Refusal::UnsupportedFormat,
        Refusal::BadNumber,
        Refusal::BadDecimal,
        Refusal::BadIndex,
        Refusal::NoChild,
        Refusal::BadMetadata,
        Refusal::NoFormat,
        Refusal::NoUnionIds,
        Refusal::ZeroByte,
        Refusal::UndefinedMapping,
        Refusal::NoRoom,
        Refusal::ReservedKey,
        Refusal::WideIndex,
    ];

    /// Its number, 1 to 18, as the library's calls tell it.
    ///
    /// ```
    /// assert_eq!(juzontefa::Refusal::UndefinedMapping.number(), 15);
    /// ```
    pub const fn number(self) -> u64 {
        self as u64
    }

    /// The refusal of a number; none for 0, which is no refusal, and for numbers past 18.
    ///
    /// ```
    /// use juzontefa::Refusal;
    ///
    /// assert_eq!(Refusal::from_number(16), Some(Refusal::NoRoom));
    /// assert_eq!(Refusal::from_number(0), None);
    /// assert_eq!(Refusal::from_number(19), None);
    /// ```
    pub const fn from_number(number: u64) -> Option<Refusal> {
        Some(match number {
            1 => Refusal::NotSheet,
            2 => Refusal::BadLines,
            3 => Refusal::TooDeep,
            4 => Refusal::NullFormat,
            5 => Refusal::NotUtf8,
            6 => Refusal::UnsupportedFormat,
            7 => Refusal::BadNumber,
            8 => Refusal::BadDecimal,
            9 => Refusal::BadIndex,
            10 => Refusal::NoChild,
            11 => Refusal::BadMetadata,
            12 => Refusal::NoFormat,
            13 => Refusal::NoUnionIds,
            14 => Refusal::ZeroByte,
            15 => Refusal::UndefinedMapping,
            16 => Refusal::NoRoom,
            17 => Refusal::ReservedKey,
            18 => Refusal::WideIndex,
            _ => return None,
        })
    }

    /// What it says, in the words of README.md and of the programs.
    ///
    /// ```
    /// assert_eq!(juzontefa::Refusal::NoChild.sentence(), "a needed child is absent");
    /// ```
    pub const fn sentence(self) -> &'static str {
        match self {
            Refusal::NotSheet => "the sheet has over 65,535 bytes, a wrong heading, or no byte 10 after it",
            Refusal::BadLines => "a line breaks its rules, or lines are missing or left over",
            Refusal::TooDeep => "the sheet has over 32 levels",
            Refusal::NullFormat => "a format is null",
            Refusal::NotUtf8 => "a format, a name or a metadata text is not UTF-8",
            Refusal::UnsupportedFormat => "a format is unsupported",
            Refusal::BadNumber => "a number in a format is bad",
            Refusal::BadDecimal => "a decimal does not have 2 or 3 parts",
            Refusal::BadIndex => "a dictionary's index format is outside `c C s S i I l L`",
            Refusal::NoChild => "a needed child is absent",
            Refusal::BadMetadata => "metadata is cut short or has a negative length",
            Refusal::NoFormat => {
                "a type has no format: Time32 in micro- or nanoseconds, Time64 in seconds or milliseconds, MonthDayMillis or Unknown"
            }
            Refusal::NoUnionIds => "the ids of a union are `-`, or `~` over no fields",
            Refusal::ZeroByte => "byte 00 stands in a line's name or timezone",
            Refusal::UndefinedMapping => {
                "the mapping is undefined there, there is no such child (`inner_dtype` of other kinds too), or no such place to convert"
            }
            Refusal::NoRoom => "the sheet is longer than the buffer",
            Refusal::ReservedKey => {
                "a reserved key, ARROW:extension:name or ARROW:extension:metadata, stands among the pairs of a line"
            }
            Refusal::WideIndex => "a dictionary has an index of 128 bits",
        }
    }

    /// Whose it is.
    ///
    /// ```
    /// use juzontefa::{Party, Refusal};
    ///
    /// assert_eq!(Refusal::NoRoom.whose(), Party::Caller);
    /// ```
    pub const fn whose(self) -> Party {
        match self.number() {
            1..=3 => Party::SheetMaker,
            4..=11 => Party::SchemaProducer,
            16 => Party::Caller,
            _ => Party::FieldOwner,
        }
    }
}

impl Party {
    /// The party in words.
    ///
    /// ```
    /// assert_eq!(juzontefa::Party::Caller.text(), "the caller");
    /// ```
    pub const fn text(self) -> &'static str {
        match self {
            Party::SheetMaker => "the sheet's maker",
            Party::SchemaProducer => "the schema's producer",
            Party::FieldOwner => "the field's owner",
            Party::Caller => "the caller",
        }
    }
}

impl fmt::Display for Refusal {
    fn fmt(&self, to: &mut fmt::Formatter<'_>) -> fmt::Result {
        write!(to, "{} ({})", self.sentence(), self.whose())
    }
}

impl fmt::Display for Party {
    fn fmt(&self, to: &mut fmt::Formatter<'_>) -> fmt::Result {
        to.write_str(self.text())
    }
}

impl core::error::Error for Refusal {}
