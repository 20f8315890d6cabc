//! The byte order of metadata.

/// How the count and the lengths of a metadata block are written, four bytes each.
///
/// The library takes any number for it, 0 for little-endian and every other for big-endian. Here it is a type of two cases, so that a
/// call says by its words which order is meant, and no number is left to be explained.
///
/// A schema in memory has the order of its machine, [`ByteOrder::NATIVE`]; a sheet that came from elsewhere has that of its maker, and
/// does not tell it. What was written in one order and is read in the other is mostly refused, with
/// [`Refusal::BadMetadata`](crate::Refusal::BadMetadata), but not always; nothing is promised for it.
///
/// ```
/// use juzontefa::{import_with_order, ByteOrder, Refusal};
///
/// let mut out = [0; 100];
/// let sheet = b"format name flags metadata children dictionary\n6e - 0 00000001000000016d0000000131 0 0\n"; // m is 1
/// let length = import_with_order(sheet, ByteOrder::BigEndian, &mut out)?;
/// assert_eq!(&out[..length], b"kind p q text more name nullable pairs children\n0 0 0 ~ ~ - 0 6d=31 0\n");
/// assert_eq!(import_with_order(sheet, ByteOrder::LittleEndian, &mut out), Err(Refusal::BadMetadata));
/// # Ok::<(), Refusal>(())
/// ```
#[derive(Debug, Clone, Copy, PartialEq, Eq, Hash)]
pub enum ByteOrder {
    /// The least significant byte first: what the calls without an order read and write.
    LittleEndian,
    /// The most significant byte first.
    BigEndian,
}

impl ByteOrder {
    /// The order of the machine that this is compiled for.
    ///
    /// ```
    /// use juzontefa::ByteOrder;
    ///
    /// assert_eq!(ByteOrder::NATIVE == ByteOrder::BigEndian, 1u32.to_ne_bytes() == [0, 0, 0, 1]);
    /// ```
    pub const NATIVE: ByteOrder = if cfg!(target_endian = "big") { ByteOrder::BigEndian } else { ByteOrder::LittleEndian };

    /// What the library's calls take for it: whether it is big-endian.
    pub(crate) const fn big(self) -> u64 {
        matches!(self, ByteOrder::BigEndian) as u64
    }
}
