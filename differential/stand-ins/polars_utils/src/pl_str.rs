//! Stands in for `polars_utils::pl_str`.
//!
//! The original keeps strings of up to 24 bytes in place and longer ones on the heap. This one does the
//! same, so that timings of the Rust do not suffer from allocations that the original does not make.

use std::borrow::Borrow;
use std::cmp::Ordering;
use std::fmt;
use std::hash::{Hash, Hasher};
use std::ops::Deref;

const INLINE: usize = 24;

#[derive(Clone)]
enum Repr {
    Inline(u8, [u8; INLINE]),
    Heap(Box<str>),
}

#[derive(Clone)]
pub struct PlSmallStr(Repr);

impl PlSmallStr {
    pub const EMPTY: Self = PlSmallStr(Repr::Inline(0, [0; INLINE]));

    /// A string that stands in the source: those of the seven files have at most 24 bytes.
    #[inline]
    pub fn from_static(text: &'static str) -> Self {
        Self::from_str(text)
    }

    // The original has this name.
    #[allow(clippy::should_implement_trait)]
    #[inline]
    pub fn from_str(text: &str) -> Self {
        let len = text.len();
        if len > INLINE {
            return PlSmallStr(Repr::Heap(text.into()));
        }
        let mut bytes = [0; INLINE];
        bytes[..len].copy_from_slice(text.as_bytes());
        PlSmallStr(Repr::Inline(len as u8, bytes))
    }

    #[inline]
    pub fn as_str(&self) -> &str {
        match &self.0 {
            // SAFETY: `from_str` is the only maker, and copies a whole `str` of this length.
            Repr::Inline(len, bytes) => unsafe { std::str::from_utf8_unchecked(&bytes[..*len as usize]) },
            Repr::Heap(text) => text,
        }
    }
}

impl Default for PlSmallStr {
    fn default() -> Self {
        Self::EMPTY
    }
}

impl Deref for PlSmallStr {
    type Target = str;

    #[inline]
    fn deref(&self) -> &str {
        self.as_str()
    }
}

impl Borrow<str> for PlSmallStr {
    fn borrow(&self) -> &str {
        self.as_str()
    }
}

impl PartialEq for PlSmallStr {
    fn eq(&self, other: &Self) -> bool {
        self.as_str() == other.as_str()
    }
}

impl Eq for PlSmallStr {}

impl PartialOrd for PlSmallStr {
    fn partial_cmp(&self, other: &Self) -> Option<Ordering> {
        Some(self.cmp(other))
    }
}

impl Ord for PlSmallStr {
    fn cmp(&self, other: &Self) -> Ordering {
        self.as_str().cmp(other.as_str())
    }
}

impl Hash for PlSmallStr {
    fn hash<H: Hasher>(&self, state: &mut H) {
        self.as_str().hash(state)
    }
}

impl fmt::Debug for PlSmallStr {
    fn fmt(&self, f: &mut fmt::Formatter<'_>) -> fmt::Result {
        fmt::Debug::fmt(self.as_str(), f)
    }
}
