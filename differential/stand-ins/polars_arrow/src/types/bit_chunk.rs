//! Stands in for `types/bit_chunk.rs`: the names that `types/mod.rs` exports again.

pub trait BitChunk {}

pub struct BitChunkIter;

pub struct BitChunkOnes;
