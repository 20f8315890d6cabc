//! Stands in for `types/aligned_bytes.rs`, of which the seven files use nothing.
