//! Stands in for `types/offset.rs`, of which the seven files use nothing.
