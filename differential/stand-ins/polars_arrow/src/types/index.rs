//! Stands in for `types/index.rs`, of which the seven files use nothing.
