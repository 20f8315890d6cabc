//! Stands in for `datatypes/reshape.rs`, of which the seven files use nothing.
