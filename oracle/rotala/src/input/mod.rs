//! Holds the published quote types at their own path, `rotala::input::penelope`.

#[path = "../../../published/rotala/src/input/penelope.rs"]
pub mod penelope;
