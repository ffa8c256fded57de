//! Holds the published exchange at its own path, `rotala::exchange::uist_v1`.

pub mod uist_v1;
