//! The crate rotala, as far as it is ported: the published exchange and quote types.

pub mod exchange;
pub mod input;
pub mod source;
