//! The crate rotala-client, as far as it is ported: the published broker, strategy and schedule.
//! The warnings allowed are about the published lines, which are not to be changed.

#[allow(unused, irrefutable_let_patterns)]
#[path = "../../published/rotala-client/src/broker/mod.rs"]
pub mod broker;
pub mod perf;
#[path = "../../published/rotala-client/src/schedule/mod.rs"]
pub mod schedule;
pub mod strategy;
