//! Holds the published strategy at its own path, and stands in for `StrategyEvent`, which its cash functions answer.

#[path = "../../../published/rotala-client/src/strategy/staticweight.rs"]
pub mod staticweight;

pub enum StrategyEvent {
    DepositSuccess(f64),
    WithdrawSuccess(f64),
    WithdrawFailure(f64),
}
