//! Stands in for the performance figures, which the published strategy's `perf` names; they are not worked out here.

use crate::broker::StrategySnapshot;

pub struct Frequency;

pub struct BacktestOutput;

pub struct PerformanceCalculator;

impl PerformanceCalculator {
    pub fn calculate(_frequency: Frequency, _history: Vec<StrategySnapshot>) -> BacktestOutput {
        unreachable!("no performance is worked out here")
    }
}
