//! Counters. The text only adds to them; the harness reads how leaders were decided.

use std::{
    collections::BTreeMap,
    sync::{
        atomic::{AtomicU64, Ordering},
        Arc, Mutex, PoisonError,
    },
};

/// A number that only grows.
#[derive(Clone, Default)]
pub struct Counter(Arc<AtomicU64>);

impl Counter {
    pub fn inc(&self) {
        self.inc_by(1);
    }

    pub fn inc_by(&self, amount: u64) {
        self.0.fetch_add(amount, Ordering::Relaxed);
    }

    pub fn get(&self) -> u64 {
        self.0.load(Ordering::Relaxed)
    }
}

/// A counter for each list of labels.
#[derive(Default)]
pub struct CounterVec(Mutex<BTreeMap<Vec<String>, Counter>>);

impl CounterVec {
    pub fn with_label_values(&self, labels: &[&str]) -> Counter {
        let key = labels.iter().map(|label| label.to_string()).collect();
        let mut counters = self.0.lock().unwrap_or_else(PoisonError::into_inner);
        counters.entry(key).or_default().clone()
    }

    /// The sum of the counters whose last label is this one.
    pub fn sum_of(&self, last: &str) -> u64 {
        let counters = self.0.lock().unwrap_or_else(PoisonError::into_inner);
        let chosen = counters.iter().filter(|(labels, _)| labels.last().is_some_and(|l| l == last));
        chosen.map(|(_, counter)| counter.get()).sum()
    }
}

/// A level that nobody reads.
#[derive(Default)]
pub struct Gauge;

impl Gauge {
    pub fn set(&self, _level: i64) {}
}

pub trait UtilizationTimerExt {
    fn utilization_timer(&self);
}

impl UtilizationTimerExt for Counter {
    fn utilization_timer(&self) {}
}

#[derive(Default)]
pub struct Metrics {
    pub block_store_entries: Counter,
    pub block_store_cleanup_util: Counter,
    pub block_store_unloaded_blocks: Counter,
    pub block_store_loaded_blocks: Counter,
    pub wal_mappings: Gauge,
    pub committed_leaders_total: CounterVec,
}
