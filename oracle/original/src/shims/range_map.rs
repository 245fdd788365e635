//! A map from offsets, each by itself, that is changed over a range.

use std::{collections::BTreeMap, ops::Range};

pub struct RangeMap<K, V>(BTreeMap<K, V>);

impl<K, V> Default for RangeMap<K, V> {
    fn default() -> Self {
        Self(BTreeMap::new())
    }
}

impl<V> RangeMap<u64, V> {
    /// Hands each offset of the range, lowest first, to `change` with what the map holds there.
    pub fn mutate_range(&mut self, range: Range<u64>, mut change: impl FnMut(Range<u64>, &mut Option<V>)) {
        for offset in range {
            let mut value = self.0.remove(&offset);
            change(offset..offset + 1, &mut value);
            if let Some(value) = value {
                self.0.insert(offset, value);
            }
        }
    }

    pub fn is_empty(&self) -> bool {
        self.0.is_empty()
    }
}
