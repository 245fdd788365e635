//! A shared value, equal when the values are. The original beside this keeps the serialised bytes.

use std::{fmt, ops::Deref, sync::Arc};

use minibytes::Bytes;

#[derive(PartialEq, Eq, Hash)]
pub struct Data<T> {
    value: Arc<T>,
}

impl<T> Data<T> {
    pub fn new(value: T) -> Self {
        Self { value: Arc::new(value) }
    }

    /// Always fails: nothing is read back from bytes here.
    pub fn from_bytes(_bytes: Bytes) -> bincode::Result<Self> {
        Err(bincode::Unavailable)
    }

    /// No bytes.
    pub fn serialized_bytes(&self) -> &Bytes {
        static NONE: std::sync::OnceLock<Bytes> = std::sync::OnceLock::new();
        NONE.get_or_init(Bytes::default)
    }
}

impl<T> Clone for Data<T> {
    fn clone(&self) -> Self {
        Self { value: self.value.clone() }
    }
}

impl<T> Deref for Data<T> {
    type Target = T;

    fn deref(&self) -> &T {
        &self.value
    }
}

impl<T: fmt::Debug> fmt::Debug for Data<T> {
    fn fmt(&self, f: &mut fmt::Formatter<'_>) -> fmt::Result {
        self.value.fmt(f)
    }
}
