//! The log macros, which check their arguments and write nothing.

pub use tracing_attributes::instrument;

#[macro_export]
macro_rules! trace {
    ($($message:tt)*) => {
        if false {
            let _ = ::std::format_args!($($message)*);
        }
    };
}

#[macro_export]
macro_rules! debug {
    ($($message:tt)*) => { $crate::trace!($($message)*) };
}

#[macro_export]
macro_rules! info {
    ($($message:tt)*) => { $crate::trace!($($message)*) };
}
