//! `Result`, `bail!` and `ensure!` over a message.

#[derive(Debug)]
pub struct Report(pub String);

pub type Result<T, E = Report> = std::result::Result<T, E>;

#[macro_export]
macro_rules! bail {
    ($($message:tt)*) => {
        return ::std::result::Result::Err($crate::Report(::std::format!($($message)*)))
    };
}

#[macro_export]
macro_rules! ensure {
    ($condition:expr, $($message:tt)*) => {
        if !$condition {
            $crate::bail!($($message)*)
        }
    };
}
