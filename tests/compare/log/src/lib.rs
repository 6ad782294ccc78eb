//! Stands in for the crate `log`: the macros that the oracle's files use. Nothing is printed.

pub enum Level {
    Trace,
}

/// Checks its arguments and does nothing.
#[macro_export]
macro_rules! debug {
    ($($argument:tt)*) => {
        if false {
            let _ = format_args!($($argument)*);
        }
    };
}

/// Checks its arguments and does nothing.
#[macro_export]
macro_rules! trace {
    ($($argument:tt)*) => {
        $crate::debug!($($argument)*)
    };
}

#[macro_export]
macro_rules! log_enabled {
    ($level:expr) => {{
        let _ = $level;
        false
    }};
}
