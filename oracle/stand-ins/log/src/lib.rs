//! For `log`: its macros where no logger is set. Their arguments are checked and never worked out.

#[macro_export]
macro_rules! trace {
    ($($what:tt)+) => {{ let _ = || { let _ = ::std::format_args!($($what)+).to_string(); }; }};
}

#[macro_export]
macro_rules! info {
    ($($what:tt)+) => { $crate::trace!($($what)+) };
}
