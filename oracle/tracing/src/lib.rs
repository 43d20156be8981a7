//! Stand-in for the crate `tracing`: the published modules log through its `info!`, and
//! nothing of that can be seen in an answer. The text is type-checked and dropped.

/// Takes what the published modules pass to the real macro: a target, a format and its values.
#[macro_export]
macro_rules! info {
    (target: $target:expr, $($text:tt)*) => {{
        let _ = ($target, format_args!($($text)*));
    }};
}
