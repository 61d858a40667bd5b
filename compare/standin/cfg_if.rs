//! Stand-in for the crate `cfg_if`: the one arm whose condition holds, as items or statements.
#![no_std]

#[macro_export]
macro_rules! cfg_if {
    (if #[cfg($first:meta)] $yes:tt
        $(else if #[cfg($more:meta)] $other:tt)*
        else { $($no:tt)* }) => {
        $crate::cfg_if! { @arms () ($first) $yes $(($more) $other)* () { $($no)* } }
    };
    // `before` holds the conditions already passed: an arm counts only when none of them held.
    (@arms ($($before:meta,)*) ($now:meta) { $($body:tt)* } $($rest:tt)*) => {
        #[cfg(all($now, not(any($($before),*))))]
        $crate::cfg_if! { @same $($body)* }
        $crate::cfg_if! { @arms ($($before,)* $now,) $($rest)* }
    };
    (@arms ($($before:meta,)*) () { $($body:tt)* }) => {
        #[cfg(not(any($($before),*)))]
        $crate::cfg_if! { @same $($body)* }
    };
    (@same $($body:tt)*) => { $($body)* };
}
