//! How a C entry point is called: the one place of this crate with an `unsafe` call of C.

/// Calls a C entry point. `in SLICE` and `mut SLICE` are passed as a pointer and a length, and every other argument
/// as it is. The value is what the function returns.
macro_rules! call {
    ($function:ident($($arguments:tt)*)) => {
        $crate::ffi::call!(@ $function [] $($arguments)*,)
    };
    (@ $function:ident [$($passed:expr,)*]) => {
        // SAFETY: each pointer is that of a slice, with its length. What the function writes is a mutable borrow that
        // lasts until it returns, so nothing else refers to it. The function keeps no pointer.
        unsafe { $crate::entry::$function($($passed),*) }
    };
    (@ $function:ident [$($passed:expr,)*] in $slice:expr, $($rest:tt)*) => {{
        let slice: &[_] = $slice;
        $crate::ffi::call!(@ $function [$($passed,)* slice.as_ptr(), slice.len(),] $($rest)*)
    }};
    (@ $function:ident [$($passed:expr,)*] mut $slice:expr, $($rest:tt)*) => {{
        let slice: &mut [_] = $slice;
        $crate::ffi::call!(@ $function [$($passed,)* slice.as_mut_ptr(), slice.len(),] $($rest)*)
    }};
    (@ $function:ident [$($passed:expr,)*] $number:expr, $($rest:tt)*) => {{
        let number = $number;
        $crate::ffi::call!(@ $function [$($passed,)* number,] $($rest)*)
    }};
}

pub(crate) use call;
