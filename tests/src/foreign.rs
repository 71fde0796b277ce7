//! Calls of C, each with its parameters written once.

/// Calls a function of C by its name, and gives its number. What it takes is in scope by the
/// names in the list, and typed there as Rust lends it: a slice is handed over as its pointer
/// and its length, a place as its pointer, and a number as it is.
///
/// That the list is the one of the C header is up to whoever writes it.
#[macro_export]
macro_rules! call_c {
    ($call:ident($($list:tt)*)) => {
        $crate::call_c!(@ $call, [], [], $($list)*,)
    };
    (@ $call:ident, [$($types:tt)*], [$($handed:tt)*], $lent:ident: &mut [$of:ty], $($rest:tt)*) => {
        $crate::call_c!(@ $call, [$($types)* *mut $of, usize,],
            [$($handed)* $lent.as_mut_ptr(), $lent.len(),], $($rest)*)
    };
    (@ $call:ident, [$($types:tt)*], [$($handed:tt)*], $lent:ident: &[$of:ty], $($rest:tt)*) => {
        $crate::call_c!(@ $call, [$($types)* *const $of, usize,],
            [$($handed)* $lent.as_ptr(), $lent.len(),], $($rest)*)
    };
    (@ $call:ident, [$($types:tt)*], [$($handed:tt)*], $place:ident: &mut $of:ty, $($rest:tt)*) => {
        $crate::call_c!(@ $call, [$($types)* *mut $of,],
            [$($handed)* std::ptr::from_mut::<$of>($place),], $($rest)*)
    };
    (@ $call:ident, [$($types:tt)*], [$($handed:tt)*], $number:ident: $of:ty, $($rest:tt)*) => {
        $crate::call_c!(@ $call, [$($types)* $of,], [$($handed)* $number,], $($rest)*)
    };
    (@ $call:ident, [$($type:ty,)*], [$($handed:expr,)*],) => {{
        extern "C" {
            fn $call($(_: $type),*) -> u32;
        }
        // SAFETY: the list is the one of the C header. Each pointer is that of a reference or,
        // with its length, of a slice, and what is written is borrowed for this call alone.
        unsafe { $call($($handed),*) }
    }};
}
