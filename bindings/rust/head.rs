//! CITP packets for Rust: the functions of include/citp.h with slices, over the archive libcitp.a (x86-64 Linux).
//! What each answers, the numbers of refusals, and what ranges and cursors mean is said there. Every function ends,
//! checks its own input and keeps no state, so all of them are safe.

/// A function over slices from the one of the archive, to which a slice is a pointer and a length.
macro_rules! function {
    ($doc:tt $name:ident ($($args:tt)*) -> $answer:ty) => {
        function!(@ $doc $name [] [] [] ($($args)*) $answer);
    };
    (@ $doc:tt $name:ident [$($safe:tt)*] [$($raw:tt)*] [$($pass:tt)*] ($arg:ident: &mut [$t:ty] $(, $($rest:tt)*)?) $answer:ty) => {
        function!(@ $doc $name [$($safe)* $arg: &mut [$t],] [$($raw)* $arg: *mut $t, _: usize,]
            [$($pass)* $arg.as_mut_ptr(), $arg.len(),] ($($($rest)*)?) $answer);
    };
    (@ $doc:tt $name:ident [$($safe:tt)*] [$($raw:tt)*] [$($pass:tt)*] ($arg:ident: &[$t:ty] $(, $($rest:tt)*)?) $answer:ty) => {
        function!(@ $doc $name [$($safe)* $arg: &[$t],] [$($raw)* $arg: *const $t, _: usize,]
            [$($pass)* $arg.as_ptr(), $arg.len(),] ($($($rest)*)?) $answer);
    };
    (@ $doc:tt $name:ident [$($safe:tt)*] [$($raw:tt)*] [$($pass:tt)*] ($arg:ident: $t:ty $(, $($rest:tt)*)?) $answer:ty) => {
        function!(@ $doc $name [$($safe)* $arg: $t,] [$($raw)* $arg: $t,] [$($pass)* $arg,] ($($($rest)*)?) $answer);
    };
    (@ [$($doc:tt)*] $name:ident [$($safe:tt)*] [$($raw:tt)*] [$($pass:tt)*] () $answer:ty) => {
        $($doc)*
        #[allow(clippy::too_many_arguments)]
        pub fn $name($($safe)*) -> $answer {
            #[link(name = "citp", kind = "static")]
            extern "C" {
                #[link_name = concat!("citp_", stringify!($name))]
                fn call($($raw)*) -> $answer;
            }
            unsafe { call($($pass)*) }
        }
    };
}

macro_rules! functions {
    ($($(#[$doc:meta])* $name:ident $args:tt -> $answer:ty;)*) => {
        $(function!([$(#[$doc])*] $name $args -> $answer);)*
    };
}
