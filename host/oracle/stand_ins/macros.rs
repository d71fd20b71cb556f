//! Stands in for the macros of `iceoryx2_log` and `iceoryx2_bb_elementary`: nothing is logged.

#[macro_export]
macro_rules! fail {
    (from $origin:expr, with $error:expr, $($message:tt)*) => {{
        let _ = (&$origin, format_args!($($message)*));
        return Err($error);
    }};
    (from $origin:expr, when $call:expr, $($message:tt)*) => {
        match $call {
            Ok(result) => result,
            Err(error) => {
                let _ = (&$origin, format_args!($($message)*));
                return Err(error);
            }
        }
    };
}

#[macro_export]
macro_rules! fatal_panic {
    (from $origin:expr, $($message:tt)*) => {{
        let _ = &$origin;
        panic!($($message)*)
    }};
}

#[macro_export]
macro_rules! enum_gen {
    ($name:ident entry: $($entry:ident),+) => {
        #[derive(Debug, Clone, Copy, PartialEq, Eq)]
        pub enum $name {
            $($entry),+
        }
    };
}
