//! Enums whose values are the numbers in `lldpa.h`.

/// Declares an enum, and a function that returns the enum's value for a number.
macro_rules! numbered {
    ($(#[$about:meta])* $name:ident { $($(#[$case_about:meta])* $case:ident = $number:literal,)* }) => {
        $(#[$about])*
        #[derive(Clone, Copy, Debug, PartialEq, Eq, Hash)]
        pub enum $name {
            $($(#[$case_about])* $case = $number,)*
        }

        impl $name {
            /// Returns the value with this number. Panics if no value has this number.
            pub(crate) fn of(number: u32) -> $name {
                match number {
                    $($number => $name::$case,)*
                    _ => crate::fault::unexpected(number),
                }
            }
        }
    };
}

pub(crate) use numbered;
