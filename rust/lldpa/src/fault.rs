//! The faults that calls return.

use crate::sys;
use alloc::format;
use alloc::string::String;
use core::fmt;

/// Declares an enum of faults, each with its number in `lldpa.h` and its text.
macro_rules! faults {
    ($(#[$about:meta])* $name:ident { $($(#[$case_about:meta])* $case:ident = $number:literal, $text:literal;)* }) => {
        $(#[$about])*
        #[derive(Clone, Copy, Debug, PartialEq, Eq, Hash)]
        pub enum $name {
            $($(#[$case_about])* #[doc = concat!("The text is \"", $text, "\".")] $case = $number,)*
            /// A number unknown to this crate. A matching archive never returns such a number.
            Unexpected = 255,
        }

        impl $name {
            /// Returns the fault with this number as an error, or Ok if the number is 0.
            pub(crate) fn check(answer: u8) -> Result<(), $name> {
                match answer {
                    sys::LLDPA_OK => Ok(()),
                    $($number => Err($name::$case),)*
                    _ => Err($name::Unexpected),
                }
            }

            /// Returns the number in `lldpa.h`, or 254 (`Version`) or 255 (`Unexpected`).
            pub fn number(self) -> u8 {
                self as u8
            }
        }

        impl fmt::Display for $name {
            fn fmt(&self, out: &mut fmt::Formatter<'_>) -> fmt::Result {
                out.write_str(match self {
                    $($name::$case => $text,)*
                    $name::Unexpected => "an answer that this crate does not know",
                })
            }
        }

        #[cfg(feature = "std")]
        impl std::error::Error for $name {}
    };
}

faults! {
    /// The faults of an LLDPDU, in the order of the checks.
    PduFault {
        Truncated = 1, "no complete TLV where a mandatory one belongs";
        NoChassis = 2, "the first TLV is not a Chassis ID";
        ChassisLength = 3, "the Chassis ID does not have 2 to 256 octets";
        NoPort = 4, "the second TLV is not a Port ID";
        PortLength = 5, "the Port ID does not have 2 to 256 octets";
        NoTtl = 6, "the third TLV is not a Time To Live";
        TtlLength = 7, "the Time To Live has fewer than 2 octets";
        Repeated = 8, "a mandatory TLV is repeated after the third";
    }
}

faults! {
    /// Why a builder leaves out a TLV.
    BuildFault {
        /// The TLV and the End Of LLDPDU do not fit in 1500 octets.
        Full = 11, "it does not fit in 1500 octets";
        /// The type is not 4 to 127, or is 4 to 7 and that of an earlier TLV, or the TTL is 0.
        Kind = 12, "a TLV of its type may not be put";
        /// The TLV's body is over 511 octets, or not well formed for its type.
        Body = 13, "its body is not well formed for its type";
    }
}

faults! {
    /// Why an agent is not opened.
    OpenFault {
        Memory = 21, "there was no memory";
        NoPorts = 22, "no port was named";
        TooManyPorts = 23, "more than 64 ports were named";
        PortName = 24, "the name of a port is not valid";
        SamePort = 25, "two ports have the same name";
        Text = 26, "the hostname is over 255 octets, or has one that is not printable";
        /// `max_neighbors`, `credit_max`, `fast_init` or `reinit` is out of its range.
        OutOfRange = 100, "a number of the options is not in its range";
        Version = 254, "the archive is of another version than this crate";
    }
}

faults! {
    /// Why a command is refused. If a line has several faults, this is the leftmost.
    CommandFault {
        /// A word is missing, or is not known at its position.
        Unknown = 31, "unknown command";
        NoSuchPort = 32, "no such port";
        /// A word is not one or more decimal digits.
        Number = 33, "not a number";
        Range = 34, "out of range";
        /// A text is over 255 octets, or has an octet that is not printable ASCII.
        Text = 35, "bad text";
        /// A word follows a complete command.
        Extra = 36, "extra word";
        Quote = 37, "bad quote";
        /// A port holds more neighbors than the new limit.
        InUse = 38, "too many held";
    }
}

impl CommandFault {
    /// Returns the line with which the program reports the fault, such as `error: unknown command`.
    pub fn line(self) -> String {
        format!("error: {self}")
    }
}

/// Returns the text that a call writes to a buffer. None if the call returns OUT_OF_RANGE.
pub(crate) fn text_written(
    room: &mut [u8],
    call: impl FnOnce(&mut [u8], &mut usize) -> u8,
) -> Option<String> {
    let mut length = 0;
    match call(room, &mut length) {
        sys::LLDPA_OK => Some(String::from_utf8_lossy(&room[..length]).into_owned()),
        sys::LLDPA_OUT_OF_RANGE => None,
        answer => unexpected(answer),
    }
}

/// Returns the description of an error number of `lldpa.h`, or None if there is no such number.
#[must_use]
pub fn fault_text(number: u32) -> Option<String> {
    // SAFETY: the length is that of the buffer, and the other pointer is to a local value.
    text_written(&mut [0; sys::LLDPA_FAULT_ROOM as usize], |room, length| unsafe {
        sys::lldpa_fault_text(number, room.as_mut_ptr(), room.len(), length)
    })
}

faults! {
    /// Why an LLDPDU is not built, or why a transmit machine refuses its settings or an event.
    RangeFault {
        OutOfRange = 100, "a number or a length is not in its range";
        Version = 254, "the archive is of another version than this crate";
    }
}

faults! {
    /// Why a call with a port number fails.
    PortFault {
        NoPort = 103, "the agent has no port of that number";
    }
}

/// Panics, since the archive returned a number that this crate does not know.
///
/// # Panics
///
/// Always. A matching archive does not return such a number.
#[cold]
pub(crate) fn unexpected(answer: impl fmt::Display) -> ! {
    panic!("liblldpa answered {answer}, which this crate does not know")
}

/// Panics if a call that cannot fail returns a number other than 0.
pub(crate) fn expect_ok(answer: u8) {
    if answer != sys::LLDPA_OK {
        unexpected(answer);
    }
}

#[cfg(test)]
mod tests {
    use super::*;
    use alloc::string::ToString;

    fn words(number: u32) -> String {
        fault_text(number).expect("a fault")
    }

    /// Checks that this crate and the archive have the same texts for these faults.
    fn same<F: ToString>(check: fn(u8) -> Result<(), F>, numbers: core::ops::RangeInclusive<u8>) {
        for number in numbers {
            let fault = check(number).expect_err("a fault");
            assert_eq!(fault.to_string(), words(number.into()));
        }
    }

    #[test]
    fn texts_are_those_of_the_archive() {
        same(PduFault::check, 1..=8);
        same(BuildFault::check, 11..=13);
        same(OpenFault::check, 21..=26);
        same(CommandFault::check, 31..=38);
        assert_eq!(RangeFault::OutOfRange.to_string(), words(100));
        assert_eq!(PortFault::NoPort.to_string(), words(103));
        assert!([0, 9, 27, 106, 256 + 21].iter().all(|number| fault_text(*number).is_none()));
    }
}
