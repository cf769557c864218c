use std::error::Error;
use std::fmt;

macro_rules! numbers {
    ($($variant:ident = $number:literal, $meaning:literal;)*) => {
        /// Why a call was refused: the numbers of document 01. A refusal gives no event.
        ///
        /// Numbers 1 to 9 alter nothing. A stream fault frees the stream's record, or spends an ID that our
        /// GOAWAY bars. A connection fault is kept, and every later call but
        /// [`restart`](crate::Connection::restart) and the `write_` functions answers it.
        #[derive(Clone, Copy, Debug, PartialEq, Eq, PartialOrd, Ord, Hash)]
        #[repr(u64)]
        pub enum Refused {
            $(#[doc = concat!($meaning, ".")] $variant = $number,)*
        }

        impl Refused {
            /// Each, by number.
            pub const ALL: &'static [Refused] = &[$(Refused::$variant),*];

            /// The refusal of that number, if there is one.
            pub fn of(number: u64) -> Option<Refused> {
                match number {
                    $($number => Some(Refused::$variant),)*
                    _ => None,
                }
            }

            fn meaning(self) -> &'static str {
                match self {
                    $(Refused::$variant => $meaning,)*
                }
            }
        }
    };
}

numbers! {
    NotOpen = 1, "The stream is not open: never opened, or ended, reset or refused";
    NotNext = 2, "The ID is not the next of its kind, or above 2^62-1";
    NoRecord = 3, "No record is free; the ID is unspent: open it again when one is";
    SectionDue = 4, "A feed or an end while a section is due: give it first";
    NoSection = 5, "A section was given and none is due";
    Unreadable = 6, "The section block is not one; the section is still due";
    RoomShort = 7, "The room of a write is too short; it is untouched";
    BadValue = 8, "A value above 2^62-1 to write, or an ID that our GOAWAY cannot have";
    OtherRow = 9, "The row has other than 24 records, which that of a `Connection` never has";
    StreamCreationError = 0x0103,
        "A second control or QPACK stream of a type, or a push stream from a client";
    ClosedCriticalStream = 0x0104, "The control stream or a QPACK stream was ended or reset";
    FrameUnexpected = 0x0105, "A frame where it may not be";
    FrameError = 0x0106, "A frame of a wrong length, or the stream ended inside one";
    ExcessiveLoad = 0x0107, "HEADERS above 16,384 bytes, SETTINGS above 256";
    IdError = 0x0108, "An ID that rose or fell, or a cancelled push that was never promised";
    SettingsError = 0x0109, "A setting of HTTP/2, or one that comes twice";
    MissingSettings = 0x010a, "The control stream begins with another frame than SETTINGS";
    RequestRejected = 0x010b,
        "Barred by our GOAWAY, CONNECT, another scheme, a Content-Length above 1,048,576, or a PUT, POST or PATCH without one";
    RequestCancelled = 0x010c, "Content above 1,048,576 bytes without a Content-Length";
    RequestIncomplete = 0x010d, "Ended without a header section";
    MessageError = 0x010e, "A malformed section, or content that is not as long as stated";
}

impl Refused {
    /// The number of document 01: for a fault, the error code of HTTP/3.
    pub fn number(self) -> u64 {
        self as u64
    }

    /// Whether one stream is refused: reset it with the number.
    pub fn is_stream_fault(self) -> bool {
        use Refused::*;
        matches!(self, RequestRejected | RequestCancelled | RequestIncomplete | MessageError)
    }

    /// Whether the connection is dead: close it with the number.
    pub fn is_connection_fault(self) -> bool {
        use Refused::*;
        matches!(
            self,
            StreamCreationError
                | ClosedCriticalStream
                | FrameUnexpected
                | FrameError
                | ExcessiveLoad
                | IdError
                | SettingsError
                | MissingSettings
        )
    }

    /// The answer of a call by its number; 0 is accepted.
    pub(crate) fn unless_0(number: u64) -> Result<(), Refused> {
        match number {
            0 => Ok(()),
            _ => Err(Refused::of(number).expect("a number of document 01")),
        }
    }
}

impl fmt::Display for Refused {
    fn fmt(&self, f: &mut fmt::Formatter<'_>) -> fmt::Result {
        write!(f, "{:#06x}: {}", self.number(), self.meaning())
    }
}

impl Error for Refused {}
