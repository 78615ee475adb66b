//! Why a call gave no results.

use crate::value::ImageError;
use std::fmt;

/// Why a call gave no results.
#[derive(Clone, Copy, Debug, PartialEq, Eq)]
pub enum Error {
    /// The call was refused.
    Refused(Refusal),
    /// There is no such export.
    NoExport,
    /// The bytes are no image of the parameters: so many of them are well formed.
    NoImage(u64),
    /// A resource among the parameters, or the one that is to be dropped, isn't one of the store.
    NoResource,
    /// The bytes are no component.
    NoComponent,
    /// The store keeps no events.
    NoEvents,
    /// The command makes no sense here.
    NoCommand,
    /// The image of the parameters, or the component, has more than 16,777,216 bytes.
    TooLong,
    /// A value has no image of its type, or bytes are none.
    Image(ImageError),
    /// The library ended before it answered.
    Over,
}

/// Why the library refused a call: the error, where it stands, and for which import it came.
#[derive(Clone, Copy, Debug, PartialEq, Eq)]
pub struct Refusal {
    pub kind: ErrorKind,
    pub place: Place,
    /// The discriminant that no case has, or the handle that is refused.
    pub more: u64,
    /// The import that wasn't served for this error.
    pub import: Option<u32>,
}

/// Where an error stands.
#[derive(Clone, Copy, Debug, PartialEq, Eq)]
pub enum Place {
    Nowhere,
    /// The place of a value among the parameters.
    Value(u64),
    /// A word by its index.
    Word(u64),
    /// An address.
    Address(u64),
    Count(u64),
}

macro_rules! error_kinds {
    ($($number:literal $name:ident),* $(,)?) => {
        /// The errors by their numbers. The crates canon_func, canon_value and canon_ledger say when each comes.
        #[derive(Clone, Copy, Debug, PartialEq, Eq, Hash)]
        #[repr(u64)]
        pub enum ErrorKind {
            $($name = $number,)*
        }

        impl ErrorKind {
            /// The error of a number.
            pub fn from_number(number: u64) -> Option<ErrorKind> {
                match number {
                    $($number => Some(ErrorKind::$name),)*
                    _ => None,
                }
            }
        }
    };
}

error_kinds! {
    1 WrongCount, 2 AsyncLifted, 3 CannotEnterComponent, 4 WrongWords, 5 UnknownImport, 6 TurnsExhausted, 7 HostRefused, 8 OutOfMemory,
    11 TypeMismatch, 12 FieldName, 13 LengthMismatch, 14 UnknownCase, 15 UnknownFlag, 16 PayloadExpected, 17 PayloadNotExpected,
    18 StringTooLong, 19 SizeOverflow, 20 ReallocMisaligned, 21 ReallocOutOfBounds, 22 GuestTrap, 23 PointerMisaligned,
    24 PointerOutOfBounds, 25 InvalidUtf8, 26 InvalidUtf16, 27 InvalidChar, 28 BadDiscriminant, 29 HostcallFuelExhausted,
    40 UnknownHandle, 41 NotAResource, 42 ResourceTypeMismatch, 43 StillLent, 44 TooManyLends, 45 HandleLimit, 46 IndexOverflow,
    47 BorrowAsOwn, 48 HostConsumed, 49 HostDeallocated, 50 GenerationExhausted, 51 BorrowsRemain, 52 NoScope, 53 LedgerOutOfMemory,
}

impl Refusal {
    /// The refusal that an answer's numbers tell.
    pub(crate) fn of(
        error: u64,
        import: u64,
        place_kind: u64,
        place: u64,
        more: u64,
    ) -> Option<Refusal> {
        let (number, in_import) = if error > 100 {
            (error - 100, true)
        } else {
            (error, false)
        };
        let kind = ErrorKind::from_number(number)?;
        let names_import =
            in_import || matches!(kind, ErrorKind::UnknownImport | ErrorKind::HostRefused);
        let place = match place_kind {
            1 => Place::Value(place),
            2 => Place::Word(place),
            3 => Place::Address(place),
            4 => Place::Count(place),
            _ => Place::Nowhere,
        };
        let import = names_import.then(|| u32::try_from(import).ok()).flatten();
        Some(Refusal {
            kind,
            place,
            more,
            import,
        })
    }
}

impl fmt::Display for Refusal {
    fn fmt(&self, f: &mut fmt::Formatter<'_>) -> fmt::Result {
        use ErrorKind::*;
        match (self.kind, self.import) {
            (UnknownImport | HostRefused, Some(import)) => {
                return write!(f, "{:?} {import}", self.kind)
            }
            (LedgerOutOfMemory, _) => f.write_str("OutOfMemory")?,
            (kind, Some(import)) => write!(f, "ImportFault {import} {kind:?}")?,
            (kind, None) => write!(f, "{kind:?}")?,
        }
        match self.place {
            Place::Nowhere => {}
            Place::Word(k) => write!(f, " w{k}")?,
            Place::Address(at) if !matches!(self.kind, ReallocMisaligned | ReallocOutOfBounds) => {
                write!(f, " @{at}")?
            }
            Place::Value(at) | Place::Address(at) | Place::Count(at) => write!(f, " {at}")?,
        }
        match self.kind {
            BadDiscriminant | UnknownHandle | NotAResource | StillLent | TooManyLends => {
                write!(f, " {}", self.more)
            }
            _ => Ok(()),
        }
    }
}

impl fmt::Display for Error {
    fn fmt(&self, f: &mut fmt::Formatter<'_>) -> fmt::Result {
        match self {
            Error::Refused(refusal) => write!(f, "refused {refusal}"),
            Error::NoExport => f.write_str("senseless, no such export"),
            Error::NoImage(at) => write!(f, "senseless, no image of the parameters @{at}"),
            Error::NoResource => f.write_str("senseless, no such resource"),
            Error::NoComponent => f.write_str("senseless, no component"),
            Error::NoEvents => f.write_str("senseless, no events are kept"),
            Error::NoCommand => f.write_str("senseless, no such command"),
            Error::TooLong => f.write_str("senseless, too many bytes"),
            Error::Image(why) => why.fmt(f),
            Error::Over => f.write_str("over"),
        }
    }
}

impl std::error::Error for Error {}

impl From<ImageError> for Error {
    fn from(why: ImageError) -> Self {
        Error::Image(why)
    }
}
