//! Why calls fail.

use crate::{raw, Scope};
use std::{error, fmt, num::NonZeroU32};

/// Why a call failed. It displays as the name that `puffin.h` gives to its number.
#[derive(Debug, Clone, Copy, PartialEq, Eq, Hash)]
pub struct Fault(NonZeroU32);

/// Makes a constant for each fault, named as in `puffin.h`, and the list of them that the test compares with it.
macro_rules! faults {
    ($($name:ident = $number:literal,)*) => {
        /// A fault of a file that holds a number, like [`Fault::FILE_REFUSED`], is 256 times that number more than its constant here:
        /// compare [`Fault::kind`] with these.
        impl Fault {
            $(pub const $name: Fault = Fault(match NonZeroU32::new($number) {
                Some(number) => number,
                None => panic!(),
            });)*
        }

        #[cfg(test)]
        const NAMES: &[(&str, u32)] = &[$((stringify!($name), $number),)*];
    };
}

faults! {
    PREMATURE_END = 1,
    INVALID_STREAM = 2,
    SCOPE_NEVER_ENDED = 3,
    INVALID_OFFSET = 4,
    TOO_LARGE = 6,
    RANGE_TOO_LONG = 7,
    MISMATCHED_END = 8,
    SCOPES_OPEN = 9,
    MISSING_ID = 10,
    IDS_EXHAUSTED = 11,
    INDEX_EXHAUSTED = 12,
    TOO_DEEP = 14,
    MEMORY = 16,
    UNLIKE_FORMS = 17,
    NOT_TEXT = 32,
    NO_ID = 33,
    NOT_OPEN = 34,
    IS_OPEN = 35,
    FILE_NO_MAGIC = 66,
    FILE_TRUNCATED = 67,
    FILE_LEGACY = 68,
    FILE_NEWER = 69,
    FILE_UNKNOWN_KIND = 70,
    FILE_COMPRESSED = 71,
    FILE_BAD_META = 72,
    FILE_BAD_STREAMS = 73,
    FILE_BAD_SCOPES = 74,
    FILE_BAD_RANGE = 75,
    FILE_PART_TOO_LONG = 76,
    FILE_REFUSED = 77,
}

impl Fault {
    /// The number that the library returns.
    pub fn number(self) -> u32 {
        self.0.get()
    }

    /// The fault without the number that it holds.
    pub fn kind(self) -> Fault {
        NonZeroU32::new(self.number() % 256).map_or(self, Fault)
    }

    /// The name that `puffin.h` gives to the number.
    pub fn name(self) -> String {
        let mut name = [0; 64];
        let size = unsafe { raw::puffin_fault_name(self.number(), name.as_mut_ptr(), name.len()) };
        String::from_utf8_lossy(&name[..size.min(name.len())]).into_owned()
    }
}

impl fmt::Display for Fault {
    fn fmt(&self, f: &mut fmt::Formatter<'_>) -> fmt::Result {
        f.write_str(&self.name())
    }
}

impl error::Error for Fault {}

/// The result that an answer of the library stands for.
pub(crate) fn told(answer: u32) -> Result<(), Fault> {
    NonZeroU32::new(answer).map_or(Ok(()), |number| Err(Fault(number)))
}

/// Why a scope couldn't be ended, and the scope, which is still open.
#[derive(Debug)]
pub struct EndFault {
    pub fault: Fault,
    pub scope: Scope,
}

impl fmt::Display for EndFault {
    fn fmt(&self, f: &mut fmt::Formatter<'_>) -> fmt::Result {
        self.fault.fmt(f)
    }
}

impl error::Error for EndFault {}

impl From<EndFault> for Fault {
    fn from(end: EndFault) -> Fault {
        end.fault
    }
}

/// A file with a fault: how many frames are before it, where the frame with the fault begins, and where the part of it ends that was
/// read last, and that has the fault.
#[derive(Debug, Clone, Copy, PartialEq, Eq)]
pub struct FileFault {
    pub fault: Fault,
    pub frames: u64,
    pub offset: u64,
    pub read: u64,
}

impl fmt::Display for FileFault {
    fn fmt(&self, f: &mut fmt::Formatter<'_>) -> fmt::Result {
        write!(f, "{} in the frame at {}, before {}", self.fault, self.offset, self.read)
    }
}

impl error::Error for FileFault {}

#[cfg(test)]
mod tests {
    use super::*;

    /// The names and numbers of the header's faults, without PUFFIN_OK and the one of its own files.
    fn faults_of_the_header() -> Vec<(String, u32)> {
        let header = include_str!("../../../crates/puffin_c/puffin.h");
        let faults = header.split("PUFFIN_OK = 0,").nth(1).unwrap().split("};").next().unwrap();
        let fault = |line: &str| {
            let (name, rest) = line.trim().strip_prefix("PUFFIN_")?.split_once(" = ")?;
            let number = rest.split(|letter: char| !letter.is_ascii_digit()).next()?;
            Some((name.to_string(), number.parse().unwrap()))
        };
        faults.lines().filter_map(fault).filter(|(name, _)| name != "NOT_WRITTEN").collect()
    }

    #[test]
    fn the_header_has_the_same_faults() {
        let names: Vec<_> = NAMES.iter().map(|&(name, number)| (name.to_string(), number)).collect();
        assert_eq!(names, faults_of_the_header());
    }

    /// Numbers that faults hold.
    const HOLDING: [(&str, u32); 3] = [("FILE_UNKNOWN_KIND", 9), ("FILE_COMPRESSED", 1), ("FILE_REFUSED", 14)];

    #[test]
    fn the_library_has_the_same_names() {
        for &(name, number) in NAMES {
            let held = 256 * HOLDING.iter().find(|(it, _)| *it == name).map_or(0, |it| it.1);
            let fault = told(number + held).unwrap_err();
            let more = if name == "FILE_REFUSED" { " + 256 * PUFFIN_TOO_DEEP" } else { "" };
            assert_eq!(fault.to_string(), format!("PUFFIN_{name}{more}"));
            assert_eq!(fault.kind(), told(number).unwrap_err());
        }
        assert_eq!(Fault::NOT_OPEN.number(), 34);
    }
}
