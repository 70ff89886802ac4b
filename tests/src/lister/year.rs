//! The year of the listing program's plate.

use crate::switches::{fault, Fault};

/// The year that the file `year.bin` says, by request U9 of document 02: of exactly two bytes, low + 256 * high. It is 0 if
/// there is no such file, if it cannot be read, and if it has another length.
pub fn of_file(file: Option<&[u8]>) -> u16 {
    match file {
        Some([low, high]) if fault(Fault::YearFileHighByteFirst) => u16::from_be_bytes([*low, *high]),
        Some([low, high]) => u16::from_le_bytes([*low, *high]),
        Some([low]) if fault(Fault::YearFileOfOneByteRead) => u16::from(*low),
        Some([low, high, _]) if fault(Fault::YearFileOfThreeBytesRead) => u16::from_le_bytes([*low, *high]),
        Some([low, high, ..]) if fault(Fault::LongYearFileRead) => u16::from_le_bytes([*low, *high]),
        None if fault(Fault::MissingYearFileIsTheLastYear) => u16::MAX,
        _ => 0,
    }
}
