//! Why a part is turned back.
use std::error::Error;
use std::fmt::{self, Display, Formatter};

/// Why a call is refused. Tested by rising number, of OBJ text in the order that [`obj_to_part`](crate::obj_to_part) says: the first that applies is the
/// answer.
#[derive(Clone, Copy, Debug, PartialEq, Eq, Hash)]
#[repr(u32)]
pub enum Refusal {
    /// The file is shorter than 144 bytes.
    TooShort = 1,
    /// The trailer's edition is not 1.
    WrongEdition = 2,
    /// Over 16,384 vertices or over 4,096 polygons.
    TooLarge = 3,
    /// The file's length is not what the trailer's counts make, or its `back` is wrong.
    WrongLength = 4,
    /// The job is out of the rules.
    BadJob = 5,
    /// A coordinate is not finite or out of range.
    BadVertex = 6,
    /// A polygon's entry is out of the rules, or vertices are left after the last run.
    BadPolygon = 7,
    /// A polygon has no plane.
    FlatPolygon = 8,
    /// Over 1,024 faces.
    TooManyFaces = 9,
    /// Fewer words or reals are lent than [`Scratch::of`](crate::Scratch::of) says.
    TooLittleScratch = 10,
    /// More faults than rows are lent, or over 2,048.
    TooManyFaults = 11,
    /// The report is longer than its buffer.
    ReportTooLong = 12,
    /// The decimal writer's alone: a number or places that it does not write, or a buffer under 24 bytes.
    NoDecimal = 13,
    /// OBJ text: a line is of no form that is read.
    BadLine = 14,
    /// OBJ text: a face names a vertex that no line above it defines.
    UndefinedVertex = 15,
    /// OBJ text: the buffer is shorter than the part file.
    OutputTooShort = 16,
}

use Refusal::*;

impl Refusal {
    /// All of them, by rising number.
    pub const ALL: [Refusal; 16] = [
        TooShort,
        WrongEdition,
        TooLarge,
        WrongLength,
        BadJob,
        BadVertex,
        BadPolygon,
        FlatPolygon,
        TooManyFaces,
        TooLittleScratch,
        TooManyFaults,
        ReportTooLong,
        NoDecimal,
        BadLine,
        UndefinedVertex,
        OutputTooShort,
    ];

    /// The number by which the library, the program and the documents call it.
    pub fn number(self) -> u32 {
        self as u32
    }

    /// The refusal with this number.
    pub fn from_number(number: u32) -> Option<Refusal> {
        Refusal::ALL.into_iter().find(|refusal| refusal.number() == number)
    }

    /// The condition that was met.
    pub fn condition(self) -> &'static str {
        match self {
            TooShort => "shorter than 144 bytes",
            WrongEdition => "edition not 1",
            TooLarge => "over 16,384 vertices or over 4,096 polygons",
            WrongLength => "length not 24V + 80P + 144, or `back` wrong",
            BadJob => "job out of the rules",
            BadVertex => "coordinate not finite or out of range",
            BadPolygon => "polygon entry out of the rules, or vertices left after the last run",
            FlatPolygon => "a polygon without a plane: its normal sum is shorter than 1e-14",
            TooManyFaces => "over 1,024 faces",
            TooLittleScratch => "f64 scratch under 24P + 8V + 2,048 or u32 scratch under 12P + 8V + 1,024",
            TooManyFaults => "more faults than fault rows lent, or over 2,048",
            ReportTooLong => "report longer than its buffer",
            NoDecimal => "decimal text: number not finite, below 0, or 2^60 and more; places over 3; buffer under 24 bytes",
            BadLine => "OBJ text: a line of any other form",
            UndefinedVertex => "OBJ text: a vertex number not yet defined",
            OutputTooShort => "OBJ text: output buffer shorter than the part file",
        }
    }

    /// What to do about it.
    pub fn advice(self) -> &'static str {
        match self {
            TooShort => "Pass the whole part file: even one without vertices ends in a job of 128 bytes and a trailer of 16.",
            WrongEdition => "Write the file by the layout of edition 1; the edition is the first of the trailer's four numbers.",
            TooLarge => "Mesh the part more coarsely, or check it in pieces.",
            WrongLength => "Let the trailer's counts be those of the vertices and polygons in the file, and `back` 80P + 144.",
            BadJob => "Look at the job, 128 bytes: process, flags, ranges, and zeros in each field whose flag is not set.",
            BadVertex => "Keep coordinates finite and within 10,000 mm of zero on each axis.",
            BadPolygon => "Give each polygon 3 to 64 vertices in runs that follow on, and a surface whose numbers are in range.",
            FlatPolygon => "Leave out polygons without an area, such as those whose vertices lie on one line.",
            TooManyFaces => "Let polygons of one face share its feature and index, or check the part in pieces.",
            TooLittleScratch => "Lend as many words and reals as `Scratch::of` says.",
            TooManyFaults => "Lend 2,048 rows; if that many were lent, correct what the part repeats, or check it in pieces.",
            ReportTooLong => "Lend a longer buffer; `MOST_REPORT` bytes hold every report.",
            NoDecimal => "Pass a finite number from 0 to below 2^60, at most 3 places, and a buffer of 24 bytes.",
            BadLine => "Keep to lines `v x y z`, `f a b c ..` and `g n`, one or more spaces between fields and none elsewhere, and comments that start with #.",
            UndefinedVertex => "Define each vertex above the faces that use it; vertices are numbered from 1 in their order.",
            OutputTooShort => "Lend as many bytes as `obj_room` says.",
        }
    }

    /// What the library's answer means, which is 0 or a refusal's number.
    pub(crate) fn or<T>(answer: u32, value: T) -> Result<T, Refusal> {
        match answer {
            0 => Ok(value),
            number => Err(Refusal::from_number(number).expect("the library answers 0 to 16")),
        }
    }
}

impl Display for Refusal {
    fn fmt(&self, f: &mut Formatter) -> fmt::Result {
        write!(f, "refused {}: {}", self.number(), self.condition())
    }
}

impl Error for Refusal {}

#[cfg(test)]
mod tests {
    use super::*;

    #[test]
    fn numbers_are_1_to_16() {
        let numbers: Vec<u32> = Refusal::ALL.iter().map(|r| r.number()).collect();
        assert_eq!(numbers, (1..=16).collect::<Vec<u32>>());
        for refusal in Refusal::ALL {
            assert_eq!(Refusal::from_number(refusal.number()), Some(refusal));
        }
        assert_eq!(Refusal::from_number(0), None);
        assert_eq!(Refusal::from_number(17), None);
    }

    #[test]
    fn each_says_what_was_met_and_what_to_do() {
        for refusal in Refusal::ALL {
            assert!(!refusal.condition().is_empty());
            assert!(refusal.advice().ends_with('.'));
        }
        assert_eq!(TooShort.to_string(), "refused 1: shorter than 144 bytes");
    }
}
