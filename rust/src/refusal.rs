//! Why a call has no answer.
use std::collections::TryReserveError;
use std::fmt;

/// A refused call: the refusal's number, and the place where it names one (0 otherwise).
///
/// ```
/// use rekvashu::{build, DDMParams, Mender};
///
/// let refused = build(&[0.0, f64::NAN], 1, DDMParams::default()).unwrap_err().refusal().unwrap();
/// assert_eq!((refused.number, refused.place, refused.mender()), (10, 1, Mender::Points));
/// assert_eq!(refused.reason(), "a coordinate is infinite or not a number");
/// ```
#[derive(Clone, Copy, Debug, PartialEq, Eq, Hash)]
#[non_exhaustive]
pub struct Refusal {
    /// The number, by which document 01 and the other languages know it too.
    pub number: usize,
    /// The position of the coordinate for refusal 10 (in the list of all coordinates, or in a point that is added), and 0 for the others.
    pub place: usize,
}

/// Who can mend a refusal.
#[derive(Clone, Copy, Debug, PartialEq, Eq, Hash)]
#[non_exhaustive]
pub enum Mender {
    /// Whoever sets the station.
    Settings,
    /// Whoever brings the points.
    Points,
    /// The calling program.
    Program,
    /// Whoever feeds the program a job stream; the library's own calls never give these.
    Stream,
    /// Whoever keeps the file of a stored tree; where a tree is to be stored, whoever keeps its lists.
    File,
    /// Whoever edits the table of wells.
    Table,
}

impl Refusal {
    /// The refusal of this number, as a job's printout gives it: `refused 16 at 20`.
    pub fn new(number: usize, place: usize) -> Self {
        Refusal { number, place }
    }

    /// Who can mend it.
    pub fn mender(&self) -> Mender {
        match self.number {
            1..=5 | 9 | 18 => Mender::Settings,
            6 | 7 | 8 | 10 | 19 => Mender::Points,
            16 | 17 => Mender::Stream,
            20 => Mender::File,
            21 | 22 => Mender::Table,
            _ => Mender::Program,
        }
    }

    /// What is wrong, in the words of `ddm_refusal_text` of c/ddm.h.
    pub fn reason(&self) -> &'static str {
        match self.number {
            0 => "nothing was refused",
            1 => "the dimension is not 1, 2 or 3",
            2 => "the leaf threshold is 0",
            3 => "the factor is below 2",
            4 => "the coarse threshold is fixed at 0",
            5 => "the neighbour count is above 64",
            6 => "there are no points",
            7 => "the coordinate count is no multiple of the dimension (or a point to be added has not one for each axis)",
            8 => "there are more than 1,048,576 points",
            9 => "three reductions by the factor do not reach the coarse threshold (or the asked reductions are 0 or above 3)",
            10 => "a coordinate is infinite or not a number",
            11 => "a lent list is too short",
            12 => "a domain row's stretch ends past its list",
            13 => "the wanted rows or the seed do not fit the rows given",
            14 => "the active rows do not outnumber the threshold",
            15 => "a negative number or not-a-number has no root",
            16 => "the job stream is broken",
            17 => "the job stream has over 32 points or over 16 neighbours",
            18 => "the stored tree is of other settings",
            19 => "the stored tree is of other points",
            20 => "the file, or the lists to be stored, hold no sound tree",
            21 => "the table is full",
            22 => "the slot is not live",
            27 => "the table's head does not fit its flags",
            _ => "no refusal has this number",
        }
    }
}

impl fmt::Display for Refusal {
    fn fmt(&self, f: &mut fmt::Formatter<'_>) -> fmt::Result {
        let who = match self.mender() {
            Mender::Settings => "whoever sets the station can mend it",
            Mender::Points => "whoever brings the points can mend it",
            Mender::Program => "the calling program can mend it",
            Mender::Stream => "whoever feeds the program can mend it",
            Mender::File => "whoever keeps the file can mend it",
            Mender::Table => "whoever edits the table can mend it",
        };
        write!(f, "refused {} at {}: {}; {}", self.number, self.place, self.reason(), who)
    }
}

impl std::error::Error for Refusal {}

/// Why a call that lends lists has no answer.
#[derive(Clone, Copy, Debug, PartialEq, Eq)]
#[non_exhaustive]
pub enum Error {
    /// The library refused the call.
    Refused(Refusal),
    /// There is no memory for the lists.
    OutOfMemory,
    /// The archive that was linked is of another version (this number, as [`version`](crate::version) gives it).
    OtherVersion(usize),
}

impl Error {
    /// The refusal, where it is one.
    pub fn refusal(&self) -> Option<Refusal> {
        match self {
            Error::Refused(refusal) => Some(*refusal),
            _ => None,
        }
    }
}

impl fmt::Display for Error {
    fn fmt(&self, f: &mut fmt::Formatter<'_>) -> fmt::Result {
        match self {
            Error::Refused(refusal) => refusal.fmt(f),
            Error::OutOfMemory => f.write_str("there is no memory for the lists"),
            Error::OtherVersion(number) => write!(f, "the library is of another version than this crate: {number}"),
        }
    }
}

impl std::error::Error for Error {}

impl From<Refusal> for Error {
    fn from(refusal: Refusal) -> Self {
        Error::Refused(refusal)
    }
}

impl From<TryReserveError> for Error {
    fn from(_: TryReserveError) -> Self {
        Error::OutOfMemory
    }
}
