use std::error::Error;
use std::fmt;

/// Why a call gave no value. The call then changed nothing.
///
/// Checks run in the order of the numbers, and the first that applies is given.
///
/// ```
/// use gauzespar::{Record, Refusal, Table};
///
/// let refusal = Table::start(Record::new(1, 64, 0.0, 1.33)).unwrap_err();
/// assert_eq!(refusal, Refusal::Rows);
/// assert_eq!(refusal.number(), 1);
/// assert_eq!(refusal.to_string(), "refusal 1: the number of rows or nodes is outside 2 to 128");
/// ```
#[derive(Clone, Copy, Debug, PartialEq, Eq, Hash)]
#[non_exhaustive]
#[repr(u32)]
pub enum Refusal {
    /// 1: the number of rows, or of nodes in the only or the first node list, is outside 2 to 128.
    Rows = 1,
    /// 2: the number of radii, or of nodes in the second node list, is outside 2 to 64.
    Radii = 2,
    /// 3: g is NaN or not between -1 and 1, neither of which it may be.
    PhaseAsymmetry = 3,
    /// 4: the index of refraction is NaN or outside 1 to 2.
    RefractiveIndex = 4,
    /// 5: a list has another length than the record or the nodes ask for.
    Length = 5,
    /// 6: a node list has a node that is not finite, is not strictly increasing, or its last minus its first overflows.
    Nodes = 6,
    /// 7: the row number is the number of rows or more.
    RowNumber = 7,
    /// 8: a coefficient is negative (-0 is not), NaN or infinite, or the sum of a channel's two is infinite.
    Coefficients = 8,
    /// 9: u is NaN or outside 0 to 1, or the cosine is NaN.
    Argument = 9,
    /// 10: the allowance is outside 1 to 1,000.
    Allowance = 10,
    /// 11: a row that the query needs is not built.
    RowMissing = 11,
    /// 12: a channel of the radiance is NaN, as where sigma_t squared overflows and meets 0.
    NotANumber = 12,
    /// 13: the draw used up its allowance of rounds.
    Exhausted = 13,
}

impl Refusal {
    /// Every refusal, in the order of the numbers.
    pub const ALL: [Refusal; 13] = [
        Refusal::Rows,
        Refusal::Radii,
        Refusal::PhaseAsymmetry,
        Refusal::RefractiveIndex,
        Refusal::Length,
        Refusal::Nodes,
        Refusal::RowNumber,
        Refusal::Coefficients,
        Refusal::Argument,
        Refusal::Allowance,
        Refusal::RowMissing,
        Refusal::NotANumber,
        Refusal::Exhausted,
    ];

    /// The refusal's number, the same as in C.
    pub fn number(self) -> u32 {
        self as u32
    }

    /// The refusal of a number, if there is one.
    pub fn from_number(number: u32) -> Option<Refusal> {
        Refusal::ALL.into_iter().find(|refusal| refusal.number() == number)
    }

    /// What the refusal means, in English.
    pub fn meaning(self) -> &'static str {
        match self {
            Refusal::Rows => "the number of rows or nodes is outside 2 to 128",
            Refusal::Radii => "the number of radii is outside 2 to 64",
            Refusal::PhaseAsymmetry => "g is not between -1 and 1",
            Refusal::RefractiveIndex => "the index of refraction is outside 1 to 2",
            Refusal::Length => "a list has the wrong length",
            Refusal::Nodes => "nodes are not finite and strictly increasing",
            Refusal::RowNumber => "there is no such row",
            Refusal::Coefficients => "a coefficient, or the sum of a channel's two, is negative or not finite",
            Refusal::Argument => "u is outside 0 to 1, or the cosine is NaN",
            Refusal::Allowance => "the allowance is outside 1 to 1,000",
            Refusal::RowMissing => "a needed row is not built",
            Refusal::NotANumber => "the radiance is NaN in a channel",
            Refusal::Exhausted => "the draw used up its allowance of rounds",
        }
    }

    /// What a call's number says. A number that no call of this crate can get is a fault of the crate or of the archive it
    /// was linked with.
    pub(crate) fn check(number: u32) -> Result<(), Refusal> {
        if number == 0 {
            return Ok(());
        }
        match Refusal::from_number(number) {
            Some(refusal) => Err(refusal),
            None => panic!("the linked library answered {number}, which is no refusal that this crate knows"),
        }
    }
}

impl fmt::Display for Refusal {
    fn fmt(&self, f: &mut fmt::Formatter<'_>) -> fmt::Result {
        write!(f, "refusal {}: {}", self.number(), self.meaning())
    }
}

impl Error for Refusal {}
