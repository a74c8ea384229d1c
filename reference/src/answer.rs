//! Answers as numbers: what the ten entries return.

/// Why a call says no; the discriminant is the number of the table.
#[derive(Clone, Copy, Debug, PartialEq, Eq)]
#[repr(u64)]
pub enum Reason {
    Key = 1,
    Form = 2,
    Range = 3,
    List = 4,
    ShortRecord = 5,
    Cell = 6,
    WidePattern = 7,
    ShortTables = 8,
    NotAdditive = 9,
    State = 10,
    ShortPlan = 11,
    EndsEarly = 12,
    UnknownByte = 13,
    DoesNotApply = 14,
    NotArrived = 15,
    BytesAfter = 16,
    TooDeep = 17,
    ShortRow = 18,
}

/// A numbered refusal with its second number.
#[derive(Clone, Copy, Debug, PartialEq, Eq)]
pub struct Refusal {
    pub reason: Reason,
    pub at: u64,
}

impl Refusal {
    pub fn new(reason: Reason, at: usize) -> Self {
        let at = at as u64;
        Self { reason, at }
    }

    pub fn number(self) -> u64 {
        self.reason as u64
    }
}

/// What a call returns, field for field as the C library declares it.
#[repr(C)]
#[derive(Clone, Copy, Debug, Default, PartialEq, Eq)]
pub struct Answer {
    pub number: u64,
    pub kind: u64,
    pub first: u64,
    pub second: u64,
    pub third: u64,
}

impl Answer {
    pub fn kind(kind: u64, first: u64, second: u64, third: u64) -> Self {
        Self { number: 0, kind, first, second, third }
    }
}

impl From<Refusal> for Answer {
    fn from(refusal: Refusal) -> Self {
        Self { number: refusal.number(), first: refusal.at, ..Self::default() }
    }
}
