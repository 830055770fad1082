//! Refusal and stop numbers, and the rule that picks one fault among several.

/// Every number the checker, the compiler and the machine can answer with.
/// 1 to 18, 20, 32 and 33 refuse a request, 21 to 24 stop a run.
#[derive(Clone, Copy, PartialEq, Eq, PartialOrd, Ord, Debug)]
pub enum Code {
    ImageLength = 1,
    BadWord = 2,
    EndsEarly = 3,
    SpareWord = 4,
    TooDeep = 5,
    NoSuchName = 6,
    WrongSort = 7,
    LoopVariable = 8,
    Flow = 9,
    SecretOperand = 10,
    Unbounded = 11,
    OpenCall = 12,
    SecretBranch = 13,
    NotSource = 14,
    OverLimits = 15,
    OutputShort = 16,
    NoSuchTarget = 17,
    ArgumentCount = 18,
    NothingLoaded = 20,
    BudgetSpent = 21,
    TraceFull = 22,
    IndexBeyond = 23,
    DivisorZero = 24,
    UnboundedLoop = 32,
    BoundTooLarge = 33,
}

/// A number and the word it stands at.
#[derive(Clone, Copy, PartialEq, Eq, Debug)]
pub struct Refusal {
    pub code: Code,
    pub place: u32,
}

impl Refusal {
    pub fn at(code: Code, place: u32) -> Refusal {
        Refusal { code, place }
    }

    /// For faults that belong to the request as a whole.
    pub fn whole(code: Code) -> Refusal {
        Refusal { code, place: 0 }
    }
}

/// Collects the faults of one group of checks. The lowest place wins, and on
/// one word the lowest number, so the order of the walk does not matter.
#[derive(Default)]
pub struct Faults {
    first: Option<Refusal>,
}

impl Faults {
    pub fn note(&mut self, code: Code, place: u32) {
        let earlier = match self.first {
            Some(kept) => (place, code) < (kept.place, kept.code),
            None => true,
        };
        if earlier {
            self.first = Some(Refusal { code, place });
        }
    }

    pub fn verdict(self) -> Result<(), Refusal> {
        match self.first {
            Some(refusal) => Err(refusal),
            None => Ok(()),
        }
    }
}
