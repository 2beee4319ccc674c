//! Which outcome an answer of the library is.

use crate::library::{
    AbsoluteAnswer, CountAnswer, FieldsAnswer, LengthAnswer, LocalAnswer, RemoteDesktopAnswer,
    RuleAnswer, SecondsAnswer, TallyAnswer, TimeAnswer, UtcAnswer,
};
use crate::report::{Answer, Outcome};
use std::fmt::Debug;

impl Answer for AbsoluteAnswer {
    fn outcome(&self) -> Outcome {
        match (self.refusal, self.absolute) {
            (0, true) => Outcome::Yes,
            (0, false) => Outcome::No,
            (refusal, _) => Outcome::Refused(refusal),
        }
    }
}

impl Answer for FieldsAnswer {
    fn outcome(&self) -> Outcome {
        Outcome::by_number(self.refusal)
    }
}

impl Answer for TimeAnswer {
    fn outcome(&self) -> Outcome {
        Outcome::by_number(self.refusal)
    }
}

impl Answer for SecondsAnswer {
    fn outcome(&self) -> Outcome {
        Outcome::by_number(self.refusal)
    }
}

impl Answer for RuleAnswer {
    fn outcome(&self) -> Outcome {
        Outcome::by_number(self.refusal)
    }
}

impl Answer for RemoteDesktopAnswer {
    fn outcome(&self) -> Outcome {
        Outcome::by_number(self.refusal)
    }
}

impl Answer for LengthAnswer {
    fn outcome(&self) -> Outcome {
        Outcome::by_number(self.refusal)
    }
}

impl Answer for CountAnswer {
    fn outcome(&self) -> Outcome {
        Outcome::by_number(self.refusal)
    }
}

impl Answer for LocalAnswer {
    fn outcome(&self) -> Outcome {
        Outcome::by_number(self.refusal)
    }
}

impl Answer for UtcAnswer {
    fn outcome(&self) -> Outcome {
        match self.refusal {
            0 => Outcome::Ticks(self.count),
            refusal => Outcome::Refused(refusal),
        }
    }
}

impl Answer for TallyAnswer {
    fn outcome(&self) -> Outcome {
        Outcome::by_number(self.refusal)
    }
}

/// What a call is to hand over, or the number of its refusal.
impl<T: PartialEq + Debug> Answer for Result<T, u32> {
    fn outcome(&self) -> Outcome {
        match self {
            Ok(_) => Outcome::Answered,
            Err(number) => Outcome::Refused(*number),
        }
    }
}

/// A bare TIME is never a refusal.
impl Answer for i64 {
    fn outcome(&self) -> Outcome {
        Outcome::Answered
    }
}

impl Answer for bool {
    fn outcome(&self) -> Outcome {
        if *self {
            Outcome::Yes
        } else {
            Outcome::No
        }
    }
}
