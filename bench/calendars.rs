//! Other calendars, to stand beside ours: the best known formulas, and those
//! that were found when this was built.

#[cfg(has_chrono)]
use crate::chrono_calls;
use crate::formulas;
use crate::library::{FieldsAnswer, TimeAnswer, TimeFields};

/// A calendar's two calls, behind the same boundary as ours, but for the
/// revision, which is ours alone.
pub struct Calendar {
    pub name: &'static str,
    time_to_fields: unsafe extern "C" fn(i64) -> FieldsAnswer,
    fields_to_time: unsafe extern "C" fn(TimeFields) -> TimeAnswer,
}

pub static CALENDARS: &[Calendar] = &[
    Calendar {
        name: "best known",
        time_to_fields: formulas::time_to_fields,
        fields_to_time: formulas::fields_to_time,
    },
    #[cfg(has_chrono)]
    Calendar {
        name: "chrono",
        time_to_fields: chrono_calls::time_to_fields,
        fields_to_time: chrono_calls::fields_to_time,
    },
    #[cfg(has_date)]
    Calendar {
        name: "Hinnant's date",
        time_to_fields: date_time_to_fields,
        fields_to_time: date_fields_to_time,
    },
];

// Those of date_calls.cc.
#[cfg(has_date)]
extern "C" {
    fn date_time_to_fields(time: i64) -> FieldsAnswer;
    fn date_fields_to_time(fields: TimeFields) -> TimeAnswer;
}

// Each of them takes any numbers.
impl Calendar {
    pub fn time_to_fields(&self, time: i64) -> FieldsAnswer {
        unsafe { (self.time_to_fields)(time) }
    }

    pub fn fields_to_time(&self, fields: TimeFields) -> TimeAnswer {
        unsafe { (self.fields_to_time)(fields) }
    }
}
