//! The C calls of the library's header, declared here and nowhere else, and
//! the answers they hand over. The benchmark uses this file too.

use std::fmt::{self, Debug};
use std::mem::offset_of;

/// The fields of a TIME, in the order of the specification.
#[repr(C)]
#[derive(Clone, Copy, PartialEq, Eq, Debug, Default)]
pub struct TimeFields {
    pub year: i16,
    pub month: i16,
    pub day: i16,
    pub hour: i16,
    pub minute: i16,
    pub second: i16,
    pub milliseconds: i16,
    pub weekday: i16,
}

impl TimeFields {
    /// Fields from a row of numbers in the order above.
    pub fn from_row(row: [i16; 8]) -> TimeFields {
        let [year, month, day, hour, minute, second, milliseconds, weekday] = row;
        TimeFields {
            year,
            month,
            day,
            hour,
            minute,
            second,
            milliseconds,
            weekday,
        }
    }

    pub fn as_row(&self) -> [i16; 8] {
        [
            self.year,
            self.month,
            self.day,
            self.hour,
            self.minute,
            self.second,
            self.milliseconds,
            self.weekday,
        ]
    }
}

/// Whether a TIME is absolute. False beside a refusal.
#[repr(C)]
#[derive(Clone, Copy, PartialEq, Eq, Debug, Default)]
pub struct AbsoluteAnswer {
    pub refusal: u32,
    pub absolute: bool,
}

#[repr(C)]
#[derive(Clone, Copy, PartialEq, Eq, Debug, Default)]
pub struct FieldsAnswer {
    pub refusal: u32,
    pub fields: TimeFields,
}

#[repr(C)]
#[derive(Clone, Copy, PartialEq, Eq, Debug, Default)]
pub struct TimeAnswer {
    pub refusal: u32,
    pub time: i64,
}

#[repr(C)]
#[derive(Clone, Copy, PartialEq, Eq, Debug, Default)]
pub struct SecondsAnswer {
    pub refusal: u32,
    pub seconds: u32,
}

/// A date as the records have it. In a switch date month 0 means not set and
/// year 0 every year.
#[repr(C)]
#[derive(Clone, Copy, PartialEq, Eq, Debug, Default)]
pub struct SystemTime {
    pub year: u16,
    pub month: u16,
    pub weekday: u16,
    pub day: u16,
    pub hour: u16,
    pub minute: u16,
    pub second: u16,
    pub millisecond: u16,
}

impl SystemTime {
    /// A date from a row of numbers in the order above.
    pub fn from_row(row: [u16; 8]) -> SystemTime {
        let [year, month, weekday, day, hour, minute, second, millisecond] = row;
        SystemTime {
            year,
            month,
            weekday,
            day,
            hour,
            minute,
            second,
            millisecond,
        }
    }

    pub fn as_row(&self) -> [u16; 8] {
        [
            self.year,
            self.month,
            self.weekday,
            self.day,
            self.hour,
            self.minute,
            self.second,
            self.millisecond,
        ]
    }
}

/// A rule of a zone. Two rules are equal if their fields are.
#[repr(C)]
#[derive(Clone, Copy, Debug, Default)]
pub struct Rule {
    pub year: u16,
    /// A bool in C. Here it is a number, so that a byte other than 0 and 1
    /// is a difference like any other.
    pub active: u8,
    /// The byte that C leaves between two fields.
    pub padding: u8,
    pub bias: i32,
    pub standard_bias: i32,
    pub daylight_bias: i32,
    pub standard_date: SystemTime,
    pub daylight_date: SystemTime,
}

impl PartialEq for Rule {
    fn eq(&self, other: &Rule) -> bool {
        self.year == other.year
            && self.active == other.active
            && self.bias == other.bias
            && self.standard_bias == other.standard_bias
            && self.daylight_bias == other.daylight_bias
            && self.standard_date == other.standard_date
            && self.daylight_date == other.daylight_date
    }
}

impl Rule {
    /// Whether every byte is the same, the one between the fields included.
    pub fn is_untouched(&self, before: &Rule) -> bool {
        self == before && self.padding == before.padding
    }
}

/// A name of a remote desktop record.
#[repr(C)]
#[derive(Clone, Copy, PartialEq, Eq)]
pub struct Name {
    pub bytes: [u8; 64],
}

impl Debug for Name {
    fn fmt(&self, f: &mut fmt::Formatter<'_>) -> fmt::Result {
        self.bytes
            .iter()
            .try_for_each(|byte| write!(f, "{byte:02x}"))
    }
}

#[repr(C)]
#[derive(Clone, Copy, PartialEq, Debug)]
pub struct RuleAnswer {
    pub refusal: u32,
    pub rule: Rule,
}

#[repr(C)]
#[derive(Clone, Copy, PartialEq, Debug)]
pub struct RemoteDesktopAnswer {
    pub refusal: u32,
    pub rule: Rule,
    pub standard_name: Name,
    pub daylight_name: Name,
}

/// How many bytes were written, from the output's start.
#[repr(C)]
#[derive(Clone, Copy, PartialEq, Eq, Debug)]
pub struct LengthAnswer {
    pub refusal: u32,
    pub length: usize,
}

/// How many rules were stored, from the row's start.
#[repr(C)]
#[derive(Clone, Copy, PartialEq, Eq, Debug)]
pub struct CountAnswer {
    pub refusal: u32,
    pub count: usize,
}

/// A part of the lent bytes.
#[repr(C)]
#[derive(Clone, Copy, PartialEq, Eq, Debug)]
pub struct Part {
    pub at: usize,
    pub length: usize,
}

/// Ticks of 100 ns from 1601-01-01 00:00 UTC.
#[repr(C)]
#[derive(Clone, Copy, PartialEq, Eq, Debug, Default)]
pub struct UtcTick {
    pub ticks: i64,
}

/// Ticks of 100 ns from 1601-01-01 00:00 as a local clock shows them.
#[repr(C)]
#[derive(Clone, Copy, PartialEq, Eq, Debug, Default)]
pub struct LocalTick {
    pub ticks: i64,
}

#[repr(C)]
#[derive(Clone, Copy, PartialEq, Eq, Debug, Default)]
pub struct LocalAnswer {
    pub refusal: u32,
    pub local: LocalTick,
}

/// Up to four ticks, earliest first. Those beyond the count are zero.
#[repr(C)]
#[derive(Clone, Copy, PartialEq, Eq, Debug, Default)]
pub struct UtcAnswer {
    pub refusal: u32,
    pub count: u32,
    pub first: UtcTick,
    pub second: UtcTick,
    pub third: UtcTick,
    pub fourth: UtcTick,
}

/// The time run by local weekday, from Sunday on, and the end of the last run.
#[repr(C)]
#[derive(Clone, Copy, PartialEq, Eq, Debug, Default)]
pub struct Tally {
    pub end: UtcTick,
    pub totals: [u64; 7],
}

/// A call of a script: 0 books, 1 saves, any other number reads.
#[repr(C)]
#[derive(Clone, Copy, PartialEq, Eq, Debug, Default)]
pub struct ScriptCall {
    pub kind: u32,
    pub from: UtcTick,
    pub to: UtcTick,
}

#[repr(C)]
#[derive(Clone, Copy, PartialEq, Eq, Debug, Default)]
pub struct TallyAnswer {
    pub refusal: u32,
    pub tally: Tally,
}

// The sizes that the header's structs have in C.
const _: () = assert!(std::mem::size_of::<TimeFields>() == 16);
const _: () = assert!(std::mem::size_of::<AbsoluteAnswer>() == 8);
const _: () = assert!(std::mem::size_of::<FieldsAnswer>() == 20);
const _: () = assert!(std::mem::size_of::<TimeAnswer>() == 16);
const _: () = assert!(std::mem::size_of::<SecondsAnswer>() == 8);
const _: () = assert!(std::mem::size_of::<SystemTime>() == 16);
const _: () = assert!(std::mem::size_of::<Rule>() == 48);
const _: () = assert!(std::mem::size_of::<Name>() == 64);
const _: () = assert!(std::mem::size_of::<RuleAnswer>() == 52);
const _: () = assert!(std::mem::size_of::<RemoteDesktopAnswer>() == 180);
const _: () = assert!(std::mem::size_of::<LengthAnswer>() == 16);
const _: () = assert!(std::mem::size_of::<CountAnswer>() == 16);
const _: () = assert!(std::mem::size_of::<Part>() == 16);
const _: () = assert!(std::mem::size_of::<UtcTick>() == 8);
const _: () = assert!(std::mem::size_of::<LocalTick>() == 8);
const _: () = assert!(std::mem::size_of::<LocalAnswer>() == 16);
const _: () = assert!(std::mem::size_of::<UtcAnswer>() == 40);
const _: () = assert!(std::mem::size_of::<Tally>() == 64);
const _: () = assert!(std::mem::size_of::<TallyAnswer>() == 72);
const _: () = assert!(std::mem::size_of::<ScriptCall>() == 24);

// Where their fields lie.
const _: () = assert!(offset_of!(AbsoluteAnswer, absolute) == 4);
const _: () = assert!(offset_of!(FieldsAnswer, fields) == 4);
const _: () = assert!(offset_of!(TimeAnswer, time) == 8);
const _: () = assert!(offset_of!(SystemTime, weekday) == 4);
const _: () = assert!(offset_of!(SystemTime, day) == 6);
const _: () = assert!(offset_of!(SystemTime, millisecond) == 14);
const _: () = assert!(offset_of!(Rule, active) == 2);
const _: () = assert!(offset_of!(Rule, bias) == 4);
const _: () = assert!(offset_of!(Rule, standard_bias) == 8);
const _: () = assert!(offset_of!(Rule, daylight_bias) == 12);
const _: () = assert!(offset_of!(Rule, standard_date) == 16);
const _: () = assert!(offset_of!(Rule, daylight_date) == 32);
const _: () = assert!(std::mem::align_of::<Rule>() == 4);
const _: () = assert!(offset_of!(RuleAnswer, rule) == 4);
const _: () = assert!(offset_of!(RemoteDesktopAnswer, rule) == 4);
const _: () = assert!(offset_of!(RemoteDesktopAnswer, standard_name) == 52);
const _: () = assert!(offset_of!(RemoteDesktopAnswer, daylight_name) == 116);
const _: () = assert!(offset_of!(LengthAnswer, length) == 8);
const _: () = assert!(offset_of!(CountAnswer, count) == 8);
const _: () = assert!(offset_of!(Part, length) == 8);
const _: () = assert!(offset_of!(LocalAnswer, local) == 8);
const _: () = assert!(offset_of!(UtcAnswer, count) == 4);
const _: () = assert!(offset_of!(UtcAnswer, first) == 8);
const _: () = assert!(offset_of!(UtcAnswer, fourth) == 32);
const _: () = assert!(offset_of!(Tally, totals) == 8);
const _: () = assert!(offset_of!(TallyAnswer, tally) == 8);
const _: () = assert!(offset_of!(ScriptCall, from) == 8);
const _: () = assert!(offset_of!(ScriptCall, to) == 16);

extern "C" {
    fn dohlenwerk_is_absolute(revision: u32, time: i64) -> AbsoluteAnswer;
    fn dohlenwerk_time_to_fields(revision: u32, time: i64) -> FieldsAnswer;
    fn dohlenwerk_fields_to_time(revision: u32, fields: TimeFields) -> TimeAnswer;
    fn dohlenwerk_time_to_fields_by_table(revision: u32, time: i64) -> FieldsAnswer;
    fn dohlenwerk_fields_to_time_by_table(revision: u32, fields: TimeFields) -> TimeAnswer;
    fn dohlenwerk_time_to_seconds_since_1970(time: i64) -> SecondsAnswer;
    fn dohlenwerk_time_to_seconds_since_1980(time: i64) -> SecondsAnswer;
    fn dohlenwerk_seconds_since_1970_to_time(seconds: u32) -> i64;
    fn dohlenwerk_seconds_since_1980_to_time(seconds: u32) -> i64;
    fn dohlenwerk_read_registry(bytes: *const u8, length: usize) -> RuleAnswer;
    fn dohlenwerk_write_registry(rule: Rule, out: *mut u8, room: usize) -> LengthAnswer;
    fn dohlenwerk_read_remote_desktop(bytes: *const u8, length: usize) -> RemoteDesktopAnswer;
    fn dohlenwerk_write_remote_desktop(
        rule: Rule,
        standard_name: Name,
        daylight_name: Name,
        out: *mut u8,
        room: usize,
    ) -> LengthAnswer;
    fn dohlenwerk_read_definition(
        bytes: *const u8,
        length: usize,
        row: *mut Rule,
        room: usize,
    ) -> CountAnswer;
    fn dohlenwerk_definition_name(bytes: *const u8, length: usize) -> Part;
    fn dohlenwerk_write_definition(
        name: *const u8,
        name_length: usize,
        row: *const Rule,
        count: usize,
        out: *mut u8,
        room: usize,
    ) -> LengthAnswer;
    fn dohlenwerk_utc_to_local(row: *const Rule, count: usize, utc: UtcTick) -> LocalAnswer;
    fn dohlenwerk_local_to_utc(row: *const Rule, count: usize, local: LocalTick) -> UtcAnswer;
    fn dohlenwerk_fresh_tally() -> Tally;
    fn dohlenwerk_tally_holds(tally: Tally) -> bool;
    fn dohlenwerk_book(
        tally: Tally,
        row: *const Rule,
        count: usize,
        from: UtcTick,
        to: UtcTick,
    ) -> TallyAnswer;
    fn dohlenwerk_save_tally(tally: Tally, out: *mut u8, room: usize) -> LengthAnswer;
    fn dohlenwerk_read_tally(bytes: *const u8, length: usize) -> TallyAnswer;
    fn dohlenwerk_run_script(
        row: *const Rule,
        rules: usize,
        calls: *const ScriptCall,
        count: usize,
        buffer: *mut u8,
        room: usize,
        log: *mut u8,
        length: usize,
    ) -> TallyAnswer;
}

// By the header no call has a precondition on its numbers. Lent memory is
// valid for its length, and no output overlaps an input: slices see to it.

pub fn is_absolute(revision: u32, time: i64) -> AbsoluteAnswer {
    unsafe { dohlenwerk_is_absolute(revision, time) }
}

pub fn time_to_fields(revision: u32, time: i64) -> FieldsAnswer {
    unsafe { dohlenwerk_time_to_fields(revision, time) }
}

pub fn fields_to_time(revision: u32, fields: TimeFields) -> TimeAnswer {
    unsafe { dohlenwerk_fields_to_time(revision, fields) }
}

pub fn time_to_fields_by_table(revision: u32, time: i64) -> FieldsAnswer {
    unsafe { dohlenwerk_time_to_fields_by_table(revision, time) }
}

pub fn fields_to_time_by_table(revision: u32, fields: TimeFields) -> TimeAnswer {
    unsafe { dohlenwerk_fields_to_time_by_table(revision, fields) }
}

pub fn time_to_seconds_since_1970(time: i64) -> SecondsAnswer {
    unsafe { dohlenwerk_time_to_seconds_since_1970(time) }
}

pub fn time_to_seconds_since_1980(time: i64) -> SecondsAnswer {
    unsafe { dohlenwerk_time_to_seconds_since_1980(time) }
}

pub fn seconds_since_1970_to_time(seconds: u32) -> i64 {
    unsafe { dohlenwerk_seconds_since_1970_to_time(seconds) }
}

pub fn seconds_since_1980_to_time(seconds: u32) -> i64 {
    unsafe { dohlenwerk_seconds_since_1980_to_time(seconds) }
}

pub fn read_registry(bytes: &[u8]) -> RuleAnswer {
    unsafe { dohlenwerk_read_registry(bytes.as_ptr(), bytes.len()) }
}

pub fn write_registry(rule: Rule, out: &mut [u8]) -> LengthAnswer {
    unsafe { dohlenwerk_write_registry(rule, out.as_mut_ptr(), out.len()) }
}

pub fn read_remote_desktop(bytes: &[u8]) -> RemoteDesktopAnswer {
    unsafe { dohlenwerk_read_remote_desktop(bytes.as_ptr(), bytes.len()) }
}

pub fn write_remote_desktop(rule: Rule, names: [Name; 2], out: &mut [u8]) -> LengthAnswer {
    let [standard, daylight] = names;
    unsafe {
        dohlenwerk_write_remote_desktop(rule, standard, daylight, out.as_mut_ptr(), out.len())
    }
}

pub fn read_definition(bytes: &[u8], row: &mut [Rule]) -> CountAnswer {
    unsafe { dohlenwerk_read_definition(bytes.as_ptr(), bytes.len(), row.as_mut_ptr(), row.len()) }
}

pub fn definition_name(bytes: &[u8]) -> Part {
    unsafe { dohlenwerk_definition_name(bytes.as_ptr(), bytes.len()) }
}

pub fn write_definition(name: &[u8], row: &[Rule], out: &mut [u8]) -> LengthAnswer {
    unsafe {
        dohlenwerk_write_definition(
            name.as_ptr(),
            name.len(),
            row.as_ptr(),
            row.len(),
            out.as_mut_ptr(),
            out.len(),
        )
    }
}

pub fn utc_to_local(row: &[Rule], utc: UtcTick) -> LocalAnswer {
    unsafe { dohlenwerk_utc_to_local(row.as_ptr(), row.len(), utc) }
}

pub fn local_to_utc(row: &[Rule], local: LocalTick) -> UtcAnswer {
    unsafe { dohlenwerk_local_to_utc(row.as_ptr(), row.len(), local) }
}

pub fn fresh_tally() -> Tally {
    unsafe { dohlenwerk_fresh_tally() }
}

pub fn tally_holds(tally: Tally) -> bool {
    unsafe { dohlenwerk_tally_holds(tally) }
}

pub fn book(tally: Tally, row: &[Rule], from: UtcTick, to: UtcTick) -> TallyAnswer {
    unsafe { dohlenwerk_book(tally, row.as_ptr(), row.len(), from, to) }
}

pub fn save_tally(tally: Tally, out: &mut [u8]) -> LengthAnswer {
    unsafe { dohlenwerk_save_tally(tally, out.as_mut_ptr(), out.len()) }
}

pub fn read_tally(bytes: &[u8]) -> TallyAnswer {
    unsafe { dohlenwerk_read_tally(bytes.as_ptr(), bytes.len()) }
}

pub fn run_script(
    row: &[Rule],
    calls: &[ScriptCall],
    buffer: &mut [u8],
    log: &mut [u8],
) -> TallyAnswer {
    unsafe {
        dohlenwerk_run_script(
            row.as_ptr(),
            row.len(),
            calls.as_ptr(),
            calls.len(),
            buffer.as_mut_ptr(),
            buffer.len(),
            log.as_mut_ptr(),
            log.len(),
        )
    }
}

// A refusal hands over its number only: every other field is zero. Beside a
// refused booking stands the tally as it was handed in. An expected refusal is
// built so, and answers are compared field by field.

impl AbsoluteAnswer {
    pub fn of(absolute: bool) -> Self {
        AbsoluteAnswer {
            refusal: 0,
            absolute,
        }
    }

    pub fn refused(refusal: u32) -> Self {
        AbsoluteAnswer {
            refusal,
            absolute: false,
        }
    }
}

impl FieldsAnswer {
    pub fn of(fields: TimeFields) -> Self {
        FieldsAnswer { refusal: 0, fields }
    }

    pub fn refused(refusal: u32) -> Self {
        FieldsAnswer {
            refusal,
            ..Default::default()
        }
    }
}

impl TimeAnswer {
    pub fn of(time: i64) -> Self {
        TimeAnswer { refusal: 0, time }
    }

    pub fn refused(refusal: u32) -> Self {
        TimeAnswer { refusal, time: 0 }
    }
}

impl SecondsAnswer {
    pub fn of(seconds: u32) -> Self {
        SecondsAnswer {
            refusal: 0,
            seconds,
        }
    }

    pub fn refused(refusal: u32) -> Self {
        SecondsAnswer {
            refusal,
            seconds: 0,
        }
    }
}

impl Name {
    pub const ZEROS: Name = Name { bytes: [0; 64] };
}

impl RuleAnswer {
    pub fn of(rule: Rule) -> Self {
        RuleAnswer { refusal: 0, rule }
    }

    pub fn refused(refusal: u32) -> Self {
        RuleAnswer {
            refusal,
            rule: Rule::default(),
        }
    }
}

impl RemoteDesktopAnswer {
    pub fn of(rule: Rule, [standard_name, daylight_name]: [Name; 2]) -> Self {
        RemoteDesktopAnswer {
            refusal: 0,
            rule,
            standard_name,
            daylight_name,
        }
    }

    pub fn refused(refusal: u32) -> Self {
        RemoteDesktopAnswer {
            refusal,
            rule: Rule::default(),
            standard_name: Name::ZEROS,
            daylight_name: Name::ZEROS,
        }
    }
}

impl LengthAnswer {
    pub fn of(length: usize) -> Self {
        LengthAnswer { refusal: 0, length }
    }

    pub fn refused(refusal: u32) -> Self {
        LengthAnswer { refusal, length: 0 }
    }
}

impl CountAnswer {
    pub fn of(count: usize) -> Self {
        CountAnswer { refusal: 0, count }
    }

    pub fn refused(refusal: u32) -> Self {
        CountAnswer { refusal, count: 0 }
    }
}

impl LocalAnswer {
    pub fn of(ticks: i64) -> Self {
        LocalAnswer {
            refusal: 0,
            local: LocalTick { ticks },
        }
    }

    pub fn refused(refusal: u32) -> Self {
        LocalAnswer {
            refusal,
            ..Default::default()
        }
    }
}

impl UtcAnswer {
    /// Of none to four ticks.
    pub fn of(list: &[i64]) -> Self {
        let at = |place: usize| UtcTick {
            ticks: list.get(place).copied().unwrap_or(0),
        };
        UtcAnswer {
            refusal: 0,
            count: list.len() as u32,
            first: at(0),
            second: at(1),
            third: at(2),
            fourth: at(3),
        }
    }

    pub fn refused(refusal: u32) -> Self {
        UtcAnswer {
            refusal,
            ..Default::default()
        }
    }

    /// The ticks that the count speaks of. A count above four is none.
    pub fn list(&self) -> Option<Vec<i64>> {
        let all = [self.first, self.second, self.third, self.fourth];
        let counted = all.get(..self.count as usize)?;
        Some(counted.iter().map(|tick| tick.ticks).collect())
    }
}

impl TallyAnswer {
    pub fn of(tally: Tally) -> Self {
        TallyAnswer { refusal: 0, tally }
    }

    /// A booking's: the tally is the one handed in.
    pub fn refused(refusal: u32, tally: Tally) -> Self {
        TallyAnswer { refusal, tally }
    }

    /// A reading's, or a script's: the tally is one that does not hold.
    pub fn unread(refusal: u32) -> Self {
        TallyAnswer {
            refusal,
            ..Default::default()
        }
    }
}
