//! Stands in for time, which the published `DateTime` and the schedule by business days name.
//! Trading is every day, so no date is ever taken apart and no function here is reached.

const UNUSED: &str = "no date is taken apart here";

pub struct Format;

pub mod format_description {
    pub fn parse(_format: &str) -> Result<super::Format, ()> {
        unreachable!("{}", super::UNUSED)
    }
}

pub struct Time;

#[macro_export]
macro_rules! time {
    ($($clock:tt)*) => {
        $crate::Time
    };
}

pub mod macros {
    pub use crate::time;
}

pub struct Date;

impl Date {
    pub fn parse(_text: &str, _format: &Format) -> Result<Date, ()> {
        unreachable!("{}", UNUSED)
    }

    pub fn with_time(self, _time: Time) -> PrimitiveDateTime {
        unreachable!("{}", UNUSED)
    }
}

pub struct PrimitiveDateTime;

impl PrimitiveDateTime {
    pub fn assume_utc(self) -> OffsetDateTime {
        unreachable!("{}", UNUSED)
    }
}

pub enum Month {
    January,
}

pub enum Weekday {
    Monday,
    Saturday,
    Sunday,
}

pub struct OffsetDateTime;

impl OffsetDateTime {
    pub fn from_unix_timestamp(_seconds: i64) -> Result<OffsetDateTime, ()> {
        unreachable!("{}", UNUSED)
    }

    pub fn unix_timestamp(self) -> i64 {
        unreachable!("{}", UNUSED)
    }

    pub fn day(self) -> u8 {
        unreachable!("{}", UNUSED)
    }

    pub fn weekday(self) -> Weekday {
        unreachable!("{}", UNUSED)
    }

    pub fn month(self) -> Month {
        unreachable!("{}", UNUSED)
    }
}
