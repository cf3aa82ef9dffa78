//! Moments and how far they are from another.

use crate::explain::head::{float, integer};
use coset::cbor::head::Head;
use coset::cwt::Timestamp;

/// The units of distances: their seconds and their names. Months and years have their mean length
/// in the Gregorian calendar.
const UNITS: [(u64, &str); 5] = [
    (31_556_952, "years"),
    (2_629_746, "months"),
    (86_400, "days"),
    (3_600, "hours"),
    (60, "minutes"),
];

/// Returns the moment with this head, if it is a number.
pub(crate) fn moment(head: &Head) -> Option<Timestamp> {
    if head.is_float() {
        return Some(Timestamp::FractionalSeconds(float(head)));
    }
    integer(head).map(Timestamp::WholeSeconds)
}

/// Returns the whole seconds of a moment since 1970 began, or `None` for a float that is no moment.
fn seconds_of(timestamp: &Timestamp) -> Option<i64> {
    match timestamp {
        Timestamp::WholeSeconds(seconds) => Some(*seconds),
        Timestamp::FractionalSeconds(seconds) => Some(seconds.to_f64())
            .filter(|seconds| seconds.is_finite())
            .map(|seconds| seconds as i64),
    }
}

/// Returns true if the time is an infinity or NaN, and no moment.
pub(crate) fn is_no_moment(timestamp: &Timestamp) -> bool {
    seconds_of(timestamp).is_none()
}

/// Returns true if an expiration time has come at `now`. An infinity or NaN has always come.
pub(crate) fn is_over(expiry: &Timestamp, now: Option<i64>) -> bool {
    now.is_some_and(|now| is_no_moment(expiry) || !expiry.is_after(now))
}

/// Returns true if a time before which claims aren't valid is after `now`. An infinity or NaN
/// always is.
pub(crate) fn is_early(start: &Timestamp, now: Option<i64>) -> bool {
    now.is_some_and(|now| is_no_moment(start) || start.is_after(now))
}

/// Returns how far a moment is from `now`, after a comma: `, 3 days ago` or `, in 3 days`. The unit
/// is the largest of which there are at least two. The text is empty for a float that is no moment.
pub(crate) fn distance(timestamp: &Timestamp, now: i64) -> String {
    let Some(seconds) = seconds_of(timestamp) else {
        return String::new();
    };
    let distance = seconds.abs_diff(now);
    let unit = UNITS.iter().find(|(length, _)| 2 <= distance / length);
    let (count, name) = match unit {
        Some((length, name)) => (distance / length, *name),
        None => (distance, if distance == 1 { "second" } else { "seconds" }),
    };
    if now < seconds {
        format!(", in {count} {name}")
    } else {
        format!(", {count} {name} ago")
    }
}

/// Returns the date of a moment to the minute, `2013-03-21 20:04 UTC`. A moment without such a date
/// is a number of seconds.
pub fn date(timestamp: &Timestamp) -> String {
    let whole = timestamp.to_string();
    let Some((day, time)) = whole.split_once('T') else {
        return whole;
    };
    let minute = time.rsplit_once(':').map_or(time, |(minute, _)| minute);
    format!("{day} {minute} UTC")
}
