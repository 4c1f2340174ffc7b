//! The values that rows have as texts: each read from its spelling, and refused where that has no value.
use serde::de::{Deserialize, Deserializer, Error, Visitor};
use std::borrow::Cow;
use std::fmt;

/// A text, borrowed from the line where it has no escape: what `#[serde(borrow)]` does for a field, for an item.
#[derive(serde::Deserialize)]
#[serde(transparent)]
#[allow(dead_code)]
pub struct Text<'a>(#[serde(borrow)] pub Cow<'a, str>);

/// A day, as a number that orders days.
#[allow(dead_code)]
pub struct Date(pub u32);

/// The nanoseconds since the beginning of year 0, and the minutes that the clock is ahead.
#[allow(dead_code)]
pub struct Moment(pub i128, pub i32);

#[allow(dead_code)]
pub struct Guid(pub [u8; 16]);

/// The members of Shop.Color as bits, or any number in their place.
#[allow(dead_code)]
pub struct Color(pub i32);

/// A value that is read from a text.
trait Spelled: Sized {
    fn read(text: &str) -> Option<Self>;
}

struct TextVisitor<T>(std::marker::PhantomData<T>);

impl<T: Spelled> Visitor<'_> for TextVisitor<T> {
    type Value = T;

    fn expecting(&self, out: &mut fmt::Formatter) -> fmt::Result {
        out.write_str("a text with a value")
    }

    fn visit_str<E: Error>(self, text: &str) -> Result<T, E> {
        T::read(text).ok_or_else(|| E::custom("a text without a value"))
    }
}

macro_rules! deserialize {
    ($($name:ident)*) => {$(
        impl<'de> Deserialize<'de> for $name {
            fn deserialize<D: Deserializer<'de>>(from: D) -> Result<$name, D::Error> {
                from.deserialize_str(TextVisitor(std::marker::PhantomData))
            }
        }
    )*};
}

deserialize! { Date Moment Guid Color }

/// The number of so many digits.
fn digits(bytes: &[u8]) -> Option<u32> {
    let mut number = 0;
    for byte in bytes {
        if !byte.is_ascii_digit() {
            return None;
        }
        number = number * 10 + u32::from(byte - b'0');
    }
    Some(number)
}

fn days_of(year: u32, month: u32) -> u32 {
    match month {
        4 | 6 | 9 | 11 => 30,
        2 if year % 4 == 0 && (year % 100 != 0 || year % 400 == 0) => 29,
        2 => 28,
        _ => 31,
    }
}

/// The days before the first of a month, from the beginning of year 0; the year is not 0.
fn days_before(year: u32, month: u32) -> u32 {
    let past = year - 1;
    366 + 365 * past + past / 4 - past / 100 + past / 400 + (1..month).map(|month| days_of(year, month)).sum::<u32>()
}

fn day(bytes: &[u8]) -> Option<u32> {
    if bytes.len() != 10 || bytes[4] != b'-' || bytes[7] != b'-' {
        return None;
    }
    let (year, month, day) = (digits(&bytes[..4])?, digits(&bytes[5..7])?, digits(&bytes[8..])?);
    if year == 0 || !(1..=12).contains(&month) || day == 0 || day > days_of(year, month) {
        return None;
    }
    Some(days_before(year, month) + day - 1)
}

impl Spelled for Date {
    fn read(text: &str) -> Option<Date> {
        day(text.as_bytes()).map(Date)
    }
}

/// The minutes of `hh:mm`.
fn clock(bytes: &[u8]) -> Option<u32> {
    if bytes.len() != 5 || bytes[2] != b':' {
        return None;
    }
    let (hour, minute) = (digits(&bytes[..2])?, digits(&bytes[3..])?);
    (hour < 24 && minute < 60).then_some(60 * hour + minute)
}

/// The seconds and nanoseconds of `:ss` and a fraction, or of nothing.
fn seconds(bytes: &[u8]) -> Option<(u32, u32)> {
    let Some((second, fraction)) = bytes.get(1..3).zip(bytes.get(3..)) else {
        return bytes.is_empty().then_some((0, 0));
    };
    let second = digits(second)?;
    if bytes[0] != b':' || second > 59 {
        return None;
    }
    let Some((point, fraction)) = fraction.split_first() else {
        return Some((second, 0));
    };
    if *point != b'.' || fraction.is_empty() || fraction.len() > 9 {
        return None;
    }
    Some((second, digits(fraction)? * 10_u32.pow(9 - fraction.len() as u32)))
}

impl Spelled for Moment {
    fn read(text: &str) -> Option<Moment> {
        let bytes = text.as_bytes();
        let (date, after) = (bytes.get(..10)?, bytes.get(11..)?);
        if bytes[10] | 32 != b't' {
            return None;
        }
        let (rest, offset) = match after.strip_suffix(b"Z").or(after.strip_suffix(b"z")) {
            Some(rest) => (rest, 0),
            None => {
                let (rest, zone) = after.split_at_checked(after.len().checked_sub(6)?)?;
                let minutes = clock(&zone[1..])? as i32;
                match zone[0] {
                    b'+' => (rest, minutes),
                    b'-' => (rest, -minutes),
                    _ => return None,
                }
            }
        };
        let minutes = clock(rest.get(..5)?)? as i32 - offset;
        let (second, nanosecond) = seconds(&rest[5..])?;
        let all = i128::from(day(date)?) * 86_400 + i128::from(minutes) * 60 + i128::from(second);
        Some(Moment(all * 1_000_000_000 + i128::from(nanosecond), offset))
    }
}

impl Spelled for Guid {
    fn read(text: &str) -> Option<Guid> {
        let bytes = text.as_bytes();
        if bytes.len() != 36 {
            return None;
        }
        let mut guid = [0; 16];
        let mut place = 0;
        for (at, byte) in bytes.iter().enumerate() {
            if matches!(at, 8 | 13 | 18 | 23) {
                if *byte != b'-' {
                    return None;
                }
                continue;
            }
            let digit = (*byte as char).to_digit(16)? as u8;
            guid[place / 2] = guid[place / 2] << 4 | digit;
            place += 1;
        }
        Some(Guid(guid))
    }
}

fn member(piece: &str) -> Option<i32> {
    match piece {
        "Red" => Some(1),
        "Green" => Some(2),
        "Blue" => Some(4),
        _ => {
            let unsigned = piece.strip_prefix(['+', '-']).unwrap_or(piece);
            unsigned.bytes().all(|byte| byte.is_ascii_digit()).then(|| piece.parse().ok())?
        }
    }
}

impl Spelled for Color {
    fn read(text: &str) -> Option<Color> {
        let mut color = 0;
        for piece in text.split(',') {
            color |= member(piece.trim_matches(' '))?;
        }
        Some(Color(color))
    }
}
