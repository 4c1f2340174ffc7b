//! The values of literals.

// an evaluator would read them
#[allow(dead_code)]
pub enum Value {
    Null,
    Bool(bool),
    Int(i64),
    Text(String),
    /// Days since the first of January 1970.
    Date(i64),
    /// Minutes since then in UTC, nanoseconds of the minute, and the offset in minutes.
    Moment(i64, u64, i16),
    Guid(u128),
}

pub fn int_value(text: &[u8]) -> Option<i64> {
    let (is_negative, digits) = match text {
        [b'-', rest @ ..] => (true, rest),
        [b'+', rest @ ..] => (false, rest),
        _ => (false, text),
    };
    let mut number: i64 = 0;
    for digit in digits {
        number = number.checked_mul(10)?.checked_sub(i64::from(digit - b'0'))?;
    }
    if is_negative {
        Some(number)
    } else {
        number.checked_neg()
    }
}

/// Of a text in its quotes.
pub fn text_value(text: &[u8]) -> Value {
    let inner = std::str::from_utf8(&text[1..text.len() - 1]).unwrap();
    Value::Text(if inner.contains('\'') { inner.replace("''", "'") } else { inner.to_owned() })
}

/// The number of so many digits.
fn digits(text: &[u8], at: usize, count: usize) -> i64 {
    text[at..at + count].iter().fold(0, |number, digit| number * 10 + i64::from(digit - b'0'))
}

fn days(text: &[u8]) -> Option<i64> {
    let (year, month, day) = (digits(text, 0, 4), digits(text, 5, 2), digits(text, 8, 2));
    let is_leap = year % 4 == 0 && (year % 100 != 0 || year % 400 == 0);
    let last = match month {
        1 | 3 | 5 | 7 | 8 | 10 | 12 => 31,
        4 | 6 | 9 | 11 => 30,
        2 => 28 + i64::from(is_leap),
        _ => return None,
    };
    if year == 0 || day == 0 || day > last {
        return None;
    }
    // years begin in March, so that the leap day is the last one
    let (from_march, since) = ((month + 9) % 12, year - i64::from(month < 3));
    Some(since * 365 + since / 4 - since / 100 + since / 400 + (from_march * 306 + 5) / 10 + day - 719_469)
}

pub fn date_value(text: &[u8]) -> Option<Value> {
    days(text).map(Value::Date)
}

pub fn moment_value(text: &[u8]) -> Option<Value> {
    let (hour, minute) = (digits(text, 11, 2), digits(text, 14, 2));
    let has_seconds = text[16] == b':';
    let second = if has_seconds { digits(text, 17, 2) } else { 0 };
    let offset = match text {
        [.., b'Z' | b'z'] => 0,
        [.., sign, _, _, _, _, _] => {
            let (hours, minutes) = (digits(text, text.len() - 5, 2), digits(text, text.len() - 2, 2));
            if hours > 23 || minutes > 59 {
                return None;
            }
            (hours * 60 + minutes) * if *sign == b'-' { -1 } else { 1 }
        }
        _ => return None,
    };
    if hour > 23 || minute > 59 || second > 59 {
        return None;
    }
    let mut nanoseconds = second as u64 * 1_000_000_000;
    if has_seconds && text[19] == b'.' {
        let mut unit = 100_000_000;
        for digit in text[20..].iter().take_while(|it| it.is_ascii_digit()) {
            nanoseconds += u64::from(digit - b'0') * unit;
            unit /= 10;
        }
    }
    Some(Value::Moment(days(text)? * 1_440 + hour * 60 + minute - offset, nanoseconds, offset as i16))
}

pub fn guid_value(text: &[u8]) -> Option<Value> {
    let digits = text.iter().filter_map(|it| (*it as char).to_digit(16));
    Some(Value::Guid(digits.fold(0, |number, digit| number << 4 | u128::from(digit))))
}
