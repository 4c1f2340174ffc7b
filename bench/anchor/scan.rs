//! The tokens of a filter, one at a time. Which characters past ASCII make names is left to `char::is_alphanumeric`.

#[derive(Clone, Copy, PartialEq, Eq)]
pub enum Kind {
    Word,
    Dollar,
    Int,
    Date,
    Moment,
    Guid,
    Text,
    EnumText,
    Open,
    Close,
    Comma,
    Slash,
    Colon,
    Minus,
    End,
}

#[derive(Clone, Copy)]
pub struct Token {
    pub kind: Kind,
    pub start: u32,
    pub stop: u32,
}

#[derive(Clone, Copy, Debug)]
pub enum Reason {
    BadCharacter,
    UnclosedString,
    LeftOutLiteral,
    RunOn,
    TooLong,
    Unexpected,
    TooDeep,
    UnknownProperty,
    TypeLeftOut,
    LiteralRange,
    UnknownEnum,
    OperandTypes,
    NotCollection,
    VariableTaken,
    BodyNotBoolean,
    UnknownFunction,
    ArgumentCount,
    ArgumentType,
    NotBoolean,
}

#[derive(Clone, Copy)]
pub struct Fault {
    pub reason: Reason,
    pub start: u32,
    pub stop: u32,
}

pub fn fault(reason: Reason, start: usize, stop: usize) -> Fault {
    Fault { reason, start: start as u32, stop: stop as u32 }
}

const LETTER: u8 = 1;
const DIGIT: u8 = 2;
const BLANK: u8 = 4;
const HIGH: u8 = 8;
const MOST_TOKENS: u32 = 4096;
const GUID: &[u8] = b"xxxxxxxx-xxxx-xxxx-xxxx-xxxxxxxxxxxx";

static CLASSES: [u8; 256] = classes();

const fn classes() -> [u8; 256] {
    let mut classes = [0; 256];
    let mut byte = 0;
    while byte < 256 {
        classes[byte] = match byte as u8 {
            b'A'..=b'Z' | b'a'..=b'z' | b'_' => LETTER,
            b'0'..=b'9' => DIGIT,
            b' ' | b'\t' => BLANK,
            128.. => HIGH,
            _ => 0,
        };
        byte += 1;
    }
    classes
}

pub struct Scanner<'a> {
    pub text: &'a str,
    pub at: usize,
    pub count: u32,
}

impl<'a> Scanner<'a> {
    /// The byte there, 0 past the end.
    #[inline(always)]
    fn byte(&self, at: usize) -> u8 {
        self.text.as_bytes().get(at).copied().unwrap_or(0)
    }

    #[inline(always)]
    fn is(&self, classes: u8, at: usize) -> bool {
        CLASSES[self.byte(at) as usize] & classes != 0
    }

    /// Where the characters of an identifier stop that begin there.
    #[inline(always)]
    fn name(&self, mut at: usize) -> usize {
        while self.is(LETTER | DIGIT, at) {
            at += 1;
        }
        if self.is(HIGH, at) {
            self.name_past_ascii(at)
        } else {
            at
        }
    }

    #[cold]
    fn name_past_ascii(&self, at: usize) -> usize {
        let rest = &self.text[at..];
        at + rest.find(|it: char| it != '_' && !it.is_alphanumeric()).unwrap_or(rest.len())
    }

    #[inline(always)]
    fn digits(&self, mut at: usize) -> usize {
        while self.is(DIGIT, at) {
            at += 1;
        }
        at
    }

    /// Where the text in quotes stops that begins there: where the last quote of two is never closed, after the first.
    fn quoted(&self, start: usize) -> Result<usize, Fault> {
        let bytes = self.text.as_bytes();
        let (mut at, mut closed) = (start + 1, None);
        while at < bytes.len() {
            if bytes[at] != b'\'' {
                at += 1;
                continue;
            }
            closed = Some(at + 1);
            if self.byte(at + 1) != b'\'' {
                break;
            }
            at += 2;
        }
        closed.ok_or(fault(Reason::UnclosedString, start, bytes.len()))
    }

    /// Whether the text goes on so: `d` for a digit, `x` for a hexadecimal one.
    fn looks(&self, form: &[u8], at: usize) -> bool {
        form.iter().enumerate().all(|(k, wanted)| match wanted {
            b'd' => self.byte(at + k).is_ascii_digit(),
            b'x' => self.byte(at + k).is_ascii_hexdigit(),
            _ => self.byte(at + k) == *wanted,
        })
    }

    fn fraction(&self, at: usize) -> usize {
        let stop = self.digits(at + 1);
        if self.byte(at) == b'.' && stop > at + 1 {
            stop
        } else {
            at
        }
    }

    /// Where a moment stops whose `T` is there.
    fn moment(&self, at: usize) -> Option<usize> {
        if self.byte(at) | 32 != b't' || !self.looks(b"dd:dd", at + 1) {
            return None;
        }
        let seconds = self.looks(b":dd", at + 6);
        let stop = if seconds { self.fraction(at + 9) } else { at + 6 };
        match self.byte(stop) {
            b'Z' | b'z' => Some(stop + 1),
            b'+' | b'-' if self.looks(b"dd:dd", stop + 1) => Some(stop + 6),
            _ => None,
        }
    }

    /// What begins with digits that do not stand alone.
    #[cold]
    fn past_digits(&self, start: usize, digits: usize) -> Result<(Kind, usize), Fault> {
        if self.looks(GUID, start) {
            return Ok((Kind::Guid, start + GUID.len()));
        }
        if self.looks(b"dddd-dd-dd", start) {
            return Ok(self.moment(start + 10).map_or((Kind::Date, start + 10), |stop| (Kind::Moment, stop)));
        }
        let mut stop = self.fraction(digits);
        if self.looks(b"dd:dd", start) {
            let seconds = self.looks(b":dd", start + 5);
            stop = if seconds { self.fraction(start + 8) } else { start + 5 };
        } else if self.byte(stop) | 32 == b'e' {
            let sign = matches!(self.byte(stop + 1), b'+' | b'-') as usize;
            let exponent = self.digits(stop + 1 + sign);
            stop = if exponent > stop + 1 + sign { exponent } else { stop };
        }
        if stop > digits {
            Err(fault(Reason::LeftOutLiteral, start, stop))
        } else {
            Ok((Kind::Int, digits))
        }
    }

    fn number(&self, start: usize, first: usize) -> Result<(Kind, usize), Fault> {
        let mut stop = self.digits(first);
        let mut kind = Kind::Int;
        if matches!(self.byte(stop), b'-' | b':' | b'.' | b'A'..=b'F' | b'a'..=b'f') {
            (kind, stop) = self.past_digits(start, stop)?;
        }
        let run = self.name(stop);
        if run > stop {
            Err(fault(Reason::RunOn, start, run))
        } else {
            Ok((kind, stop))
        }
    }

    /// A word, dotted or not, or a literal that begins like one.
    #[inline(always)]
    fn word(&self, start: usize) -> Result<(Kind, usize), Fault> {
        let stop = self.name(start);
        if stop == start {
            return Err(self.bad(start));
        }
        match self.byte(stop) {
            b'.' | b'\'' | b'-' => self.past_word(start, stop),
            _ => Ok((Kind::Word, stop)),
        }
    }

    #[cold]
    fn past_word(&self, start: usize, first: usize) -> Result<(Kind, usize), Fault> {
        let mut stop = first;
        while self.byte(stop) == b'.' && self.is(LETTER | HIGH, stop + 1) && self.name(stop + 1) > stop + 1 {
            stop = self.name(stop + 1);
        }
        let left_out = ["duration", "binary", "geography", "geometry"];
        if self.byte(stop) == b'\'' && stop > first {
            return Ok((Kind::EnumText, self.quoted(stop)?));
        }
        if self.byte(stop) == b'\'' && left_out.iter().any(|it| it.eq_ignore_ascii_case(&self.text[start..stop])) {
            return Err(fault(Reason::LeftOutLiteral, start, self.quoted(stop)?));
        }
        if self.looks(GUID, start) {
            let run = self.name(start + GUID.len());
            let runs_on = run > start + GUID.len();
            return if runs_on { Err(fault(Reason::RunOn, start, run)) } else { Ok((Kind::Guid, run)) };
        }
        Ok((Kind::Word, stop))
    }

    #[cold]
    fn bad(&self, at: usize) -> Fault {
        let length = self.text[at..].chars().next().map_or(0, char::len_utf8);
        fault(Reason::BadCharacter, at, at + length)
    }

    /// The next token; past the last one that of the text's end.
    pub fn next(&mut self) -> Result<Token, Fault> {
        let mut start = self.at;
        while self.is(BLANK, start) {
            start += 1;
        }
        if start >= self.text.len() {
            self.at = start;
            return Ok(Token { kind: Kind::End, start: start as u32, stop: start as u32 });
        }
        let (kind, stop) = match self.byte(start) {
            b'(' => (Kind::Open, start + 1),
            b')' => (Kind::Close, start + 1),
            b',' => (Kind::Comma, start + 1),
            b'/' => (Kind::Slash, start + 1),
            b':' => (Kind::Colon, start + 1),
            b'\'' => (Kind::Text, self.quoted(start)?),
            b'0'..=b'9' => self.number(start, start)?,
            b'+' | b'-' if self.is(DIGIT, start + 1) => self.number(start, start + 1)?,
            b'-' => (Kind::Minus, start + 1),
            b'$' if self.is(LETTER | HIGH, start + 1) => (Kind::Dollar, self.name(start + 1)),
            _ => self.word(start)?,
        };
        self.count += 1;
        if self.count > MOST_TOKENS {
            return Err(fault(Reason::TooLong, start, stop));
        }
        self.at = stop;
        Ok(Token { kind, start: start as u32, stop: stop as u32 })
    }
}
