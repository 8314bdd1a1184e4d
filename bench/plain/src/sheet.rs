//! A plain Rust reader of sheets as text, for comparison.
use std::borrow::Cow;

const LONGEST: usize = 60_000;

#[derive(Clone, Copy)]
pub struct Row {
    pub letter: char,
    pub a: i64,
    pub b: i64,
    pub c: i64,
    pub d: i64,
    pub e: i64,
}

#[derive(Clone, Copy)]
pub enum Question {
    Length = 10,
    Quoting = 11,
    FieldCount = 12,
    Letter = 13,
    Number = 14,
    Room = 16,
}

pub struct Refusal {
    pub question: Question,
    pub row: usize,
}

fn refuse<T>(question: Question, row: usize) -> Result<T, Refusal> {
    Err(Refusal { question, row })
}

/// A field, whether it is its row's last, and the text after it.
type Split<'a> = (Cow<'a, [u8]>, bool, &'a [u8]);

fn split_bare(text: &[u8]) -> Option<Split<'_>> {
    let mut n = 0;
    while n < text.len() {
        match text[n] {
            b',' => return Some((Cow::Borrowed(&text[..n]), false, &text[n + 1..])),
            b'\r' if text.get(n + 1) == Some(&b'\n') => {
                return Some((Cow::Borrowed(&text[..n]), true, &text[n + 2..]));
            }
            b'"' => return None,
            _ => n += 1,
        }
    }
    Some((Cow::Borrowed(text), true, &[]))
}

/// The text stands after the opening quote.
fn split_quoted(text: &[u8]) -> Option<Split<'_>> {
    let mut content = Cow::Borrowed(&text[..0]);
    let mut rest = text;
    loop {
        let n = rest.iter().position(|&b| b == b'"')?;
        if content.is_empty() {
            content = Cow::Borrowed(&rest[..n]);
        } else {
            content.to_mut().extend_from_slice(&rest[..n]);
        }
        rest = &rest[n + 1..];
        match rest {
            [b'"', after @ ..] => {
                content.to_mut().push(b'"');
                rest = after;
            }
            [b',', after @ ..] => return Some((content, false, after)),
            [b'\r', b'\n', after @ ..] => return Some((content, true, after)),
            [] => return Some((content, true, rest)),
            _ => return None,
        }
    }
}

fn split_field(text: &[u8]) -> Option<Split<'_>> {
    match text {
        [b'"', rest @ ..] => split_quoted(rest),
        _ => split_bare(text),
    }
}

fn parse_letter(field: &[u8]) -> Option<char> {
    match field {
        [b @ (b'T' | b'S' | b'N' | b'E')] => Some(char::from(*b)),
        _ => None,
    }
}

fn parse_number(field: &[u8]) -> Option<i64> {
    let (sign, digits) = match field.strip_prefix(b"-") {
        Some(digits) => (-1, digits),
        None => (1, field),
    };
    if !(1..=10).contains(&digits.len()) || !digits.iter().all(u8::is_ascii_digit) {
        return None;
    }
    let magnitude = digits.iter().fold(0, |n, d| n * 10 + i64::from(d - b'0'));
    let number = sign * magnitude;
    (-(1 << 31)..1 << 32).contains(&number).then_some(number)
}

pub fn read_sheet(input: &[u8], table: &mut [Row]) -> Result<usize, Refusal> {
    if input.len() > LONGEST {
        return refuse(Question::Length, 1);
    }
    let mut rows = Vec::new();
    let mut count = 0;
    let (mut bad_count, mut bad_letter, mut bad_number) = (None, None, None);
    let mut text = input;
    while !text.is_empty() {
        count += 1;
        let mut fields = 0;
        let mut letter = None;
        let mut numbers = [0; 5];
        loop {
            let Some((field, last, rest)) = split_field(text) else {
                return refuse(Question::Quoting, count);
            };
            text = rest;
            if fields == 0 {
                letter = parse_letter(&field);
            } else {
                match parse_number(&field) {
                    Some(number) if fields <= 5 => numbers[fields - 1] = number,
                    Some(_) => {}
                    None => bad_number = bad_number.or(Some(count)),
                }
            }
            fields += 1;
            if last {
                break;
            }
        }
        if fields != 6 {
            bad_count = bad_count.or(Some(count));
        }
        match letter {
            Some(letter) => {
                let [a, b, c, d, e] = numbers;
                rows.push(Row { letter, a, b, c, d, e });
            }
            None => bad_letter = bad_letter.or(Some(count)),
        }
    }
    if let Some(row) = bad_count {
        return refuse(Question::FieldCount, row);
    }
    if let Some(row) = bad_letter {
        return refuse(Question::Letter, row);
    }
    if let Some(row) = bad_number {
        return refuse(Question::Number, row);
    }
    match table.get_mut(..count) {
        Some(places) => places.copy_from_slice(&rows),
        None => return refuse(Question::Room, table.len() + 1),
    }
    Ok(count)
}
