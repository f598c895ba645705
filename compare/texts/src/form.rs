//! "Report program": the text of a scene, read by document 01's words.
use generator::lists::{ABSENT_DELAY, SceneLists};

/// Bytes that a text may have.
pub const LONGEST: usize = 65_536;

/// The scene of a text, or the place of refusal 14: "line from 1; 0 for length".
pub fn scene(text: &[u8]) -> Result<SceneLists, u64> {
    if text.len() > LONGEST {
        return Err(0);
    }
    let mut lines = Lines {
        rest: text,
        number: 1,
    };
    let mut lists = SceneLists::default();
    for _ in 0..lines.word("components=")? {
        component(&mut lines, &mut lists)?;
    }
    for _ in 0..lines.word("connections=")? {
        connection(&mut lines, &mut lists)?;
    }
    // what follows the last line is no part of the form, an empty line neither
    if lines.rest.is_empty() {
        Ok(lists)
    } else {
        Err(lines.number)
    }
}

fn component(lines: &mut Lines, lists: &mut SceneLists) -> Result<(), u64> {
    let id = lines.word("id=")?;
    let kind = lines.byte("kind=")?;
    let delay = lines.field("delay=", delay_word)?;
    let locked = lines.field("locked=", |value| number(value, 1))? as u8;
    let x = lines.field("x=", coordinate)?;
    let y = lines.field("y=", coordinate)?;
    let z = lines.field("z=", coordinate)?;
    lists.push_component(id, kind, delay, locked, [x, y, z]);
    Ok(())
}

fn connection(lines: &mut Lines, lists: &mut SceneLists) -> Result<(), u64> {
    let source = lines.word("source=")?;
    let sink = lines.word("sink=")?;
    let transfer = lines.byte("transfer=")?;
    lists.push_connection(source, sink, transfer);
    Ok(())
}

/// What is left of a text, and the number of its first line.
struct Lines<'a> {
    rest: &'a [u8],
    number: u64,
}

impl Lines<'_> {
    /// "Each field has its own line, ended by a line feed." The value, or the number of the line that
    /// breaks the form or is missing.
    fn field<T>(&mut self, name: &str, read: impl Fn(&[u8]) -> Option<T>) -> Result<T, u64> {
        let end = self.rest.iter().position(|byte| *byte == b'\n');
        let line = end.map(|end| &self.rest[..end]);
        let value = line.and_then(|line| line.strip_prefix(name.as_bytes()));
        let value = value.and_then(read).ok_or(self.number)?;
        self.rest = &self.rest[end.map_or(0, |end| end + 1)..];
        self.number += 1;
        Ok(value)
    }

    fn word(&mut self, name: &str) -> Result<u64, u64> {
        self.field(name, |value| number(value, u64::MAX))
    }

    fn byte(&mut self, name: &str) -> Result<u8, u64> {
        self.field(name, byte)
    }
}

/// "Decimal numbers have no leading zeros and fit their width".
fn number(value: &[u8], most: u64) -> Option<u64> {
    let digits = value.iter().all(u8::is_ascii_digit);
    let leading = value.len() > 1 && value[0] == b'0';
    if !digits || leading {
        return None;
    }
    let number: u64 = str::from_utf8(value).ok()?.parse().ok()?;
    (number <= most).then_some(number)
}

fn byte(value: &[u8]) -> Option<u8> {
    number(value, 255).map(|number| number as u8)
}

/// "delay may be `none`"
fn delay_word(value: &[u8]) -> Option<u16> {
    match value {
        b"none" => Some(ABSENT_DELAY),
        _ => byte(value).map(u16::from),
    }
}

/// "only x, y, z may be negative, and `-0` is no number"
fn coordinate(value: &[u8]) -> Option<i32> {
    let coordinate = match value.strip_prefix(b"-") {
        Some(value) => -(number(value, 1 << 31).filter(|number| *number > 0)? as i64),
        None => number(value, (1 << 31) - 1)? as i64,
    };
    Some(coordinate as i32)
}
