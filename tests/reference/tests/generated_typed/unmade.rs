//! Why no text gives a formula.

use crate::names::Names;

pub const FAULTS: [&str; 33] = [
    "too long",
    "too deep",
    "cut",
    "mark OV",
    "mark UN",
    "mark KN",
    "mark ST",
    "mark C4",
    "mark RD",
    "mark FE",
    "another mark",
    "bar 1",
    "another bar",
    "limits 2",
    "limits outside Op",
    "limits without scripts",
    "limits without a nucleus",
    "another class",
    "no nucleus",
    "list of a class",
    "no such class",
    "nameless nucleus",
    "nameless script",
    "nameless part of a fraction",
    "nameless nucleus with limits",
    "nameless limit",
    "no numerator",
    "no denominator",
    "another kind",
    "family",
    "short list of kind 3",
    "list past the end",
    "cut in a list",
];

type Found<T> = Result<T, &'static str>;

/// The first thing in reading order that no text gives.
pub fn fault(formula: &[u8], names: &Names) -> Option<&'static str> {
    if formula.len() > 131_072 {
        return Some("too long");
    }
    row(formula, 1, names).err()
}

fn row(items: &[u8], depth: usize, names: &Names) -> Found<()> {
    if depth > 32 {
        return Err("too deep");
    }
    let mut at = 0;
    while at < items.len() {
        at += item(&items[at..], depth, names)?;
    }
    Ok(())
}

/// How many bytes the item has.
fn item(items: &[u8], depth: usize, names: &Names) -> Found<usize> {
    let byte = |at: usize| items.get(at).copied().ok_or(cut(depth));
    match &[byte(0)?, byte(1)?] {
        b"AT" => atom([byte(2)?, byte(3)?], items, depth, names),
        b"FR" => fraction(byte(2)?, items, depth, names),
        b"OV" => Err("mark OV"),
        b"UN" => Err("mark UN"),
        b"KN" => Err("mark KN"),
        b"ST" => Err("mark ST"),
        b"C4" => Err("mark C4"),
        b"RD" => Err("mark RD"),
        b"FE" => Err("mark FE"),
        _ => Err("another mark"),
    }
}

fn cut(depth: usize) -> &'static str {
    match depth {
        1 => "cut",
        _ => "cut in a list",
    }
}

fn atom([class, limits]: [u8; 2], items: &[u8], depth: usize, names: &Names) -> Found<usize> {
    let has_limits = match (class, limits) {
        (8.., _) => return Err("another class"),
        (_, 0) => false,
        (1, 1) => true,
        (1, 2) => return Err("limits 2"),
        _ => return Err("limits outside Op"),
    };
    let [nameless, nameless_script] = match has_limits {
        true => ["nameless nucleus with limits", "nameless limit"],
        false => ["nameless nucleus", "nameless script"],
    };
    let nucleus = field(items, 4, depth, nameless, names)?;
    let superscript = field(items, nucleus, depth, nameless_script, names)?;
    let end = field(items, superscript, depth, nameless_script, names)?;
    match items[4] {
        0 if has_limits => return Err("limits without a nucleus"),
        0 => return Err("no nucleus"),
        1 if !has_limits && !names.has((items[5], items[6]), Some(class)) => {
            return Err("no such class");
        }
        2 | 3 if !has_limits && class != 0 => return Err("list of a class"),
        _ => (),
    }
    match [items[nucleus], items[superscript]] {
        [0, 0] if has_limits => Err("limits without scripts"),
        _ => Ok(end),
    }
}

fn fraction(bar: u8, items: &[u8], depth: usize, names: &Names) -> Found<usize> {
    let nameless = "nameless part of a fraction";
    let numerator = field(items, 3, depth, nameless, names)?;
    let end = field(items, numerator, depth, nameless, names)?;
    match (bar, items[3], items[numerator]) {
        (1, ..) => Err("bar 1"),
        (2.., ..) => Err("another bar"),
        (_, 0, _) => Err("no numerator"),
        (_, _, 0) => Err("no denominator"),
        _ => Ok(end),
    }
}

/// The place behind a field.
fn field(
    items: &[u8],
    at: usize,
    depth: usize,
    nameless: &'static str,
    names: &Names,
) -> Found<usize> {
    let byte = |more: usize| items.get(at + more).copied().ok_or(cut(depth));
    let (head, length) = match byte(0)? {
        0 => return Ok(at + 1),
        1 => {
            let symbol = (byte(1)?, byte(2)?);
            return match symbol.0 {
                16.. => Err("family"),
                _ if names.has(symbol, None) => Ok(at + 3),
                _ => Err(nameless),
            };
        }
        2 => (3, u32::from_le_bytes([byte(1)?, byte(2)?, 0, 0])),
        3 => {
            let length = u32::from_le_bytes([byte(1)?, byte(2)?, byte(3)?, byte(4)?]);
            if length <= 65_535 {
                return Err("short list of kind 3");
            }
            (5, length)
        }
        _ => return Err("another kind"),
    };
    let (start, end) = (at + head, at + head + length as usize);
    let list = items.get(start..end).ok_or("list past the end")?;
    row(list, depth + 1, names)?;
    Ok(end)
}
