//! Goes through the bytes of a formula that is accepted.

use super::clients::{symbols, Symbols};
use super::Seen;
use reference::generate::Case;

const TABLE_HEAD: usize = 426;
const DEEPEST: usize = 32;
const BIN: u8 = 2;
const PUNCT: u8 = 6;

impl Seen {
    pub fn look_at(&mut self, case: &Case) {
        let mut look = Look {
            seen: self,
            bytes: &case.formula,
            ours: symbols(&case.table[TABLE_HEAD..]),
            client: symbols(&case.client),
        };
        let whole = Part {
            at: 0,
            end: case.formula.len(),
            depth: 1,
            grown: 0,
            choices: 0,
            behind: false,
            is_set: true,
        };
        look.items(whole, case.style);
    }
}

pub struct Look<'a> {
    pub seen: &'a mut Seen,
    pub bytes: &'a [u8],
    pub ours: Symbols,
    pub client: Symbols,
}

/// Some items of a list, which may stand in a choice.
#[derive(Clone, Copy)]
struct Part {
    at: usize,
    end: usize,
    depth: usize,
    /// How many fences and roots are around, each the first field of the next.
    grown: usize,
    /// How many choices are around, up to the next field.
    choices: usize,
    /// Whether something stands behind the choice in its list.
    behind: bool,
    is_set: bool,
}

/// What some items come to.
struct Passed {
    /// The style behind them.
    style: u8,
    /// The class of the first atom, not changed.
    first: Option<u8>,
    /// That of the last one, and its style.
    last: Option<(u8, u8)>,
}

impl Passed {
    fn atom(&mut self, class: u8) {
        self.first = self.first.or(Some(class));
        self.last = Some((class, self.style));
    }

    fn join(&mut self, next: Passed) {
        self.style = next.style;
        self.first = self.first.or(next.first);
        self.last = next.last.or(self.last);
    }
}

impl Look<'_> {
    fn items(&mut self, mut part: Part, style: u8) -> Passed {
        let start = part.at;
        let mut passed = Passed {
            style,
            first: None,
            last: None,
        };
        while part.at < part.end {
            let item = part.at;
            part.at += 2;
            match &self.bytes[item..item + 2] {
                b"ST" => passed.style = self.style(&mut part),
                b"C4" => passed.join(self.choice(&mut part, passed.style)),
                b"KN" => part.at += 4,
                _ => {
                    passed.atom(self.class(item));
                    self.noad(item, &mut part, passed.style);
                }
            }
            let is_binary = self.bytes[item..].starts_with(b"AT\x02");
            if part.is_set && part.choices > 0 && is_binary {
                self.seen.first_binary += usize::from(item == start);
                self.seen.last_binary += usize::from(part.at == part.end && part.behind);
            }
        }
        passed
    }

    /// The class of an item with fields.
    fn class(&self, item: usize) -> u8 {
        match &self.bytes[item..item + 2] {
            b"AT" => self.bytes[item + 2],
            b"FR" | b"FE" => 7,
            _ => 0,
        }
    }

    fn style(&mut self, part: &mut Part) -> u8 {
        part.at += 1;
        let more = part.at < part.end || part.behind;
        if part.is_set && part.choices > 0 && more {
            self.seen.style_within += 1;
        }
        self.bytes[part.at - 1]
    }

    /// What the list that is taken comes to.
    fn choice(&mut self, part: &mut Part, style: u8) -> Passed {
        let taken = usize::from(style / 2);
        let lists = [0; 4].map(|_| self.list(part));
        let mut passed = [0, 1, 2, 3].map(|place: usize| {
            let mut list = lists[place];
            list.choices = part.choices + 1;
            list.behind = part.at < part.end || part.behind;
            list.is_set = part.is_set && place == taken;
            if list.is_set && list.at < list.end {
                self.seen.taken[taken] += 1;
                self.seen.nested[taken] += usize::from(part.choices > 0);
                self.seen.deepest += usize::from(list.depth == DEEPEST);
            }
            Some(self.items(list, style))
        });
        passed[taken].take().unwrap()
    }

    /// An item with fields.
    fn noad(&mut self, item: usize, part: &mut Part, style: u8) {
        let above = (if style < 4 { 4 } else { 6 }) | style & 1;
        let scripts = [above, above | 1];
        let text = if style < 2 { 2 | style } else { above };
        let (head, styles) = match &self.bytes[item..item + 2] {
            b"AT" => (2, vec![style, scripts[0], scripts[1]]),
            b"OV" => (0, vec![style | 1, scripts[0], scripts[1]]),
            b"RD" => (4, vec![style | 1, scripts[0], scripts[1]]),
            b"FE" => (8, vec![style, scripts[0], scripts[1]]),
            b"UN" => (0, vec![style, scripts[0], scripts[1]]),
            _ => (1, vec![text, text | 1]),
        };
        part.at += head;
        let grown = part.grown;
        part.grown += usize::from(head >= 4);
        let first = self.field(part, styles[0]);
        part.grown = 0;
        let others = styles[1..].iter().map(|style| self.field(part, *style));
        let fields: Vec<Field> = std::iter::once(first).chain(others).collect();
        part.grown = grown;
        if !part.is_set {
            return;
        }
        match &self.bytes[item..item + 2] {
            b"FE" => {
                self.fence(item, style, &fields);
                for at in [2, 6] {
                    self.sought(item + at, style, |seen| &mut seen.sides);
                }
            }
            b"RD" => self.sought(item + 2, style, |seen| &mut seen.signs),
            b"AT" if style < 2 && self.bytes[item..].starts_with(&[b'A', b'T', 1]) => {
                self.operator(item + 4);
            }
            _ => {}
        }
    }

    fn fence(&mut self, item: usize, style: u8, fields: &[Field]) {
        let [Field::List(inside), scripts @ ..] = fields else {
            unreachable!("a fence has a list");
        };
        let [left, right] = [2, 6].map(|at| self.is_blank(item + at, style));
        let [is_given, is_given_too] = [2, 6].map(|at| self.bytes[item + at..][..4] != [0; 4]);
        let [superscript, subscript] = [0, 1].map(|at| !matches!(scripts[at], Field::Empty));
        let seen = &mut self.seen.fences;
        seen.styles[usize::from(style)] += 1;
        seen.blanks[usize::from(left)][usize::from(right)] += 1;
        seen.absent_sides += usize::from(left && is_given) + usize::from(right && is_given_too);
        seen.scripts[usize::from(superscript)][usize::from(subscript)] += 1;
        seen.first_binary += usize::from(inside.first == Some(BIN));
        match inside.last {
            None => seen.without_atoms += 1,
            Some((BIN, _)) => seen.last_binary += 1,
            Some((PUNCT, last_style)) => {
                seen.last_punct[usize::from(style >= 4)][usize::from(last_style >= 4)] += 1;
            }
            _ => {}
        }
    }

    /// Whether the side whose four bytes start there is blank.
    fn is_blank(&self, at: usize, style: u8) -> bool {
        let size = size_of(style);
        let has = |pair: &[u8]| {
            let mut sizes = 0..=size;
            pair != [0; 2] && sizes.any(|size| self.has(&(size, pair[0], pair[1])))
        };
        !self.bytes[at..at + 4].chunks(2).any(has)
    }

    fn field(&mut self, part: &mut Part, style: u8) -> Field {
        match self.bytes[part.at] {
            0 => {
                part.at += 1;
                Field::Empty
            }
            1 => {
                let (family, code) = (self.bytes[part.at + 1], self.bytes[part.at + 2]);
                let is_there = (0..3).any(|size| self.has(&(size, family, code)));
                self.seen.absent_aside += usize::from(!part.is_set && !is_there);
                let key = (size_of(style), family, code);
                if part.is_set && self.client.contains_key(&key) {
                    let hides = self.hides(&key);
                    self.seen.clients.fields[usize::from(key.0)][hides] += 1;
                }
                part.at += 3;
                Field::Symbol
            }
            _ => {
                let list = self.list(part);
                let is_deepest = list.is_set && list.grown + 1 == DEEPEST;
                self.seen.deepest_grown += usize::from(is_deepest);
                Field::List(self.items(list, style))
            }
        }
    }

    /// The items of the list whose kind byte comes next.
    fn list(&mut self, part: &mut Part) -> Part {
        let opening = if self.bytes[part.at] == 2 { 3 } else { 5 };
        let at = part.at + opening;
        let mut length = [0; 4];
        length[..opening - 1].copy_from_slice(&self.bytes[part.at + 1..at]);
        part.at = at + u32::from_le_bytes(length) as usize;
        Part {
            at,
            end: part.at,
            depth: part.depth + 1,
            grown: part.grown,
            choices: 0,
            behind: false,
            is_set: part.is_set,
        }
    }
}

/// Text, script or scriptscript.
pub fn size_of(style: u8) -> u8 {
    style.saturating_sub(2) / 2
}

enum Field {
    Empty,
    Symbol,
    List(Passed),
}
