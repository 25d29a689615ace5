//! From bytes to a tree: which formulas can be read, and what they hold.

use crate::answer::Refusal;
use crate::style::Style;

/// The most bytes a formula may have.
pub const FORMULA_LIMIT: usize = 131_072;
/// The deepest list; the formula itself is at depth 1.
pub const DEPTH_LIMIT: usize = 32;
/// The longest list with a length of two bytes; four are for longer ones only.
pub const SHORT_LIST_LIMIT: usize = 65_535;

pub(crate) const KERN_LIMIT: i32 = 8_388_607;
pub(crate) const FAMILY_LIMIT: u8 = 15;

/// The bytes of the shortest item, a change of style.
const LEAST_ITEM: usize = 3;

// Places and indices are kept in 32 bits.
const _: () = assert!(FORMULA_LIMIT < u32::MAX as usize);

#[derive(Clone, Copy, Debug, PartialEq, Eq)]
pub enum Class {
    Ord,
    Op,
    Bin,
    Rel,
    Open,
    Close,
    Punct,
    Inner,
}

const CLASSES: [Class; 8] = [
    Class::Ord,
    Class::Op,
    Class::Bin,
    Class::Rel,
    Class::Open,
    Class::Close,
    Class::Punct,
    Class::Inner,
];

#[derive(Clone, Copy, Debug, PartialEq, Eq)]
pub enum Limits {
    Display,
    Always,
    Never,
}

#[derive(Clone, Copy, Debug, PartialEq, Eq)]
pub enum Line {
    Over,
    Under,
}

/// An item that has a place of its own in the row.
#[derive(Clone, Copy, Debug)]
pub enum Item {
    Atom {
        class: Class,
        limits: Limits,
        nucleus: Field,
        scripts: Scripts,
    },
    Lined {
        line: Line,
        nucleus: Field,
        scripts: Scripts,
    },
    Fraction {
        barred: bool,
        numerator: Field,
        denominator: Field,
    },
    Root {
        sign: Delimiter,
        nucleus: Field,
        scripts: Scripts,
    },
    Fence {
        sides: Sides,
        list: List,
        scripts: Scripts,
    },
    Kern(i32),
}

impl Item {
    /// The class an item counts as; a kern is not an atom.
    pub fn class(&self) -> Option<Class> {
        match *self {
            Item::Atom { class, .. } => Some(class),
            Item::Lined { .. } | Item::Root { .. } => Some(Class::Ord),
            Item::Fraction { .. } | Item::Fence { .. } => Some(Class::Inner),
            Item::Kern(_) => None,
        }
    }
}

/// Where a delimiter is looked for: a small symbol, then a large one, each by
/// family and code. Two zeros are no symbol.
#[derive(Clone, Copy, Debug)]
pub struct Delimiter(pub [(u8, u8); 2]);

/// The delimiters around a list.
#[derive(Clone, Copy, Debug)]
pub struct Sides {
    pub left: Delimiter,
    pub right: Delimiter,
}

#[derive(Clone, Copy, Debug)]
pub struct Scripts {
    pub superscript: Field,
    pub subscript: Field,
}

#[derive(Clone, Copy, Debug)]
pub enum Field {
    Empty,
    Symbol(Symbol),
    List(List),
}

impl Field {
    pub fn is_empty(&self) -> bool {
        matches!(self, Field::Empty)
    }
}

/// A symbol and the place of its field's kind byte.
#[derive(Clone, Copy, Debug)]
pub struct Symbol {
    pub place: u32,
    pub family: u8,
    pub code: u8,
}

/// A list's entries, with all that stands in them, are from `first` up to `end`.
#[derive(Clone, Copy, Debug)]
pub struct List {
    first: u32,
    end: u32,
}

#[derive(Clone, Copy, Debug)]
struct Entry {
    content: Content,
    /// The place of its first byte.
    place: u32,
    /// The entry after all that this one holds.
    next: u32,
}

#[derive(Clone, Copy, Debug)]
enum Content {
    Item(Item),
    /// ST: holds from here on.
    Style(Style),
    /// C4: where each of its lists, for D, T, S and SS, begins.
    Choice([u32; 4]),
    /// Behind each list of a C4; the next entry is the one behind that C4.
    EndOfChoice,
}

/// Stands for an entry until that is known.
const UNREAD: Entry = Entry {
    content: Content::EndOfChoice,
    place: 0,
    next: 0,
};

/// A formula that was read: its items in reading order.
pub struct Formula {
    entries: Vec<Entry>,
    pub top: List,
}

impl Formula {
    pub fn read(bytes: &[u8]) -> Result<Formula, Refusal> {
        if bytes.len() > FORMULA_LIMIT {
            return Err(Refusal::Unreadable(0));
        }
        let mut reader = Reader {
            bytes,
            entries: Vec::with_capacity(bytes.len() / LEAST_ITEM),
        };
        let top = reader.list(0, bytes.len(), 1)?;
        Ok(Formula {
            entries: reader.entries,
            top,
        })
    }

    /// The places of all its items, those that are not set too.
    pub fn places(&self) -> impl Iterator<Item = usize> + '_ {
        let items = self.entries.iter().filter(|entry| match entry.content {
            Content::Item(_) => true,
            Content::Style(_) | Content::Choice(_) | Content::EndOfChoice => false,
        });
        items.map(|entry| entry.place as usize)
    }

    pub fn items(&self, list: List, style: Style) -> Items<'_> {
        Items {
            entries: &self.entries,
            at: list.first,
            end: list.end,
            style,
        }
    }
}

/// The items of one list, without those inside them, each with the style
/// current at it and the place of its first byte. What a C4 takes stands in its
/// place.
#[derive(Clone)]
pub struct Items<'a> {
    entries: &'a [Entry],
    at: u32,
    end: u32,
    style: Style,
}

impl<'a> Iterator for Items<'a> {
    type Item = (&'a Item, Style, usize);

    fn next(&mut self) -> Option<Self::Item> {
        while self.at != self.end {
            let entry = &self.entries[self.at as usize];
            self.at = entry.next;
            match &entry.content {
                Content::Item(item) => return Some((item, self.style, entry.place as usize)),
                Content::Style(style) => self.style = *style,
                Content::Choice(lists) => self.at = lists[self.style.without_prime()],
                Content::EndOfChoice => {}
            }
        }
        None
    }
}

struct Reader<'a> {
    bytes: &'a [u8],
    entries: Vec<Entry>,
}

/// Where an item is being read, and at which depth its list stands.
struct Cursor {
    item: usize,
    at: usize,
    end: usize,
    depth: usize,
}

impl Cursor {
    fn fault(&self) -> Refusal {
        Refusal::Unreadable(self.item)
    }
}

impl Reader<'_> {
    fn list(&mut self, start: usize, end: usize, depth: usize) -> Result<List, Refusal> {
        let first = self.entries.len() as u32;
        let mut at = start;
        while at < end {
            let mut cursor = Cursor {
                item: at,
                at,
                end,
                depth,
            };
            self.entry(&mut cursor)?;
            at = cursor.at;
        }
        let end = self.entries.len() as u32;
        Ok(List { first, end })
    }

    /// An item's entry comes before those of the lists in it.
    fn entry(&mut self, cursor: &mut Cursor) -> Result<(), Refusal> {
        let index = self.entries.len();
        self.entries.push(UNREAD);
        let content = self.content(cursor)?;
        self.entries[index] = Entry {
            content,
            place: cursor.item as u32,
            next: self.entries.len() as u32,
        };
        Ok(())
    }

    fn content(&mut self, cursor: &mut Cursor) -> Result<Content, Refusal> {
        Ok(match &self.take::<2>(cursor)? {
            b"AT" => Content::Item(self.atom(cursor)?),
            b"OV" => Content::Item(self.lined(Line::Over, cursor)?),
            b"UN" => Content::Item(self.lined(Line::Under, cursor)?),
            b"FR" => Content::Item(self.fraction(cursor)?),
            b"RD" => Content::Item(self.root(cursor)?),
            b"FE" => Content::Item(self.fence(cursor)?),
            b"KN" => Content::Item(self.kern(cursor)?),
            b"ST" => Content::Style(self.style(cursor)?),
            b"C4" => Content::Choice(self.choice(cursor)?),
            _ => return Err(cursor.fault()),
        })
    }

    fn atom(&mut self, cursor: &mut Cursor) -> Result<Item, Refusal> {
        let [class] = self.take(cursor)?;
        let class = *CLASSES
            .get(usize::from(class))
            .ok_or_else(|| cursor.fault())?;
        let limits = match (class, self.take(cursor)?) {
            (_, [0]) => Limits::Display,
            (Class::Op, [1]) => Limits::Always,
            (Class::Op, [2]) => Limits::Never,
            _ => return Err(cursor.fault()),
        };
        Ok(Item::Atom {
            class,
            limits,
            nucleus: self.field(cursor)?,
            scripts: self.scripts(cursor)?,
        })
    }

    fn lined(&mut self, line: Line, cursor: &mut Cursor) -> Result<Item, Refusal> {
        Ok(Item::Lined {
            line,
            nucleus: self.field(cursor)?,
            scripts: self.scripts(cursor)?,
        })
    }

    fn scripts(&mut self, cursor: &mut Cursor) -> Result<Scripts, Refusal> {
        Ok(Scripts {
            superscript: self.field(cursor)?,
            subscript: self.field(cursor)?,
        })
    }

    fn fraction(&mut self, cursor: &mut Cursor) -> Result<Item, Refusal> {
        let barred = match self.take(cursor)? {
            [0] => true,
            [1] => false,
            _ => return Err(cursor.fault()),
        };
        Ok(Item::Fraction {
            barred,
            numerator: self.field(cursor)?,
            denominator: self.field(cursor)?,
        })
    }

    fn root(&mut self, cursor: &mut Cursor) -> Result<Item, Refusal> {
        Ok(Item::Root {
            sign: self.delimiter(cursor)?,
            nucleus: self.field(cursor)?,
            scripts: self.scripts(cursor)?,
        })
    }

    fn fence(&mut self, cursor: &mut Cursor) -> Result<Item, Refusal> {
        let sides = Sides {
            left: self.delimiter(cursor)?,
            right: self.delimiter(cursor)?,
        };
        Ok(Item::Fence {
            sides,
            list: self.sure_list(cursor)?,
            scripts: self.scripts(cursor)?,
        })
    }

    fn delimiter(&mut self, cursor: &mut Cursor) -> Result<Delimiter, Refusal> {
        let [small_family, small, large_family, large] = self.take(cursor)?;
        if small_family.max(large_family) > FAMILY_LIMIT {
            return Err(cursor.fault());
        }
        Ok(Delimiter([(small_family, small), (large_family, large)]))
    }

    fn kern(&mut self, cursor: &mut Cursor) -> Result<Item, Refusal> {
        let kern = i32::from_le_bytes(self.take(cursor)?);
        if (-KERN_LIMIT..=KERN_LIMIT).contains(&kern) {
            Ok(Item::Kern(kern))
        } else {
            Err(cursor.fault())
        }
    }

    fn style(&mut self, cursor: &mut Cursor) -> Result<Style, Refusal> {
        let [number] = self.take(cursor)?;
        Style::new(number).ok_or_else(|| cursor.fault())
    }

    fn choice(&mut self, cursor: &mut Cursor) -> Result<[u32; 4], Refusal> {
        let mut lists = [List { first: 0, end: 0 }; 4];
        for list in &mut lists {
            *list = self.sure_list(cursor)?;
            self.entries.push(UNREAD);
        }
        let next = self.entries.len() as u32;
        let content = Content::EndOfChoice;
        for list in lists {
            self.entries[list.end as usize] = Entry {
                content,
                next,
                ..UNREAD
            };
        }
        Ok(lists.map(|list| list.first))
    }

    /// A field that has to be a list.
    fn sure_list(&mut self, cursor: &mut Cursor) -> Result<List, Refusal> {
        let place = cursor.at;
        match self.take(cursor)? {
            [kind @ (2 | 3)] => self.list_field(kind, place, cursor),
            _ => Err(cursor.fault()),
        }
    }

    fn field(&mut self, cursor: &mut Cursor) -> Result<Field, Refusal> {
        let place = cursor.at;
        match self.take(cursor)? {
            [0] => Ok(Field::Empty),
            [1] => self.symbol(place, cursor),
            [kind @ (2 | 3)] => Ok(Field::List(self.list_field(kind, place, cursor)?)),
            _ => Err(cursor.fault()),
        }
    }

    fn symbol(&mut self, place: usize, cursor: &mut Cursor) -> Result<Field, Refusal> {
        let [family] = self.take(cursor)?;
        if family > FAMILY_LIMIT {
            return Err(cursor.fault());
        }
        let [code] = self.take(cursor)?;
        Ok(Field::Symbol(Symbol {
            place: place as u32,
            family,
            code,
        }))
    }

    /// What follows a list's kind byte, which stands at `place`.
    fn list_field(&mut self, kind: u8, place: usize, cursor: &mut Cursor) -> Result<List, Refusal> {
        if cursor.depth >= DEPTH_LIMIT {
            return Err(Refusal::TooDeep(place));
        }
        let length = self.list_length(kind, cursor)?;
        if length > cursor.end - cursor.at {
            return Err(cursor.fault());
        }
        let start = cursor.at;
        cursor.at += length;
        self.list(start, cursor.at, cursor.depth + 1)
    }

    fn list_length(&mut self, kind: u8, cursor: &mut Cursor) -> Result<usize, Refusal> {
        if kind == 2 {
            return Ok(usize::from(u16::from_le_bytes(self.take(cursor)?)));
        }
        let length = u32::from_le_bytes(self.take(cursor)?) as usize;
        if length > SHORT_LIST_LIMIT {
            Ok(length)
        } else {
            Err(cursor.fault())
        }
    }

    /// The next bytes of the item, if its list has them.
    fn take<const N: usize>(&self, cursor: &mut Cursor) -> Result<[u8; N], Refusal> {
        let taken = self.bytes[cursor.at..cursor.end]
            .first_chunk()
            .ok_or_else(|| cursor.fault())?;
        cursor.at += N;
        Ok(*taken)
    }
}
