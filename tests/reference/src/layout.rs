//! Lists, items and fields: each is set from those it holds.

use crate::answer::Refusal;
use crate::boxes::{Extent, MathBox};
use crate::nodes::{Ink, Node, Pen, Run};
use crate::reading::{Class, Field, Formula, Item, List, Symbol};
use crate::reasons::Reasons;
use crate::records::Character;
use crate::spacing;
use crate::style::Style;
use crate::tables::Tables;
use crate::SIZE_LIMIT;

pub struct Layout<'a, P> {
    pub tables: &'a Tables<'a>,
    pub formula: &'a Formula,
    pub pen: P,
    /// A list or node past the size limit was met. An absent symbol further
    /// on still goes before it.
    pub oversize: bool,
    /// The reasons of the item set last, where it has shifts that have some.
    pub reasons: Option<Reasons>,
    /// The item whose reasons are asked for, by its place.
    asked: Option<usize>,
    pub explained: Option<Reasons>,
}

/// The atoms that a list's own have beside them, unseen.
#[derive(Clone, Copy, Default)]
struct Neighbours {
    left: Option<Class>,
    right: Option<Class>,
}

impl Neighbours {
    const DELIMITERS: Neighbours = Neighbours {
        left: Some(Class::Open),
        right: Some(Class::Close),
    };
}

impl<'a, P: Pen> Layout<'a, P> {
    pub fn new(tables: &'a Tables<'a>, formula: &'a Formula, pen: P, asked: Option<usize>) -> Self {
        Layout {
            tables,
            formula,
            pen,
            oversize: false,
            reasons: None,
            asked,
            explained: None,
        }
    }

    pub fn list(&mut self, list: List, style: Style) -> Result<MathBox, Refusal> {
        self.row(list, style, Neighbours::default())
    }

    /// A list that stands between delimiters. Its width has the space before
    /// the right one.
    pub fn fenced_list(&mut self, list: List, style: Style) -> Result<MathBox, Refusal> {
        self.row(list, style, Neighbours::DELIMITERS)
    }

    fn row(
        &mut self,
        list: List,
        start_style: Style,
        neighbours: Neighbours,
    ) -> Result<MathBox, Refusal> {
        let start = self.pen.count();
        let mut row = MathBox::default();
        let mut left = neighbours.left;
        let mut items = self.formula.items(list, start_style);
        while let Some((item, style, place)) = items.next() {
            if let Some(class) = item.class() {
                let next_class = || items.clone().find_map(|(item, ..)| item.class());
                let class = spacing::settled(class, left, || next_class().or(neighbours.right));
                row.width += self.space(left, class, style);
                left = Some(class);
            }
            let item_box = self.item(item, style)?;
            let reasons = self.reasons.take();
            if self.asked == Some(place) {
                self.explained = reasons;
            }
            row.extent = row.extent.joined(self.place(&item_box, row.width, 0));
            row.width += item_box.width;
            row.height = row.height.max(item_box.height);
            row.depth = row.depth.max(item_box.depth);
        }
        if let Some(right) = neighbours.right {
            row.width += self.space(left, right, start_style);
        }
        row.nodes = self.run_from(start);
        self.oversize |= is_oversize(&row);
        Ok(row)
    }

    /// The space before an atom.
    fn space(&self, left: Option<Class>, class: Class, style: Style) -> i64 {
        let font = self.tables.parameters(style.size());
        left.map_or(0, |left| spacing::space(left, class, style, font))
    }

    fn item(&mut self, item: &Item, style: Style) -> Result<MathBox, Refusal> {
        let (nucleus, scripts) = match item {
            Item::Atom {
                class,
                limits,
                nucleus,
                scripts,
            } => return self.atom(*class, *limits, nucleus, scripts, style),
            Item::Fraction {
                barred,
                numerator,
                denominator,
            } => return self.fraction(*barred, numerator, denominator, style),
            Item::Kern(kern) => {
                return Ok(MathBox {
                    width: i64::from(*kern),
                    ..MathBox::default()
                })
            }
            Item::Lined {
                line,
                nucleus,
                scripts,
            } => (self.lined(*line, nucleus, style)?, scripts),
            Item::Root {
                sign,
                nucleus,
                scripts,
            } => (self.root(sign, nucleus, style)?, scripts),
            Item::Fence {
                sides,
                list,
                scripts,
            } => (self.fence(sides, *list, style)?, scripts),
        };
        self.attach_scripts(nucleus, scripts, style)
    }

    /// A field as a box of its own: a symbol's italic correction is in its width.
    pub fn field(&mut self, field: &Field, style: Style) -> Result<MathBox, Refusal> {
        match field {
            Field::Empty => Ok(MathBox {
                nodes: self.run_from(self.pen.count()),
                ..MathBox::default()
            }),
            Field::List(list) => self.list(*list, style),
            Field::Symbol(symbol) => {
                let character = self.character(symbol, style)?;
                let glyph = self.glyph(symbol, style, &character);
                Ok(MathBox {
                    width: character.width + character.italic,
                    ..glyph
                })
            }
        }
    }

    pub fn character(&self, symbol: &Symbol, style: Style) -> Result<Character, Refusal> {
        self.tables
            .character(style.size(), symbol.family, symbol.code)
            .ok_or(Refusal::Absent(symbol.place as usize))
    }

    /// Writes a symbol at its reference point; the width is without the
    /// italic correction.
    pub fn glyph(&mut self, symbol: &Symbol, style: Style, character: &Character) -> MathBox {
        let start = self.pen.count();
        let ink = Ink::Glyph {
            size: style.size(),
            family: symbol.family,
            code: symbol.code,
        };
        self.pen.push(Node { x: 0, y: 0, ink });
        MathBox {
            width: character.width,
            height: character.height,
            depth: character.depth,
            nodes: self.run_from(start),
            extent: Extent::point(0, 0),
        }
    }

    /// Moves a box's nodes to where its reference point comes to stand in the
    /// box around it, and tells how far they reach there.
    pub fn place(&mut self, part: &MathBox, x: i64, y: i64) -> Extent {
        if (x, y) != (0, 0) {
            self.pen.shift(part.nodes, x, y);
        }
        part.extent.moved(x, y)
    }

    /// The nodes written since there were `start`.
    pub fn run_from(&self, start: usize) -> Run {
        Run {
            start,
            end: self.pen.count(),
        }
    }
}

fn is_oversize(row: &MathBox) -> bool {
    row.width.abs() > SIZE_LIMIT
        || row.height > SIZE_LIMIT
        || row.depth > SIZE_LIMIT
        || !row.extent.is_within(SIZE_LIMIT)
}
