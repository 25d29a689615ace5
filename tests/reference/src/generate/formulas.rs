//! Random formulas that can be read, and ones built to come near a limit.

use super::choices::{choice_fault, choice_holding, choice_of};
use super::fences::{fence_fault, fence_holding};
use super::long::long_list_fault;
use super::roots::{root_fault, root_holding};
use super::{Random, Symbols};
use crate::compose::{
    atom, choice, fraction, kern, list, overline, root, style, symbol, underline, CharacterParts,
    TableParts, EMPTY,
};
use crate::parameters::{PARAMETERS, ROWS};
use crate::reading::KERN_LIMIT;
use crate::{DEPTH_LIMIT, SIZE_LIMIT};

/// Grows formulas over some symbols.
pub struct Grower<'a> {
    pub(super) random: &'a mut Random,
    pub(super) symbols: &'a Symbols,
    /// So many symbols of a hundred may be absent.
    absent: u64,
}

impl<'a> Grower<'a> {
    pub fn new(random: &'a mut Random, symbols: &'a Symbols, absent: u64) -> Grower<'a> {
        Grower {
            random,
            symbols,
            absent,
        }
    }

    /// A formula of any usual length and depth.
    pub fn formula(&mut self) -> Vec<u8> {
        let depth = self.random.below(DEPTH_LIMIT) + 1;
        let most = *self.random.pick(&[20, 60, 60, 200, 200, 600, 2000]);
        self.items(depth, most)
    }

    /// A list's items, of at most `most` bytes, with lists down to `depth`
    /// levels, this one counted.
    pub fn items(&mut self, depth: usize, most: usize) -> Vec<u8> {
        let mut items = Vec::new();
        let wanted = self.random.below(most + 1);
        while items.len() < wanted {
            let item = self.item(depth, most - items.len());
            if items.len() + item.len() > most {
                break;
            }
            items.extend(item);
        }
        items
    }

    /// An item; its lists together have about `most` bytes at most.
    pub fn item(&mut self, depth: usize, most: usize) -> Vec<u8> {
        let share = most / 4;
        match self.random.below(26) {
            0 | 1 => kern(self.kern_length()),
            2 | 3 => {
                let bar = self.random.below(2) as u8;
                let (numerator, denominator) = (self.field(depth, share), self.field(depth, share));
                fraction(bar, &numerator, &denominator)
            }
            6 => self.operator(),
            20 | 21 => style(self.random.below(8) as u8),
            22 | 23 if depth > 1 => choice_of(&std::array::from_fn(|_| self.list(depth, share))),
            24 | 25 if depth > 1 => self.fence(depth, share),
            form => {
                let fields = self.fields(depth, share);
                self.with_fields(form, &fields)
            }
        }
    }

    /// Nucleus, superscript and subscript.
    pub(super) fn fields(&mut self, depth: usize, most: usize) -> [Vec<u8>; 3] {
        std::array::from_fn(|_| self.field(depth, most))
    }

    /// Which of three fields; so seldom another than the first that down to
    /// the greatest depth it can be the first each time.
    pub(super) fn mostly_first(&mut self) -> usize {
        if self.random.percent(98) {
            0
        } else {
            self.random.below(2) + 1
        }
    }

    /// An overline, an underline, a root or an atom of any class.
    fn with_fields(&mut self, form: usize, fields: &[Vec<u8>; 3]) -> Vec<u8> {
        let fields = fields.each_ref().map(Vec::as_slice);
        match form {
            4 => overline(fields),
            5 => underline(fields),
            6..9 => atom(1, self.random.below(3) as u8, fields),
            9 | 10 => root(self.sign(), fields),
            _ => atom(self.plain_class(), 0, fields),
        }
    }

    /// An atom of a symbol alone.
    pub(super) fn bare_atom(&mut self, class: u8) -> Vec<u8> {
        let nucleus = self.symbol();
        atom(class, 0, [&nucleus, EMPTY, EMPTY])
    }

    pub(super) fn plain_class(&mut self) -> u8 {
        *self.random.pick(&[0, 0, 0, 1, 2, 2, 2, 3, 4, 5, 6, 7])
    }

    fn field(&mut self, depth: usize, most: usize) -> Vec<u8> {
        match self.random.below(10) {
            0..3 => EMPTY.to_vec(),
            3..5 if depth > 1 => self.list(depth, most),
            _ => self.symbol(),
        }
    }

    fn list(&mut self, depth: usize, most: usize) -> Vec<u8> {
        list(&self.items(depth - 1, most.saturating_sub(3)))
    }

    /// A symbol field, or an empty one if there is no symbol to use.
    pub(super) fn symbol(&mut self) -> Vec<u8> {
        let drawn = if !self.random.percent(self.absent) {
            self.symbols.usable(self.random)
        } else if self.random.percent(60) {
            self.symbols.known(self.random)
        } else {
            Some((self.random.below(16) as u8, self.random.byte()))
        };
        match drawn {
            Some((family, code)) => symbol(family, code),
            None => EMPTY.to_vec(),
        }
    }

    /// An operator, of a symbol that is enlarged in display if there is one.
    pub(super) fn operator(&mut self) -> Vec<u8> {
        let [nucleus, superscript, subscript] = self.fields(1, 0);
        let nucleus = match self.symbols.enlarged(self.random) {
            Some((family, code)) if self.random.percent(70) => symbol(family, code),
            _ => nucleus,
        };
        let limits = self.random.below(3) as u8;
        atom(1, limits, [&nucleus, &superscript, &subscript])
    }

    /// An item that sets nothing.
    pub(super) fn empty_item(&mut self) -> Vec<u8> {
        match self.random.below(4) {
            0 => kern(0),
            1 => style(self.random.below(8) as u8),
            2 => atom(2, 0, [EMPTY; 3]),
            _ => choice([&list(&[]); 4]),
        }
    }

    fn kern_length(&mut self) -> i32 {
        let greatest = match self.random.below(8) {
            0 => 0,
            1..5 => 1000,
            5 | 6 => KERN_LIMIT,
            _ => return *self.random.pick(&[KERN_LIMIT, -KERN_LIMIT]),
        };
        self.random.between((-greatest).into(), greatest.into()) as i32
    }
}

/// A formula of operators, mostly in display.
pub fn operator_formula(grower: &mut Grower) -> Vec<u8> {
    let mut items = style(grower.random.below(2) as u8);
    for _ in 0..grower.random.below(5) + 1 {
        items.extend(match grower.random.below(6) {
            0 => grower.item(2, 40),
            1 => style(grower.random.below(3) as u8),
            _ => grower.operator(),
        });
    }
    items
}

/// An item or two with the given list in them.
type Holder = fn(&mut Grower, Vec<u8>) -> Vec<u8>;

/// A formula whose deepest list is at a depth around the limit.
pub fn deep_formula(grower: &mut Grower) -> Vec<u8> {
    let levels = *grower.random.pick(&[
        DEPTH_LIMIT - 1,
        DEPTH_LIMIT,
        DEPTH_LIMIT,
        DEPTH_LIMIT + 1,
        DEPTH_LIMIT + 2,
    ]);
    let holders: [Holder; 2] = match grower.random.below(10) {
        0..4 => [holding, holding],
        4 | 5 => [choice_holding, choice_holding],
        6 => [fence_holding, choice_holding],
        _ => [fence_holding, root_holding],
    };
    nested(grower, holders, 1, levels)
}

/// The two holders take turns.
fn nested(grower: &mut Grower, holders: [Holder; 2], depth: usize, levels: usize) -> Vec<u8> {
    let shallow = DEPTH_LIMIT.saturating_sub(depth).clamp(1, 3);
    let mut items = grower.items(shallow, 30);
    if depth < levels {
        let inner = list(&nested(grower, holders, depth + 1, levels));
        items.extend(holders[depth % 2](grower, inner));
        items.extend(grower.items(shallow, 20));
    } else if grower.random.percent(35) {
        items.extend(fault(grower));
    }
    items
}

/// An item that can't be read where it stands.
fn fault(grower: &mut Grower) -> Vec<u8> {
    match grower.random.below(12) {
        0 => root_fault(grower),
        1..5 => fence_fault(grower),
        5 | 6 => long_list_fault(grower),
        _ => choice_fault(grower),
    }
}

/// An item with the given list in any of its places.
pub fn holding(grower: &mut Grower, given: Vec<u8>) -> Vec<u8> {
    match grower.random.below(19) {
        0 => fraction(0, &given, &grower.symbol()),
        1 => fraction(1, &grower.symbol(), &given),
        2..5 => choice_holding(grower, given),
        5 | 6 => fence_holding(grower, given),
        form => {
            let mut fields = grower.fields(1, 0);
            fields[grower.random.below(3)] = given;
            grower.with_fields(form - 3, &fields)
        }
    }
}

/// A formula with long kerns, so that widths and x come near the size limit.
pub fn wide_formula(grower: &mut Grower) -> Vec<u8> {
    let edge = edge(grower.random);
    let outside = match grower.random.below(3) {
        0 => 0,
        1 => edge / 2,
        _ => grower.random.between(-SIZE_LIMIT, SIZE_LIMIT),
    };
    let mut items = kerns(outside);
    match grower.random.below(4) {
        0 => {
            items.extend(kerns(edge - outside));
            items.extend(edge_item(grower));
        }
        _ => {
            let inner = wide_list(grower, edge - outside);
            items.extend(holding(grower, inner));
        }
    }
    if grower.random.percent(50) {
        let back = grower.random.between(-SIZE_LIMIT, SIZE_LIMIT);
        items.extend(kerns(back));
        items.extend(edge_item(grower));
    }
    items
}

fn wide_list(grower: &mut Grower, width: i64) -> Vec<u8> {
    let mut items = kerns(width);
    if grower.random.percent(70) {
        items.extend(edge_item(grower));
    }
    if grower.random.percent(30) {
        items.extend(kerns(-width));
    }
    list(&items)
}

/// An item of few symbols; some nodes of a root or a fence may pass the limit
/// alone.
fn edge_item(grower: &mut Grower) -> Vec<u8> {
    match grower.random.below(10) {
        0 | 1 => grower.root(1, 0),
        2 | 3 => grower.fence(2, 0),
        _ => grower.item(1, 0),
    }
}

/// The size limit with either sign, or a length near it.
fn edge(random: &mut Random) -> i64 {
    let off = *random.pick(&[0, 2, 1000, 40_000, 2_000_000]);
    let length = SIZE_LIMIT + random.between(-off, off);
    if random.percent(50) {
        length
    } else {
        -length
    }
}

/// Kerns of the given sum.
pub fn kerns(sum: i64) -> Vec<u8> {
    let longest = i64::from(KERN_LIMIT);
    let long_kern = kern(KERN_LIMIT * sum.signum() as i32);
    let mut items = long_kern.repeat((sum.abs() / longest) as usize);
    items.extend(kern((sum % longest) as i32));
    items
}

/// A table and a formula whose lines, one over the other, come near the size
/// limit upwards or downwards.
pub fn tall_case(random: &mut Random) -> (TableParts, Vec<u8>) {
    let nucleus_lines = random.between(13, DEPTH_LIMIT as i64);
    let script_lines = random.between(13, DEPTH_LIMIT as i64 - 1);
    let thickness = (reach(random) / (5 * (nucleus_lines + script_lines))) as u32;
    let table = tall_table(thickness, random);

    let upwards = random.percent(50);
    let letter = symbol(1, 97);
    let nucleus = lines(upwards, nucleus_lines - 1, &letter);
    let script = lines(upwards, script_lines, &letter);
    let formula = if upwards {
        overline([&nucleus, &script, EMPTY])
    } else {
        underline([&nucleus, EMPTY, &script])
    };
    (table, formula)
}

/// The same upwards, with roots for some of the lines. Outside of display a
/// root whose sign has no height goes up by five quarters of a line's thickness.
pub fn tall_roots(random: &mut Random) -> (TableParts, Vec<u8>) {
    let deepest = DEPTH_LIMIT as i64 - 1;
    let roots = random.between(1, 4);
    let lines_in_all = 2 * deepest - roots;
    let thickness = 4 * reach(random) / (20 * lines_in_all + 5 * roots);
    let table = tall_table(thickness as u32, random);

    let letter = symbol(1, 97);
    let sign = *random.pick(&[(0, 0), (1, 97)]);
    let rooted = (0..roots).fold(letter.clone(), |inner, _| {
        list(&root([sign, (0, 0)], [&inner, EMPTY, EMPTY]))
    });
    let nucleus = lines(true, deepest - roots, &rooted);
    let script = lines(true, deepest, &letter);
    (table, atom(0, 0, [&nucleus, &script, EMPTY]))
}

/// A length near the size limit.
fn reach(random: &mut Random) -> i64 {
    let off = *random.pick(&[2, 40, 3000]);
    SIZE_LIMIT + random.between(-off, off)
}

/// All lines are equally thick; what else has an effect on heights is small.
fn tall_table(thickness: u32, random: &mut Random) -> TableParts {
    const RULE_THICKNESS: usize = 29;
    let greatest = *random.pick(&[0, 50, 2000]);
    let mut word = || random.between(0, greatest) as u32;
    let mut rows = [[0; PARAMETERS]; ROWS];
    for row in &mut rows {
        row.fill_with(&mut word);
        row[RULE_THICKNESS] = thickness;
    }
    let characters = (0..ROWS as u8)
        .map(|size| CharacterParts {
            size,
            family: 1,
            code: 97,
            successor: None,
            measures: std::array::from_fn(|_| word()),
        })
        .collect();
    TableParts { rows, characters }
}

/// So many lines over or under a field, as a field.
fn lines(upwards: bool, count: i64, field: &[u8]) -> Vec<u8> {
    (0..count).fold(field.to_vec(), |inner, _| {
        let fields: [&[u8]; 3] = [&inner, EMPTY, EMPTY];
        list(&if upwards {
            overline(fields)
        } else {
            underline(fields)
        })
    })
}
