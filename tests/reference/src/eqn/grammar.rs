//! The grammar of typed text:
//!
//! - a row is any number of limited parts, side by side
//! - a limited part is a quotient, and may have `from` and a quotient, then `to`
//!   and a quotient
//! - a quotient is one scripted part or more with `over` between them, grouped to
//!   the left
//! - a scripted part is a primary, and may have `sub` and a primary, then `sup`
//!   and a primary
//! - a primary is a word, or a row in braces

use super::items::{Field, Item, Items, List};
use super::names::Name;
use super::tokens::{Operator, Token};
use super::Refusal;

const ORD: u8 = 0;
const OP: u8 = 1;
const LIMITS_ALWAYS: u8 = 1;

/// The items of a text and the row of them; `end` is the place behind it.
pub fn read(tokens: &[(usize, Token)], end: usize) -> Result<(Items, List), Refusal> {
    let mut reader = Reader {
        items: Items::default(),
        rows: Vec::new(),
        row: Row::default(),
    };
    for (place, token) in tokens {
        reader.take(*token).ok_or(Refusal::Grammar(*place))?;
    }
    reader.finished().ok_or(Refusal::Grammar(end))
}

/// Rows that are not finished, one in the other.
struct Reader {
    items: Items,
    /// Those around the last.
    rows: Vec<Row>,
    row: Row,
}

impl Reader {
    /// None if the token can't stand here.
    fn take(&mut self, token: Token) -> Option<()> {
        match token {
            Token::Word(name) => self.row.primary(Primary::Word(name), &mut self.items),
            Token::Operator(operator) => self.row.operator(operator)?,
            Token::Open => self.rows.push(std::mem::take(&mut self.row)),
            Token::Close => {
                let around = self.rows.pop()?;
                let group = std::mem::replace(&mut self.row, around).list(&mut self.items)?;
                self.row.primary(Primary::Group(group), &mut self.items);
            }
            Token::Stray => return None,
        }
        Some(())
    }

    /// None if the text can't end here.
    fn finished(mut self) -> Option<(Items, List)> {
        if !self.rows.is_empty() {
            return None;
        }
        let row = self.row.list(&mut self.items)?;
        Some((self.items, row))
    }
}

struct Row {
    /// The items that are finished.
    list: List,
    /// The last part, which may go on.
    last: Option<Limited>,
    /// One whose operand is to come.
    operator: Option<Operator>,
}

impl Default for Row {
    fn default() -> Row {
        Row {
            list: List::EMPTY,
            last: None,
            operator: None,
        }
    }
}

impl Row {
    /// An operand, or the front of a new part.
    fn primary(&mut self, primary: Primary, items: &mut Items) {
        match (self.operator.take(), &mut self.last) {
            (Some(operator), Some(last)) => last.operand(operator, primary, items),
            _ => {
                self.finish_last(items);
                self.last = Some(Limited::new(primary));
            }
        }
    }

    fn operator(&mut self, operator: Operator) -> Option<()> {
        let last = self.last.as_ref()?;
        if self.operator.is_some() || !last.allows(operator) {
            return None;
        }
        self.operator = Some(operator);
        Some(())
    }

    fn finish_last(&mut self, items: &mut Items) {
        if let Some(last) = self.last.take() {
            let item = last.item(items);
            items.append(&mut self.list, item);
        }
    }

    /// None if an operand is missing.
    fn list(mut self, items: &mut Items) -> Option<List> {
        if self.operator.is_some() {
            return None;
        }
        self.finish_last(items);
        Some(self.list)
    }
}

/// What stands before `from` and `to`, then what stands behind the last of them.
struct Limited {
    /// Nucleus, superscript (of `to`), subscript (of `from`) as far as finished.
    fields: [Field; 3],
    /// The field that the quotient is for.
    at: usize,
    quotient: Quotient,
}

const NUCLEUS: usize = 0;
const SUPERSCRIPT: usize = 1;
const SUBSCRIPT: usize = 2;

impl Limited {
    fn new(primary: Primary) -> Limited {
        Limited {
            fields: [Field::Empty; 3],
            at: NUCLEUS,
            quotient: Quotient::new(primary),
        }
    }

    fn allows(&self, operator: Operator) -> bool {
        let scripted = &self.quotient.right;
        match operator {
            Operator::Sub => scripted.subscript.is_none() && scripted.superscript.is_none(),
            Operator::Sup => scripted.superscript.is_none(),
            Operator::Over => true,
            Operator::From => self.at == NUCLEUS,
            Operator::To => self.at != SUPERSCRIPT,
        }
    }

    /// The operator is one that is allowed.
    fn operand(&mut self, operator: Operator, primary: Primary, items: &mut Items) {
        match operator {
            Operator::Sub => self.quotient.right.subscript = Some(primary),
            Operator::Sup => self.quotient.right.superscript = Some(primary),
            Operator::Over => {
                let left = self.quotient.operand(items);
                self.quotient = Quotient {
                    left: Some(left),
                    right: Scripted::new(primary),
                };
            }
            Operator::From => self.go_on(SUBSCRIPT, primary, items),
            Operator::To => self.go_on(SUPERSCRIPT, primary, items),
        }
    }

    fn go_on(&mut self, at: usize, primary: Primary, items: &mut Items) {
        self.fields[self.at] = self.quotient.operand(items);
        self.at = at;
        self.quotient = Quotient::new(primary);
    }

    fn item(mut self, items: &mut Items) -> Item {
        if self.at == NUCLEUS {
            return self.quotient.item(items);
        }
        self.fields[self.at] = self.quotient.operand(items);
        Item::Atom {
            class: OP,
            limits: LIMITS_ALWAYS,
            fields: self.fields,
        }
    }
}

/// What stands before the last `over`, and what behind it.
struct Quotient {
    left: Option<Field>,
    right: Scripted,
}

impl Quotient {
    fn new(primary: Primary) -> Quotient {
        Quotient {
            left: None,
            right: Scripted::new(primary),
        }
    }

    fn item(&self, items: &mut Items) -> Item {
        match self.left {
            None => self.right.item(),
            Some(left) => Item::Fraction([left, self.right.operand(items)]),
        }
    }

    fn operand(&self, items: &mut Items) -> Field {
        match self.left {
            None => self.right.operand(items),
            Some(_) => {
                let item = self.item(items);
                Field::List(items.alone(item))
            }
        }
    }
}

struct Scripted {
    nucleus: Primary,
    superscript: Option<Primary>,
    subscript: Option<Primary>,
}

impl Scripted {
    fn new(nucleus: Primary) -> Scripted {
        Scripted {
            nucleus,
            superscript: None,
            subscript: None,
        }
    }

    fn item(&self) -> Item {
        let script = |primary: Option<Primary>| primary.map_or(Field::Empty, |it| it.field());
        Item::Atom {
            class: self.nucleus.class(),
            limits: 0,
            fields: [
                self.nucleus.field(),
                script(self.superscript),
                script(self.subscript),
            ],
        }
    }

    fn operand(&self, items: &mut Items) -> Field {
        match (self.superscript, self.subscript) {
            (None, None) => self.nucleus.field(),
            _ => Field::List(items.alone(self.item())),
        }
    }
}

#[derive(Clone, Copy)]
enum Primary {
    Word(Name),
    Group(List),
}

impl Primary {
    fn class(&self) -> u8 {
        match self {
            Primary::Word(name) => name.class,
            Primary::Group(_) => ORD,
        }
    }

    fn field(&self) -> Field {
        match self {
            Primary::Word(name) => Field::Symbol(name.symbol),
            Primary::Group(list) => Field::List(*list),
        }
    }
}
