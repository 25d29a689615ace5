//! Typed text read by functions that call each other as the grammar's rules do,
//! to hold the reference's reader to.

use crate::names::{Names, KEYWORDS};
use reference::compose::{atom, fraction, list, symbol, EMPTY};

/// The tokens of a text, each with its place.
pub fn tokens(text: &[u8]) -> Vec<(usize, &[u8])> {
    let mut tokens = Vec::new();
    let mut start = 0;
    while start < text.len() {
        let of_word = text[start..].iter().take_while(|byte| is_of_word(**byte));
        let length = of_word.count().max(1);
        let token = &text[start..start + length];
        if ![b"\t", b"\n", b" "].contains(&token.first_chunk().unwrap()) {
            tokens.push((start, token));
        }
        start += length;
    }
    tokens
}

pub fn is_of_word(byte: u8) -> bool {
    byte.is_ascii_graphic() && !b"{}".contains(&byte)
}

/// Whether the word is neither a keyword nor a brace nor another byte.
pub fn is_name(token: &[u8]) -> bool {
    is_of_word(token[0]) && !KEYWORDS.contains(&token)
}

/// The formula of some tokens, whatever its length and depth; or which of them
/// can't stand where it stands.
pub fn formula(tokens: &[(usize, &[u8])], names: &Names) -> Result<Vec<u8>, usize> {
    let mut descent = Descent {
        tokens,
        names,
        at: 0,
    };
    let items = descent.row()?;
    match descent.next() {
        None => Ok(items),
        Some(_) => Err(descent.at),
    }
}

struct Descent<'a> {
    tokens: &'a [(usize, &'a [u8])],
    names: &'a Names<'a>,
    at: usize,
}

/// A word or a group that stands alone, with its class, or an item.
enum Part {
    Bare(u8, Vec<u8>),
    Item(Vec<u8>),
}

impl Part {
    fn item(self) -> Vec<u8> {
        match self {
            Part::Bare(class, field) => atom(class, 0, [&field, EMPTY, EMPTY]),
            Part::Item(item) => item,
        }
    }

    fn operand(self) -> Vec<u8> {
        match self {
            Part::Bare(_, field) => field,
            Part::Item(item) => list(&item),
        }
    }
}

impl<'a> Descent<'a> {
    fn next(&self) -> Option<&'a [u8]> {
        self.tokens.get(self.at).map(|(_, token)| *token)
    }

    /// Passes the token if it is the next.
    fn meets(&mut self, token: &str) -> bool {
        let is_next = self.next() == Some(token.as_bytes());
        self.at += usize::from(is_next);
        is_next
    }

    fn row(&mut self) -> Result<Vec<u8>, usize> {
        let mut items = Vec::new();
        while self
            .next()
            .is_some_and(|token| token == b"{" || is_name(token))
        {
            items.extend(self.limited()?);
        }
        Ok(items)
    }

    fn limited(&mut self) -> Result<Vec<u8>, usize> {
        let body = self.quotient()?;
        let from = self.behind("from", Descent::quotient)?;
        let to = self.behind("to", Descent::quotient)?;
        if from.is_none() && to.is_none() {
            return Ok(body.item());
        }
        let [to, from] = [to, from].map(|part| part.map_or(EMPTY.to_vec(), Part::operand));
        Ok(atom(1, 1, [&body.operand(), &to, &from]))
    }

    fn quotient(&mut self) -> Result<Part, usize> {
        let mut left = self.scripted()?;
        while let Some(right) = self.behind("over", Descent::scripted)? {
            left = Part::Item(fraction(0, &left.operand(), &right.operand()));
        }
        Ok(left)
    }

    fn scripted(&mut self) -> Result<Part, usize> {
        let (class, nucleus) = self.primary()?;
        let subscript = self.behind("sub", Descent::primary)?;
        let superscript = self.behind("sup", Descent::primary)?;
        if subscript.is_none() && superscript.is_none() {
            return Ok(Part::Bare(class, nucleus));
        }
        let scripts = [superscript, subscript].map(|it| it.map_or(EMPTY.to_vec(), |it| it.1));
        let fields: [&[u8]; 3] = [&nucleus, &scripts[0], &scripts[1]];
        Ok(Part::Item(atom(class, 0, fields)))
    }

    fn primary(&mut self) -> Result<(u8, Vec<u8>), usize> {
        let token = self.next().ok_or(self.at)?;
        if self.meets("{") {
            let items = self.row()?;
            return match self.meets("}") {
                true => Ok((0, list(&items))),
                false => Err(self.at),
            };
        }
        if !is_name(token) {
            return Err(self.at);
        }
        self.at += 1;
        let (family, code, class) = self.names.all[token];
        Ok((class, symbol(family, code)))
    }

    /// What stands behind the keyword, if that comes next.
    fn behind<T>(
        &mut self,
        keyword: &str,
        operand: fn(&mut Self) -> Result<T, usize>,
    ) -> Result<Option<T>, usize> {
        match self.meets(keyword) {
            true => operand(self).map(Some),
            false => Ok(None),
        }
    }
}
