//! Typed texts: of the grammar, damaged, and others.

use super::names::{word, STRAY_BYTES};
use crate::compose::NameParts;
use crate::eqn::{is_of_word, KEYWORDS};
use crate::generate::{damaged_bytes, Random};
use crate::{DEPTH_LIMIT, FORMULA_LIMIT, SHORT_LIST_LIMIT};

type Token = Vec<u8>;

/// Types tokens over the words of some names.
pub struct Typist<'a> {
    names: &'a [NameParts],
    pub random: &'a mut Random,
    tokens: Vec<Token>,
    /// So many tokens, and then no more than are needed.
    wanted: usize,
}

impl<'a> Typist<'a> {
    pub fn new(names: &'a [NameParts], random: &'a mut Random) -> Typist<'a> {
        let wanted = *random.pick(&[0, 3, 8, 8, 20, 20, 60]);
        Typist {
            names,
            random,
            tokens: Vec::new(),
            wanted,
        }
    }

    /// Of the grammar.
    pub fn text(&mut self) -> Vec<u8> {
        self.row(1);
        self.typed()
    }

    /// With a token put in, taken out, doubled or exchanged here and there, or
    /// with damaged bytes.
    pub fn damaged(&mut self) -> Vec<u8> {
        self.row(1);
        if self.random.percent(25) {
            let text = self.typed();
            return damaged_bytes(text, self.random);
        }
        for _ in 0..*self.random.pick(&[1, 1, 1, 1, 2, 4]) {
            self.damage();
        }
        self.typed()
    }

    fn damage(&mut self) {
        let at = self.random.below(self.tokens.len() + 1);
        if at == self.tokens.len() {
            let token = self.any_token();
            self.tokens.push(token);
            return;
        }
        match self.random.below(8) {
            0 | 1 => {
                let token = self.any_token();
                self.tokens.insert(at, token);
            }
            2 => drop(self.tokens.remove(at)),
            3 => self.tokens.insert(at, self.tokens[at].clone()),
            4 => {
                let other = self.random.below(self.tokens.len());
                self.tokens.swap(at, other);
            }
            5 => self.tokens.truncate(at),
            _ => {
                let keyword = self.random.pick(&KEYWORDS).as_bytes().to_vec();
                let operand = self.operand();
                self.tokens.splice(at..at, [keyword, operand]);
            }
        }
    }

    /// Any tokens, most behind a word.
    pub fn noise(&mut self) -> Vec<u8> {
        if self.random.percent(75) {
            let front = self.operand();
            self.tokens.push(front);
        }
        for _ in 0..self.random.below(12) {
            let token = self.any_token();
            self.tokens.push(token);
        }
        self.typed()
    }

    /// A keyword, a brace, a word that the table may have or not, a byte that no
    /// text has.
    fn any_token(&mut self) -> Token {
        match self.random.below(20) {
            0..9 => self.random.pick(&KEYWORDS).as_bytes().to_vec(),
            9..11 => b"{".to_vec(),
            11..13 => b"}".to_vec(),
            13..17 => self.operand(),
            17 => vec![*self.random.pick(&STRAY_BYTES)],
            18 if self.random.percent(20) => {
                let length = 33 + self.random.below(3);
                vec![b'a'; length]
            }
            18 => word(self.random),
            _ => vec![*self.random.pick(&STRAY_BYTES)],
        }
    }

    fn operand(&mut self) -> Token {
        match self.random.percent(40) {
            true => b"{}".to_vec(),
            false => self.known_word(),
        }
    }

    fn known_word(&mut self) -> Token {
        match self.names {
            [] => b"{}".to_vec(),
            names => self.random.pick(names).word.clone(),
        }
    }

    fn put(&mut self, token: &str) {
        self.tokens.push(token.as_bytes().to_vec());
    }

    fn goes_on(&mut self, percent: u64) -> bool {
        self.tokens.len() < self.wanted && self.random.percent(percent)
    }

    fn row(&mut self, depth: usize) {
        while self.goes_on(if depth == 1 { 95 } else { 60 }) {
            self.limited(depth);
        }
    }

    fn limited(&mut self, depth: usize) {
        self.quotient(depth);
        for keyword in ["from", "to"] {
            if self.goes_on(16) {
                self.put(keyword);
                self.quotient(depth);
            }
        }
    }

    fn quotient(&mut self, depth: usize) {
        self.scripted(depth);
        while self.goes_on(18) {
            self.put("over");
            self.scripted(depth);
        }
    }

    fn scripted(&mut self, depth: usize) {
        self.primary(depth);
        for keyword in ["sub", "sup"] {
            if self.goes_on(22) {
                self.put(keyword);
                self.primary(depth);
            }
        }
    }

    fn primary(&mut self, depth: usize) {
        if depth < DEPTH_LIMIT && (self.names.is_empty() || self.random.percent(22)) {
            self.put("{");
            self.row(depth + 1);
            self.put("}");
        } else {
            let word = self.known_word();
            self.tokens.push(word);
        }
    }

    /// Lists down to a depth around the limit, by braces and by `over`; seldom
    /// far past it.
    pub fn deep(&mut self) -> Vec<u8> {
        let levels = match self.random.below(40) {
            0 => *self.random.pick(&[100, 1000]),
            1 if self.random.percent(15) => 100_000,
            _ => self.random.between(28, 33) as usize,
        };
        let by_over = match self.random.below(4) {
            0 => levels,
            1 => 0,
            _ => self.random.below(levels + 1),
        };
        let chain = self.chain(by_over);
        let (fronts, backs) = self.braces(levels - by_over);
        self.tokens = [fronts, chain, backs].concat();
        if self.random.percent(10) {
            self.damage();
        }
        self.typed()
    }

    /// A row with so many `over` one after another; at times scripts or limits
    /// make it one deeper.
    fn chain(&mut self, overs: usize) -> Vec<Token> {
        let token = |word: &str| word.as_bytes().to_vec();
        let mut tokens = vec![self.known_word()];
        if self.random.percent(20) {
            tokens.extend([token("sub"), self.known_word()]);
        }
        for _ in 0..overs {
            tokens.extend([token("over"), self.known_word()]);
        }
        if self.random.percent(20) {
            let keyword = *self.random.pick(&["from", "to"]);
            tokens.extend([token(keyword), self.known_word()]);
        }
        tokens
    }

    /// So many open braces, with what stands before them, and what closes them.
    fn braces(&mut self, levels: usize) -> (Vec<Token>, Vec<Token>) {
        let (mut fronts, mut backs) = (Vec::new(), Vec::new());
        for _ in 0..levels {
            let (front, back) = self.holder();
            fronts.extend(front);
            backs.extend(back.into_iter().rev());
        }
        backs.reverse();
        (fronts, backs)
    }

    /// What stands before some items and behind them so that they are a group
    /// somewhere in an item.
    fn holder(&mut self) -> (Vec<Token>, Vec<Token>) {
        let token = |word: &str| word.as_bytes().to_vec();
        let (open, close) = (token("{"), token("}"));
        let keyword = *self.random.pick(&KEYWORDS);
        let other = self.known_word();
        match self.random.below(4) {
            0 => (vec![other, token(keyword), open], vec![close]),
            1 => (vec![open], vec![close, token(keyword), other]),
            _ => (vec![open], vec![close]),
        }
    }

    /// The formula, or a list in it, has a length around a limit.
    pub fn long(&mut self) -> Vec<u8> {
        /// Of an atom of one long list.
        const ATOM: usize = 11;
        match self.random.below(4) {
            0 => {
                let length = self.around(FORMULA_LIMIT);
                self.tokens = self.filled(length);
            }
            1 => {
                let length = self.around(FORMULA_LIMIT - ATOM);
                self.tokens = self.filled(length);
                self.tokens.insert(0, b"{".to_vec());
                self.tokens.push(b"}".to_vec());
            }
            _ => {
                let length = self.around(SHORT_LIST_LIMIT);
                let levels = *self.random.pick(&[1, 1, 2, 3, 30, 31, 32]);
                let inner = self.filled(length);
                let (fronts, backs) = self.braces(levels);
                self.tokens = [fronts, inner, backs].concat();
            }
        }
        self.typed()
    }

    /// The limit itself, the next length, or one near it.
    fn around(&mut self, limit: usize) -> usize {
        match self.random.below(4) {
            0 => limit,
            1 => limit + 1,
            _ => self.random.between(limit as i64 - 12, limit as i64 + 12) as usize,
        }
    }

    /// A row that gives so many bytes, which are not few: a word alone gives 9,
    /// one with a script 11, and an empty group as many.
    fn filled(&mut self, length: usize) -> Vec<Token> {
        let scripted = length * 5 % 9;
        let plain = (length - 11 * scripted) / 9;
        let mut tokens = Vec::new();
        for _ in 0..scripted {
            let keyword = *self.random.pick(&["sub", "sup", "from", "to"]);
            tokens.extend([self.filling(), keyword.as_bytes().to_vec(), self.filling()]);
        }
        for _ in 0..plain {
            tokens.push(self.filling());
        }
        tokens
    }

    fn filling(&mut self) -> Token {
        match self.random.percent(5) {
            true => b"{}".to_vec(),
            false => self.known_word(),
        }
    }

    /// The tokens with something between them, where two words need it at least.
    fn typed(&mut self) -> Vec<u8> {
        let tokens = std::mem::take(&mut self.tokens);
        let mut text = self.blank(70);
        for pair in tokens.windows(2) {
            text.extend(&pair[0]);
            let is_word = |end: Option<&u8>| end.is_some_and(|byte| is_of_word(*byte));
            let are_words = is_word(pair[0].last()) && is_word(pair[1].first());
            text.extend(self.blank(if are_words { 0 } else { 50 }));
        }
        text.extend(tokens.last().into_iter().flatten());
        text.extend(self.blank(70));
        text
    }

    /// Nothing so many times of a hundred.
    fn blank(&mut self, nothing: u64) -> Vec<u8> {
        if self.random.percent(nothing) {
            return Vec::new();
        }
        let length = *self.random.pick(&[1, 1, 1, 1, 2, 3]);
        (0..length)
            .map(|_| *self.random.pick(b"    \n\t"))
            .collect()
    }
}
