//! Typed text as tokens.

use super::names::{is_of_word, Name, Names};
use super::Refusal;

#[derive(Clone, Copy, Debug)]
pub enum Token {
    Word(Name),
    Operator(Operator),
    Open,
    Close,
    /// A byte that no text has.
    Stray,
}

/// What the keywords stand for.
#[derive(Clone, Copy, Debug, PartialEq, Eq)]
pub enum Operator {
    Sub,
    Sup,
    Over,
    From,
    To,
}

/// The tokens, each with the place of its first byte.
pub fn read(text: &[u8], names: &Names) -> Result<Vec<(usize, Token)>, Refusal> {
    let mut tokens = Vec::new();
    let mut at = 0;
    while let Some(&byte) = text.get(at) {
        let place = at;
        at += 1;
        let token = match byte {
            9 | 10 | 32 => continue,
            b'{' => Token::Open,
            b'}' => Token::Close,
            _ if is_of_word(byte) => {
                let word = first_word(&text[place..]);
                at = place + word.len();
                known(word, names).ok_or(Refusal::Word(place))?
            }
            _ => Token::Stray,
        };
        tokens.push((place, token));
    }
    Ok(tokens)
}

fn first_word(text: &[u8]) -> &[u8] {
    let end = text.iter().position(|byte| !is_of_word(*byte));
    &text[..end.unwrap_or(text.len())]
}

fn known(word: &[u8], names: &Names) -> Option<Token> {
    let operator = match word {
        b"sub" => Operator::Sub,
        b"sup" => Operator::Sup,
        b"over" => Operator::Over,
        b"from" => Operator::From,
        b"to" => Operator::To,
        _ => return names.find(word).map(Token::Word),
    };
    Some(Token::Operator(operator))
}
