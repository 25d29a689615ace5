//! The letter of a symbol: the layouts of Computer Modern's fonts, code by code,
//! and the two symbols of the examples' client.

use crate::shapes::{Shape, ANGLE};

/// How a symbol is drawn.
pub enum Letter {
    /// A character of a text font, on the baseline.
    Upright(char),
    Italic(char),
    /// With a stroke across.
    Struck(char),
    /// A character that is fitted into the symbol's box, for it hangs from the
    /// baseline.
    Fitted(char),
    /// Strokes in the symbol's box, for a character that grows.
    Shaped(char, Shape),
}

/// None if the font, or its character of that code, is not known.
pub fn letter(font: &str, code: u8) -> Option<Letter> {
    let name = font.trim_end_matches(|c: char| c.is_ascii_digit());
    let (_, layout) = LAYOUTS.iter().find(|(font, _)| *font == name)?;
    let letter = layout.chars().nth(code.into());
    let letter = letter.filter(|letter| *letter != NONE)?;
    Some(match name {
        EXTENSIONS => grown(letter),
        SYMBOLS if IN_THEIR_BOXES.contains(&letter) => grown(letter),
        MATH_ITALIC if is_slanted(letter) => Letter::Italic(letter),
        _ => Letter::Upright(letter),
    })
}

/// Of the examples' client.
pub fn client_letter(family: u8, code: u8) -> Option<Letter> {
    match (family, code) {
        (0, b'0') => Some(Letter::Struck('0')),
        (4, 1) => Some(Letter::Shaped('∠', ANGLE)),
        _ => None,
    }
}

fn grown(letter: char) -> Letter {
    match Shape::of(letter) {
        Some(shape) => Letter::Shaped(letter, shape),
        None => Letter::Fitted(letter),
    }
}

fn is_slanted(letter: char) -> bool {
    letter.is_alphabetic() && !['ℓ', '℘'].contains(&letter)
}

const ROMAN: &str = "cmr";
const MATH_ITALIC: &str = "cmmi";
const SYMBOLS: &str = "cmsy";
const EXTENSIONS: &str = "cmex";
/// Of the symbols, for they stand elsewhere than the same characters of a text font.
const IN_THEIR_BOXES: [char; 2] = ['′', '√'];

/// Where a layout has a part of a sign for which there is no character.
const NONE: char = ' ';

/// A font by its name, without the size, and its 128 characters from code 0 on, 32
/// to a line.
const LAYOUTS: [(&str, &str); 4] = [
    (
        ROMAN,
        concat!(
            "ΓΔΘΛΞΠΣΥΦΨΩﬀﬁﬂﬃﬄıȷ`´ˇ˘¯˚¸ßæœøÆŒØ",
            " !”#$%&’()*+,-./0123456789:;¡=¿?",
            "@ABCDEFGHIJKLMNOPQRSTUVWXYZ[“]ˆ˙",
            "‘abcdefghijklmnopqrstuvwxyz–—˝˜¨",
        ),
    ),
    (
        MATH_ITALIC,
        concat!(
            "ΓΔΘΛΞΠΣΥΦΨΩαβγδϵζηθικλμνξπρστυϕχ",
            "ψωεϑϖϱςφ↼↽⇀⇁  ▹◃0123456789.,</>⋆",
            "∂ABCDEFGHIJKLMNOPQRSTUVWXYZ♭♮♯⌣⌢",
            "ℓabcdefghijklmnopqrstuvwxyzıȷ℘ ⁀",
        ),
    ),
    (
        SYMBOLS,
        concat!(
            "−⋅×∗÷⋄±∓⊕⊖⊗⊘⊙◯∘•≍≡⊆⊇≤≥⪯⪰∼≈⊂⊃≪≫≺≻",
            "←→↑↓↔↗↘≃⇐⇒⇑⇓⇔↖↙∝′∞∈∋△▽  ∀∃¬∅ℜℑ⊤⊥",
            "ℵ𝒜ℬ𝒞𝒟ℰℱ𝒢ℋℐ𝒥𝒦ℒℳ𝒩𝒪𝒫𝒬ℛ𝒮𝒯𝒰𝒱𝒲𝒳𝒴𝒵∪∩⊎∧∨",
            "⊢⊣⌊⌋⌈⌉{}⟨⟩|‖↕⇕\\≀√⨿∇∫⊔⊓⊑⊒§†‡¶♣♢♡♠",
        ),
    ),
    (
        EXTENSIONS,
        concat!(
            "()[]⌊⌋⌈⌉{}⟨⟩|‖/\\()()[]⌊⌋⌈⌉{}⟨⟩/\\",
            "()[]⌊⌋⌈⌉{}⟨⟩/\\/\\⎛⎞⎡⎤⎣⎦⎢⎥⎧⎫⎩⎭⎨⎬⎪⏐",
            "⎝⎠⎜⎟⟨⟩⨆⨆∮∮⨀⨀⨁⨁⨂⨂∑∏∫⋃⋂⨄⋀⋁∑∏∫⋃⋂⨄⋀⋁",
            "∐∐ˆˆˆ˜˜˜[]⌊⌋⌈⌉{}√√√√⎷  ‖↑↓    ⇑⇓",
        ),
    ),
];
