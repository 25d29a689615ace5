//! Atoms and their nuclei (rules 13 and 17).

use super::Nucleus;
use crate::answer::Refusal;
use crate::boxes::{half, MathBox};
use crate::layout::Layout;
use crate::nodes::Pen;
use crate::reading::{Class, Field, Limits, Scripts, Symbol};
use crate::records::Character;
use crate::style::Style;

impl<P: Pen> Layout<'_, P> {
    pub fn atom(
        &mut self,
        class: Class,
        limits: Limits,
        nucleus: &Field,
        scripts: &Scripts,
        style: Style,
    ) -> Result<MathBox, Refusal> {
        let has_limits = class == Class::Op && sets_limits(limits, style);
        let nucleus = match nucleus {
            Field::Symbol(symbol) if class == Class::Op => {
                let joins_italic = has_limits || scripts.subscript.is_empty();
                self.operator(symbol, joins_italic, style)?
            }
            Field::Symbol(symbol) => {
                self.plain_symbol(symbol, scripts.subscript.is_empty(), style)?
            }
            Field::Empty | Field::List(_) => Nucleus::boxed(self.field(nucleus, style)?),
        };
        if has_limits {
            self.stack_limits(nucleus, scripts, style)
        } else {
            self.attach_scripts(nucleus, scripts, style)
        }
    }

    /// Rule 17: a symbol; its italic correction follows it unless it is to
    /// part the scripts.
    fn plain_symbol(
        &mut self,
        symbol: &Symbol,
        joins_italic: bool,
        style: Style,
    ) -> Result<Nucleus, Refusal> {
        let character = self.character(symbol, style)?;
        let mut frame = self.glyph(symbol, style, &character);
        let mut italic = character.italic;
        if joins_italic {
            frame.width += italic;
            italic = 0;
        }
        Ok(Nucleus {
            frame,
            italic,
            is_plain: true,
        })
    }

    /// Rule 13: an operator's symbol is enlarged in display style and centred
    /// on the axis.
    fn operator(
        &mut self,
        symbol: &Symbol,
        joins_italic: bool,
        style: Style,
    ) -> Result<Nucleus, Refusal> {
        let (symbol, character) = self.enlarged(symbol, style)?;
        let mut frame = self.glyph(&symbol, style, &character);
        let axis_height = self.tables.parameters(style.size()).axis_height();
        let drop = half(frame.height - frame.depth) - axis_height;
        frame.extent = self.place(&frame, 0, -drop);
        frame.height = (frame.height - drop).max(0);
        frame.depth = (frame.depth + drop).max(0);
        if joins_italic {
            frame.width += character.italic;
        }
        Ok(Nucleus {
            frame,
            italic: character.italic,
            is_plain: false,
        })
    }

    /// The symbol, or in display style its successor if it has one.
    fn enlarged(&self, symbol: &Symbol, style: Style) -> Result<(Symbol, Character), Refusal> {
        let character = self.character(symbol, style)?;
        match character.successor {
            Some(code) if style.is_display() => {
                let symbol = Symbol { code, ..*symbol };
                let character = self.character(&symbol, style)?;
                Ok((symbol, character))
            }
            _ => Ok((*symbol, character)),
        }
    }
}

fn sets_limits(limits: Limits, style: Style) -> bool {
    match limits {
        Limits::Display => style.is_display(),
        Limits::Always => true,
        Limits::Never => false,
    }
}
