//! The fonts that glyphs of a page are of, by size and family.

/// One font as DVI names it.
pub struct Font {
    pub name: String,
    /// Of the font's metrics, so that a reader can tell whether it has the same.
    pub checksum: u32,
    /// For which it was drawn, and in which it is set.
    pub points: u32,
}

pub struct Fonts(Vec<(u8, u8, Font)>);

impl Fonts {
    /// A line for each font: size, family, name, checksum in hexadecimal,
    /// points; others open with `#`. None if a line is not of this form.
    pub fn read(text: &str) -> Option<Fonts> {
        let lines = text.lines().filter(|line| !line.starts_with('#'));
        lines.map(font).collect::<Option<_>>().map(Fonts)
    }

    pub fn find(&self, size: u8, family: u8) -> Option<&Font> {
        let mut fonts = self.0.iter();
        let found = fonts.find(|font| (font.0, font.1) == (size, family));
        found.map(|(_, _, font)| font)
    }
}

fn font(line: &str) -> Option<(u8, u8, Font)> {
    let words: Vec<&str> = line.split_whitespace().collect();
    let [size, family, name, checksum, points] = words[..] else {
        return None;
    };
    let font = Font {
        name: name.to_string(),
        checksum: u32::from_str_radix(checksum, 16).ok()?,
        points: points.parse().ok()?,
    };
    Some((size.parse().ok()?, family.parse().ok()?, font))
}
