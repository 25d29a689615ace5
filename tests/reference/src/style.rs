//! The eight styles, and those of the parts of a formula.

/// 0 to 7: D, D', T, T', S, S', SS, SS'. The odd ones are cramped.
#[derive(Clone, Copy, Debug, PartialEq, Eq)]
pub struct Style(u8);

const TEXT: u8 = 2;
const SCRIPT: u8 = 4;
const SCRIPTSCRIPT: u8 = 6;

impl Style {
    pub fn new(number: u8) -> Option<Style> {
        (number <= 7).then_some(Style(number))
    }

    pub fn is_display(self) -> bool {
        self.0 < TEXT
    }

    pub fn is_script(self) -> bool {
        self.0 >= SCRIPT
    }

    pub fn is_cramped(self) -> bool {
        self.prime() == 1
    }

    /// 0 to 3: D, T, S, SS.
    pub fn without_prime(self) -> usize {
        usize::from(self.0 / 2)
    }

    /// 0 text, 1 script, 2 scriptscript.
    pub fn size(self) -> u8 {
        match self.0 {
            0..SCRIPT => 0,
            SCRIPT..SCRIPTSCRIPT => 1,
            _ => 2,
        }
    }

    pub fn cramped(self) -> Style {
        Style(self.0 | 1)
    }

    pub fn superscript(self) -> Style {
        let main = if self.is_script() {
            SCRIPTSCRIPT
        } else {
            SCRIPT
        };
        Style(main | self.prime())
    }

    pub fn subscript(self) -> Style {
        self.superscript().cramped()
    }

    pub fn numerator(self) -> Style {
        if self.is_display() {
            Style(TEXT | self.prime())
        } else {
            self.superscript()
        }
    }

    pub fn denominator(self) -> Style {
        self.numerator().cramped()
    }

    fn prime(self) -> u8 {
        self.0 & 1
    }
}
