//! The parameters at a font table's start.

use crate::records::{are_in_range, value};

pub(crate) const PARAMETERS: usize = 35;
pub(crate) const PARAMETER_MARK: [u8; 2] = *b"PA";
pub(crate) const ROW_BYTES: usize = 2 + 4 * PARAMETERS;
pub(crate) const ROWS: usize = 3;

const SIGMAS: usize = 22;

/// A row for each size.
pub type Rows = [Parameters; ROWS];

/// One size's σ1 to σ22 and ξ1 to ξ13.
#[derive(Clone, Copy)]
pub struct Parameters([u32; PARAMETERS]);

impl Parameters {
    fn sigma(&self, number: usize) -> i64 {
        i64::from(self.0[number - 1])
    }

    fn xi(&self, number: usize) -> i64 {
        i64::from(self.0[SIGMAS + number - 1])
    }

    pub fn x_height(&self) -> i64 {
        self.sigma(5)
    }

    /// One mu in sp.
    pub fn math_unit(&self) -> i64 {
        self.sigma(6) / 18
    }

    pub fn num1(&self) -> i64 {
        self.sigma(8)
    }

    pub fn num2(&self) -> i64 {
        self.sigma(9)
    }

    pub fn num3(&self) -> i64 {
        self.sigma(10)
    }

    pub fn denom1(&self) -> i64 {
        self.sigma(11)
    }

    pub fn denom2(&self) -> i64 {
        self.sigma(12)
    }

    pub fn sup1(&self) -> i64 {
        self.sigma(13)
    }

    pub fn sup2(&self) -> i64 {
        self.sigma(14)
    }

    pub fn sup3(&self) -> i64 {
        self.sigma(15)
    }

    pub fn sub1(&self) -> i64 {
        self.sigma(16)
    }

    pub fn sub2(&self) -> i64 {
        self.sigma(17)
    }

    pub fn sup_drop(&self) -> i64 {
        self.sigma(18)
    }

    pub fn sub_drop(&self) -> i64 {
        self.sigma(19)
    }

    pub fn axis_height(&self) -> i64 {
        self.sigma(22)
    }

    pub fn rule_thickness(&self) -> i64 {
        self.xi(8)
    }

    /// ξ9 to ξ13 by the numbers 1 to 5 of their names.
    pub fn big_op_spacing(&self, number: usize) -> i64 {
        self.xi(8 + number)
    }
}

/// The rows of a table, and the bytes behind them.
pub fn read(table: &[u8]) -> Option<(Rows, &[u8])> {
    let (head, rest) = table.split_at_checked(ROWS * ROW_BYTES)?;
    Some((read_rows(head)?, rest))
}

fn read_rows(bytes: &[u8]) -> Option<Rows> {
    let mut rows = [Parameters([0; PARAMETERS]); ROWS];
    for (row, record) in rows.iter_mut().zip(bytes.chunks_exact(ROW_BYTES)) {
        let words = record.strip_prefix(&PARAMETER_MARK)?.as_chunks().0;
        if !are_in_range(words) {
            return None;
        }
        for (parameter, word) in row.0.iter_mut().zip(words) {
            *parameter = value(word);
        }
    }
    Some(rows)
}
