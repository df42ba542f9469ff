//! The rows of the standard that no quadratic undoes.

use crate::inverting::inverse;
use crate::line::Line;
use crate::rows::standard_rows;
use std::io::{self, Write};

pub fn write(out: &mut impl Write) -> io::Result<()> {
    let rows = standard_rows();
    let mut above = 0;
    for row in &rows {
        let degree = inverse(*row).degree;
        if degree > 2 {
            above += 1;
            Line::new().add_all([row.k, row.f1, row.f2, degree]).write(out)?;
        }
    }
    writeln!(out, "{above} of {} rows have D above 2", rows.len())
}
