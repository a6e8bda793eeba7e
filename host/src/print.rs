//! Printing an answer in the form of the SAT competitions.

use crate::library::Fallbacks;
use std::fmt::Write as _;
use std::io::{self, Write};
use std::iter::once;

/// The most characters of a line of values.
const WIDTH: usize = 78;

/// Writes that clauses can't be met.
pub fn never(out: &mut impl Write) -> io::Result<()> {
    writeln!(out, "s UNSATISFIABLE")
}

/// Writes that clauses can be met, and the value of each variable in a model.
pub fn met(out: &mut impl Write, model: &[u8]) -> io::Result<()> {
    writeln!(out, "s SATISFIABLE")?;
    let literals = (1i64..).zip(model).map(literal).chain(once(0));
    let mut line = String::from("v");
    for literal in literals {
        let end = line.len();
        write!(line, " {literal}").expect("a string takes all that is written");
        if line.len() > WIDTH {
            writeln!(out, "{}", &line[..end])?;
            line.replace_range(1..end, "");
        }
    }
    writeln!(out, "{line}")
}

/// Writes a comment on how often the search had to do without its guidance.
pub fn fallbacks(out: &mut impl Write, counted: &Fallbacks) -> io::Result<()> {
    writeln!(
        out,
        "c missed conflicts {}, failed analyses {}, lost variables {}",
        counted.missed_conflicts, counted.failed_analyses, counted.lost_variables
    )
}

fn literal((variable, &value): (i64, &u8)) -> i64 {
    if value == 1 {
        variable
    } else {
        -variable
    }
}

#[cfg(test)]
mod tests {
    use super::*;

    fn printed(model: &[u8]) -> String {
        let mut out = Vec::new();
        met(&mut out, model).unwrap();
        String::from_utf8(out).unwrap()
    }

    #[test]
    fn prints_small_models() {
        assert_eq!(printed(&[]), "s SATISFIABLE\nv 0\n");
        assert_eq!(printed(&[1, 0, 1]), "s SATISFIABLE\nv 1 -2 3 0\n");
    }

    #[test]
    fn keeps_lines_short_and_all_literals() {
        for variables in 0..500 {
            let model: Vec<u8> = (0..variables).map(|v| u8::from(v % 3 == 0)).collect();
            let text = printed(&model);
            let lines: Vec<&str> = text.lines().skip(1).collect();
            assert!(lines.iter().all(|line| line.len() <= WIDTH), "{text}");
            let literals: Vec<i64> = lines
                .iter()
                .flat_map(|line| line.strip_prefix("v ").unwrap().split(' '))
                .map(|word| word.parse().unwrap())
                .collect();
            let expected = (1i64..).zip(&model).map(literal).chain(once(0));
            assert!(literals.into_iter().eq(expected), "{text}");
        }
    }

    #[test]
    fn fills_a_line_to_its_end() {
        // A line of 'v', nine numbers of one digit and nineteen of two has 76 characters; 0 fills it.
        assert_eq!(printed(&[1; 28]).lines().map(str::len).max(), Some(78));
        assert_eq!(printed(&[1; 28]).lines().count(), 2);
        assert_eq!(printed(&[1; 29]).lines().count(), 3);
    }
}
