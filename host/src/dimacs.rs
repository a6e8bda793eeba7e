//! Reading clauses in the DIMACS form.
//!
//! A text has comment lines that begin with `c`, one header `p cnf V C` before the first clause, and
//! then C clauses over the variables 1 to V: literals between white space, and 0 after each clause. A
//! line that begins with `%` ends the text, as in the files of SATLIB.

use std::fmt;

/// The greatest variable whose negation still has a number of 32 bits.
const MOST_VARIABLES: u64 = (u32::MAX as u64 - 1) / 2;

/// The clauses of a text.
#[derive(Debug, PartialEq, Eq)]
pub struct Formula {
    /// How many variables the header gives.
    pub variables: usize,
    /// The clauses as the library takes them: 2v + 2 for variable v (from 0), 2v + 3 for its negation,
    /// and 0 after each clause.
    pub clauses: Vec<u32>,
}

/// Why a text can't be read, and the line of the fault, from 1.
#[derive(Debug, PartialEq, Eq)]
pub struct Fault {
    pub line: usize,
    pub reason: Reason,
}

#[derive(Debug, PartialEq, Eq)]
pub enum Reason {
    NoHeader,
    BadHeader,
    SecondHeader,
    TooManyVariables,
    NoLiteral,
    VariableAbove { most: u64 },
    OpenClause,
    MoreClauses { expected: u64 },
    FewerClauses { expected: u64, found: u64 },
}

impl fmt::Display for Reason {
    fn fmt(&self, f: &mut fmt::Formatter<'_>) -> fmt::Result {
        match self {
            Reason::NoHeader => write!(f, "the header 'p cnf VARIABLES CLAUSES' is missing"),
            Reason::BadHeader => write!(f, "a header is 'p cnf VARIABLES CLAUSES'"),
            Reason::SecondHeader => write!(f, "a second header"),
            Reason::TooManyVariables => write!(f, "more than {MOST_VARIABLES} variables"),
            Reason::NoLiteral => write!(f, "a literal or 0 is expected"),
            Reason::VariableAbove { most } => {
                write!(f, "a variable above {most}, the last by the header")
            }
            Reason::OpenClause => write!(f, "the clause that begins here isn't ended by 0"),
            Reason::MoreClauses { expected } => {
                write!(f, "one clause more than the {expected} of the header")
            }
            Reason::FewerClauses { expected, found } => {
                write!(
                    f,
                    "the end after {found} clauses of the {expected} of the header"
                )
            }
        }
    }
}

/// Reads the clauses of a text.
pub fn read(text: &[u8]) -> Result<Formula, Fault> {
    let mut reader = Reader::new(text);
    let header = reader.header()?;
    let clauses = reader.clauses(&header)?;
    Ok(Formula {
        variables: header.variables as usize,
        clauses,
    })
}

struct Header {
    variables: u64,
    clauses: u64,
}

struct Reader<'a> {
    text: &'a [u8],
    /// The place of the next byte.
    at: usize,
    /// The line of that byte, from 1.
    line: usize,
    /// Whether only blanks stand before that byte in its line.
    fresh: bool,
}

impl<'a> Reader<'a> {
    fn new(text: &'a [u8]) -> Self {
        Reader {
            // Without the last line's end, a text ends in its last line, and not after it.
            text: text.strip_suffix(b"\n").unwrap_or(text),
            at: 0,
            line: 1,
            fresh: true,
        }
    }

    fn fault<T>(&self, reason: Reason) -> Result<T, Fault> {
        let line = self.line;
        Err(Fault { line, reason })
    }

    /// Goes to the next byte that is neither white space nor in a comment, and gives it. There is none
    /// at the end of the text.
    fn next(&mut self) -> Option<u8> {
        while let Some(&byte) = self.text.get(self.at) {
            match byte {
                b'\n' => {
                    self.at += 1;
                    self.line += 1;
                    self.fresh = true;
                }
                b'c' if self.fresh => {
                    self.take_until(|byte| byte == b'\n');
                }
                b'%' if self.fresh => return None,
                _ if is_space(byte) => self.at += 1,
                _ => {
                    self.fresh = false;
                    return Some(byte);
                }
            }
        }
        None
    }

    /// The bytes from the next one to the first that is an end, or to the end of the text.
    fn take_until(&mut self, is_end: impl Fn(u8) -> bool) -> &'a [u8] {
        let rest = &self.text[self.at..];
        let length = rest.iter().position(|&byte| is_end(byte));
        let taken = &rest[..length.unwrap_or(rest.len())];
        self.at += taken.len();
        taken
    }

    fn header(&mut self) -> Result<Header, Fault> {
        if self.next() != Some(b'p') {
            return self.fault(Reason::NoHeader);
        }
        match parse_header(self.take_until(|byte| byte == b'\n')) {
            Some(header) if header.variables <= MOST_VARIABLES => Ok(header),
            Some(_) => self.fault(Reason::TooManyVariables),
            None => self.fault(Reason::BadHeader),
        }
    }

    fn clauses(&mut self, header: &Header) -> Result<Vec<u32>, Fault> {
        let expected = header.clauses;
        let mut numbers = Vec::new();
        let mut found = 0;
        while let Some(byte) = self.next() {
            if byte == b'p' {
                return self.fault(Reason::SecondHeader);
            }
            if found == expected {
                return self.fault(Reason::MoreClauses { expected });
            }
            self.clause(header.variables, &mut numbers)?;
            found += 1;
        }
        if found < expected {
            return self.fault(Reason::FewerClauses { expected, found });
        }
        Ok(numbers)
    }

    /// Reads one clause, with the 0 at its end.
    fn clause(&mut self, most: u64, numbers: &mut Vec<u32>) -> Result<(), Fault> {
        let line = self.line;
        while self.next().is_some() {
            let number = self.literal(most)?;
            numbers.push(number);
            if number == 0 {
                return Ok(());
            }
        }
        let reason = Reason::OpenClause;
        Err(Fault { line, reason })
    }

    /// Reads a literal, or the 0 at the end of a clause.
    fn literal(&mut self, most: u64) -> Result<u32, Fault> {
        let word = self.take_until(is_space);
        let (digits, negated) = match word.strip_prefix(b"-") {
            Some(digits) => (digits, true),
            None => (word, false),
        };
        match decimal(digits) {
            None => self.fault(Reason::NoLiteral),
            Some(0) if negated => self.fault(Reason::NoLiteral),
            Some(0) => Ok(0),
            Some(variable) if variable > most => self.fault(Reason::VariableAbove { most }),
            // No more than MOST_VARIABLES, so that this fits.
            Some(variable) => Ok(2 * variable as u32 + u32::from(negated)),
        }
    }
}

fn is_space(byte: u8) -> bool {
    matches!(byte, b' ' | b'\t' | b'\n' | b'\r' | b'\x0b' | b'\x0c')
}

fn parse_header(line: &[u8]) -> Option<Header> {
    let mut words = line
        .split(|&byte| is_space(byte))
        .filter(|word| !word.is_empty());
    if words.next()? != b"p" || words.next()? != b"cnf" {
        return None;
    }
    let header = Header {
        variables: decimal(words.next()?)?,
        clauses: decimal(words.next()?)?,
    };
    words.next().is_none().then_some(header)
}

/// The number that a word of digits writes; the greatest number if that is beyond it.
fn decimal(word: &[u8]) -> Option<u64> {
    if word.is_empty() {
        return None;
    }
    word.iter().try_fold(0u64, |number, &byte| {
        let digit = byte.is_ascii_digit().then(|| u64::from(byte - b'0'))?;
        Some(number.saturating_mul(10).saturating_add(digit))
    })
}

#[cfg(test)]
mod tests {
    use super::*;

    fn formula(variables: usize, clauses: &[u32]) -> Result<Formula, Fault> {
        Ok(Formula {
            variables,
            clauses: clauses.to_vec(),
        })
    }

    fn fault(line: usize, reason: Reason) -> Result<Formula, Fault> {
        Err(Fault { line, reason })
    }

    #[test]
    fn reads_clauses() {
        let text = b"c two clauses\np cnf 3 2\n1 -2 0\n-3 2 1 0\n";
        assert_eq!(read(text), formula(3, &[2, 5, 0, 7, 4, 2, 0]));
    }

    #[test]
    fn reads_any_white_space_and_clauses_over_lines() {
        let text = b"\r\n p\tcnf  3 3 \r\n1\r\n-2\x0b\x0c3 0 0\n\n\n2\n0";
        assert_eq!(read(text), formula(3, &[2, 5, 6, 0, 0, 4, 0]));
    }

    #[test]
    fn reads_comments_anywhere() {
        let text = b"c\ncnf\np cnf 2 1\nc 1 0\n1\n  comment\n2 0\nc end";
        assert_eq!(read(text), formula(2, &[2, 4, 0]));
    }

    #[test]
    fn reads_no_further_than_a_percent_line() {
        assert_eq!(read(b"p cnf 1 1\n-1 0\n%\n0\n\n"), formula(1, &[3, 0]));
        assert_eq!(read(b"p cnf 0 0\n%"), formula(0, &[]));
    }

    #[test]
    fn reads_the_least_and_the_greatest() {
        assert_eq!(read(b"p cnf 0 0"), formula(0, &[]));
        assert_eq!(read(b"p cnf 0 1\n0\n"), formula(0, &[0]));
        assert_eq!(
            read(b"p cnf 2147483647 1\n2147483647 -2147483647 0\n"),
            formula(2_147_483_647, &[4_294_967_294, 4_294_967_295, 0])
        );
    }

    #[test]
    fn refuses_headers() {
        for text in ["", "c only\n", "1 0\n", "%\n"] {
            assert_eq!(read(text.as_bytes()), fault(1, Reason::NoHeader), "{text}");
        }
        assert_eq!(read(b"c\n\nx\n"), fault(3, Reason::NoHeader));
        assert_eq!(read(b"\n\n"), fault(2, Reason::NoHeader));
        for header in [
            "p",
            "p cnf",
            "p cnf 1",
            "p cnf 1 1 1",
            "p wcnf 1 1",
            "p cnf -1 1",
            "p cnf 1 +1",
            "p cnf 1 x",
            "pcnf 1 1",
        ] {
            let text = format!("c\n{header}\n1 0\n");
            assert_eq!(read(text.as_bytes()), fault(2, Reason::BadHeader), "{text}");
        }
        for variables in ["2147483648", "18446744073709551616"] {
            let text = format!("p cnf {variables} 0\n");
            assert_eq!(read(text.as_bytes()), fault(1, Reason::TooManyVariables));
        }
        assert_eq!(
            read(b"p cnf 1 1\n1 0\np cnf 1 1\n"),
            fault(3, Reason::SecondHeader)
        );
    }

    #[test]
    fn refuses_what_is_no_literal() {
        for word in [
            "x", "-", "--1", "-0", "+1", "1x", "1-", "1.0", "c", "%", "p", "\0", "\u{e9}",
        ] {
            let text = format!("p cnf 2 1\n\n1 {word} 2 0\n");
            assert_eq!(read(text.as_bytes()), fault(3, Reason::NoLiteral), "{word}");
        }
    }

    #[test]
    fn refuses_variables_above_the_header() {
        let above = || Reason::VariableAbove { most: 2 };
        for word in ["3", "-3", "4294967298", "18446744073709551617"] {
            let text = format!("p cnf 2 2\n1 2 0\nc\n-1\n{word} 0\n");
            assert_eq!(read(text.as_bytes()), fault(5, above()), "{word}");
        }
    }

    #[test]
    fn refuses_a_clause_without_end() {
        for end in ["", "\n", "\n%\n0\n", "\nc\n"] {
            let text = format!("p cnf 2 2\n1 0\n1\n2{end}");
            assert_eq!(
                read(text.as_bytes()),
                fault(3, Reason::OpenClause),
                "{text}"
            );
        }
    }

    #[test]
    fn refuses_other_counts_than_the_header() {
        let more = || Reason::MoreClauses { expected: 1 };
        assert_eq!(read(b"p cnf 2 1\n1 0\n2 0\n"), fault(3, more()));
        assert_eq!(read(b"p cnf 2 1\n1 0 0\n"), fault(2, more()));
        let fewer = |found| Reason::FewerClauses { expected: 2, found };
        assert_eq!(read(b"p cnf 2 2\n1 0\n2\n"), fault(3, Reason::OpenClause));
        assert_eq!(read(b"p cnf 2 2\n1\n0"), fault(3, fewer(1)));
        assert_eq!(read(b"p cnf 2 2\n1\n0\n"), fault(3, fewer(1)));
        assert_eq!(read(b"p cnf 2 2\n1 0\n%\n0\n"), fault(3, fewer(1)));
        assert_eq!(read(b"p cnf 2 2\n"), fault(1, fewer(0)));
    }
}
