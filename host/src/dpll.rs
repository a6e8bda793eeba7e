//! A plain search, for the tests to compare the library's answers with.

type Values = Vec<Option<bool>>;

/// Whether some values of so many variables meet the clauses, which are as the library takes them.
pub fn can_be_met(clauses: &[u32], variables: usize) -> bool {
    let clauses: Vec<&[u32]> = clauses
        .split_inclusive(|&number| number == 0)
        .map(|clause| &clause[..clause.len() - 1])
        .collect();
    search(&clauses, vec![None; variables])
}

fn search(clauses: &[&[u32]], mut values: Values) -> bool {
    let open = match propagate(clauses, &mut values) {
        Outcome::Clash => return false,
        Outcome::AllMet => return true,
        Outcome::Open(literal) => literal,
    };
    [open, open ^ 1].into_iter().any(|literal| {
        let mut further = values.clone();
        set(&mut further, literal);
        search(clauses, further)
    })
}

enum Outcome {
    Clash,
    AllMet,
    /// This literal, of a clause that isn't met, has no value.
    Open(u32),
}

/// Makes true what is the last chance of some clause, until there is no such clause.
fn propagate(clauses: &[&[u32]], values: &mut Values) -> Outcome {
    loop {
        let mut open = None;
        let mut changed = false;
        for clause in clauses {
            if clause
                .iter()
                .any(|&literal| value(values, literal) == Some(true))
            {
                continue;
            }
            let mut free = clause
                .iter()
                .filter(|&&literal| value(values, literal).is_none());
            let Some(&first) = free.next() else {
                return Outcome::Clash;
            };
            if free.all(|&literal| literal == first) {
                set(values, first);
                changed = true;
            } else {
                open = Some(first);
            }
        }
        if !changed {
            return open.map_or(Outcome::AllMet, Outcome::Open);
        }
    }
}

fn value(values: &Values, literal: u32) -> Option<bool> {
    values[literal as usize / 2 - 1].map(|value| value == (literal & 1 == 0))
}

fn set(values: &mut Values, literal: u32) {
    values[literal as usize / 2 - 1] = Some(literal & 1 == 0);
}

#[cfg(test)]
mod tests {
    use super::can_be_met;

    #[test]
    fn decides_single_cases() {
        assert!(can_be_met(&[], 0));
        assert!(!can_be_met(&[0], 0));
        assert!(!can_be_met(&[2, 0, 3, 0], 1));
        assert!(can_be_met(&[2, 4, 0, 3, 5, 0], 2));
        assert!(!can_be_met(&[2, 4, 0, 2, 5, 0, 3, 4, 0, 3, 5, 0], 2));
        assert!(can_be_met(&[2, 3, 0], 1));
    }
}
