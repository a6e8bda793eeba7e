//! The proved library. The call of it is the only unsafe code of the host.

use std::hint::black_box;

extern "C" {
    fn rulebook_solve(
        clauses: *const u32,
        clauses_len: usize,
        model: *mut u8,
        model_len: usize,
        work: *mut u32,
        work_len: usize,
    ) -> u32;
    fn rulebook_solve_counted(
        clauses: *const u32,
        clauses_len: usize,
        model: *mut u8,
        model_len: usize,
        work: *mut u32,
        work_len: usize,
        counts: *mut u32,
        counts_len: usize,
    ) -> u32;
}

/// Eight times the least work memory is lent, as long as that is no more words than these.
const MUCH: usize = 1 << 26;

/// What the library says of clauses.
#[derive(Debug, PartialEq, Eq)]
pub enum Answer {
    /// This model meets them: byte v is 1 if variable v is true, and 0 if not.
    Met(Vec<u8>),
    /// No model meets them.
    Never,
    /// The numbers are no clauses.
    NoClauses,
    /// There are more variables than were told, or there isn't enough memory.
    Small,
}

/// How often a search had to do without its guidance. None of these changes an answer.
#[derive(Debug, Default, PartialEq, Eq)]
pub struct Fallbacks {
    /// Conflicts that propagation missed.
    pub missed_conflicts: u32,
    /// Analyses of a conflict that led to no clause.
    pub failed_analyses: u32,
    /// Variables that the order of decisions had lost.
    pub lost_variables: u32,
}

/// Whether some values of so many variables meet the clauses. These are numbers: 2v + 2 for variable v
/// (from 0), 2v + 3 for its negation, and 0 after each clause.
pub fn solve(clauses: &[u32], variables: usize) -> Answer {
    let Some(mut work) = ample_work(clauses.len(), variables) else {
        return Answer::Small;
    };
    let mut model = vec![0; variables];
    let code = call(clauses, &mut model, &mut work);
    answer(code, model)
}

/// The same, with how often the search had to do without its guidance.
pub fn solve_counted(clauses: &[u32], variables: usize) -> (Answer, Fallbacks) {
    let Some(mut work) = ample_work(clauses.len(), variables) else {
        return (Answer::Small, Fallbacks::default());
    };
    let mut model = vec![0; variables];
    let (code, fallbacks) = call_counted(clauses, &mut model, &mut work);
    (answer(code, model), fallbacks)
}

fn answer(code: Code, model: Vec<u8>) -> Answer {
    match code {
        Code::Met => Answer::Met(model),
        Code::Never => Answer::Never,
        Code::NoClauses => Answer::NoClauses,
        Code::Small => Answer::Small,
    }
}

/// Work memory for so many numbers and variables, if it can be had: more than the least, since a
/// search that has room for more learned clauses forgets fewer.
fn ample_work(numbers: usize, variables: usize) -> Option<Vec<u32>> {
    let least = least_work(numbers, variables);
    let ample = least.saturating_mul(8).min(MUCH).max(least);
    zeros(ample).or_else(|| zeros(least))
}

/// The words that the library has to be lent.
fn least_work(numbers: usize, variables: usize) -> usize {
    let for_numbers = numbers.saturating_mul(32);
    let for_variables = variables.saturating_mul(8);
    for_numbers
        .saturating_add(for_variables)
        .saturating_add(4096)
}

/// So many zeros, if there is memory for them.
fn zeros(words: usize) -> Option<Vec<u32>> {
    // `vec!` ends the program where there is no memory, so try first; and unlike `resize` it leaves
    // memory that is never used to the system. The compiler may not think the trial away.
    let mut trial = Vec::<u32>::new();
    trial.try_reserve_exact(words).ok()?;
    drop(black_box(trial));
    Some(vec![0; words])
}

#[derive(Debug, PartialEq, Eq)]
enum Code {
    Met,
    Never,
    NoClauses,
    Small,
}

/// Calls the library with this memory.
fn call(clauses: &[u32], model: &mut [u8], work: &mut [u32]) -> Code {
    // SAFETY: each pointer and the length after it are those of a slice. The library reads the first
    // and writes the other two, within their lengths, and keeps none of them.
    let code = unsafe {
        rulebook_solve(
            clauses.as_ptr(),
            clauses.len(),
            model.as_mut_ptr(),
            model.len(),
            work.as_mut_ptr(),
            work.len(),
        )
    };
    Code::from_number(code)
}

/// Calls the library with this memory, and has it count.
fn call_counted(clauses: &[u32], model: &mut [u8], work: &mut [u32]) -> (Code, Fallbacks) {
    let mut counts = [0; 3];
    // SAFETY: as for `call`; the counts are written within their length too.
    let code = unsafe {
        rulebook_solve_counted(
            clauses.as_ptr(),
            clauses.len(),
            model.as_mut_ptr(),
            model.len(),
            work.as_mut_ptr(),
            work.len(),
            counts.as_mut_ptr(),
            counts.len(),
        )
    };
    let [missed_conflicts, failed_analyses, lost_variables] = counts;
    let fallbacks = Fallbacks {
        missed_conflicts,
        failed_analyses,
        lost_variables,
    };
    (Code::from_number(code), fallbacks)
}

impl Code {
    fn from_number(code: u32) -> Code {
        match code {
            0 => Code::Met,
            1 => Code::Never,
            2 => Code::NoClauses,
            3 => Code::Small,
            _ => unreachable!("the library answers {code}"),
        }
    }
}

#[cfg(test)]
mod tests {
    use super::*;
    use crate::check::meets;
    use crate::dpll;

    /// Numbers that are the same in each run, by xorshift.
    struct Random(u64);

    impl Random {
        fn below(&mut self, bound: u32) -> u32 {
            self.0 ^= self.0 << 13;
            self.0 ^= self.0 >> 7;
            self.0 ^= self.0 << 17;
            ((self.0 >> 32) % u64::from(bound)) as u32
        }

        /// A literal of one of so many variables.
        fn literal(&mut self, variables: u32) -> u32 {
            2 + self.below(2 * variables)
        }

        /// Clauses of at most four literals each, none and the same twice included.
        fn small_clauses(&mut self, variables: u32, count: u32) -> Vec<u32> {
            let mut clauses = Vec::new();
            for _ in 0..count {
                // Mostly not empty, or hardly a list could be met.
                let length = if self.below(40) == 0 {
                    0
                } else {
                    1 + self.below(4)
                };
                clauses.extend((0..length).map(|_| self.literal(variables)));
                clauses.push(0);
            }
            clauses
        }

        /// Clauses of three literals each, of three variables.
        fn three_sat(&mut self, variables: u32, count: u32) -> Vec<u32> {
            let mut clauses = Vec::new();
            for _ in 0..count {
                let mut clause: Vec<u32> = Vec::new();
                while clause.len() < 3 {
                    let literal = self.literal(variables);
                    if clause.iter().all(|other| other / 2 != literal / 2) {
                        clause.push(literal);
                    }
                }
                clauses.extend(clause);
                clauses.push(0);
            }
            clauses
        }
    }

    /// Asks the library and the plain search, and says whether the clauses can be met.
    fn agreed(clauses: &[u32], variables: usize) -> bool {
        let met = match solve(clauses, variables) {
            Answer::Met(model) => {
                assert!(meets(&model, clauses), "{model:?} of {clauses:?}");
                true
            }
            Answer::Never => false,
            other => panic!("{other:?} of {clauses:?}"),
        };
        assert_eq!(met, dpll::can_be_met(clauses, variables), "{clauses:?}");
        met
    }

    /// Calls the library with so much memory, and gives what it says and the model.
    fn call_with(clauses: &[u32], model: &[u8], words: usize) -> (Code, Vec<u8>) {
        let mut model = model.to_vec();
        // What the work memory has at first is no matter.
        let code = call(clauses, &mut model, &mut vec![u32::MAX; words]);
        (code, model)
    }

    #[test]
    fn answers_single_cases() {
        assert_eq!(solve(&[2, 0, 3, 0], 1), Answer::Never);
        assert!(agreed(&[2, 4, 0, 3, 5, 0], 2));
        assert_eq!(solve(&[0], 0), Answer::Never);
        assert_eq!(solve(&[0], 1), Answer::Never);
        assert_eq!(solve(&[], 0), Answer::Met(vec![]));
        assert_eq!(solve(&[], 3), Answer::Met(vec![0; 3]));
        assert_eq!(solve(&[2, 0], 1), Answer::Met(vec![1]));
        assert_eq!(solve(&[3, 0], 1), Answer::Met(vec![0]));
        assert!(agreed(&[2, 3, 0], 1));
        assert!(agreed(&[2, 2, 0, 2, 2, 0], 1));
    }

    /// So many pigeons in one hole fewer: never met, and not seen at once.
    fn pigeons(count: u32) -> (Vec<u32>, usize) {
        let holes = count - 1;
        let mut clauses = Vec::new();
        for pigeon in 0..count {
            clauses.extend((0..holes).map(|hole| 2 * (pigeon * holes + hole) + 2));
            clauses.push(0);
        }
        for hole in 0..holes {
            for one in 0..count {
                for other in 0..one {
                    clauses.push(2 * (one * holes + hole) + 3);
                    clauses.push(2 * (other * holes + hole) + 3);
                    clauses.push(0);
                }
            }
        }
        (clauses, (count * holes) as usize)
    }

    #[test]
    fn needs_no_fallback() {
        let mut random = Random(31);
        let mut lists = vec![pigeons(6), pigeons(8)];
        lists.extend((0..40).map(|_| (random.three_sat(80, 340), 80)));
        for (clauses, variables) in lists {
            let (answer, fallbacks) = solve_counted(&clauses, variables);
            assert_eq!(answer, solve(&clauses, variables));
            assert_eq!(fallbacks, Fallbacks::default(), "{clauses:?}");
        }
    }

    #[test]
    fn refuses_what_is_no_clauses() {
        assert_eq!(solve(&[1, 0], 1), Answer::NoClauses);
        assert_eq!(solve(&[2], 1), Answer::NoClauses);
        assert_eq!(solve(&[2, 0, 3], 1), Answer::NoClauses);
    }

    #[test]
    fn refuses_variables_beyond_the_model() {
        assert_eq!(solve(&[2, 0], 0), Answer::Small);
        assert_eq!(solve(&[2, 0, 5, 0], 1), Answer::Small);
        assert_eq!(solve(&[u32::MAX, 0], 1), Answer::Small);
    }

    #[test]
    fn answers_many_variables_with_one_clause() {
        let variables = 100_000;
        let last = 2 * variables as u32;
        match solve(&[last, 3, 0], variables) {
            Answer::Met(model) => {
                assert_eq!(model.len(), variables);
                assert!(meets(&model, &[last, 3, 0]));
            }
            other => panic!("{other:?}"),
        }
    }

    #[test]
    fn needs_the_least_memory_and_no_more() {
        for (clauses, variables) in [
            (vec![], 0),
            (vec![0], 0),
            (vec![2, 4, 0, 3, 5, 0], 2),
            (vec![2, 0, 3, 0], 7),
        ] {
            let least = least_work(clauses.len(), variables);
            let model = vec![0; variables];
            let (code, _) = call_with(&clauses, &model, least);
            let met = dpll::can_be_met(&clauses, variables);
            assert_eq!(code, if met { Code::Met } else { Code::Never });
            let (code, after) = call_with(&clauses, &model, least - 1);
            assert_eq!((code, after), (Code::Small, model));
        }
        assert_eq!(call_with(&[], &[], 0).0, Code::Small);
    }

    #[test]
    fn agrees_in_the_least_memory() {
        let mut random = Random(5);
        for _ in 0..60 {
            let clauses = random.three_sat(30, 128);
            let least = least_work(clauses.len(), 30);
            let (code, model) = call_with(&clauses, &[0; 30], least);
            let met = code == Code::Met;
            assert!(met || code == Code::Never, "{code:?} of {clauses:?}");
            assert!(!met || meets(&model, &clauses), "{model:?} of {clauses:?}");
            assert_eq!(met, dpll::can_be_met(&clauses, 30), "{clauses:?}");
        }
    }

    #[test]
    fn keeps_the_other_bytes_of_a_longer_model() {
        let clauses = [2, 0, 7, 0];
        let (code, model) = call_with(&clauses, &[9; 6], 10_000);
        assert_eq!((code, model), (Code::Met, vec![1, 9, 0, 9, 9, 9]));
        let (code, model) = call_with(&[2, 0, 3, 0], &[9; 6], 10_000);
        assert_eq!((code, model), (Code::Never, vec![9; 6]));
    }

    #[test]
    fn agrees_on_small_lists() {
        let mut random = Random(1);
        let mut met = 0;
        for _ in 0..6000 {
            let variables = 1 + random.below(8);
            let count = random.below(3 * variables + 2);
            let clauses = random.small_clauses(variables, count);
            met += u32::from(agreed(&clauses, variables as usize));
        }
        // Both answers were met often.
        assert!((1000..5000).contains(&met), "{met}");
    }

    #[test]
    fn agrees_on_three_sat() {
        let mut random = Random(2);
        let mut met = 0;
        for _ in 0..200 {
            let variables = 10 + random.below(41);
            let clauses = random.three_sat(variables, variables * 43 / 10);
            met += u32::from(agreed(&clauses, variables as usize));
        }
        assert!((50..150).contains(&met), "{met}");
    }

    #[test]
    fn lends_ample_memory_but_not_too_much() {
        assert_eq!(least_work(3, 5), 96 + 40 + 4096);
        assert_eq!(least_work(usize::MAX, 1), usize::MAX);
        assert_eq!(solve(&[2, 0], usize::MAX / 64), Answer::Small);
    }
}
