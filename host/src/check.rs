//! Whether a model meets clauses, by code that shares nothing with the library.

/// Whether each clause has a literal that the model makes true. The clauses are as the library takes
/// them, and byte v of the model is 1 if variable v is true and 0 if it is false; any other byte makes
/// neither literal of its variable true.
pub fn meets(model: &[u8], clauses: &[u32]) -> bool {
    let mut met = false;
    for &number in clauses {
        if number != 0 {
            met |= makes_true(model, number);
        } else if met {
            met = false;
        } else {
            return false;
        }
    }
    true
}

fn makes_true(model: &[u8], literal: u32) -> bool {
    let variable = (literal as usize / 2).checked_sub(1);
    let wanted = u8::from(literal & 1 == 0);
    variable.and_then(|v| model.get(v)) == Some(&wanted)
}

#[cfg(test)]
mod tests {
    use super::meets;

    #[test]
    fn tells_models_from_others() {
        assert!(meets(&[], &[]));
        assert!(!meets(&[], &[0]));
        assert!(meets(&[1], &[2, 0]));
        assert!(!meets(&[0], &[2, 0]));
        assert!(meets(&[0], &[3, 0]));
        assert!(!meets(&[1], &[3, 0]));
        assert!(meets(&[1, 0], &[2, 4, 0, 3, 5, 0]));
        assert!(!meets(&[1, 1], &[2, 4, 0, 3, 5, 0]));
        assert!(!meets(&[1], &[2, 0, 0]));
    }

    #[test]
    fn takes_no_other_byte_and_no_variable_beyond() {
        assert!(!meets(&[2], &[2, 0]));
        assert!(!meets(&[2], &[3, 0]));
        assert!(!meets(&[1], &[4, 0]));
        assert!(!meets(&[1], &[1, 0]));
    }
}
