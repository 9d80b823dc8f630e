//! Choices: one access, or whatever else is chosen, for each reference.

use crate::access::Access;
use crate::rule::Rule;

/// The accesses that fit each reference of a rule, in the order given.
pub fn fitting<'a>(
    rule: &Rule,
    accesses: impl IntoIterator<Item = &'a Access> + Clone,
) -> Vec<Vec<Access>> {
    rule.references
        .iter()
        .map(|reference| {
            let all = accesses.clone().into_iter().copied();
            all.filter(|access| reference.fits(access)).collect()
        })
        .collect()
}

/// The first choice that passes a test, "reference by reference".
pub fn first<T: Copy>(
    candidates: &[Vec<T>],
    test: &mut impl FnMut(&[T]) -> bool,
) -> Option<Vec<T>> {
    extend(candidates, &mut Vec::new(), test)
}

fn extend<T: Copy>(
    candidates: &[Vec<T>],
    chosen: &mut Vec<T>,
    test: &mut impl FnMut(&[T]) -> bool,
) -> Option<Vec<T>> {
    let Some(here) = candidates.get(chosen.len()) else {
        return test(chosen).then(|| chosen.clone());
    };
    for &one in here {
        chosen.push(one);
        let found = extend(candidates, chosen, test);
        chosen.pop();
        if found.is_some() {
            return found;
        }
    }
    None
}
