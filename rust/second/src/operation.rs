//! Operations, masks of them, and what a category supports.

use crate::hierarchy::Hierarchy;
use std::collections::BTreeSet;

/// An operation, 0 to 15. "Operations are 1 to 15; 0 means none".
pub type Operation = u8;

/// The operations of a mask: "Two-byte masks are high byte first; bit k, worth 2 to the power k,
/// means operation k."
pub fn of_mask(high: u8, low: u8) -> BTreeSet<Operation> {
    let value = 256 * u32::from(high) + u32::from(low);
    (0..16)
        .filter(|&k| value / 2u32.pow(u32::from(k)) % 2 == 1)
        .collect()
}

/// The masks of a data category.
#[derive(Clone, Debug, Default, PartialEq, Eq)]
pub struct Masks {
    /// Its own operations.
    pub own: BTreeSet<Operation>,
    /// Those that it withdraws: "Kind 2 reads as nothing withdrawn."
    pub withdrawn: BTreeSet<Operation>,
}

impl Masks {
    /// Document 02, N9: "An operation in both masks, or bit 0 in either, is refusal 5."
    pub fn are_lawful(&self) -> bool {
        let bit_0 = self.own.contains(&0) || self.withdrawn.contains(&0);
        !bit_0 && self.own.is_disjoint(&self.withdrawn)
    }
}

/// "A category supports what its parent supports, less the withdrawn ones, plus its own." (document 02,
/// N9); "the root has only its own" (document 01).
pub fn supported(data: &Hierarchy, masks: &[Masks], category: usize) -> BTreeSet<Operation> {
    let Masks { own, withdrawn } = &masks[category];
    match data.parent(category) {
        None => own.clone(),
        Some(parent) => &(&supported(data, masks, parent) - withdrawn) | own,
    }
}

#[cfg(test)]
mod tests {
    use super::*;

    #[test]
    fn masks_are_high_byte_first() {
        assert_eq!(of_mask(0x80, 0x06), BTreeSet::from([1, 2, 15]));
        assert_eq!(of_mask(1, 1), BTreeSet::from([0, 8]));
        assert_eq!(of_mask(0, 0), BTreeSet::new());
    }

    /// Masks by the operations, own and withdrawn.
    fn masks(own: &[Operation], withdrawn: &[Operation]) -> Masks {
        Masks {
            own: own.iter().copied().collect(),
            withdrawn: withdrawn.iter().copied().collect(),
        }
    }

    /// What each category of a chain supports, the root first.
    fn chain(masks: &[Masks]) -> Vec<BTreeSet<Operation>> {
        let parents = (0..masks.len()).map(|i: usize| i.saturating_sub(1));
        let data = Hierarchy::new(parents.collect()).unwrap();
        let each = (0..masks.len()).map(|category| supported(&data, masks, category));
        each.collect()
    }

    #[test]
    fn a_category_supports_what_its_parent_supports() {
        let own = [masks(&[1], &[]), masks(&[2], &[]), masks(&[3], &[])];
        assert_eq!(chain(&own), [[1].into(), [1, 2].into(), [1, 2, 3].into()]);
    }

    /// What is withdrawn stays so for the categories below.
    #[test]
    fn a_withdrawn_operation_is_inherited_no_more() {
        let lines = [masks(&[1, 2], &[]), masks(&[3], &[1]), masks(&[], &[])];
        let below = BTreeSet::from([2, 3]);
        assert_eq!(chain(&lines), [[1, 2].into(), below.clone(), below]);
    }

    /// Below the category that withdraws it an operation can be owned again, and is inherited from there.
    #[test]
    fn a_withdrawn_operation_is_given_back() {
        let [owns, withdraws, neither] = [masks(&[1], &[]), masks(&[], &[1]), masks(&[], &[])];
        let given_back = [owns.clone(), withdraws.clone(), owns.clone(), neither];
        let [one, none] = [BTreeSet::from([1]), BTreeSet::new()];
        let wanted = [one.clone(), none.clone(), one.clone(), one.clone()];
        assert_eq!(chain(&given_back), wanted);
        let in_turn = [&owns, &withdraws, &owns, &withdraws].map(Masks::clone);
        assert_eq!(chain(&in_turn), [one.clone(), none.clone(), one, none]);
    }

    /// "the root has only its own": there is nothing that it could take away, and what a category below
    /// owns is not touched.
    #[test]
    fn a_root_that_withdraws_takes_nothing_away() {
        let lines = [masks(&[1], &[2, 3]), masks(&[2], &[])];
        assert_eq!(chain(&lines), [[1].into(), [1, 2].into()]);
    }

    #[test]
    fn what_the_parent_lacks_can_be_withdrawn() {
        let lines = [masks(&[1], &[]), masks(&[4], &[2, 15]), masks(&[2], &[])];
        assert_eq!(chain(&lines), [[1].into(), [1, 4].into(), [1, 2, 4].into()]);
    }

    #[test]
    fn lawful_masks() {
        assert!(masks(&[], &[]).are_lawful() && masks(&[1, 15], &[2, 14]).are_lawful());
        assert!(!masks(&[0], &[]).are_lawful() && !masks(&[], &[0]).are_lawful());
        assert!(!masks(&[0], &[0]).are_lawful());
        assert!(!masks(&[1, 2], &[2, 3]).are_lawful() && !masks(&[15], &[15]).are_lawful());
    }
}
