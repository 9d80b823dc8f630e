//! Pairs of histories that are alike for a user (document 02, N8 and N10): his calls are the same in their order, and
//! so is whether eight were held at each of his asks.

use crate::histories::{asks, drawn, settle, Act, Asks, Call, Drawn, History, Kept};
use crate::random::Random;
use crate::records::{PLACES, USERS};
use crate::valid::Size;

/// Two histories with one book that are alike for a user.
#[derive(Clone, Debug, PartialEq, Eq)]
pub struct Alike {
    /// The user's number.
    pub user: u32,
    /// The histories.
    pub histories: [History; 2],
}

/// A history, and another that is alike for one of its users. All but the asks of the first has a generator of its
/// own, so that the other calls of a seed don't depend on it.
pub fn histories<K: Kept>(random: &mut Random, size: Size) -> Alike {
    let (book, asks) = asks(random, size);
    let mut own = Random::new(random.clone().bits());
    let one = drawn::<K>(&mut own, &book, asks);
    let user = one.calls[own.below(one.calls.len())].user;
    let two = alike::<K>(&mut own, &book, &one, user);
    let history = |calls| History {
        book: book.clone(),
        calls,
    };
    let histories = [history(one.calls), history(two)];
    Alike { user, histories }
}

/// Calls in which a user's own are the same in their order. Those of others are others or none, and come elsewhere,
/// but for what it takes that eight are held, or not, at his asks.
fn alike<K: Kept>(random: &mut Random, book: &[u8], one: &Drawn<K>, user: u32) -> Vec<Call> {
    let own = one.calls.iter().zip(&one.full);
    let mut own = own.filter(|(call, _)| call.user == user).peekable();
    let mut others = match random.below(3) {
        0 => vec![],
        _ => changed(random, &one.calls, user),
    }
    .into_iter()
    .peekable();
    // All of either first, or those of either more often.
    let often = random.one(&[0, 1, 4, 7, 8]);
    let mut two = Drawn::<K>::fresh(random, book);
    while own.peek().is_some() || others.peek().is_some() {
        let his = others.peek().is_none() || own.peek().is_some() && random.chance(often, 8);
        if his {
            if let Some((call, full)) = own.next() {
                two.fill_or_free(random, one, call, *full);
                two.add(call.clone());
            }
        } else if let Some((another, plan)) = others.next() {
            two.add(Call::ask(another, plan));
            two.add_settling(random, Some(user));
        }
    }
    two.calls
}

impl<K: Kept> Drawn<K> {
    /// Before an ask, adds calls of others so that eight are held, or not.
    fn fill_or_free(&mut self, random: &mut Random, one: &Drawn<K>, call: &Call, full: bool) {
        if !call.asks() {
            return;
        }
        let others = |holds: &[(u32, u32)]| -> Vec<(u32, u32)> {
            let holds = holds.iter().filter(|(user, _)| *user != call.user);
            holds.copied().collect()
        };
        if self.is_full() && !full {
            // Not all are his, as he holds as many in the other list.
            let freed = random.one(&others(&self.held));
            self.add(settle(random, freed));
        }
        let holders = others(&[&one.held[..], &one.settled].concat());
        for tried in 0..3 * PLACES {
            if self.is_full() || !full || holders.is_empty() {
                return;
            }
            // The empty plan is always held.
            let plan = match tried {
                0..PLACES => a_plan(random, &one.calls),
                _ => vec![],
            };
            self.add(Call::ask(random.one(&holders).0, plan));
        }
    }
}

/// The asks of others, each kept, left out, repeated or another instead, some more, and half of the time in another
/// order.
fn changed(random: &mut Random, calls: &[Call], user: u32) -> Asks {
    let mut all = vec![];
    for call in calls.iter().filter(|call| call.user != user) {
        let Act::Ask(plan) = &call.act else { continue };
        let ask = (call.user, plan.clone());
        match random.below(4) {
            0 => all.push(ask),
            1 => all.extend([ask.clone(), ask]),
            2 => all.push(anew(random, calls, user)),
            _ => {}
        }
    }
    let more = random.below(20);
    all.extend((0..more).map(|_| anew(random, calls, user)));
    if random.chance(1, 2) {
        random.shuffle(&mut all);
    }
    all
}

/// A plan of the calls, asked by another user than the one: of the calls too, or any.
fn anew(random: &mut Random, calls: &[Call], user: u32) -> (u32, Vec<u8>) {
    let number = match random.below(3) {
        0 => calls[random.below(calls.len())].user,
        1 => random.below(8) as u32,
        _ => random.below(USERS) as u32,
    };
    let another = if number == user { user ^ 1 } else { number };
    (another, a_plan(random, calls))
}

/// A plan that is asked about in the calls; the empty one where a commit or a drop is come to.
fn a_plan(random: &mut Random, calls: &[Call]) -> Vec<u8> {
    match &calls[random.below(calls.len())].act {
        Act::Ask(plan) => plan.clone(),
        _ => vec![],
    }
}

#[cfg(test)]
mod tests {
    use super::*;
    use crate::histories::tests::ByLength;

    /// The calls of a user, each ask with whether eight are held before it; and those of others.
    fn apart(history: &History, user: u32) -> (Vec<(&Call, bool)>, Vec<&Call>) {
        let mut drawn = Drawn::<ByLength>::fresh(&mut Random::new(0), &history.book);
        let (mut own, mut others) = (vec![], vec![]);
        for call in &history.calls {
            let full = call.asks() && drawn.is_full();
            match call.user == user {
                true => own.push((call, full)),
                false => others.push(call),
            }
            drawn.add(call.clone());
        }
        (own, others)
    }

    #[test]
    fn alike_for_a_user() {
        let mut random = Random::new(4);
        let [mut others_differ, mut both] = [0, 0];
        for _ in 0..100 {
            let Alike { user, histories } = histories::<ByLength>(&mut random, Size::Small);
            let [one, two] = &histories;
            assert_eq!(one.book, two.book);
            let [one, two] = [one, two].map(|history| apart(history, user));
            assert!(!one.0.is_empty());
            assert_eq!(one.0, two.0);
            others_differ += u32::from(one.1 != two.1);
            let asks = one.0.iter().filter(|(call, _)| call.asks());
            let full: Vec<bool> = asks.map(|(_, full)| *full).collect();
            both += u32::from(full.contains(&true) && full.contains(&false));
        }
        assert!(others_differ > 80 && both > 50, "{others_differ}, {both}");
    }

    /// The other history is drawn apart, so the next calls are the same without it.
    #[test]
    fn histories_are_drawn_apart() {
        let [mut one, mut two] = [0, 1].map(|_| Random::new(9));
        let first = crate::histories::history::<ByLength>(&mut one, Size::Tiny);
        assert_eq!(
            histories::<ByLength>(&mut two, Size::Tiny).histories[0],
            first
        );
        assert_eq!(one.bits(), two.bits());
    }
}
