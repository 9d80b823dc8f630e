//! The records beside a book: the ledger, the tally and the hold record (document 02, N3, N8 and N10),
//! fresh ones and random ones, some of which no list of calls from fresh reaches.

use crate::draft::{Draft, CONDITION};
use crate::plans;
use crate::random::Random;
use crate::valid::{self, Size};

/// The words of a ledger.
pub const LEDGER: usize = 1_024;

/// The user numbers that a tally has counts for.
pub const USERS: usize = 32;

/// The words of a user, and of a place.
pub const WORDS: usize = 32;

/// The places of a hold record.
pub const PLACES: usize = 8;

/// The sum of counts from which on asks are refused.
const FULL: u32 = 1_000_000;

/// The three records.
#[derive(Clone, Debug, PartialEq, Eq)]
pub struct Records {
    /// The words of the ledger.
    pub ledger: Vec<u64>,
    /// The tally.
    pub tally: Tally,
    /// The hold record.
    pub holds: Holds,
}

/// Three counts for each user number.
#[derive(Clone, Copy, Debug, PartialEq, Eq)]
pub struct Tally {
    /// The plans admitted, by user.
    pub admitted: [u32; USERS],
    /// The plans declined, by user.
    pub declined: [u32; USERS],
    /// The plans dropped, by user.
    pub dropped: [u32; USERS],
}

/// The plans that are held, by place. A place whose number is 0 is empty.
#[derive(Clone, Copy, Debug, PartialEq, Eq)]
pub struct Holds {
    /// The user of each place.
    pub users: [u32; PLACES],
    /// The number of each place.
    pub numbers: [u32; PLACES],
    /// The accesses of each place, 32 words each.
    pub words: [u64; PLACES * WORDS],
}

impl Records {
    /// Fresh records: all zero.
    pub fn fresh() -> Records {
        Records {
            ledger: vec![0; LEDGER],
            tally: Tally::fresh(),
            holds: Holds::fresh(),
        }
    }
}

impl Tally {
    /// No plan is counted.
    pub fn fresh() -> Tally {
        Tally {
            admitted: [0; USERS],
            declined: [0; USERS],
            dropped: [0; USERS],
        }
    }
}

impl Holds {
    /// No plan is held.
    pub fn fresh() -> Holds {
        Holds {
            users: [0; PLACES],
            numbers: [0; PLACES],
            words: [0; PLACES * WORDS],
        }
    }

    /// The places that are held, whoever holds them.
    pub fn held(&self) -> impl Iterator<Item = usize> + '_ {
        (0..PLACES).filter(|&place| self.numbers[place] != 0)
    }

    /// The places that a user holds.
    pub fn of_user(&self, user: u32) -> impl Iterator<Item = usize> + '_ {
        self.held().filter(move |&place| self.users[place] == user)
    }

    /// The words of a place.
    pub fn words_of(&self, place: usize) -> &[u64] {
        &self.words[WORDS * place..WORDS * (place + 1)]
    }

    /// The words of a place, to be changed.
    pub fn words_of_mut(&mut self, place: usize) -> &mut [u64] {
        &mut self.words[WORDS * place..WORDS * (place + 1)]
    }
}

/// A ledger: fresh, of this book's accesses or another's, or of any bits; one in eight of a wrong length.
pub(crate) fn ledger(random: &mut Random, draft: &Draft) -> Vec<u64> {
    let mut ledger = match random.below(6) {
        0 => vec![0; LEDGER],
        1..=3 => seen(random, draft),
        4 => {
            let other = valid::draft(random, Size::Small);
            seen(random, &other)
        }
        _ => bits(random, LEDGER),
    };
    if random.chance(1, 8) {
        let any = random.below(3_000);
        let length = random.one(&[0, 1, 32, LEDGER - 1, LEDGER + 1, 2 * LEDGER, any]);
        ledger.resize(length, random.bits());
    }
    ledger
}

/// Words with few bits, or with about half of them.
fn bits(random: &mut Random, words: usize) -> Vec<u64> {
    let masks = random.one(&[0, 3, 6, 8]);
    let word = |_| (0..masks).fold(random.bits(), |word, _| word & random.bits());
    (0..words).map(word).collect()
}

/// A ledger in which about half of the users have up to four accesses that can be had with a book.
fn seen(random: &mut Random, draft: &Draft) -> Vec<u64> {
    let labels = labels(draft);
    let mut ledger = vec![0; LEDGER];
    for user in ledger.chunks_mut(WORDS).filter(|_| !labels.is_empty()) {
        for _ in 0..random.below(5) * random.below(2) {
            add_access(random, draft, &labels, user);
        }
    }
    ledger
}

/// The labels of a book's columns.
fn labels(draft: &Draft) -> Vec<u8> {
    let labels = draft.columns.iter().copied().filter(|&label| label != 255);
    labels.collect()
}

/// Adds an access of one of the labels that can be had.
fn add_access(random: &mut Random, draft: &Draft, labels: &[u8], words: &mut [u64]) {
    let label = random.one(labels);
    let function = random.pick(&plans::supported_functions(draft, label));
    let operation = match function {
        Some(function) if random.chance(2, 3) => draft.functions[usize::from(function)],
        _ => 0,
    };
    let word = 16 * random.below(2) + usize::from(operation);
    words[word] |= 1 << label;
}

/// The admitted and the declined plans of a user: mostly few, else about the limit or past it.
pub(crate) fn counts(random: &mut Random) -> [u32; 2] {
    let part = random.between(1, 999_999) as u32;
    let few = [random.below(1_000) as u32, random.below(1_000) as u32];
    let mut counts = match random.below(3) {
        0 => random.one(&[
            [FULL - 1, 0],
            [FULL, 0],
            [FULL, part],
            // The sum just below the limit, and at it.
            [FULL - part, part - 1],
            [FULL - part, part],
            // Sums that are small when cut to 32 bits.
            [u32::MAX - part, part + few[0]],
            [1 << 31, 1 << 31],
            [u32::MAX, u32::MAX],
        ]),
        _ => few,
    };
    random.shuffle(&mut counts);
    counts
}

/// The counts of a whole tally with a user's own, a number past the last cut. Nothing is dropped.
pub(crate) fn tally(random: &mut Random, user: u32, own: [u32; 2]) -> Tally {
    let mut pairs = match random.below(4) {
        0 => [[0; 2]; USERS],
        _ => std::array::from_fn(|_| of_another(random)),
    };
    pairs[user as usize % USERS] = own;
    Tally {
        admitted: pairs.map(|pair| pair[0]),
        declined: pairs.map(|pair| pair[1]),
        dropped: [0; USERS],
    }
}

/// The counts of another user: none, small ones or some about the limit, one that is full, or the largest.
fn of_another(random: &mut Random) -> [u32; 2] {
    match random.below(4) {
        0 => [0, 0],
        1 => counts(random),
        2 => random.one(&[[FULL, 0], [0, FULL]]),
        _ => [u32::MAX, u32::MAX],
    }
}

/// Adds the dropped plans of all users. For the one user mostly none or few, else such that all his plans,
/// the held ones among them or not, are about as many as the limit, or as many as 32 bits hold.
pub(crate) fn add_dropped(random: &mut Random, tally: &mut Tally, user: u32, held: usize) {
    tally.dropped = std::array::from_fn(|_| match random.below(4) {
        0 => u32::MAX,
        1 => FULL,
        _ => random.below(30) as u32,
    });
    let user = user as usize % USERS;
    let others = u64::from(tally.admitted[user]) + u64::from(tally.declined[user]);
    let up_to = |sum: u64| sum.saturating_sub(others) as u32;
    let fewer = random.below(held + 3) as u64;
    tally.dropped[user] = match random.below(12) {
        0..=3 => 0,
        4..=6 => random.below(1_000) as u32,
        7..=9 => up_to(u64::from(FULL) + 1 - fewer),
        10 => up_to(u64::from(u32::MAX) + 2 - fewer),
        _ => u32::MAX,
    };
}

/// A hold record with places of a user, of others and of nobody. Of four, one is fresh and one full or nearly
/// so. Numbers are about the next one of the user, small, or beyond what a new hold can get.
pub(crate) fn holds(random: &mut Random, draft: &Draft, user: u32, next: u64) -> Holds {
    let mut holds = Holds::fresh();
    let often = match random.below(8) {
        0 | 1 => return holds,
        2 => 8,
        3 => 7,
        _ => random.between(1, 6),
    };
    let nobody = random.chance(1, 6);
    for place in 0..PLACES {
        let held = random.chance(often, 8);
        if held || random.chance(1, 3) {
            holds.users[place] = holder(random, user, nobody);
            let words = place_words(random, draft);
            holds.words_of_mut(place).copy_from_slice(&words);
        }
        if held {
            holds.numbers[place] = number(random, next);
        }
    }
    make_alike(random, &mut holds);
    holds
}

/// Who holds a place: mostly the user, else another or nobody, some of whom would be he if cut.
fn holder(random: &mut Random, user: u32, nobody: bool) -> u32 {
    match random.below(8) {
        0 | 1 => of_nobody(random, user),
        _ if nobody => of_nobody(random, user),
        2 | 3 => random.below(USERS) as u32,
        _ => user,
    }
}

/// A number past the last user.
fn of_nobody(random: &mut Random, user: u32) -> u32 {
    let cut = user % USERS as u32;
    let any = random.bits() as u32 | 32;
    random.one(&[32, 32 + cut, 256 + cut, (1 << 31) + cut, u32::MAX, any])
}

/// The number of a hold.
fn number(random: &mut Random, next: u64) -> u32 {
    let about = (next + random.below(4) as u64).saturating_sub(2) as u32;
    let small = random.between(1, 9) as u32;
    let high = random.one(&[FULL, FULL + 1, u32::MAX, 256 + small, (1 << 16) + small]);
    let number = random.one(&[about, about, small, small, high]);
    number.max(1)
}

/// Accesses that can be had, that a rule is about, or any.
fn place_words(random: &mut Random, draft: &Draft) -> Vec<u64> {
    let labels = labels(draft);
    let mut words = vec![0; WORDS];
    match random.below(8) {
        0 => return bits(random, WORDS),
        1..=3 => add_referred(random, draft, &mut words),
        _ if labels.is_empty() => {}
        _ => (0..random.below(4)).for_each(|_| add_access(random, draft, &labels, &mut words)),
    }
    words
}

/// Adds raw accesses of some references of a rule, so that with those of the others it is broken.
fn add_referred(random: &mut Random, draft: &Draft, words: &mut [u64]) {
    if draft.rules.is_empty() {
        return;
    }
    let rule = &draft.rules[random.below(draft.rules.len())];
    for reference in &rule.references {
        let leaves: Vec<u8> = draft.leaves_of(reference).into_iter().collect();
        let leaf = random.pick(&leaves).filter(|_| random.chance(1, 2));
        let word = 16 * usize::from(reference.action == CONDITION);
        leaf.into_iter().for_each(|leaf| words[word] |= 1 << leaf);
    }
}

/// Gives a place the user and the number of another one, one time in three.
fn make_alike(random: &mut Random, holds: &mut Holds) {
    let held: Vec<usize> = holds.held().collect();
    if held.len() > 1 && random.chance(1, 3) {
        let [from, to] = [random.one(&held), random.one(&held)];
        (holds.users[to], holds.numbers[to]) = (holds.users[from], holds.numbers[from]);
    }
}
