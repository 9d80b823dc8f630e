//! Books with a name: document 01's small shop, and books for timing.

use crate::draft::{below, reference, Draft, Reference, Rule, ACCESS, PROJECTION};
use crate::random::Random;
use crate::shop::{rule, ADDRESS, ANALYST, AVG, CITY, PRICE, REPORT, STATE, SUM};

/// All operations, 1 to 15.
pub(crate) const ALL: u16 = 0xFFFE;

/// Document 01's small shop.
pub fn small_shop() -> Draft {
    let address_and_price = [(PROJECTION, ADDRESS), (PROJECTION, PRICE)];
    Draft {
        users: vec![0, 0, 0],
        data: vec![(0, 0), (0, 0), (ADDRESS, 0), (ADDRESS, 0), (0, AVG | SUM)],
        withdrawn: None,
        columns: vec![STATE, CITY, PRICE, 255],
        functions: vec![0, 1, 2],
        rules: vec![
            rule(ANALYST, &address_and_price, &[&[0, AVG | SUM]]),
            rule(ANALYST, &[(ACCESS, PRICE)], &[&[AVG]]),
            rule(REPORT, &address_and_price, &[&[0, AVG]]),
        ],
    }
}

/// The small shop with a rule 3 that opposes rule 1: Report may have a price as a sum alone, and by
/// rule 1 as an average alone.
pub fn opposed_shop() -> Draft {
    let mut shop = small_shop();
    shop.rules.push(rule(REPORT, &[(ACCESS, PRICE)], &[&[SUM]]));
    shop
}

/// A middling book: 8 rules, 30 data leaves in 5 groups, 8 users in 2 groups.
pub fn middling() -> Draft {
    let mut random = Random::new(30);
    let mut draft = Draft {
        users: [0, 0, 0].into_iter().chain([1, 2].repeat(4)).collect(),
        data: grouped(5, 6, 0b11_1110),
        withdrawn: None,
        columns: (6..36).chain(6..16).collect(),
        functions: vec![0, 1, 2, 3, 4, 5],
        rules: vec![],
    };
    for i in 0..8 {
        let references = (0..1 + i % 3).map(|g| reference(1 + (i + g) % 5, ACCESS));
        let references: Vec<Reference> = references.collect();
        draft.rules.push(Rule {
            user: i % 3,
            excluded: vec![],
            restrictions: restrictions(&mut random, 2, references.len(), 0b11_1110),
            references,
        });
    }
    draft
}

/// The largest book: every count at its bound.
pub fn largest() -> Draft {
    let mut random = Random::new(64);
    let mut draft = Draft {
        users: flat(32),
        data: grouped(3, 20, ALL),
        withdrawn: None,
        columns: (4..64).chain([255; 8]).chain(4..64).collect(),
        functions: (0..64).map(|i| i % 16).collect(),
        rules: vec![],
    };
    for _ in 0..32 {
        let rule = filler(&mut random, &draft, 4);
        draft.rules.push(rule);
    }
    draft
}

/// Data categories in one chain, as deep as a book can have it: the last supports what the first owns.
pub fn chain() -> Draft {
    let mut random = Random::new(63);
    let rule = |category| Rule {
        user: 0,
        excluded: vec![],
        references: vec![reference(category, ACCESS)],
        restrictions: restrictions(&mut random, 8, 1, ALL),
    };
    let child = |parent: u8| (parent, 0);
    Draft {
        users: flat(32),
        rules: (0..32).map(rule).collect(),
        data: [(0, ALL)].into_iter().chain((0..63).map(child)).collect(),
        withdrawn: None,
        columns: vec![63; 128],
        functions: (0..64).map(|i| i % 16).collect(),
    }
}

/// A chain of 64 data categories that withdraw and give back in turn: one half of the operations is owned by
/// every second category and withdrawn by the others, and so is the other half the other way round.
pub fn withdrawing_chain() -> Draft {
    let halves = [0x5554, 0xAAAA];
    let mut draft = chain();
    for (i, (_, own)) in draft.data.iter_mut().enumerate() {
        *own = halves[i % 2];
    }
    draft.withdrawn = Some([halves[1], halves[0]].repeat(32));
    draft.rules = supported_masks(&draft);
    draft
}

/// A root that owns all operations, and 63 leaves that each withdraw another one of them, in turn.
pub fn withdrawing_flat() -> Draft {
    let mut random = Random::new(65);
    let leaf = |i: u8| 1 << (1 + i % 15);
    let mut draft = Draft {
        users: flat(32),
        data: [(0, ALL)].into_iter().chain([(0, 0); 63]).collect(),
        withdrawn: Some([0].into_iter().chain((1..64).map(leaf)).collect()),
        columns: (1..64).collect(),
        functions: (0..64).map(|i| i % 16).collect(),
        rules: vec![],
    };
    for i in 0..32 {
        let references = [0, 2 * i].map(|category| reference(category, ACCESS));
        let of = usize::from(i % 2);
        draft.rules.push(Rule {
            user: 0,
            excluded: vec![],
            references: references[of..=of].to_vec(),
            restrictions: restrictions(&mut random, 8, 1, ALL),
        });
    }
    draft.rules = supported_masks(&draft);
    draft
}

/// The rules of a draft, of one reference each, with masks that name supported operations alone.
fn supported_masks(draft: &Draft) -> Vec<Rule> {
    let supported = |rule: &Rule| draft.supported(rule.references[0].category);
    let mut rules = draft.rules.clone();
    for rule in &mut rules {
        let supported = supported(rule);
        rule.restrictions
            .iter_mut()
            .for_each(|masks| masks[0] &= supported);
        rule.restrictions.retain(|masks| masks[0] != 0);
    }
    rules
}

/// Where a rule's twin stands.
#[derive(Clone, Copy, Debug, PartialEq, Eq)]
pub enum Twin {
    /// The twin is rule 0, the rule itself rule 31.
    First,
    /// The twin is rule 31, the rule itself rule 0.
    Last,
}

/// A book on which a search has much to do, and the rule to ask about: 3 references of about 20
/// leaves each, 15 operations, all obtainable, 31 users, 32 rules, and the rule idle beside a twin.
pub fn hard(exclusions: usize, twin: Twin) -> (Draft, u32) {
    let mut random = Random::new(exclusions as u64);
    let mut draft = hard_head();
    let mut rule = filler(&mut random, &draft, exclusions);
    rule.excluded = vec![];
    draft.rules = (0..30)
        .map(|_| filler(&mut random, &draft, exclusions))
        .collect();
    draft.rules.insert(0, rule.clone());
    draft.rules.push(rule);
    let asked = match twin {
        Twin::First => 31,
        Twin::Last => 0,
    };
    (draft, asked)
}

/// Hard books where the twin lets a little through, so that rule 0 is needed but the first choice
/// that shows it comes late: for the last user, at the last leaf, or as condition only.
pub fn late() -> Vec<Draft> {
    let (draft, _) = hard(0, Twin::Last);
    let with = |change: &dyn Fn(&mut Rule)| {
        let mut late = draft.clone();
        change(&mut late.rules[31]);
        late
    };
    let last_leaf =
        |reference: &mut Reference| reference.excluded = vec![3 + 20 * reference.category];
    vec![
        with(&|twin| twin.excluded = vec![31]),
        with(&|twin| last_leaf(&mut twin.references[0])),
        with(&|twin| last_leaf(&mut twin.references[2])),
        with(&|twin| twin.references[0].action = PROJECTION),
        with(&|twin| twin.references[2].action = PROJECTION),
    ]
}

/// A hard book where no single rule covers rule 0 but twenty together do, one for each leaf of its
/// first reference.
pub fn twenty() -> (Draft, u32) {
    let mut random = Random::new(20);
    let mut draft = hard_head();
    let mut rule = filler(&mut random, &draft, 0);
    rule.excluded = vec![];
    let first = rule.references[0].category;
    for leaf in below(&draft.parents(), first) {
        let mut part = rule.clone();
        part.references[0].category = leaf;
        draft.rules.push(part);
    }
    while draft.rules.len() < 31 {
        let other = filler(&mut random, &draft, 1);
        draft.rules.insert(random.below(draft.rules.len()), other);
    }
    draft.rules.insert(0, rule);
    (draft, 0)
}

/// A root, so many groups under it, so many leaves under each; the root owns the operations.
fn grouped(groups: u8, leaves: usize, own: u16) -> Vec<(u8, u16)> {
    let mut data = vec![(0, own)];
    data.extend(vec![(0, 0); usize::from(groups)]);
    for group in 1..=groups {
        data.extend(vec![(group, 0); leaves]);
    }
    data
}

fn flat(n: usize) -> Vec<u8> {
    vec![0; n]
}

/// 31 users, three groups of 20 leaves, 15 operations, everything obtainable, and no rules.
pub(crate) fn hard_head() -> Draft {
    Draft {
        users: flat(32),
        data: grouped(3, 20, ALL),
        withdrawn: None,
        columns: (4..64).collect(),
        functions: (1..16).collect(),
        rules: vec![],
    }
}

/// A rule over the three groups, in any order, that leaves out some users and some leaves.
pub(crate) fn filler(random: &mut Random, draft: &Draft, exclusions: usize) -> Rule {
    let mut groups = [1, 2, 3];
    random.shuffle(&mut groups);
    let references = groups.map(|group| Reference {
        category: group,
        action: ACCESS,
        excluded: some(random, below(&draft.parents(), group), exclusions),
    });
    Rule {
        user: 0,
        excluded: some(random, below(&draft.users, 0), 4),
        references: references.to_vec(),
        restrictions: restrictions(random, 8, 3, ALL),
    }
}

fn some(random: &mut Random, mut of: Vec<u8>, n: usize) -> Vec<u8> {
    random.shuffle(&mut of);
    of.truncate(n);
    of
}

/// Restrictions with some masks of about half the operations, the others zero.
fn restrictions(random: &mut Random, n: usize, references: usize, all: u16) -> Vec<[u16; 3]> {
    let one = |random: &mut Random| {
        let mut masks = [0; 3];
        // a restriction of zero masks alone would make the rule idle by itself
        while masks == [0; 3] {
            for mask in &mut masks[..references] {
                if random.chance(2, 3) {
                    *mask = random.some_of(all);
                }
            }
        }
        masks
    };
    (0..n).map(|_| one(random)).collect()
}

/// Every named book, with the rule whose idleness is asked.
pub fn all() -> Vec<(String, Draft, u32)> {
    let mut all = vec![
        ("small shop".to_string(), small_shop(), 2),
        ("middling".to_string(), middling(), 0),
        ("largest".to_string(), largest(), 0),
    ];
    for (twin, place) in [(Twin::First, "first"), (Twin::Last, "last")] {
        for exclusions in [0, 1, 8] {
            let (draft, rule) = hard(exclusions, twin);
            let name = format!("hard, twin {place}, {exclusions} excluded");
            all.push((name, draft, rule));
        }
    }
    let (draft, rule) = twenty();
    all.push(("hard, twenty together".to_string(), draft, rule));
    all
}

/// A book that is worst for Judge: 32 rules of three references, whose last restriction accepts
/// every choice of ten operations for each, the others none.
pub fn accepting() -> Draft {
    let ten = 0b111_1111_1110;
    let rule = Rule {
        user: 0,
        excluded: vec![],
        references: (1..=3).map(|leaf| reference(leaf, ACCESS)).collect(),
        restrictions: (0..8)
            .map(|j| if j < 7 { [2, 4, 2 << j] } else { [ten; 3] })
            .collect(),
    };
    Draft {
        users: vec![0],
        data: vec![(0, ten), (0, 0), (0, 0), (0, 0)],
        withdrawn: None,
        columns: vec![1, 2, 3],
        functions: (1..=10).collect(),
        rules: vec![rule; 32],
    }
}

/// Its plan: every leaf is output under each of the ten operations.
pub fn accepting_plan() -> Vec<u8> {
    let mut rows: Vec<[u8; 4]> = (0..3).map(|column| [1, column, 0, 0]).collect();
    for leaf in 0..3 {
        for function in 0..10 {
            let applied = rows.len() as u8;
            rows.push([2, function, leaf, 255]);
            rows.push([4, applied, 0, 0]);
        }
    }
    rows.concat()
}
