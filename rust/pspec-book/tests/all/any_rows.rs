//! Rows of any bytes: what the engine refuses is explained.

use crate::common::numbered;
use books::named::small_shop;
use books::Random;
use pspec::{Plan, Refusal};
use pspec_book::explain;
use pspec_book::plan::PlanText;

#[test]
fn every_faulty_row_has_its_reason() {
    let named = numbered(small_shop().bytes());
    let mut random = Random::new(1);
    let mut explained = 0;
    for _ in 0..20_000 {
        let byte = |random: &mut Random| random.one(&[0, 0, 0, 1, 1, 2, 3, 4, 5, 6, 255]);
        let bytes: Vec<u8> = (0..12).map(|_| byte(&mut random)).collect();
        let plan = Plan::new(bytes);
        let Err(refusal) = named.book.flows(&plan) else {
            continue;
        };
        assert!(matches!(refusal, Refusal::FaultyRow { .. }));
        let lines = vec![0, 1, 2];
        let why = explain::plan(refusal, &PlanText { plan, lines }, &named.contents);
        assert_eq!(why.line, refusal.place() as usize);
        assert!(why.what.starts_with("refused 22: found "), "{why}");
        explained += 1;
    }
    assert!(explained > 10_000);
}
