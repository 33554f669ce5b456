//! The model is worth something: each wrong reading of the rules is told from the right one.

mod common;

use common::compare;
use common::damage;
use common::model::{Call, Outcome, Rules, TRUE};
use common::mutations::MUTATIONS;
use common::random::{self, Random};
use common::sequence::List;

/// No mutant may need more calls than this.
const BOUND: u64 = 60_000;

/// A mutant beside the rules, and how many calls both have made.
struct Suspect<'a> {
    mutant: &'a dyn Rules,
    calls: u64,
}

impl Suspect<'_> {
    /// Makes a call by the rules and by the mutant from the same bytes, so that the first
    /// difference is the mutant's own.
    fn differs(&mut self, pool: &[u8], storage: &[u8], call: &Call) -> (bool, Outcome) {
        self.calls += 1;
        let wanted = TRUE.step(pool, storage, call);
        let got = self.mutant.step(pool, storage, call);
        (compare::outcomes(&wanted, &got).is_some(), wanted)
    }

    /// The first call of a random list that tells them apart, and then of random gathers, which
    /// come in no list, since they are lent no pool.
    fn by_list(&mut self, list: &mut List) -> Option<String> {
        for made in 0..200 {
            list.wear(made);
            let call = list.call();
            let (different, wanted) = self.differs(&list.pool, &list.storage, &call);
            if different {
                return Some(call.brief());
            }
            list.take(wanted);
        }
        let mut gathers = (0..20).map(|_| random::gather(&mut list.random, list.storage.len()));
        gathers
            .find(|call| self.differs(&list.pool, &list.storage, call).0)
            .map(|call| call.brief())
    }

    /// The first damage of a pool that tells them apart, by audit or open.
    fn by_damage(&mut self, list: &List, seed: u64) -> Option<String> {
        let mut found = None;
        let mut audit = |what: &str, pool: &[u8], storage: &[u8]| {
            let (buffers, pieces, slips) = list.shape;
            let opening = Call::Open {
                buffers,
                pieces,
                slips,
            };
            for call in [Call::Audit, opening] {
                if found.is_none() && self.differs(pool, storage, &call).0 {
                    found = Some(format!("{}: {what}", call.brief()));
                }
            }
        };
        let mut random = Random::new(seed);
        damage::every_damage(&mut random, &list.pool, &list.storage, &mut audit);
        found
    }
}

/// After how many calls the mutant gives itself away, and by which call.
fn caught_after(mutant: &dyn Rules, first_seed: u64) -> Option<(u64, String)> {
    let mut suspect = Suspect { mutant, calls: 0 };
    let mut seed = first_seed;
    while suspect.calls < BOUND {
        let mut list = List::start(seed, None);
        let mut found = suspect.by_list(&mut list);
        // What the audit passes wrongly shows on damaged pools only.
        if found.is_none() && seed % 16 == 0 && list.shape.1 <= 20 {
            found = suspect.by_damage(&list, seed);
        }
        if let Some(call) = found {
            return Some((suspect.calls, call));
        }
        seed += 1;
    }
    None
}

#[test]
fn each_mutant_is_caught() {
    assert!(MUTATIONS.len() >= 117, "{} mutants", MUTATIONS.len());
    let mut free = Vec::new();
    for (name, mutant) in MUTATIONS {
        match caught_after(*mutant, 100) {
            Some((calls, call)) => println!("{name}: after {calls} calls, by {call}"),
            None => free.push(name),
        }
    }
    assert!(free.is_empty(), "not caught in {BOUND} calls: {free:?}");
}

/// The rules themselves are not taken for a mutant.
#[test]
fn the_rules_are_not_caught() {
    assert_eq!(caught_after(&TRUE, 500), None);
}
