//! The law of the wire list, for any engine, and gathers at random beside the model.

use super::compare;
use super::desk::{list, stretches, Engine};
use super::model::{Call, Outcome, Tables, MOST, TRUE};
use super::random::{self, Random};
use super::sequence::List;

/// More numbers than any chain has in its list.
const NUMBERS: usize = 2 * MOST.1 as usize + 3;

/// What gather gives of just the records that a list call writes.
fn by_list(engine: Engine, pool: &[u8], storage: &[u8], listing: &Call, output: &[u8]) -> Outcome {
    let listed = engine(pool, storage, listing);
    assert_eq!(listed.code, 0, "{}", listing.brief());
    let gathering = Call::Gather {
        list: listed.list[..2 * listed.number as usize].to_vec(),
        output: output.to_vec(),
    };
    engine(pool, storage, &gathering)
}

/// List, then gather over just the records written and the same storage, gives what read gives of
/// the whole chain: code, number and output, for every held slip and for outputs around its length.
/// Answers how often both were done and how often both said 7.
pub fn law(engine: Engine, from: &mut List) -> [u64; 2] {
    let (pool, storage) = (&from.pool, &from.storage);
    let tables = Tables::parse(pool, storage).expect("sound");
    let mut times = [0; 2];
    for slip in 0..tables.slips.len() as u16 {
        let slip = tables.name(slip);
        let whole = engine(pool, storage, &Call::Length { slip });
        if whole.code != 0 {
            continue;
        }
        let n = whole.number as usize;
        for size in [n, n.saturating_sub(1), n + 3, n / 2, 0] {
            let output = from.random.bytes(size);
            let reading = Call::Read {
                slip,
                offset: 0,
                length: n as u32,
                output: output.clone(),
            };
            let wanted = engine(pool, storage, &reading);
            for listing in [list(slip, NUMBERS), stretches(slip, NUMBERS / 2)] {
                let got = by_list(engine, pool, storage, &listing, &output);
                let brief = format!("{}, {size} bytes of output", listing.brief());
                let answers = [&got, &wanted].map(|outcome| (outcome.code, outcome.number));
                assert_eq!(answers[0], answers[1], "{brief}");
                assert_eq!(got.lent, wanted.lent, "{brief}");
                times[usize::from(got.code != 0)] += 1;
            }
        }
    }
    times
}

/// Gathers from any storage on an engine and on the model; answers how often each code came.
pub fn run_gathers(engine: Engine, seed: u64, calls: u64) -> [u64; 12] {
    let mut random = Random::new(seed);
    let mut codes = [0; 12];
    let mut storage = Vec::new();
    for made in 0..calls {
        if made % 20 == 0 {
            storage = random::any_storage(&mut random);
        }
        let call = random::gather(&mut random, storage.len());
        let wanted = TRUE.step(&[], &storage, &call);
        let got = engine(&[], &storage, &call);
        if let Some(text) = compare::outcomes(&wanted, &got) {
            panic!(
                "seed {seed}, call {made}: {}\n{text}\n{}",
                call.brief(),
                compare::dump("storage", &storage)
            );
        }
        codes[wanted.code as usize] += 1;
    }
    codes
}

/// That gathers were done and refused often enough to tell a wrong one.
pub fn all_met(codes: [u64; 12], calls: u64) {
    println!(
        "{calls} gathers: {} done, {} narrow, {} of a bad list",
        codes[0], codes[7], codes[11]
    );
    for code in [0, 7, 11] {
        assert!(
            codes[code] > calls / 20,
            "code {code}: {} times",
            codes[code]
        );
    }
    assert_eq!(codes[0] + codes[7] + codes[11], calls);
}
