//! Pools given by their nexts alone. Every entry and every count is right, so that nothing but following next tells a
//! sound one from a torn one.

use std::collections::HashSet;

use super::model::{MOST, VERSION};

/// Slips of every such pool.
const SLIPS: usize = MOST.2 as usize;

/// For each piece its next, and for each held slip the piece that it heads.
#[derive(Clone, Debug)]
pub struct Nexts {
    pub next: Vec<Option<usize>>,
    pub heads: Vec<usize>,
}

impl Nexts {
    /// These nexts, with a slip for each piece in use that is nobody's next.
    pub fn headed(next: Vec<Option<usize>>) -> Nexts {
        let after: HashSet<usize> = next.iter().flatten().copied().collect();
        let heads = (0..next.len()).filter(|d| !after.contains(d)).collect();
        Nexts { next, heads }
    }

    /// The same pieces under other numbers: piece d becomes `number(d)`.
    pub fn numbered(&self, number: impl Fn(usize) -> usize) -> Nexts {
        let mut next = vec![None; self.next.len()];
        for (d, to) in self.next.iter().enumerate() {
            next[number(d)] = to.map(&number);
        }
        let heads = self.heads.iter().copied().map(number).collect();
        Nexts { next, heads }
    }

    /// How many slips head each piece and how many pieces it is the next of.
    fn references(&self) -> Vec<u16> {
        let mut references = vec![0; self.next.len()];
        for d in self.next.iter().flatten().chain(&self.heads) {
            references[*d] += 1;
        }
        references
    }

    /// The pool, whose pieces in use have one byte of its one buffer, and its storage.
    pub fn bytes(&self) -> (Vec<u8>, Vec<u8>) {
        let references = self.references();
        let used = references.iter().filter(|count| **count > 0).count();
        let mut words = vec![VERSION as usize, 1, self.next.len(), SLIPS];
        words.extend(self.heads.iter().flat_map(|d| [d + 2, 0]));
        words.resize(4 + 2 * SLIPS, 0);
        for (count, next) in references.iter().zip(&self.next) {
            let link = next.map_or(0, |d| d + 1);
            assert!(*count > 0 || link == 0, "a free piece is all zero");
            let length = usize::from(*count > 0);
            words.extend([*count as usize, 0, 0, length, link]);
        }
        words.push(used);
        let mut pool = b"SLP".to_vec();
        pool.extend(words.iter().flat_map(|word| (*word as u16).to_le_bytes()));
        (pool, vec![0; 512])
    }

    /// The pieces met from piece d, and whether following next from it ends.
    fn from(&self, d: usize) -> (Vec<usize>, bool) {
        let (mut met, mut at) = (Vec::new(), Some(d));
        let mut seen = vec![false; self.next.len()];
        while let Some(d) = at {
            if seen[d] {
                return (met, false);
            }
            seen[d] = true;
            met.push(d);
            at = self.next[d];
        }
        (met, true)
    }

    /// Follows next from each piece in turn, up to the first from which that does not end.
    pub fn walked(&self) -> Walked {
        let (mut ends, mut forgetful) = (true, 0);
        let mut all = vec![false; self.next.len()];
        for d in 0..self.next.len() {
            let (met, ended) = self.from(d);
            forgetful += met.len();
            met.into_iter().for_each(|e| all[e] = true);
            if !ended {
                ends = false;
                break;
            }
        }
        Walked {
            ends,
            met: all.iter().filter(|met| **met).count(),
            forgetful,
        }
    }
}

/// What following next from each piece comes to, up to the first from which it does not end.
pub struct Walked {
    /// Whether it ends from every piece.
    pub ends: bool,
    /// How many pieces are met.
    pub met: usize,
    /// How often next is followed if each walk remembers nothing of those before it.
    pub forgetful: usize,
}

/// One chain of all pieces, in the order of their numbers.
fn chain(p: usize) -> Nexts {
    Nexts::headed((0..p).map(|d| (d + 1 < p).then_some(d + 1)).collect())
}

/// As many chains as there are slips, dealt out piece by piece.
fn dealt(p: usize) -> Nexts {
    let next = (0..p).map(|d| (d + SLIPS < p).then_some(d + SLIPS));
    Nexts::headed(next.collect())
}

/// A piece for each slip, and the rest of them free.
fn single(p: usize) -> Nexts {
    Nexts {
        next: vec![None; p],
        heads: (0..p.min(SLIPS)).collect(),
    }
}

/// A chain, the spine, and teeth that each have one of its pieces next: tooth i the piece `place(i, teeth, spine)`.
fn teeth(p: usize, place: impl Fn(usize, usize, usize) -> usize) -> Nexts {
    let teeth = (SLIPS - 1).min(p / 2);
    let spine = p - teeth;
    let mut all = chain(spine);
    for i in 0..teeth {
        all.next.push(Some(place(i, teeth, spine)));
        all.heads.push(spine + i);
    }
    all
}

/// A chain that ends in a ring of its last `ring` pieces; no slip heads a ring of all.
fn into_ring(p: usize, ring: usize) -> Nexts {
    let mut next = chain(p).next;
    next[p - 1] = Some(p - ring);
    Nexts::headed(next)
}

/// A chain of all pieces but the last, which is a ring by itself.
fn beside_ring(p: usize) -> Nexts {
    let mut next = chain(p - 1).next;
    next.push(Some(p - 1));
    Nexts::headed(next)
}

/// The numbers below p in no order.
fn shuffled(p: usize, below: &mut dyn FnMut(usize) -> usize) -> Vec<usize> {
    let mut order: Vec<usize> = (0..p).collect();
    for i in (1..p).rev() {
        order.swap(i, below(i + 1));
    }
    order
}

/// Nexts in no order, of which no more are nobody's than there are slips: each piece leads to one of a lower place in some order, so that none
/// comes back, but the piece of the lowest place, which leads anywhere if `ring` says so. `below(n)` is any number below n.
pub fn random(p: usize, ring: bool, below: &mut dyn FnMut(usize) -> usize) -> Nexts {
    let order = shuffled(p, below);
    let mut next = vec![None; p];
    // The pieces so far that are nobody's next: a slip each.
    let mut headed = vec![order[0]];
    for i in 1..p {
        let branches = headed.len() < SLIPS && below(4) == 0;
        let to = match branches {
            true => order[below(i)],
            false => headed[below(headed.len())],
        };
        next[order[i]] = Some(to);
        headed.retain(|d| *d != to);
        headed.push(order[i]);
    }
    if ring {
        next[order[0]] = Some(order[below(p)]);
    }
    Nexts::headed(next)
}

/// The pools of p pieces in which next could be followed often, by name: sound ones, then such as a ring makes torn.
pub fn worst_cases(p: usize) -> Vec<(&'static str, Nexts)> {
    let against = |d: usize| p - 1 - d;
    let mut state = p as u32;
    let mut below = |n: usize| {
        state = state.wrapping_mul(1_664_525).wrapping_add(1_013_904_223);
        (state >> 8) as usize % n
    };
    let order = shuffled(p, &mut below);
    let scattered = |d: usize| order[d];
    let comb = teeth(p, |i, teeth, spine| i * spine / teeth);
    let brush = teeth(p, |_, _, _| 0);
    let free = Nexts {
        next: vec![None; p],
        heads: vec![],
    };
    vec![
        ("one chain, numbered along next", chain(p)),
        (
            "one chain, numbered against next",
            chain(p).numbered(against),
        ),
        (
            "one chain, numbered at random",
            chain(p).numbered(scattered),
        ),
        ("chains of one, one for each slip, the rest free", single(p)),
        ("a chain for each slip, dealt out in turn", dealt(p)),
        ("comb, spine before teeth", comb.clone()),
        ("comb, teeth before spine", comb.numbered(against)),
        ("comb, numbered at random", comb.numbered(scattered)),
        ("all teeth at the spine's start, spine first", brush.clone()),
        (
            "all teeth at the spine's start, teeth first",
            brush.numbered(against),
        ),
        ("random, no ring", random(p, false, &mut below)),
        ("every piece free", free),
        ("one ring of all", into_ring(p, p)),
        ("rings of one", Nexts::headed((0..p).map(Some).collect())),
        ("one chain into a ring of one", into_ring(p, 1)),
        ("one chain into a ring of half", into_ring(p, p.div_ceil(2))),
        (
            "the same, numbered at random",
            into_ring(p, p.div_ceil(2)).numbered(scattered),
        ),
        ("one chain, and a ring of one numbered last", beside_ring(p)),
        ("random, with a ring", random(p, true, &mut below)),
    ]
}

/// The pools of the figure: the worst cases of the most pieces, and chains of one that leave no piece free.
pub fn figure() -> Vec<(&'static str, Nexts)> {
    let mut cases = worst_cases(MOST.1 as usize);
    cases.insert(4, ("chains of one, no piece free", single(SLIPS)));
    cases
}
