//! How calls name slips and are given them, by kind: what random lists must come to, wrong serials and spent slips above all.

use super::model::{Call, Name, Outcome, DONE, LAST, SAME, SLIP, SLIPS};
use super::recount::Recount;

/// A call, the recount before it and what it came to.
pub struct Named<'a> {
    pub before: &'a Recount,
    pub call: &'a Call,
    pub after: &'a Outcome,
}

/// A kind of these.
type Kind = (&'static str, fn(&Named) -> bool);

/// Every kind that the lists come to.
pub const NAMINGS: [Kind; 16] = [
    ("held, by an earlier serial: 3", |n| {
        n.is_first(|held, stored, given| held && given < stored)
    }),
    ("held, by a later serial: 3", |n| {
        n.is_first(|held, stored, given| held && given > stored)
    }),
    ("held at the last serial, by the first: 3", |n| {
        n.is_first(|held, stored, given| held && stored == LAST && given == 0)
    }),
    ("vacant, by its own serial: 3", |n| {
        n.is_first(|held, stored, given| !held && given == stored)
    }),
    ("vacant, by the serial before: 3", |n| {
        n.is_first(|held, stored, given| !held && given + 1 == stored)
    }),
    ("vacant and spent: 3", |n| {
        n.is_first(|held, stored, given| !held && stored == LAST && given == LAST)
    }),
    ("S or more: 3", |n| n.outside()),
    ("append, b alone by another serial: 3", |n| n.b_alone()),
    ("append, one number and two serials: 3", |n| {
        n.after.code == SLIP && n.one_number() == Some(false)
    }),
    ("append, one name twice: 4", |n| {
        n.after.code == SAME && n.one_number() == Some(true)
    }),
    ("held at the last serial: done", |n| {
        n.after.code == DONE && n.call.names().iter().any(|name| name.serial as u64 == LAST)
    }),
    ("given above serial 0", |n| {
        n.given().is_some_and(|name| name.serial > 0)
    }),
    ("given at the last serial but one", |n| {
        n.given().is_some_and(|name| name.serial as u64 == LAST - 1)
    }),
    ("given past a spent slip", |n| {
        n.given()
            .is_some_and(|name| n.spent().any(|slip| slip < name.number as usize))
    }),
    ("slips vacant and all spent: 8", |n| {
        n.after.code == SLIPS && n.spent().next().is_some()
    }),
    ("vacated at the last serial", |n| n.vacated() == Some(LAST)),
];

impl Named<'_> {
    /// Whether the slip named first has a number below S, and is so, held or not, by its serial and the one given; refused with 3.
    fn is_first(&self, is: fn(bool, u64, u64) -> bool) -> bool {
        let names = self.call.names();
        let Some(name) = names.first().filter(|_| self.after.code == SLIP) else {
            return false;
        };
        let slip = name.number as usize;
        let stored = self.before.serials.get(slip);
        stored.is_some_and(|stored| {
            is(
                self.before.slips[slip].is_some(),
                *stored,
                name.serial as u64,
            )
        })
    }

    /// Refused with 3 for a number of S or more.
    fn outside(&self) -> bool {
        let slips = self.before.slips.len();
        let outside = |name: &Name| name.number as usize >= slips;
        self.after.code == SLIP && self.call.names().iter().any(outside)
    }

    /// An append whose a is held at its serial, and whose b is held at another.
    fn b_alone(&self) -> bool {
        let [a, b] = self.call.names()[..] else {
            return false;
        };
        let held = |name: Name| {
            self.before
                .slips
                .get(name.number as usize)
                .is_some_and(Option::is_some)
        };
        let right = |name: Name| self.before.serials[name.number as usize] == name.serial as u64;
        self.after.code == SLIP && held(a) && held(b) && right(a) && !right(b)
    }

    /// Whether an append that names one number twice gives one serial twice too.
    fn one_number(&self) -> Option<bool> {
        match self.call {
            Call::Append { a, b } if a.number == b.number => Some(a.serial == b.serial),
            _ => None,
        }
    }

    /// The slip that a done call gives.
    fn given(&self) -> Option<Name> {
        let gives = matches!(
            self.call,
            Call::Put { .. } | Call::Dup { .. } | Call::Cut { .. }
        );
        let number = self.after.number;
        (gives && self.after.code == DONE).then(|| Name::new(number as u16, (number >> 16) as u16))
    }

    /// The slips spent before the call.
    fn spent(&self) -> impl Iterator<Item = usize> + '_ {
        let spent =
            |slip: &usize| self.before.slips[*slip].is_none() && self.before.serials[*slip] == LAST;
        (0..self.before.slips.len()).filter(spent)
    }

    /// The serial at which a done call vacates a slip.
    fn vacated(&self) -> Option<u64> {
        match self.call {
            Call::Free { slip } | Call::Append { b: slip, .. } if self.after.code == DONE => {
                Some(slip.serial as u64)
            }
            _ => None,
        }
    }
}
