//! Document 01's morning and its edges as rows of data, and full tables of pieces, for any engine.

use std::ops::Range;

use super::desk::{
    append, cut, data, drop, dup, free, gather, keep, pack, pullup, put, read, show, Desk, Engine,
    UNTOUCHED,
};
use super::model::{Call, Name, BUFFERS, DONE, LONG, NARROW, PIECES, RANGE, SAME, SLIP};

use Buffer::{Clean, Data, Old, Tens};

/// A call, made where it is wanted.
pub type Asked = fn() -> Call;

/// A done call, the number that it answers, and all that holds after it.
pub struct Row {
    pub call: Asked,
    pub number: u64,
    /// Each slip's stored state.
    pub slips: &'static [u16],
    /// Each slip's serial.
    pub serials: &'static [u16],
    /// Each piece's stored words: count, buffer, offset, length, next.
    pub pieces: &'static [[u16; 5]],
    /// Each buffer's count.
    pub counts: &'static [u16],
    /// What each buffer holds, in use or not.
    pub buffers: &'static [Buffer],
    /// The chain of each held slip.
    pub chains: &'static [Chain],
}

/// A buffer's bytes: those from before the opening, or zeros, or the data from start to end, or its first ten over and over, and then zeros.
pub enum Buffer {
    Old,
    Clean,
    Data(usize, usize),
    Tens(usize),
}

/// A held slip: its length, the stretches of the data (start, end) that it reads as, its wire list.
pub struct Chain {
    pub slip: Name,
    pub length: u64,
    pub stretches: &'static [(usize, usize)],
    pub list: &'static [u32],
}

/// The chain of a slip that was never vacated.
const fn chain(
    number: u16,
    length: u64,
    stretches: &'static [(usize, usize)],
    list: &'static [u32],
) -> Chain {
    chain_at(Name::new(number, 0), length, stretches, list)
}

const fn chain_at(
    slip: Name,
    length: u64,
    stretches: &'static [(usize, usize)],
    list: &'static [u32],
) -> Chain {
    Chain {
        slip,
        length,
        stretches,
        list,
    }
}

/// Slips 1 and 2, vacated once and given again.
const ONE: Name = Name::new(1, 1);
const TWO: Name = Name::new(2, 1);

/// An entry of zeros: a free piece.
pub const Z: [u16; 5] = [0; 5];

/// Rows 1 to 10, each following the last, in a pool of B 4, P 6, S 4.
pub const MORNING: &[Row] = &[
    Row {
        call: || put(600),
        number: 0,
        slips: &[2, 0, 0, 0],
        serials: &[0; 4],
        pieces: &[[1, 0, 0, 512, 2], [1, 1, 0, 88, 0], Z, Z, Z, Z],
        counts: &[1, 1, 0, 0],
        buffers: &[Data(0, 512), Data(512, 600), Old, Old],
        chains: &[chain(0, 600, &[(0, 600)], &[0, 512, 512, 88])],
    },
    Row {
        call: || cut(0, 500, 50),
        number: 1,
        slips: &[2, 4, 0, 0],
        serials: &[0; 4],
        pieces: &[
            [1, 0, 0, 512, 2],
            [1, 1, 0, 88, 0],
            [1, 0, 500, 12, 4],
            [1, 1, 0, 38, 0],
            Z,
            Z,
        ],
        counts: &[2, 2, 0, 0],
        buffers: &[Data(0, 512), Data(512, 600), Old, Old],
        chains: &[
            chain(0, 600, &[(0, 600)], &[0, 512, 512, 88]),
            chain(1, 50, &[(500, 550)], &[500, 12, 512, 38]),
        ],
    },
    Row {
        call: || dup(0),
        number: 2,
        slips: &[2, 4, 6, 0],
        serials: &[0; 4],
        pieces: &[
            [1, 0, 0, 512, 2],
            [2, 1, 0, 88, 0],
            [1, 0, 500, 12, 4],
            [1, 1, 0, 38, 0],
            [1, 0, 0, 512, 2],
            Z,
        ],
        counts: &[3, 2, 0, 0],
        buffers: &[Data(0, 512), Data(512, 600), Old, Old],
        chains: &[
            chain(0, 600, &[(0, 600)], &[0, 512, 512, 88]),
            chain(1, 50, &[(500, 550)], &[500, 12, 512, 38]),
            chain(2, 600, &[(0, 600)], &[0, 512, 512, 88]),
        ],
    },
    Row {
        call: || free(0),
        number: 0,
        slips: &[0, 4, 6, 0],
        serials: &[1, 0, 0, 0],
        pieces: &[
            Z,
            [1, 1, 0, 88, 0],
            [1, 0, 500, 12, 4],
            [1, 1, 0, 38, 0],
            [1, 0, 0, 512, 2],
            Z,
        ],
        counts: &[2, 2, 0, 0],
        buffers: &[Data(0, 512), Data(512, 600), Old, Old],
        chains: &[
            chain(1, 50, &[(500, 550)], &[500, 12, 512, 38]),
            chain(2, 600, &[(0, 600)], &[0, 512, 512, 88]),
        ],
    },
    Row {
        call: || drop(2, 520),
        number: 0,
        slips: &[0, 4, 3, 0],
        serials: &[1, 0, 0, 0],
        pieces: &[
            Z,
            [1, 1, 8, 80, 0],
            [1, 0, 500, 12, 4],
            [1, 1, 0, 38, 0],
            Z,
            Z,
        ],
        counts: &[1, 2, 0, 0],
        buffers: &[Data(0, 512), Data(512, 600), Old, Old],
        chains: &[
            chain(1, 50, &[(500, 550)], &[500, 12, 512, 38]),
            chain(2, 80, &[(520, 600)], &[520, 80]),
        ],
    },
    Row {
        call: || append(1, 2),
        number: 0,
        slips: &[0, 4, 0, 0],
        serials: &[1, 0, 1, 0],
        pieces: &[
            Z,
            [1, 1, 8, 80, 0],
            [1, 0, 500, 12, 4],
            [1, 1, 0, 38, 2],
            Z,
            Z,
        ],
        counts: &[1, 2, 0, 0],
        buffers: &[Data(0, 512), Data(512, 600), Old, Old],
        chains: &[chain(
            1,
            130,
            &[(500, 550), (520, 600)],
            &[500, 12, 512, 38, 520, 80],
        )],
    },
    Row {
        call: || keep(1, 40),
        number: 0,
        slips: &[0, 4, 0, 0],
        serials: &[1, 0, 1, 0],
        pieces: &[Z, Z, [1, 0, 500, 12, 4], [1, 1, 0, 28, 0], Z, Z],
        counts: &[1, 1, 0, 0],
        buffers: &[Data(0, 512), Data(512, 600), Old, Old],
        chains: &[chain(1, 40, &[(500, 540)], &[500, 12, 512, 28])],
    },
    Row {
        call: || pullup(1, 20),
        number: 0,
        slips: &[0, 2, 0, 0],
        serials: &[1, 0, 1, 0],
        pieces: &[[1, 2, 0, 20, 4], Z, Z, [1, 1, 8, 20, 0], Z, Z],
        counts: &[0, 1, 1, 0],
        buffers: &[Clean, Data(512, 600), Data(500, 520), Old],
        chains: &[chain(1, 40, &[(500, 540)], &[1_024, 20, 520, 20])],
    },
    Row {
        call: || pack(1),
        number: 0,
        slips: &[0, 3, 0, 0],
        serials: &[1, 0, 1, 0],
        pieces: &[Z, [1, 0, 0, 40, 0], Z, Z, Z, Z],
        counts: &[1, 0, 0, 0],
        buffers: &[Data(500, 540), Clean, Clean, Old],
        chains: &[chain(1, 40, &[(500, 540)], &[0, 40])],
    },
    Row {
        call: || free(1),
        number: 0,
        slips: &[0; 4],
        serials: &[1, 1, 1, 0],
        pieces: &[Z; 6],
        counts: &[0; 4],
        buffers: &[Clean, Clean, Clean, Old],
        chains: &[],
    },
];

/// The bytes of row 9 as the paper has them: 249, 250, 0 to 37.
const PACKED: [Range<u8>; 2] = [249..251, 0..38];

/// The test that an edge belongs to.
#[derive(Clone, Copy, PartialEq, Eq)]
pub enum Case {
    PutAt512,
    StorageFull,
    CutAtEnd,
    Long,
    AppendSame,
}

/// What an edge comes to: a row, or a refusal with this code, which leaves everything as it was.
pub enum End {
    Done(Row),
    Refused(Asked, u16),
}

/// An edge: the calls done before it in a fresh pool with their numbers, and what it comes to.
pub struct Edge {
    pub case: Case,
    pub before: &'static [(Asked, u64)],
    pub end: End,
}

/// The edges, each in a fresh pool of B 4, P 6, S 4.
pub const EDGES: &[Edge] = &[
    Edge {
        case: Case::PutAt512,
        before: &[],
        end: End::Done(Row {
            call: || put(512),
            number: 0,
            slips: &[2, 0, 0, 0],
            serials: &[0; 4],
            pieces: &[[1, 0, 0, 512, 0], Z, Z, Z, Z, Z],
            counts: &[1, 0, 0, 0],
            buffers: &[Data(0, 512), Old, Old, Old],
            chains: &[chain(0, 512, &[(0, 512)], &[0, 512])],
        }),
    },
    Edge {
        case: Case::PutAt512,
        before: &[],
        end: End::Done(Row {
            call: || put(513),
            number: 0,
            slips: &[2, 0, 0, 0],
            serials: &[0; 4],
            pieces: &[[1, 0, 0, 512, 2], [1, 1, 0, 1, 0], Z, Z, Z, Z],
            counts: &[1, 1, 0, 0],
            buffers: &[Data(0, 512), Data(512, 513), Old, Old],
            chains: &[chain(0, 513, &[(0, 513)], &[0, 512, 512, 1])],
        }),
    },
    Edge {
        case: Case::StorageFull,
        before: &[],
        end: End::Done(Row {
            call: || put(2_048),
            number: 0,
            slips: &[2, 0, 0, 0],
            serials: &[0; 4],
            pieces: &[
                [1, 0, 0, 512, 2],
                [1, 1, 0, 512, 3],
                [1, 2, 0, 512, 4],
                [1, 3, 0, 512, 0],
                Z,
                Z,
            ],
            counts: &[1, 1, 1, 1],
            buffers: &[
                Data(0, 512),
                Data(512, 1_024),
                Data(1_024, 1_536),
                Data(1_536, 2_048),
            ],
            chains: &[chain(
                0,
                2_048,
                &[(0, 2_048)],
                &[0, 512, 512, 512, 1_024, 512, 1_536, 512],
            )],
        }),
    },
    Edge {
        case: Case::StorageFull,
        before: &[],
        end: End::Refused(|| put(2_049), BUFFERS),
    },
    Edge {
        case: Case::CutAtEnd,
        before: &[(|| put(600), 0)],
        end: End::Done(Row {
            call: || cut(0, 600, 0),
            number: 1,
            slips: &[2, 1, 0, 0],
            serials: &[0; 4],
            pieces: &[[1, 0, 0, 512, 2], [1, 1, 0, 88, 0], Z, Z, Z, Z],
            counts: &[1, 1, 0, 0],
            buffers: &[Data(0, 512), Data(512, 600), Old, Old],
            chains: &[
                chain(0, 600, &[(0, 600)], &[0, 512, 512, 88]),
                chain(1, 0, &[], &[]),
            ],
        }),
    },
    Edge {
        case: Case::CutAtEnd,
        before: &[(|| put(600), 0)],
        end: End::Refused(|| cut(0, 601, 0), RANGE),
    },
    Edge {
        case: Case::Long,
        before: &[(|| put(10), 0)],
        end: End::Refused(|| pullup(0, 513), LONG),
    },
    Edge {
        case: Case::Long,
        before: &[(|| put(10), 0)],
        end: End::Refused(|| show(0, 513, 600), LONG),
    },
    Edge {
        case: Case::Long,
        before: &[(|| put(10), 0)],
        end: End::Refused(|| pullup(0, 512), RANGE),
    },
    Edge {
        case: Case::Long,
        before: &[(|| put(10), 0)],
        end: End::Refused(|| pullup(0, 11), RANGE),
    },
    Edge {
        case: Case::AppendSame,
        before: &[(|| put(10), 0)],
        end: End::Refused(|| append(0, 0), SAME),
    },
    Edge {
        case: Case::AppendSame,
        before: &[(|| put(10), 0)],
        end: End::Refused(|| append(1, 1), SLIP),
    },
];

/// Drop or pullup after calls done in a fresh pool: its code, and all that holds after it, done or refused.
pub struct Full {
    pub before: &'static [(Asked, u64)],
    pub code: u16,
    pub row: Row,
}

/// Drop and pullup where every piece is in use, and once where one is free, each in a fresh pool of B 4, P 6, S 4.
pub const FULL: &[Full] = &[
    // The old head's number comes back to the front.
    Full {
        before: &[
            (|| put(600), 0),
            (|| cut(0, 500, 50), 1),
            (|| cut(0, 500, 50), 2),
        ],
        code: DONE,
        row: Row {
            call: || pullup(1, 20),
            number: 0,
            slips: &[2, 4, 6, 0],
            serials: &[0; 4],
            pieces: &[
                [1, 0, 0, 512, 2],
                [1, 1, 0, 88, 0],
                [1, 2, 0, 20, 4],
                [1, 1, 8, 30, 0],
                [1, 0, 500, 12, 6],
                [1, 1, 0, 38, 0],
            ],
            counts: &[2, 3, 1, 0],
            buffers: &[Data(0, 512), Data(512, 600), Data(500, 520), Old],
            chains: &[
                chain(0, 600, &[(0, 600)], &[0, 512, 512, 88]),
                chain(1, 50, &[(500, 550)], &[1_024, 20, 520, 30]),
                chain(2, 50, &[(500, 550)], &[500, 12, 512, 38]),
            ],
        },
    },
    // A shared head gives nothing back.
    Full {
        before: &[
            (|| put(600), 0),
            (|| put(10), 1),
            (|| append(0, 1), 0),
            (|| dup(0), ONE.answer()),
            (|| drop(ONE, 512), 0),
            (|| cut(0, 0, 600), 2),
            (|| dup(ONE), 3),
        ],
        code: PIECES,
        row: Row {
            call: || pullup(ONE, 98),
            number: 0,
            slips: &[2, 3, 5, 7],
            serials: &[0, 1, 0, 0],
            pieces: &[
                [1, 0, 0, 512, 2],
                [2, 1, 0, 88, 3],
                [2, 2, 0, 10, 0],
                [1, 0, 0, 512, 5],
                [1, 1, 0, 88, 0],
                [1, 1, 0, 88, 3],
            ],
            counts: &[2, 3, 1, 0],
            buffers: &[Data(0, 512), Data(512, 600), Data(0, 10), Old],
            chains: &[
                chain(0, 610, &[(0, 600), (0, 10)], &[0, 512, 512, 88, 1_024, 10]),
                chain_at(ONE, 98, &[(512, 600), (0, 10)], &[512, 88, 1_024, 10]),
                chain(2, 600, &[(0, 600)], &[0, 512, 512, 88]),
                chain(3, 98, &[(512, 600), (0, 10)], &[512, 88, 1_024, 10]),
            ],
        },
    },
    // Inside a shared piece, behind an own one.
    Full {
        before: &[
            (|| put(600), 0),
            (|| dup(0), 1),
            (|| cut(0, 0, 600), 2),
            (|| dup(2), 3),
        ],
        code: DONE,
        row: Row {
            call: || drop(0, 520),
            number: 0,
            slips: &[2, 4, 5, 7],
            serials: &[0; 4],
            pieces: &[
                [1, 1, 8, 80, 0],
                [1, 1, 0, 88, 0],
                [1, 0, 0, 512, 2],
                [1, 0, 0, 512, 5],
                [2, 1, 0, 88, 0],
                [1, 0, 0, 512, 5],
            ],
            counts: &[3, 3, 0, 0],
            buffers: &[Data(0, 512), Data(512, 600), Old, Old],
            chains: &[
                chain(0, 80, &[(520, 600)], &[520, 80]),
                chain(1, 600, &[(0, 600)], &[0, 512, 512, 88]),
                chain(2, 600, &[(0, 600)], &[0, 512, 512, 88]),
                chain(3, 600, &[(0, 600)], &[0, 512, 512, 88]),
            ],
        },
    },
    // Inside a shared head.
    Full {
        before: &[
            (|| put(600), 0),
            (|| dup(0), 1),
            (|| drop(1, 512), 0),
            (|| cut(0, 0, 600), 2),
            (|| cut(0, 0, 600), 3),
        ],
        code: PIECES,
        row: Row {
            call: || drop(1, 8),
            number: 0,
            slips: &[2, 3, 4, 6],
            serials: &[0; 4],
            pieces: &[
                [1, 0, 0, 512, 2],
                [2, 1, 0, 88, 0],
                [1, 0, 0, 512, 4],
                [1, 1, 0, 88, 0],
                [1, 0, 0, 512, 6],
                [1, 1, 0, 88, 0],
            ],
            counts: &[3, 3, 0, 0],
            buffers: &[Data(0, 512), Data(512, 600), Old, Old],
            chains: &[
                chain(0, 600, &[(0, 600)], &[0, 512, 512, 88]),
                chain(1, 88, &[(512, 600)], &[512, 88]),
                chain(2, 600, &[(0, 600)], &[0, 512, 512, 88]),
                chain(3, 600, &[(0, 600)], &[0, 512, 512, 88]),
            ],
        },
    },
    // Two wanted and one given back.
    Full {
        before: &[
            (|| put(600), 0),
            (|| cut(0, 500, 50), 1),
            (|| dup(1), 2),
            (|| dup(0), 3),
        ],
        code: PIECES,
        row: Row {
            call: || pullup(1, 20),
            number: 0,
            slips: &[2, 4, 6, 7],
            serials: &[0; 4],
            pieces: &[
                [1, 0, 0, 512, 2],
                [2, 1, 0, 88, 0],
                [1, 0, 500, 12, 4],
                [2, 1, 0, 38, 0],
                [1, 0, 500, 12, 4],
                [1, 0, 0, 512, 2],
            ],
            counts: &[4, 2, 0, 0],
            buffers: &[Data(0, 512), Data(512, 600), Old, Old],
            chains: &[
                chain(0, 600, &[(0, 600)], &[0, 512, 512, 88]),
                chain(1, 50, &[(500, 550)], &[500, 12, 512, 38]),
                chain(2, 50, &[(500, 550)], &[500, 12, 512, 38]),
                chain(3, 600, &[(0, 600)], &[0, 512, 512, 88]),
            ],
        },
    },
    // The same with piece 5 free.
    Full {
        before: &[(|| put(600), 0), (|| cut(0, 500, 50), 1), (|| dup(1), 2)],
        code: DONE,
        row: Row {
            call: || pullup(1, 20),
            number: 0,
            slips: &[2, 4, 6, 0],
            serials: &[0; 4],
            pieces: &[
                [1, 0, 0, 512, 2],
                [1, 1, 0, 88, 0],
                [1, 2, 0, 20, 6],
                [1, 1, 0, 38, 0],
                [1, 0, 500, 12, 4],
                [1, 1, 8, 30, 0],
            ],
            counts: &[2, 3, 1, 0],
            buffers: &[Data(0, 512), Data(512, 600), Data(500, 520), Old],
            chains: &[
                chain(0, 600, &[(0, 600)], &[0, 512, 512, 88]),
                chain(1, 50, &[(500, 550)], &[1_024, 20, 520, 30]),
                chain(2, 50, &[(500, 550)], &[500, 12, 512, 38]),
            ],
        },
    },
    // Two wanted and two given back: the front takes the lower number.
    Full {
        before: &[
            (|| put(10), 0),
            (|| put(10), 1),
            (|| put(10), 2),
            (|| append(1, 2), 0),
            (|| append(0, 1), 0),
            (|| dup(0), ONE.answer()),
            (|| drop(ONE, 20), 0),
            (|| cut(0, 0, 30), TWO.answer()),
        ],
        code: DONE,
        row: Row {
            call: || pullup(0, 25),
            number: 0,
            slips: &[2, 4, 5, 0],
            serials: &[0, 1, 1, 0],
            pieces: &[
                [1, 3, 0, 25, 2],
                [1, 2, 5, 5, 0],
                [1, 2, 0, 10, 0],
                [1, 0, 0, 10, 5],
                [1, 1, 0, 10, 6],
                [1, 2, 0, 10, 0],
            ],
            counts: &[1, 1, 3, 1],
            buffers: &[Data(0, 10), Data(0, 10), Data(0, 10), Tens(25)],
            chains: &[
                chain(0, 30, &[(0, 10), (0, 10), (0, 10)], &[1_536, 25, 1_029, 5]),
                chain_at(ONE, 10, &[(0, 10)], &[1_024, 10]),
                chain_at(
                    TWO,
                    30,
                    &[(0, 10), (0, 10), (0, 10)],
                    &[0, 10, 512, 10, 1_024, 10],
                ),
            ],
        },
    },
    // A piece is given back, and so is the buffer under it, which is no room.
    Full {
        before: &[
            (|| put(10), 0),
            (|| put(10), 1),
            (|| append(0, 1), 0),
            (|| put(1_024), ONE.answer()),
            (|| cut(ONE, 0, 1_024), 2),
        ],
        code: BUFFERS,
        row: Row {
            call: || pullup(0, 15),
            number: 0,
            slips: &[2, 4, 6, 0],
            serials: &[0, 1, 0, 0],
            pieces: &[
                [1, 0, 0, 10, 2],
                [1, 1, 0, 10, 0],
                [1, 2, 0, 512, 4],
                [1, 3, 0, 512, 0],
                [1, 2, 0, 512, 6],
                [1, 3, 0, 512, 0],
            ],
            counts: &[1, 1, 2, 2],
            buffers: &[Data(0, 10), Data(0, 10), Data(0, 512), Data(512, 1_024)],
            chains: &[
                chain(0, 20, &[(0, 10), (0, 10)], &[0, 10, 512, 10]),
                chain_at(ONE, 1_024, &[(0, 1_024)], &[1_024, 512, 1_536, 512]),
                chain(2, 1_024, &[(0, 1_024)], &[1_024, 512, 1_536, 512]),
            ],
        },
    },
];

/// A stretch of the data.
fn stretch(start: usize, end: usize) -> Vec<u8> {
    data(end)[start..].to_vec()
}

/// The bytes, then zeros up to a whole buffer.
fn filled(mut bytes: Vec<u8>) -> Vec<u8> {
    bytes.resize(512, 0);
    bytes
}

impl Buffer {
    pub fn bytes(&self) -> Vec<u8> {
        match self {
            Old => vec![UNTOUCHED; 512],
            Clean => vec![0; 512],
            Data(start, end) => filled(stretch(*start, *end)),
            Tens(n) => filled(data(10).into_iter().cycle().take(*n).collect()),
        }
    }
}

impl Chain {
    pub fn bytes(&self) -> Vec<u8> {
        let stretches = self.stretches.iter();
        stretches.flat_map(|two| stretch(two.0, two.1)).collect()
    }
}

impl Row {
    /// Makes the call, and asserts its number and all that holds after it but for the lists.
    fn run(&self, desk: &mut Desk) {
        let call = (self.call)();
        println!("{}", call.brief());
        desk.done(call, self.number);
        self.holds(desk);
    }

    /// Asserts all that holds after the call but for the lists.
    fn holds(&self, desk: &mut Desk) {
        desk.tables(self.slips, self.serials, self.pieces, self.counts);
        let buffers: Vec<u8> = self.buffers.iter().flat_map(Buffer::bytes).collect();
        desk.stores(&buffers);
        for chain in self.chains {
            desk.length(chain.slip, chain.length);
            desk.reads(chain.slip, &chain.bytes());
        }
    }

    /// Asserts the list of each held slip.
    fn lists(&self, desk: &mut Desk) {
        for chain in self.chains {
            desk.lists(chain.slip, chain.list);
        }
    }
}

/// The pool before row 1, and of each edge.
fn fresh(engine: Engine) -> Desk {
    Desk::open(engine, 4, 6, 4)
}

/// The pool after the first so many rows.
pub fn after(engine: Engine, rows: usize) -> Desk {
    let mut desk = fresh(engine);
    for row in &MORNING[..rows] {
        desk.done((row.call)(), row.number);
    }
    desk
}

/// Rows 1 to 10 of the morning, each with the whole tables, storage and the chains' bytes.
pub fn ten_rows(engine: Engine) {
    assert_eq!(MORNING.len(), 10);
    let packed: Vec<u8> = PACKED.into_iter().flatten().collect();
    assert_eq!(MORNING[8].chains[0].bytes(), packed);
    let mut desk = fresh(engine);
    for row in MORNING {
        row.run(&mut desk);
    }
}

/// The edges of one case.
fn edges(engine: Engine, case: Case) {
    let edges: Vec<&Edge> = EDGES.iter().filter(|edge| edge.case == case).collect();
    assert!(!edges.is_empty());
    for edge in edges {
        let mut desk = fresh(engine);
        for (call, number) in edge.before {
            desk.done(call(), *number);
        }
        match &edge.end {
            End::Done(row) => {
                row.run(&mut desk);
                row.lists(&mut desk);
            }
            End::Refused(call, code) => desk.refused(call(), *code),
        }
    }
}

/// Put of 512 takes one piece, of 513 two.
pub fn edge_put_at_512(engine: Engine) {
    edges(engine, Case::PutAt512);
}

/// 2,048 bytes fit, 2,049 are code 10.
pub fn edge_storage_full(engine: Engine) {
    edges(engine, Case::StorageFull);
}

/// Cut of 600 at 600 for 0 is empty, at 601 for 0 is code 6.
pub fn edge_cut_at_end(engine: Engine) {
    edges(engine, Case::CutAtEnd);
}

/// Pullup of 513 of a 10-byte chain is code 5.
pub fn edge_long(engine: Engine) {
    edges(engine, Case::Long);
}

/// Append of one held slip to itself is 4, of a vacant one 3.
pub fn edge_append_same(engine: Engine) {
    edges(engine, Case::AppendSame);
}

/// The full tables in which the call is done, or not.
fn full_tables(engine: Engine, done: bool) {
    let cases: Vec<&Full> = FULL
        .iter()
        .filter(|full| (full.code == DONE) == done)
        .collect();
    assert_eq!(cases.len(), 4);
    for Full { before, code, row } in cases {
        let mut desk = fresh(engine);
        for (call, number) in *before {
            desk.done(call(), *number);
        }
        let free = desk.free_pieces();
        assert!(free.is_empty() || free == [5], "{free:?}");
        match *code {
            DONE => row.run(&mut desk),
            code => {
                desk.refused((row.call)(), code);
                row.holds(&mut desk);
            }
        }
        assert_eq!(desk.free_pieces(), []);
        row.lists(&mut desk);
    }
}

/// In a full table drop and pullup are done with the pieces that they give back.
pub fn full_table_done(engine: Engine) {
    full_tables(engine, true);
}

/// They are refused where they give back too few, 9, or where no buffer is free, 10.
pub fn full_table_refused(engine: Engine) {
    full_tables(engine, false);
}

/// The wire lists of the morning's slips: position 512·buffer + offset, then length.
pub fn list_of_the_morning(engine: Engine) {
    let mut desk = fresh(engine);
    for row in MORNING {
        desk.done((row.call)(), row.number);
        row.lists(&mut desk);
    }
}

/// The bytes of the morning's lists, as read gives them; output past them is unchanged.
pub fn gather_of_the_morning(engine: Engine) {
    let mut desk = fresh(engine);
    for row in MORNING {
        desk.done((row.call)(), row.number);
        for chain in row.chains {
            let (n, bytes) = (chain.length as usize, chain.bytes());
            for spare in [0, 2] {
                let outcome = desk.done_unchanged(gather(chain.list, n + spare), n as u64);
                assert_eq!(outcome.lent, [&bytes[..], &[0x99; 2][..spare]].concat());
            }
            // Read of the whole chain is refused by the same output.
            for short in [n - 1, 0] {
                desk.refused(gather(chain.list, short), NARROW);
                desk.refused(read(chain.slip, 0, n as u32, short), NARROW);
            }
        }
    }
}
