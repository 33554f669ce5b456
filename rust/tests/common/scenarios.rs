//! The paper's own cases, for any engine: beside the rows and edges of the morning the five common
//! errors, each point where the paper can be read in two ways, and the wire list with its reader;
//! those of the serials and of cleaned buffers stand in files of their own.

use super::desk::{
    append, cut, data, drop, dup, free, gather, keep, length, list, pack, pullup, read, show,
    stretches, Desk, Engine, OLD,
};
use super::model::{
    Call, View, BUFFERS, COUNTS, LIST, LONG, MOST, NARROW, NO_VIEW, PIECES, RANGE, SAME, SLIP,
    SLIPS, TORN,
};
use super::morning::{self, MORNING, Z};

/// Makes one test of each case.
#[macro_export]
macro_rules! paper_cases {
    ($engine:path) => {
        $crate::paper_cases! { $engine; morning;
            ten_rows,
            edge_put_at_512, edge_storage_full, edge_cut_at_end, edge_long, edge_append_same,
            full_table_done, full_table_refused,
            list_of_the_morning, gather_of_the_morning,
        }
        $crate::paper_cases! { $engine; scenarios;
            fresh_pool, longest_chain, most_holders,
            error_freeing_past_shared, error_shortening_behind_shared,
            error_counting_holders_by_slips, error_adding_in_32_bits, error_keeping_the_slip,
            reading_01_own_at_entry, reading_02_one_reference_released,
            reading_03_chain_before_released, reading_04_drop_at_border,
            reading_05_keep_at_border, reading_06_nothing_wanted, reading_07_empty_not_vacant,
            reading_08_append_empty_side, reading_09_pullup_wants, reading_10_pack_afresh,
            reading_11_dup_and_cut, reading_12_numbers_taken, reading_13_order_of_codes,
            reading_14_append_twice, reading_15_read_and_show, reading_16_whole_numbers,
            reading_17_exact_lengths, reading_18_rings, reading_19_filled_whole,
            reading_20_empty_slices,
            reading_31_front_given_back, reading_32_room_in_front, reading_33_copied_first,
            full_table_of_the_largest,
            list_of_the_largest, list_too_short, list_of_nothing, list_order_of_codes,
            gather_repeats, gather_refuses_records, gather_order_of_codes,
            gather_whole_numbers, gather_without_a_pool,
            first_version_is_torn,
        }
        $crate::paper_cases! { $engine; serials }
        $crate::paper_cases! { $engine; clean }
        $crate::paper_cases! { $engine; clean; reading_38_torn, }
    };
    ($engine:path; serials) => {
        $crate::paper_cases! { $engine; serials;
            yesterdays_slip, names_of_the_morning,
            reading_21_any_serial,
            reading_22_wrong_serials, reading_22_append_twice, reading_22_order_of_codes,
            reading_23_spent, reading_23_held_at_the_last, reading_23_no_room,
            reading_24_vacated, reading_24_others_move_none, reading_24_refused_moves_none,
            reading_25_number_answered, reading_25_greatest_number,
            open_of_serials, every_serial_once,
        }
    };
    ($engine:path; clean) => {
        $crate::paper_cases! { $engine; clean;
            reading_38_whole_buffer, reading_38_last_piece, reading_38_others_stay,
            reading_38_free, reading_38_drop, reading_38_keep, reading_38_pullup, reading_38_pack,
            reading_38_append, reading_38_refused, reading_38_open, reading_38_largest,
        }
    };
    ($engine:path; $place:ident; $($case:ident,)*) => {
        $(
            #[test]
            fn $case() {
                common::$place::$case($engine);
            }
        )*
    };
}

/// The fresh pool for B 4, P 6, S 4 is 95 bytes; open leaves storage as it was.
pub fn fresh_pool(engine: Engine) {
    let mut desk = Desk::open(engine, 4, 6, 4);
    let mut fresh = vec![
        0x53, 0x4C, 0x50, 0x02, 0x00, 0x04, 0x00, 0x06, 0x00, 0x04, 0x00,
    ];
    fresh.resize(11 + 84, 0);
    assert_eq!(desk.pool, fresh);
    assert_eq!(desk.pool.len(), 95);
    assert_eq!(desk.storage, vec![0xEE; 2_048]);
    desk.done_unchanged(Call::Audit, 0);
}

/// A pool as version 1 had it, two bytes a slip, is torn, and so is one of today's length that says version 1.
pub fn first_version_is_torn(engine: Engine) {
    let mut desk = Desk::open(engine, 4, 6, 4);
    desk.set(3, 1);
    desk.refused(Call::Audit, TORN);
    desk.refused(length(0), TORN);
    desk.pool.truncate(87);
    desk.refused(Call::Audit, TORN);
    desk.set(3, 2);
    desk.refused(Call::Audit, TORN);
    desk.pool.resize(95, 0);
    desk.done_unchanged(Call::Audit, 0);
    for version in [0, 3, 256, 258, 65_535] {
        desk.set(3, version);
        desk.refused(Call::Audit, TORN);
    }
}

/// The most pieces and slips of a pool.
const P: u16 = MOST.1 as u16;
const S: u16 = MOST.2 as u16;

/// How often one piece is doubled to make P, and how often slip 1 is given and vacated on the way.
const DOUBLINGS: u16 = P.trailing_zeros() as u16;

/// A pool of one buffer and P pieces, all of them in the chain of slip 0: the first is doubled until no piece is free.
fn doubled(engine: Engine) -> Desk {
    let mut desk = Desk::open(engine, 1, P, 2);
    desk.put(512, 0);
    for doubling in 0..DOUBLINGS {
        let whole = 512 << doubling;
        desk.cut(0, 0, whole, (1, doubling));
        desk.append(0, (1, doubling));
        desk.length(0, 2 * whole as u64);
    }
    desk
}

/// The longest chain is 2,048 pieces and 1,048,576 bytes, here all on one buffer.
pub fn longest_chain(engine: Engine) {
    let mut desk = doubled(engine);
    let pieces: Vec<[u16; 5]> = (1..=P)
        .map(|link| [1, 0, 0, 512, if link == P { 0 } else { 1 + link }])
        .collect();
    assert_eq!(pieces.len(), 2_048);
    desk.tables(&[2, 0], &[0, DOUBLINGS], &pieces, &[P]);
    let bytes = data(512).repeat(pieces.len());
    let whole = bytes.len() as u32;
    assert_eq!(whole, 1_048_576);
    desk.reads(0, &bytes);
    desk.refused(read(0, whole, 1, 1), RANGE);
    desk.refused(cut(0, 0, whole + 1), RANGE);
    desk.refused(cut(0, whole - 1, 1), PIECES);
    desk.refused(dup(0), PIECES);
    desk.refused(pack(0), PIECES);
    desk.drop(0, whole - 1);
    desk.reads(0, &data(512)[511..]);
    desk.free(0);
    desk.tables(&[0, 0], &[1, DOUBLINGS], &vec![Z; pieces.len()], &[0]);
}

/// A chain for each slip, all with one tail: its count goes up to S and down again, and it stays to the last.
pub fn most_holders(engine: Engine) {
    let mut desk = Desk::open(engine, 2, S + 2, S);
    desk.put(600, 0);
    for new in 1..S {
        desk.dup(0, new);
    }
    let (last, total) = (S as usize - 1, S as usize + 2);
    let head = [1, 0, 0, 512, 2];
    let mut pieces = vec![head; total];
    pieces[1] = [S, 1, 0, 88, 0];
    pieces[total - 1] = Z;
    let slips: Vec<u16> = (0..S).map(|i| if i == 0 { 2 } else { 3 + i }).collect();
    let mut serials = vec![0; S as usize];
    desk.tables(&slips, &serials, &pieces, &[S, 1]);
    desk.refused(dup(S - 1), SLIPS);
    for slip in 0..S - 1 {
        desk.free(slip);
    }
    let mut pieces = vec![Z; total];
    pieces[1] = [1, 1, 0, 88, 0];
    pieces[total - 2] = head;
    let mut slips = vec![0; S as usize];
    slips[last] = S + 2;
    serials[..last].fill(1);
    desk.tables(&slips, &serials, &pieces, &[1, 1]);
    desk.reads(S - 1, &data(600));
}

/// Free stops at a piece that another slip still reaches.
pub fn error_freeing_past_shared(engine: Engine) {
    let mut desk = Desk::open(engine, 4, 6, 4);
    desk.put(1_100, 0);
    desk.dup(0, 1);
    desk.free(0);
    desk.tables(
        &[0, 5, 0, 0],
        &[1, 0, 0, 0],
        &[
            Z,
            [1, 1, 0, 512, 3],
            [1, 2, 0, 76, 0],
            [1, 0, 0, 512, 2],
            Z,
            Z,
        ],
        &[1, 1, 1, 0],
    );
    desk.reads(1, &data(1_100));
}

/// A piece of count 1 behind a shared piece is not own: keep and drop leave it to the other slip.
pub fn error_shortening_behind_shared(engine: Engine) {
    let mut desk = Desk::open(engine, 3, 8, 4);
    desk.put(1_100, 0);
    desk.dup(0, 1);
    // Piece 1 has count 2, piece 2 behind it has count 1.
    desk.keep(0, 1_050);
    desk.tables(
        &[2, 5, 0, 0],
        &[0; 4],
        &[
            [1, 0, 0, 512, 5],
            [1, 1, 0, 512, 3],
            [1, 2, 0, 76, 0],
            [1, 0, 0, 512, 2],
            [1, 1, 0, 512, 6],
            [1, 2, 0, 26, 0],
            Z,
            Z,
        ],
        &[2, 2, 2],
    );
    desk.reads(0, &data(1_100)[..1_050]);
    desk.reads(1, &data(1_100));

    let mut desk = Desk::open(engine, 3, 8, 4);
    desk.put(1_100, 0);
    desk.dup(0, 1);
    desk.drop(0, 1_050);
    desk.tables(
        &[2, 5, 0, 0],
        &[0; 4],
        &[
            [1, 2, 26, 50, 0],
            [1, 1, 0, 512, 3],
            [1, 2, 0, 76, 0],
            [1, 0, 0, 512, 2],
            Z,
            Z,
            Z,
            Z,
        ],
        &[1, 1, 2],
    );
    desk.reads(0, &data(1_100)[1_050..]);
    desk.reads(1, &data(1_100));
}

/// One chain with two pieces on one buffer counts twice there.
pub fn error_counting_holders_by_slips(engine: Engine) {
    let mut desk = Desk::open(engine, 2, 6, 4);
    desk.put(10, 0);
    desk.cut(0, 5, 5, 1);
    desk.cut(0, 0, 5, 2);
    desk.append(1, 2);
    desk.tables(
        &[2, 3, 0, 0],
        &[0, 0, 1, 0],
        &[[1, 0, 0, 10, 0], [1, 0, 5, 5, 3], [1, 0, 0, 5, 0], Z, Z, Z],
        &[3, 0],
    );
    desk.cut(1, 2, 6, (2, 1));
    desk.tables(
        &[2, 3, 5, 0],
        &[0, 0, 1, 0],
        &[
            [1, 0, 0, 10, 0],
            [1, 0, 5, 5, 3],
            [1, 0, 0, 5, 0],
            [1, 0, 7, 3, 5],
            [1, 0, 0, 3, 0],
            Z,
        ],
        &[5, 0],
    );
    desk.reads((2, 1), &[7, 8, 9, 0, 1, 2]);
    desk.free(0);
    desk.free((2, 1));
    desk.drop(1, 5);
    desk.tables(
        &[0, 4, 0, 0],
        &[1, 0, 2, 0],
        &[Z, Z, [1, 0, 0, 5, 0], Z, Z, Z],
        &[1, 0],
    );
}

/// Offset and length are added as whole numbers.
pub fn error_adding_in_32_bits(engine: Engine) {
    let mut desk = Desk::open(engine, 4, 6, 4);
    desk.put(600, 0);
    for (offset, length) in [
        (10, u32::MAX),
        (10, u32::MAX - 9),
        (u32::MAX, 1),
        (u32::MAX, u32::MAX),
        (600, u32::MAX - 599),
        (1 << 31, 1 << 31),
    ] {
        desk.refused(cut(0, offset, length), RANGE);
        desk.refused(read(0, offset, length, 40), RANGE);
    }
}

/// A slip is not kept where no piece is found for the new chain.
pub fn error_keeping_the_slip(engine: Engine) {
    let mut desk = Desk::open(engine, 2, 1, 3);
    desk.put(10, 0);
    desk.refused(dup(0), PIECES);
    desk.refused(cut(0, 0, 5), PIECES);
    desk.refused(Call::Put { data: data(1) }, PIECES);
    desk.tables(&[2, 0, 0], &[0; 3], &[[1, 0, 0, 10, 0]], &[1, 0]);
}

/// Own is judged by the counts at entry; in append, b's reference counts.
pub fn reading_01_own_at_entry(engine: Engine) {
    let mut desk = Desk::open(engine, 3, 8, 4);
    desk.put(1_100, 0);
    desk.dup(0, 1);
    desk.drop(1, 512);
    // Slip 1 heads piece 1, inside the chain of slip 0.
    desk.append(0, 1);
    desk.tables(
        &[2, 0, 0, 0],
        &[0, 1, 0, 0],
        &[
            [1, 0, 0, 512, 4],
            [1, 1, 0, 512, 3],
            [1, 2, 0, 76, 0],
            [1, 1, 0, 512, 5],
            [1, 2, 0, 76, 2],
            Z,
            Z,
            Z,
        ],
        &[1, 2, 2],
    );
    desk.reads(0, &[data(1_100), data(1_100)[512..].to_vec()].concat());
}

/// Replacing releases one old reference, and nothing is freed by it.
pub fn reading_02_one_reference_released(engine: Engine) {
    let mut desk = Desk::open(engine, 4, 10, 4);
    desk.put(1_100, 0);
    desk.put(7, 1);
    desk.dup(0, 2);
    // Three references to piece 1: from pieces 0 and 4, and from slip 3.
    desk.dup(0, 3);
    desk.drop(3, 512);
    desk.append(0, 1);
    desk.tables(
        &[2, 0, 6, 3],
        &[0, 1, 0, 0],
        &[
            [1, 0, 0, 512, 6],
            [2, 1, 0, 512, 3],
            [1, 2, 0, 76, 0],
            [1, 3, 0, 7, 0],
            [1, 0, 0, 512, 2],
            [1, 1, 0, 512, 7],
            [1, 2, 0, 76, 4],
            Z,
            Z,
            Z,
        ],
        &[2, 2, 2, 1],
    );
    desk.reads(0, &[data(1_100), data(7)].concat());
    desk.reads(2, &data(1_100));
    desk.reads(3, &data(1_100)[512..]);
}

/// Drop releases the slip's old head, along next while counts reach 0, and stops where one doesn't.
pub fn reading_03_chain_before_released(engine: Engine) {
    let mut desk = Desk::open(engine, 4, 6, 4);
    desk.put(2_000, 0);
    desk.dup(0, 1);
    desk.drop(1, 512);
    // Pieces 0 → 1 → 2 → 3, and slip 1 heads piece 1.
    desk.drop(0, 1_100);
    desk.tables(
        &[2, 3, 0, 0],
        &[0; 4],
        &[
            [1, 2, 76, 436, 4],
            [1, 1, 0, 512, 3],
            [1, 2, 0, 512, 4],
            [2, 3, 0, 464, 0],
            Z,
            Z,
        ],
        &[0, 1, 2, 1],
    );
    desk.reads(0, &data(2_000)[1_100..]);
    desk.reads(1, &data(2_000)[512..]);

    // A drop inside a shared head releases the slip's old reference too.
    let mut desk = Desk::open(engine, 2, 4, 3);
    desk.put(600, 0);
    desk.dup(0, 1);
    desk.drop(1, 512);
    desk.drop(0, 512);
    desk.tables(&[3, 3, 0], &[0; 3], &[Z, [2, 1, 0, 88, 0], Z, Z], &[0, 1]);
    desk.drop(0, 8);
    desk.tables(
        &[2, 3, 0],
        &[0; 3],
        &[[1, 1, 8, 80, 0], [1, 1, 0, 88, 0], Z, Z],
        &[0, 2],
    );

    // All own: the piece with the cut stays where it is, those before it are free.
    let mut desk = Desk::open(engine, 4, 4, 1);
    desk.put(2_000, 0);
    desk.drop(0, 1_025);
    desk.tables(
        &[4],
        &[0; 1],
        &[Z, Z, [1, 2, 1, 511, 4], [1, 3, 0, 464, 0]],
        &[0, 0, 1, 1],
    );
}

/// Drop at a border before a piece not own wants no piece; two slips may head one piece.
pub fn reading_04_drop_at_border(engine: Engine) {
    let mut desk = Desk::open(engine, 2, 3, 2);
    desk.put(600, 0);
    desk.dup(0, 1);
    assert_eq!(desk.free_pieces(), []);
    desk.drop(1, 512);
    desk.tables(
        &[2, 3],
        &[0; 2],
        &[[1, 0, 0, 512, 2], [2, 1, 0, 88, 0], Z],
        &[1, 1],
    );

    let mut desk = headed_inside(engine);
    desk.refused(drop(1, 1), PIECES);
    desk.drop(2, 512);
    desk.drop(0, 512);
    desk.tables(&[3, 3, 3], &[0; 3], &[Z, [3, 1, 0, 88, 0], Z], &[0, 1]);
    desk.free(0);
    desk.free(2);
    desk.reads(1, &data(600)[512..]);
}

/// Keep on a border replaces the last kept piece where it is not own; pieces beyond never count.
pub fn reading_05_keep_at_border(engine: Engine) {
    for (pieces, done) in [(4, false), (5, true)] {
        let mut desk = Desk::open(engine, 3, pieces, 2);
        desk.put(1_100, 0);
        desk.dup(0, 1);
        if !done {
            desk.refused(keep(0, 1_024), PIECES);
            continue;
        }
        desk.keep(0, 1_024);
        desk.tables(
            &[2, 5],
            &[0; 2],
            &[
                [1, 0, 0, 512, 5],
                [1, 1, 0, 512, 3],
                [1, 2, 0, 76, 0],
                [1, 0, 0, 512, 2],
                [1, 1, 0, 512, 0],
            ],
            &[2, 2, 1],
        );
    }
    // Kept within the own front: nothing is wanted, the rest is released.
    let mut desk = Desk::open(engine, 3, 4, 2);
    desk.put(1_100, 0);
    desk.dup(0, 1);
    desk.keep(0, 512);
    desk.tables(
        &[2, 5],
        &[0; 2],
        &[
            [1, 0, 0, 512, 0],
            [1, 1, 0, 512, 3],
            [1, 2, 0, 76, 0],
            [1, 0, 0, 512, 2],
        ],
        &[2, 1, 1],
    );
    // First not own to last kept: two pieces for two, where two are free.
    let mut desk = Desk::open(engine, 3, 6, 2);
    desk.put(1_100, 0);
    desk.dup(0, 1);
    desk.keep(1, 1_025);
    desk.reads(1, &data(1_025));
    desk.reads(0, &data(1_100));
    assert_eq!(desk.free_pieces(), []);
}

/// Where nothing changes nothing is wanted, even in full tables; codes 2 to 6 are still judged.
pub fn reading_06_nothing_wanted(engine: Engine) {
    let mut desk = Desk::open(engine, 2, 3, 2);
    desk.put(600, 0);
    desk.dup(0, 1);
    for slip in [0, 1] {
        desk.done_unchanged(drop(slip, 0), 0);
        desk.done_unchanged(keep(slip, 600), 0);
        desk.done_unchanged(pullup(slip, 0), 0);
        desk.done_unchanged(pullup(slip, 511), 0);
        desk.done_unchanged(pullup(slip, 512), 0);
    }
    for slip in [2, 3, 65_535] {
        desk.refused(drop(slip, 0), SLIP);
        desk.refused(keep(slip, 0), SLIP);
        desk.refused(pullup(slip, 0), SLIP);
        desk.refused(pack(slip), SLIP);
    }
    desk.refused(keep(0, 601), RANGE);
    desk.refused(drop(0, 601), RANGE);
    desk.refused(pullup(0, 513), LONG);

    // A chain of one piece, shared and at an offset, or of none, stays in pack.
    let mut desk = Desk::open(engine, 1, 2, 3);
    desk.put(10, 0);
    desk.drop(0, 4);
    desk.put(0, 1);
    desk.dup(0, 2);
    assert_eq!(desk.free_pieces(), []);
    desk.done_unchanged(pack(0), 0);
    desk.done_unchanged(pack(1), 0);
    desk.done_unchanged(pullup(0, 6), 0);
    desk.done_unchanged(pullup(1, 0), 0);
    desk.done_unchanged(keep(1, 0), 0);
    desk.done_unchanged(drop(1, 0), 0);
    desk.refused(pullup(0, 7), RANGE);
    desk.refused(pullup(1, 1), RANGE);

    // A torn pool is refused before all else.
    desk.set(5, 2);
    desk.refused(drop(0, 0), TORN);
    desk.refused(pullup(9, 513), TORN);
}

/// Keep of 0 and drop of the whole length leave the slip empty, not vacant.
pub fn reading_07_empty_not_vacant(engine: Engine) {
    let mut desk = Desk::open(engine, 4, 6, 3);
    desk.put(600, 0);
    desk.put(600, 1);
    desk.keep(0, 0);
    desk.drop(1, 600);
    desk.tables(&[1, 1, 0], &[0; 3], &[Z; 6], &[0; 4]);
    desk.length(0, 0);
    desk.length(1, 0);
    desk.put(5, 2);
    desk.refused(Call::Put { data: Vec::new() }, SLIPS);
    desk.free(0);
    desk.refused(length(0), SLIP);
}

/// Append with an empty side wants no piece; a and b may share pieces or head the same one.
pub fn reading_08_append_empty_side(engine: Engine) {
    // No piece free, a shared, b empty: a stays.
    let mut desk = Desk::open(engine, 2, 3, 4);
    desk.put(600, 0);
    desk.dup(0, 1);
    desk.put(0, 2);
    desk.put(0, 3);
    desk.append(0, 2);
    desk.tables(
        &[2, 4, 0, 1],
        &[0, 0, 1, 0],
        &[[1, 0, 0, 512, 2], [2, 1, 0, 88, 0], [1, 0, 0, 512, 2]],
        &[2, 1],
    );
    // a empty: it takes b's head.
    desk.append(3, 0);
    desk.tables(
        &[0, 4, 0, 2],
        &[1, 0, 1, 0],
        &[[1, 0, 0, 512, 2], [2, 1, 0, 88, 0], [1, 0, 0, 512, 2]],
        &[2, 1],
    );
    // Both empty: a stays empty, b is vacant.
    desk.put(0, (0, 1));
    desk.put(0, (2, 1));
    desk.append((2, 1), (0, 1));
    desk.tables(
        &[0, 4, 1, 2],
        &[2, 0, 1, 0],
        &[[1, 0, 0, 512, 2], [2, 1, 0, 88, 0], [1, 0, 0, 512, 2]],
        &[2, 1],
    );

    // Both head the same piece: it is replaced by an equal one that points at it.
    let mut desk = Desk::open(engine, 2, 3, 2);
    desk.put(600, 0);
    desk.dup(0, 1);
    desk.drop(0, 512);
    desk.drop(1, 512);
    desk.append(1, 0);
    desk.tables(
        &[0, 2],
        &[1, 0],
        &[[1, 1, 0, 88, 2], [1, 1, 0, 88, 0], Z],
        &[0, 2],
    );
    // Both share their tail.
    let mut desk = Desk::open(engine, 2, 4, 2);
    desk.put(600, 0);
    desk.dup(0, 1);
    desk.append(0, 1);
    desk.tables(
        &[2, 0],
        &[0, 1],
        &[
            [1, 0, 0, 512, 4],
            [1, 1, 0, 88, 0],
            [1, 0, 0, 512, 2],
            [1, 1, 0, 88, 3],
        ],
        &[2, 2],
    );
    desk.reads(0, &[data(600), data(600)].concat());
}

/// A chain of two pieces of 10 bytes each, on buffers 0 and 1, headed by slip 0.
fn two_tens(engine: Engine, buffers: u16, pieces: u16, slips: u16) -> Desk {
    let mut desk = Desk::open(engine, buffers, pieces, slips);
    desk.put(10, 0);
    desk.put(10, 1);
    desk.append(0, 1);
    desk
}

/// A full table in which slip 1 heads piece 1, on which the chains of slips 0 and 2 end.
fn headed_inside(engine: Engine) -> Desk {
    let mut desk = Desk::open(engine, 2, 3, 3);
    desk.put(600, 0);
    desk.dup(0, 1);
    desk.drop(1, 512);
    desk.dup(0, 2);
    assert_eq!(desk.free_pieces(), []);
    desk
}

/// Pullup of the whole chain leaves one piece; two are wanted only inside a piece not own.
pub fn reading_09_pullup_wants(engine: Engine) {
    let twice = [data(10), data(10)].concat();
    let mut desk = two_tens(engine, 3, 3, 2);
    desk.pullup(0, 20);
    desk.tables(&[2, 0], &[0, 1], &[[1, 2, 0, 20, 0], Z, Z], &[0, 0, 1]);
    desk.buffer_holds(2, &twice);

    // Inside an own piece: one.
    let mut desk = two_tens(engine, 3, 3, 2);
    desk.pullup(0, 15);
    desk.tables(
        &[2, 0],
        &[0, 1],
        &[[1, 2, 0, 15, 2], [1, 1, 5, 5, 0], Z],
        &[0, 1, 1],
    );

    // Inside a piece not own: two, the front with the lower number.
    let mut desk = two_tens(engine, 3, 3, 2);
    desk.dup(0, (1, 1));
    desk.refused(pullup(0, 15), PIECES);
    let mut desk = two_tens(engine, 3, 4, 2);
    desk.dup(0, (1, 1));
    desk.pullup(0, 15);
    desk.tables(
        &[2, 4],
        &[0, 1],
        &[
            [1, 2, 0, 15, 4],
            [1, 1, 0, 10, 0],
            [1, 0, 0, 10, 2],
            [1, 1, 5, 5, 0],
        ],
        &[1, 2, 1],
    );
    desk.reads(0, &twice);
    desk.reads((1, 1), &twice);

    // At a border before a piece not own: one, which points at the shared piece.
    let mut desk = Desk::open(engine, 4, 5, 4);
    desk.put(10, 0);
    desk.put(10, 1);
    desk.put(10, 2);
    desk.append(1, 2);
    desk.append(0, 1);
    desk.dup(0, (1, 1));
    desk.drop((1, 1), 20);
    desk.tables(
        &[2, 4, 0, 0],
        &[0, 1, 1, 0],
        &[[1, 0, 0, 10, 2], [1, 1, 0, 10, 3], [2, 2, 0, 10, 0], Z, Z],
        &[1, 1, 1, 0],
    );
    desk.put(0, (2, 1));
    desk.dup((1, 1), 3);
    desk.pullup(0, 20);
    desk.tables(
        &[2, 4, 1, 5],
        &[0, 1, 1, 0],
        &[[1, 3, 0, 20, 3], Z, [2, 2, 0, 10, 0], [1, 2, 0, 10, 0], Z],
        &[0, 0, 2, 1],
    );
    desk.reads(0, &[twice, data(10)].concat());
}

/// Pack puts a packed chain afresh too, takes no room that it gives back, and never answers 8.
pub fn reading_10_pack_afresh(engine: Engine) {
    let mut desk = Desk::open(engine, 4, 4, 1);
    desk.put(600, 0);
    desk.pack(0);
    desk.tables(
        &[4],
        &[0; 1],
        &[Z, Z, [1, 2, 0, 512, 4], [1, 3, 0, 88, 0]],
        &[0, 0, 1, 1],
    );
    desk.reads(0, &data(600));

    let mut desk = Desk::open(engine, 3, 4, 1);
    desk.put(600, 0);
    desk.refused(pack(0), BUFFERS);
    let mut desk = Desk::open(engine, 4, 3, 1);
    desk.put(600, 0);
    desk.refused(pack(0), PIECES);

    // What another slip still reaches stays when the old chain is released.
    let mut desk = Desk::open(engine, 4, 5, 2);
    desk.put(600, 0);
    desk.dup(0, 1);
    desk.pack(1);
    desk.tables(
        &[2, 5],
        &[0; 2],
        &[
            [1, 0, 0, 512, 2],
            [1, 1, 0, 88, 0],
            Z,
            [1, 2, 0, 512, 5],
            [1, 3, 0, 88, 0],
        ],
        &[1, 1, 1, 1],
    );
}

/// Dup's new piece has count 1; cut takes one new piece for each overlapped one, to the end too.
pub fn reading_11_dup_and_cut(engine: Engine) {
    let mut desk = Desk::open(engine, 3, 8, 6);
    desk.put(1_100, 0);
    desk.dup(0, 1);
    desk.drop(0, 512);
    // Slip 0 heads piece 1 of count 2.
    desk.dup(0, 2);
    desk.tables(
        &[3, 5, 2, 0, 0, 0],
        &[0; 6],
        &[
            [1, 1, 0, 512, 3],
            [2, 1, 0, 512, 3],
            [2, 2, 0, 76, 0],
            [1, 0, 0, 512, 2],
            Z,
            Z,
            Z,
            Z,
        ],
        &[1, 2, 1],
    );
    // Up to the chain's end: the tail is not shared. From 512: the first piece is only touched.
    desk.cut(1, 512, 588, 3);
    desk.tables(
        &[3, 5, 2, 6, 0, 0],
        &[0; 6],
        &[
            [1, 1, 0, 512, 3],
            [2, 1, 0, 512, 3],
            [2, 2, 0, 76, 0],
            [1, 0, 0, 512, 2],
            [1, 1, 0, 512, 6],
            [1, 2, 0, 76, 0],
            Z,
            Z,
        ],
        &[1, 3, 2],
    );
    desk.cut(1, 0, 512, 4);
    desk.cut(1, 511, 1, 5);
    desk.reads(4, &data(512));
    desk.reads(5, &data(512)[511..]);
    assert_eq!(desk.free_pieces(), []);
    // An empty chain needs no piece.
    desk.keep(2, 0);
    desk.free(5);
    desk.dup(2, (5, 1));
    desk.length((5, 1), 0);
}

/// Pieces and buffers are chosen each by itself, lowest first, in chain order.
pub fn reading_12_numbers_taken(engine: Engine) {
    let mut desk = Desk::open(engine, 4, 6, 4);
    desk.put(10, 0);
    desk.dup(0, 1);
    desk.put(10, 2);
    desk.put(10, 3);
    // Piece 1 lies on buffer 0, piece 2 on 1, piece 3 on 2.
    desk.free(1);
    desk.free(2);
    desk.put(600, (1, 1));
    desk.tables(
        &[2, 3, 0, 5],
        &[0, 1, 1, 0],
        &[
            [1, 0, 0, 10, 0],
            [1, 1, 0, 512, 3],
            [1, 3, 0, 88, 0],
            [1, 2, 0, 10, 0],
            Z,
            Z,
        ],
        &[1, 1, 1, 1],
    );
    desk.buffer_holds(1, &data(512));
    desk.buffer_holds(3, &data(600)[512..]);
}

/// Where several codes apply, the lowest is given.
pub fn reading_13_order_of_codes(engine: Engine) {
    // Slips, pieces and buffers all full: 8; with a slip vacant: 9.
    let mut desk = Desk::open(engine, 2, 2, 1);
    desk.put(600, 0);
    desk.refused(Call::Put { data: data(1) }, SLIPS);
    desk.refused(Call::Put { data: data(0) }, SLIPS);
    desk.refused(dup(0), SLIPS);
    desk.refused(dup(1), SLIP);
    desk.refused(cut(0, 0, 1), SLIPS);
    desk.refused(cut(0, 0, 0), SLIPS);
    desk.refused(cut(0, 0, 601), RANGE);
    desk.refused(cut(1, 0, 601), SLIP);
    desk.refused(pack(0), PIECES);
    desk.refused(pullup(0, 513), LONG);

    let mut desk = Desk::open(engine, 2, 2, 2);
    desk.put(600, 0);
    desk.refused(Call::Put { data: data(1) }, PIECES);
    desk.refused(dup(0), PIECES);
    desk.refused(cut(0, 0, 1), PIECES);
    // Put of no data wants a slip only, cut of length 0 too, at any offset up to the length.
    for (times, offset) in (0..).zip([0, 1, 512, 599, 600]) {
        desk.cut(0, offset, 0, (1, times));
        desk.length((1, times), 0);
        desk.free((1, times));
    }
    desk.put(0, (1, 5));

    // Pullup: 5 before 6, 6 before 9, 9 before 10.
    let mut desk = two_tens(engine, 2, 3, 2);
    desk.refused(pullup(1, 513), SLIP);
    desk.refused(pack(0), BUFFERS);
    desk.dup(0, (1, 1));
    desk.refused(pullup(0, 513), LONG);
    desk.refused(pullup(0, 21), RANGE);
    desk.refused(pullup(0, 15), PIECES);
    desk.refused(pullup(0, 20), BUFFERS);
    desk.refused(pack(0), PIECES);

    // Drop: 3 and 6 before 9.
    let mut desk = headed_inside(engine);
    desk.refused(drop(3, 89), SLIP);
    desk.refused(drop(1, 89), RANGE);
    desk.refused(drop(1, 87), PIECES);

    // Append and keep: 3, 4 and 6 before 9.
    let mut desk = Desk::open(engine, 3, 4, 3);
    desk.put(600, 0);
    desk.dup(0, 1);
    desk.put(1, 2);
    desk.refused(append(0, 3), SLIP);
    desk.refused(append(3, 0), SLIP);
    desk.refused(append(0, 0), SAME);
    desk.refused(append(0, 2), PIECES);
    desk.refused(keep(0, 601), RANGE);
    desk.refused(keep(0, 599), PIECES);

    // A torn pool comes first, for every call but open.
    desk.pool[0] = 0;
    for call in [
        Call::Audit,
        Call::Put { data: data(9_999) },
        free(9),
        dup(9),
        cut(9, 1_000, 1_000),
        append(9, 9),
        drop(9, 9_999),
        keep(9, 9_999),
        pullup(9, 9_999),
        pack(9),
        length(9),
        read(9, 9_999, 9_999, 4),
        show(9, 9_999, 4),
        list(9, 4),
        stretches(9, 4),
    ] {
        desk.refused(call, TORN);
    }
}

/// Append of one number twice: 3 if S or more or vacant, 4 if held, also where empty.
pub fn reading_14_append_twice(engine: Engine) {
    let mut desk = Desk::open(engine, 1, 1, 3);
    desk.put(1, 0);
    desk.put(0, 1);
    for (slip, code) in [(0, SAME), (1, SAME), (2, SLIP), (3, SLIP), (65_535, SLIP)] {
        desk.refused(append(slip, slip), code);
    }
    desk.refused(append(0, 2), SLIP);
    desk.refused(append(2, 0), SLIP);
}

/// Read judges 6 before 7; show copies, and judges the scratch, only where it must.
pub fn reading_15_read_and_show(engine: Engine) {
    let mut desk = Desk::open(engine, 3, 4, 3);
    desk.put(600, 0);
    desk.put(0, 1);
    let d = data(600);
    desk.refused(read(2, 0, 0, 0), SLIP);
    desk.refused(read(0, 600, 1, 0), RANGE);
    desk.refused(read(0, 601, 0, 0), RANGE);
    desk.refused(read(0, 599, 1, 0), NARROW);
    desk.refused(read(0, 0, 600, 599), NARROW);
    desk.done_unchanged(read(0, 0, 0, 0), 0);
    desk.done_unchanged(read(0, 600, 0, 0), 0);
    desk.done_unchanged(read(1, 0, 0, 0), 0);
    desk.refused(read(1, 1, 0, 0), RANGE);
    let outcome = desk.done_unchanged(read(0, 505, 20, 22), 20);
    assert_eq!(outcome.lent[..20], d[505..525]);
    assert_eq!(outcome.lent[20..], [0x99; 2]);
    let outcome = desk.done_unchanged(read(0, 0, 600, 600), 600);
    assert_eq!(outcome.lent, d);

    // Nothing to show: the empty start of storage, for any held slip.
    for (slip, scratch) in [(0, 0), (0, 9), (1, 0), (1, 9)] {
        let outcome = desk.done_unchanged(show(slip, 0, scratch), 0);
        assert_eq!(outcome.view, NO_VIEW);
        assert_eq!(outcome.lent, vec![0x99; scratch]);
    }
    desk.refused(show(2, 0, 0), SLIP);
    desk.refused(show(1, 1, 9), RANGE);
    desk.refused(show(0, 513, 600), LONG);

    // The first piece has the bytes: a part of storage, the scratch not judged nor changed.
    for scratch in [0, 511, 600] {
        let outcome = desk.done_unchanged(show(0, 512, scratch), 512);
        assert_eq!(outcome.view, NO_VIEW);
        assert_eq!(outcome.lent, vec![0x99; scratch]);
    }
    desk.drop(0, 500);
    let outcome = desk.done_unchanged(show(0, 12, 0), 12);
    let in_storage = View {
        in_scratch: false,
        start: 500,
    };
    assert_eq!(outcome.view, in_storage);

    // Otherwise they are copied to the front of the scratch, if it takes them.
    desk.refused(show(0, 13, 12), NARROW);
    desk.refused(show(0, 101, 12), RANGE);
    let outcome = desk.done_unchanged(show(0, 13, 15), 13);
    let in_scratch = View {
        in_scratch: true,
        start: 0,
    };
    assert_eq!(outcome.view, in_scratch);
    assert_eq!(outcome.lent[..13], d[500..513]);
    assert_eq!(outcome.lent[13..], [0x99; 2]);

    // In another buffer the view starts at 512 times its number and the offset.
    desk.drop(0, 20);
    let outcome = desk.done_unchanged(show(0, 80, 0), 80);
    let in_storage = View {
        in_scratch: false,
        start: 520,
    };
    assert_eq!(outcome.view, in_storage);
}

/// All sums are whole numbers, a piece's offset + length in soundness too.
pub fn reading_16_whole_numbers(engine: Engine) {
    let mut desk = Desk::open(engine, 1, 1, 1);
    desk.put(12, 0);
    // The piece is at 15: count, buffer, offset at 19, length at 21, next.
    for (offset, bytes, code) in [
        (500, 12, 0),
        (501, 12, TORN),
        (0, 512, 0),
        (0, 513, TORN),
        (511, 1, 0),
        (512, 1, TORN),
        (512, 0, TORN),
        (65_535, 1, TORN),
        (65_535, 2, TORN),
        (65_524, 12, TORN),
        (1, 65_535, TORN),
        (65_535, 65_535, TORN),
    ] {
        desk.set(19, offset);
        desk.set(21, bytes);
        if code == 0 {
            desk.done_unchanged(Call::Audit, 0);
            desk.length(0, bytes as u64);
        } else {
            desk.refused(Call::Audit, code);
            desk.refused(length(0), code);
        }
    }
}

/// Lengths are exact; counts out of range are torn; open never looks at old bytes.
pub fn reading_17_exact_lengths(engine: Engine) {
    let opening = |buffers, pieces, slips| Call::Open {
        buffers,
        pieces,
        slips,
    };
    for (more_pool, more_storage) in [(1, 0), (-1, 0), (0, 1), (0, -1), (1, 1), (0, 512)] {
        let mut desk = Desk::open(engine, 4, 6, 4);
        desk.pool.resize((95 + more_pool) as usize, 0);
        desk.storage.resize((2_048 + more_storage) as usize, 0);
        desk.refused(Call::Audit, TORN);
        desk.refused(Call::Put { data: data(1) }, TORN);
        desk.refused(length(0), TORN);
        desk.refused(opening(4, 6, 4), COUNTS);
    }
    for (buffers, pieces, slips) in [
        (0, 6, 4),
        (4, 0, 4),
        (4, 6, 0),
        (MOST.0 as usize + 1, 6, 4),
        (4, MOST.1 as usize + 1, 4),
        (4, 6, MOST.2 as usize + 1),
        (0, 0, 0),
        (65_535, 1, 1),
    ] {
        let mut pool = b"SLP".to_vec();
        for word in [2, buffers, pieces, slips] {
            pool.extend((word as u16).to_le_bytes());
        }
        pool.resize(11 + 4 * slips + 10 * pieces + 2 * buffers, 0);
        let mut desk = Desk {
            engine,
            pool,
            storage: vec![0xEE; 512 * buffers],
        };
        desk.refused(Call::Audit, TORN);
        desk.refused(opening(buffers as u16, pieces as u16, slips as u16), COUNTS);
    }
    // Opened over another pool, over noise, and with other counts of the same length.
    let mut desk = Desk::open(engine, 4, 6, 4);
    desk.put(600, 0);
    let storage = desk.storage.clone();
    desk.done(opening(4, 6, 4), 0);
    desk.tables(&[0; 4], &[0; 4], &[Z; 6], &[0; 4]);
    desk.pool.fill(0xFF);
    desk.done(opening(4, 4, 9), 0);
    desk.tables(&[0; 9], &[0; 9], &[Z; 4], &[0; 4]);
    assert_eq!(desk.storage, storage);
    desk.refused(opening(4, 6, 5), COUNTS);
    desk.refused(opening(3, 6, 5), COUNTS);
}

/// A ring that no slip heads satisfies every count and is refused; two chains that meet are sound.
pub fn reading_18_rings(engine: Engine) {
    // Pieces at 15 + 10 d, buffer counts at 65.
    let piece = |desk: &mut Desk, d: usize, fields: [u16; 5]| {
        for (i, field) in fields.iter().enumerate() {
            desk.set(15 + 10 * d + 2 * i, *field);
        }
    };
    for ring in [vec![1], vec![1, 2], vec![4, 2, 3], vec![1, 4, 3, 2]] {
        let mut desk = Desk::open(engine, 2, 5, 1);
        desk.put(10, 0);
        for (i, d) in ring.iter().enumerate() {
            let next = ring[(i + 1) % ring.len()] as u16;
            piece(&mut desk, *d, [1, 1, 0, 5, 1 + next]);
        }
        desk.set(67, ring.len() as u16);
        desk.refused(Call::Audit, TORN);
        desk.refused(length(0), TORN);
        desk.refused(free(0), TORN);
    }
    // A chain that leads back into itself, every count agreeing.
    let mut desk = Desk::open(engine, 2, 5, 1);
    desk.put(600, 0);
    piece(&mut desk, 1, [2, 1, 0, 88, 2]);
    desk.refused(Call::Audit, TORN);
    desk.refused(length(0), TORN);
    // Two chains that meet in one piece.
    let mut desk = Desk::open(engine, 2, 5, 2);
    desk.put(600, 0);
    desk.dup(0, 1);
    desk.done_unchanged(Call::Audit, 0);
    desk.reads(0, &data(600));
    desk.reads(1, &data(600));
}

/// Put, pullup and pack fill buffers free at entry only, lowest first and whole: data, then zeros.
pub fn reading_19_filled_whole(engine: Engine) {
    let mut desk = Desk::open(engine, 6, 8, 4);
    desk.put(1_024, 0);
    desk.buffer_holds(0, &data(512));
    desk.buffer_holds(1, &data(1_024)[512..]);
    assert_eq!(desk.storage[1_024..], [0xEE; 2_048]);
    desk.free(0);
    // Old bytes past the new data are zeroed, in that buffer only.
    desk.storage[..1_024].fill(0xDD);
    desk.put(3, (0, 1));
    desk.buffer_holds(0, &data(3));
    assert_eq!(desk.storage[512..1_024], [0xDD; 512]);
    assert_eq!(desk.storage[1_024..], [0xEE; 2_048]);
    desk.put(3, 1);
    desk.buffer_holds(1, &data(3));
    desk.append((0, 1), 1);
    // Pullup fills one buffer and pack two, whatever they held.
    desk.pullup((0, 1), 4);
    desk.buffer_holds(2, &[0, 1, 2, 0]);
    assert_eq!(desk.storage[1_536..], [0xEE; 1_536]);
    desk.put(510, (1, 1));
    desk.buffer_holds(0, &data(510));
    desk.append((0, 1), (1, 1));
    desk.storage[1_536..2_048].fill(0xDD);
    desk.pack((0, 1));
    let bytes = [data(3), data(3), data(510)].concat();
    desk.buffer_holds(3, &bytes[..512]);
    desk.buffer_holds(4, &bytes[512..]);
    assert_eq!(desk.storage[2_560..], [0xEE; 512]);
    desk.reads((0, 1), &bytes);
    // The others write no storage, but for what they give back: here nothing.
    let storage = desk.storage.clone();
    desk.dup((0, 1), (1, 2));
    desk.cut((0, 1), 1, 4, 2);
    desk.append((0, 1), 2);
    desk.keep((0, 1), 517);
    desk.drop((0, 1), 2);
    desk.free((0, 1));
    assert_eq!(desk.storage, storage);
}

/// Empty slices are lent like any others.
pub fn reading_20_empty_slices(engine: Engine) {
    let mut nothing = Desk {
        engine,
        pool: Vec::new(),
        storage: Vec::new(),
    };
    nothing.refused(Call::Audit, TORN);
    nothing.refused(Call::Put { data: Vec::new() }, TORN);
    nothing.refused(read(0, 0, 0, 0), TORN);
    nothing.refused(show(0, 0, 0), TORN);
    nothing.refused(list(0, 0), TORN);
    nothing.refused(stretches(0, 0), TORN);
    nothing.done_unchanged(gather(&[], 0), 0);
    nothing.refused(
        Call::Open {
            buffers: 0,
            pieces: 0,
            slips: 0,
        },
        COUNTS,
    );
    let mut desk = Desk::open(engine, 1, 1, 1);
    desk.put(0, 0);
    desk.tables(&[1], &[0; 1], &[Z], &[0]);
    desk.done_unchanged(read(0, 0, 0, 0), 0);
    desk.done_unchanged(show(0, 0, 0), 0);
    desk.done_unchanged(list(0, 0), 0);
    desk.done_unchanged(stretches(0, 0), 0);
}

/// The serials of the slips in `scattered`: all but the last were vacated once.
const SCATTERED: [u16; 4] = [1, 1, 1, 0];

/// Slip 3 heads pieces 3 → 1 → 2 of 10 bytes each, slip 0 heads piece 2; pieces 4 and 5 are free, and 0 where it isn't asked for.
fn scattered(engine: Engine, asked: bool) -> Desk {
    let mut desk = Desk::open(engine, 5, 6, 4);
    for slip in 0..4 {
        desk.put(10, slip);
    }
    desk.append(3, 1);
    desk.append(3, 2);
    desk.free(0);
    desk.dup(3, (0, 1));
    desk.drop((0, 1), 20);
    if asked {
        desk.dup((0, 1), (1, 1));
    }
    let first = if asked { [1, 2, 0, 10, 0] } else { Z };
    desk.tables(
        &[4, if asked { 2 } else { 0 }, 0, 5],
        &SCATTERED,
        &[
            first,
            [1, 1, 0, 10, 3],
            [2, 2, 0, 10, 0],
            [1, 3, 0, 10, 2],
            Z,
            Z,
        ],
        &[0, 1, if asked { 2 } else { 1 }, 1, 0],
    );
    desk
}

/// Drop and pullup take the lowest of what is free and of the own pieces in front of what stays.
pub fn reading_31_front_given_back(engine: Engine) {
    let bytes = data(10).repeat(3);
    // Drop takes one: free at entry, or given back with the piece behind the head.
    let mut desk = scattered(engine, false);
    desk.drop(3, 25);
    desk.tables(
        &[4, 0, 0, 2],
        &SCATTERED,
        &[[1, 2, 5, 5, 0], Z, [1, 2, 0, 10, 0], Z, Z, Z],
        &[0, 0, 2, 0, 0],
    );
    let mut desk = scattered(engine, true);
    desk.drop(3, 25);
    desk.tables(
        &[4, 2, 0, 3],
        &SCATTERED,
        &[[1, 2, 0, 10, 0], [1, 2, 5, 5, 0], [1, 2, 0, 10, 0], Z, Z, Z],
        &[0, 0, 3, 0, 0],
    );
    desk.reads(3, &bytes[25..]);

    // Pullup takes two: one free at entry and one given back, or both given back.
    let mut desk = scattered(engine, false);
    desk.pullup(3, 25);
    desk.tables(
        &[4, 0, 0, 2],
        &SCATTERED,
        &[[1, 0, 0, 25, 2], [1, 2, 5, 5, 0], [1, 2, 0, 10, 0], Z, Z, Z],
        &[1, 0, 2, 0, 0],
    );
    let mut desk = scattered(engine, true);
    desk.pullup(3, 25);
    desk.tables(
        &[4, 2, 0, 3],
        &SCATTERED,
        &[
            [1, 2, 0, 10, 0],
            [1, 0, 0, 25, 4],
            [1, 2, 0, 10, 0],
            [1, 2, 5, 5, 0],
            Z,
            Z,
        ],
        &[1, 0, 3, 0, 0],
    );
    desk.reads(3, &bytes);

    // An own piece that stays is not given back: the front takes the old head's number.
    let mut desk = scattered(engine, true);
    desk.pullup(3, 12);
    desk.tables(
        &[4, 2, 0, 5],
        &SCATTERED,
        &[
            [1, 2, 0, 10, 0],
            [1, 1, 2, 8, 3],
            [2, 2, 0, 10, 0],
            [1, 0, 0, 12, 2],
            Z,
            Z,
        ],
        &[1, 1, 2, 0, 0],
    );
    desk.reads(3, &bytes);

    // At a border, and of the whole chain: the shared piece stays to the other slip.
    let mut desk = scattered(engine, true);
    desk.pullup(3, 20);
    desk.pullup(3, 30);
    desk.tables(
        &[4, 2, 0, 3],
        &SCATTERED,
        &[
            [1, 2, 0, 10, 0],
            [1, 1, 0, 30, 0],
            [1, 2, 0, 10, 0],
            Z,
            Z,
            Z,
        ],
        &[0, 1, 2, 0, 0],
    );
    desk.reads(3, &bytes);

    // A shared head gives nothing back, nor does a piece of count 1 behind it.
    let mut desk = Desk::open(engine, 4, 4, 2);
    desk.put(1_100, 0);
    desk.dup(0, 1);
    desk.drop(1, 512);
    desk.drop(1, 520);
    desk.tables(
        &[2, 5],
        &[0; 2],
        &[
            [1, 0, 0, 512, 2],
            [1, 1, 0, 512, 3],
            [1, 2, 0, 76, 0],
            [1, 2, 8, 68, 0],
        ],
        &[1, 1, 2, 0],
    );
    let mut desk = Desk::open(engine, 4, 4, 3);
    desk.put(1_100, 0);
    desk.dup(0, 1);
    desk.drop(1, 512);
    desk.dup(0, 2);
    desk.refused(drop(1, 8), PIECES);
    desk.refused(drop(1, 520), PIECES);
}

/// Code 9 is judged by what is given back too, code 10 is not; keep, append and pack take only what is free at entry.
pub fn reading_32_room_in_front(engine: Engine) {
    let mut desk = Desk::open(engine, 3, 3, 2);
    desk.put(600, 0);
    desk.dup(0, 1);
    assert_eq!(desk.free_pieces(), []);
    desk.refused(keep(0, 520), PIECES);
    desk.refused(append(0, 1), PIECES);
    desk.refused(pack(0), PIECES);
    desk.drop(0, 520);
    desk.tables(
        &[2, 4],
        &[0; 2],
        &[[1, 1, 8, 80, 0], [1, 1, 0, 88, 0], [1, 0, 0, 512, 2]],
        &[1, 2, 0],
    );

    // One given back and two wanted: refused, until one is free.
    let mut desk = two_tens(engine, 3, 4, 3);
    desk.dup(0, (1, 1));
    desk.put(1, 2);
    desk.refused(pullup(0, 15), PIECES);
    desk.free(2);
    desk.pullup(0, 15);
    assert_eq!(desk.free_pieces(), []);

    // The buffers given back are no room, of the whole chain neither.
    for n in [15, 20] {
        let mut desk = two_tens(engine, 2, 2, 2);
        desk.refused(pullup(0, n), BUFFERS);
    }
}

/// Pullup copies to a buffer free at entry, although lower ones are given back, and before these are cleaned.
pub fn reading_33_copied_first(engine: Engine) {
    let mut desk = two_tens(engine, 3, 2, 2);
    assert_eq!(desk.free_pieces(), []);
    desk.pullup(0, 20);
    desk.tables(&[2, 0], &[0, 1], &[[1, 2, 0, 20, 0], Z], &[0, 0, 1]);
    desk.buffer_holds(2, &data(10).repeat(2));
    assert_eq!(desk.storage[..1_024], [0; 1_024]);
}

/// The largest pool with every piece in use: drop and pullup done and refused, each with all its tables.
pub fn full_table_of_the_largest(engine: Engine) {
    let buffers = MOST.0 as u16;
    let stored = buffers - 2;
    let whole = 512 * stored as u32;
    let mut desk = Desk::open(engine, buffers, P, S);
    desk.put(whole as usize, 0);
    desk.cut(0, 0, whole, 1);
    desk.dup(0, 2);
    desk.cut(0, 500, 24, 3);
    desk.dup(3, 4);
    assert_eq!(desk.free_pieces(), []);

    // Two chains over all that is stored, and from `last` on 2,044 → 1, 2,045 → 2,046 and 2,047 → 2,046.
    let last = 2 * stored as usize;
    assert_eq!(last, 2_044);
    let full = |d: u16| {
        [
            1,
            d % stored,
            0,
            512,
            if d % stored == stored - 1 { 0 } else { d + 2 },
        ]
    };
    let mut pieces: Vec<[u16; 5]> = (0..2 * stored).map(full).collect();
    pieces.push([1, 0, 0, 512, 2]);
    pieces.push([1, 0, 500, 12, 2_047]);
    pieces.push([2, 1, 0, 12, 0]);
    pieces.push([1, 0, 500, 12, 2_047]);
    pieces[1][0] = 2;
    let serials = vec![0; S as usize];
    let mut slips = serials.clone();
    slips[..5].copy_from_slice(&[2, stored + 2, 2_046, 2_047, 2_049]);
    let mut counts = vec![2; buffers as usize];
    counts[stored as usize..].fill(0);
    counts[0] = 5;
    counts[1] = 3;
    desk.tables(&slips, &serials, &pieces, &counts);

    // One given back, two wanted and one.
    desk.refused(pullup(3, 20), PIECES);
    desk.pullup(3, 24);
    pieces[last + 1] = [1, stored, 0, 24, 0];
    pieces[last + 2][0] = 1;
    counts[0] = 4;
    counts[stored as usize] = 1;
    desk.tables(&slips, &serials, &pieces, &counts);
    desk.reads(3, &data(524)[500..]);

    // Inside piece 1, which is shared, behind the last pieces' own one.
    desk.drop(2, 520);
    pieces[last] = [1, 1, 8, 504, 3];
    pieces[1][0] = 1;
    pieces[2][0] = 2;
    counts[0] = 3;
    counts[1] = 4;
    desk.tables(&slips, &serials, &pieces, &counts);

    // Inside piece 2, shared now, behind two own ones, of which the lower number is taken.
    desk.drop(0, 1_030);
    pieces[0] = [1, 2, 6, 506, 4];
    pieces[1] = Z;
    pieces[2][0] = 1;
    pieces[3][0] = 2;
    counts[0] = 2;
    counts[1] = 3;
    counts[2] = 3;
    desk.tables(&slips, &serials, &pieces, &counts);

    // A shared head gives nothing back, in the full table again.
    desk.drop(0, 506);
    desk.dup(0, 5);
    desk.dup(5, 6);
    assert_eq!(desk.free_pieces(), []);
    desk.refused(drop(0, 1), PIECES);
    desk.reads(0, &data(whole as usize)[1_536..]);
}

/// The longest list, all on one buffer, and the last byte of the largest storage.
pub fn list_of_the_largest(engine: Engine) {
    let mut desk = doubled(engine);
    let records = P as usize;
    desk.lists(0, &[0, 512].repeat(records));
    desk.refused(list(0, 2 * records - 1), NARROW);
    desk.refused(stretches(0, records - 1), NARROW);

    let buffers = MOST.0 as u32;
    let mut desk = Desk::open(engine, MOST.0 as u16, P, 2);
    desk.put(512 * MOST.0 as usize, 0);
    let whole: Vec<u32> = (0..buffers).flat_map(|b| [512 * b, 512]).collect();
    desk.lists(0, &whole);
    let last = 512 * buffers - 1;
    desk.drop(0, last);
    desk.lists(0, &[last, 1]);
}

/// A list too short for all records is left alone; a lone last number is no record, and stays.
pub fn list_too_short(engine: Engine) {
    let mut desk = morning::after(engine, 1);
    let wanted = MORNING[0].chains[0].list;
    let (numbers, records) = (wanted.len(), wanted.len() / 2);
    for short in 0..numbers {
        desk.refused(list(0, short), NARROW);
    }
    for short in 0..records {
        desk.refused(stretches(0, short), NARROW);
    }
    for spare in 0..4 {
        let outcome = desk.done_unchanged(list(0, numbers + spare), records as u64);
        assert_eq!(outcome.list, [wanted, &[OLD; 3][..spare]].concat());
    }
    for spare in 0..2 {
        let outcome = desk.done_unchanged(stretches(0, records + spare), records as u64);
        assert_eq!(outcome.list, [wanted, &[OLD; 2][..2 * spare]].concat());
    }
}

/// An empty chain has no records, and any list takes them.
pub fn list_of_nothing(engine: Engine) {
    let mut desk = Desk::open(engine, 4, 6, 4);
    desk.put(0, 0);
    desk.put(5, 1);
    desk.keep(1, 0);
    for slip in [0, 1] {
        for length in 0..4 {
            let outcome = desk.done_unchanged(list(slip, length), 0);
            assert_eq!(outcome.list, vec![OLD; length]);
            let outcome = desk.done_unchanged(stretches(slip, length), 0);
            assert_eq!(outcome.list, vec![OLD; 2 * length]);
        }
    }
}

/// 2 before 3 before 7; what has no chain is never too long for a list.
pub fn list_order_of_codes(engine: Engine) {
    let mut desk = Desk::open(engine, 4, 6, 4);
    desk.put(600, 0);
    for slip in [1, 3, 4, 65_535] {
        for length in [0, 1, 4] {
            desk.refused(list(slip, length), SLIP);
            desk.refused(stretches(slip, length), SLIP);
        }
    }
    desk.refused(list(0, 3), NARROW);
    desk.refused(stretches(0, 1), NARROW);
    desk.pool[0] = 0;
    for slip in [0, 1, 4] {
        for length in [0, 3, 4] {
            desk.refused(list(slip, length), TORN);
            desk.refused(stretches(slip, length), TORN);
        }
    }
}

/// Records may overlap, repeat and run backwards; no record copies nothing.
pub fn gather_repeats(engine: Engine) {
    let mut desk = Desk::open(engine, 1, 1, 1);
    desk.put(512, 0);
    let outcome = desk.done_unchanged(gather(&[3, 2, 2, 3, 3, 2, 0, 1], 9), 8);
    assert_eq!(outcome.lent, [3, 4, 2, 3, 4, 3, 4, 0, 0x99]);
    let outcome = desk.done_unchanged(gather(&[0, 512].repeat(100), 51_201), 51_200);
    assert_eq!(outcome.lent[..51_200], data(512).repeat(100));
    assert_eq!(outcome.lent[51_200], 0x99);
    // The last byte, and the lone number behind it, which is no record.
    for lone in [0, 511, 512, u32::MAX] {
        let outcome = desk.done_unchanged(gather(&[511, 1, lone], 2), 1);
        assert_eq!(outcome.lent, [9, 0x99]);
        let outcome = desk.done_unchanged(gather(&[lone], 2), 0);
        assert_eq!(outcome.lent, [0x99; 2]);
    }
    for output in [0, 1] {
        let outcome = desk.done_unchanged(gather(&[], output), 0);
        assert_eq!(outcome.lent, vec![0x99; output]);
    }
}

/// A record of no length, wherever it stands, or one that leaves storage, if only by a byte.
pub fn gather_refuses_records(engine: Engine) {
    let mut desk = Desk::open(engine, 1, 1, 1);
    desk.put(512, 0);
    for position in [0, 511, 512, 513, u32::MAX] {
        desk.refused(gather(&[position, 0], 0), LIST);
        desk.refused(gather(&[position, 0], 9), LIST);
        desk.refused(gather(&[0, 1, position, 0, 0, 1], 9), LIST);
    }
    for record in [[0, 513], [511, 2], [512, 1], [513, 1], [65_536, 1]] {
        desk.refused(gather(&record, 600), LIST);
        desk.refused(gather(&[[0, 1], record].concat(), 600), LIST);
        desk.refused(gather(&[record, [0, 1]].concat(), 600), LIST);
    }
    desk.done_unchanged(gather(&[0, 512], 600), 512);
    // In no storage no record has a place.
    desk.storage.clear();
    desk.refused(gather(&[0, 1], 9), LIST);
    desk.refused(gather(&[0, 0], 9), LIST);
    desk.done_unchanged(gather(&[], 9), 0);
}

/// 7 before 11, wherever the record stands that leaves storage.
pub fn gather_order_of_codes(engine: Engine) {
    let mut desk = Desk::open(engine, 1, 1, 1);
    desk.put(512, 0);
    for list in [
        [0, 513, 0, 4],
        [0, 4, 0, 513],
        [512, 1, 0, 516],
        [0, 0, 0, 517],
        [0, 517, 9, 0],
    ] {
        desk.refused(gather(&list, 0), NARROW);
        desk.refused(gather(&list, 516), NARROW);
        desk.refused(gather(&list, 517), LIST);
    }
}

/// Position and length, and all lengths, are added as whole numbers.
pub fn gather_whole_numbers(engine: Engine) {
    let most = u32::MAX;
    let mut desk = Desk::open(engine, 1, 1, 1);
    desk.put(512, 0);
    // Round to a place inside storage in 32 bits.
    for record in [
        [most, 1],
        [most, 2],
        [most, 513],
        [most - 511, 512],
        [1 << 31, 1],
    ] {
        desk.refused(gather(&record, 600), LIST);
    }
    // Sums that come round to 0 or a little more in 32 bits, once or many times.
    for list in [
        vec![0, 1 << 31, 0, 1 << 31],
        vec![0, 1, 0, most],
        vec![0, most, 0, 1, 0, 5],
        vec![0, 5, 1, most - 4],
        [0, 1 << 31].repeat(200),
        [[0, most].repeat(3), vec![0, 3]].concat(),
        [[0, most].repeat(70_000), vec![0, 70_005]].concat(),
    ] {
        for output in [0, 5, 5_000] {
            desk.refused(gather(&list, output), NARROW);
        }
    }
}

/// Gather asks no pool, so a torn one is not seen.
pub fn gather_without_a_pool(engine: Engine) {
    let mut desk = Desk::open(engine, 2, 3, 2);
    desk.put(600, 0);
    for pool in [vec![0; 11], Vec::new()] {
        desk.pool = pool;
        desk.refused(list(0, 4), TORN);
        let outcome = desk.done_unchanged(gather(&[0, 512, 512, 88], 600), 600);
        assert_eq!(outcome.lent, data(600));
        desk.refused(gather(&[0, 1_025], 1_024), NARROW);
        desk.refused(gather(&[0, 1_025], 1_025), LIST);
    }
    // Storage of any length will do.
    desk.storage.truncate(5);
    let outcome = desk.done_unchanged(gather(&[4, 1, 0, 5], 6), 6);
    assert_eq!(outcome.lent, [4, 0, 1, 2, 3, 4]);
    desk.refused(gather(&[4, 2], 6), LIST);
}
