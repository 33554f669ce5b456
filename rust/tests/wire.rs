//! The wire list and its reader: lists of every length and gathers from any storage beside the
//! model, the law that joins them, and sums and counts past 32 bits.
#![cfg(fulcrumnest_lib)]

mod common;

use common::compare;
use common::library;
use common::model::{Call, Name, Tables, TRUE};
use common::random::{self, Random};
use common::sequence::{pools, setting};
use common::wire;
use fulcrumnest::calls;

/// Every slip of many pools, with a list of each length that may matter and any old numbers in it.
#[test]
fn lists_of_sound_pools() {
    let (mut calls, mut codes) = (0, [0; 12]);
    for (seed, list) in pools(300, 60) {
        let tables = Tables::parse(&list.pool, &list.storage).expect("sound");
        let mut random = Random::new(seed);
        let slips = tables.slips.len() as u16;
        for slip in (0..slips + 2).chain([255, 256, u16::MAX]) {
            let slip = match slip < slips && !random.once_in(8) {
                true => tables.name(slip),
                false => Name::new(slip, random::other_serial(&mut random, &tables, slip)),
            };
            let chain = tables.state(slip.number).map(|state| tables.chain(state));
            let pieces = chain.map_or(0, |chain| chain.len());
            for call in lists(&mut random, slip, pieces) {
                let wanted = TRUE.step(&list.pool, &list.storage, &call);
                let got = library::step(&list.pool, &list.storage, &call);
                if let Some(text) = compare::outcomes(&wanted, &got) {
                    let pool = compare::dump("pool", &list.pool);
                    panic!("seed {seed}: {}\n{text}\n{pool}", call.brief());
                }
                calls += 1;
                codes[wanted.code as usize] += 1;
            }
        }
    }
    println!("{calls} lists, by code {codes:?}");
    assert_eq!(codes[0] + codes[3] + codes[7], calls);
    assert!(codes[0] > 5_000 && codes[3] > 5_000 && codes[7] > 3_000);
}

/// Lists from none to some past a chain of few pieces, and around the length of a long one.
fn lists(random: &mut Random, slip: Name, pieces: usize) -> Vec<Call> {
    let most = 2 * pieces + 3;
    let lengths = (0..=most).filter(|n| pieces <= 6 || n % pieces <= 3 || *n >= 2 * pieces - 3);
    let mut calls = Vec::new();
    for n in lengths {
        let old = random.numbers(n);
        let records = old.chunks_exact(2).map(|two| [two[0], two[1]]).collect();
        calls.push(Call::Stretches {
            slip,
            list: records,
        });
        calls.push(Call::List { slip, list: old });
    }
    calls
}

/// Gathers from any storage: code, number and every byte.
#[test]
fn random_gathers() {
    let calls = setting("FULCRUMNEST_CALLS", 1_000_000) / 4;
    let seed = setting("FULCRUMNEST_SEED", 1_000_000);
    wire::all_met(wire::run_gathers(library::step, seed, calls), calls);
}

/// List, then gather over just the records written, gives what read gives of the whole chain.
#[test]
fn law_of_the_wire_list() {
    let mut times = [0; 2];
    for (_, mut list) in pools(300, 60) {
        let more = wire::law(library::step, &mut list);
        times = [times[0] + more[0], times[1] + more[1]];
    }
    println!("{} done and {} narrow", times[0], times[1]);
    assert!(times[0] > 5_000 && times[1] > 3_000, "{times:?}");
}

/// Sums far past 32 bits: a million lengths of 2^32 - 1 each, and as many as come round to 5.
#[test]
fn sums_far_past_32_bits() {
    let storage = [7; 600];
    let mut output = [9; 600];
    let most = [0, u32::MAX].repeat(1_000_000);
    let round = [&most[..], &[0, 1_000_005]].concat();
    let before = [&most[..], &[0, 0]].concat();
    for list in [&most, &round, &before] {
        let gathered = calls::gather(&storage, list, &mut output);
        assert_eq!((gathered.code, gathered.number), (7, 0));
    }
    assert_eq!(output, [9; 600]);
    // A million records of no length have a sum of 0, which any output takes.
    let none = [0, 0].repeat(1_000_000);
    let gathered = calls::gather(&storage, &none, &mut []);
    assert_eq!((gathered.code, gathered.number), (11, 0));
}

#[cfg(all(target_os = "linux", target_pointer_width = "64"))]
mod far {
    use std::ffi::{c_int, c_void};
    use std::fs::{self, File};
    use std::os::fd::AsRawFd;
    use std::ptr::null_mut;

    use fulcrumnest::ffi;

    extern "C" {
        fn mmap(
            place: *mut c_void,
            length: usize,
            access: c_int,
            kind: c_int,
            file: c_int,
            offset: i64,
        ) -> *mut c_void;
        fn munmap(place: *mut c_void, length: usize) -> c_int;
    }

    const READ_AND_WRITE: c_int = 3;
    const SHARED_AT_PLACE: c_int = 1 + 16;
    const PRIVATE_OF_NO_FILE: c_int = 2 + 32;

    const MEGABYTE: usize = 1 << 20;
    const TIMES: usize = 4_097;

    /// So many megabytes of addresses, and behind each of them the file's one megabyte.
    unsafe fn spread(file: &File) -> *mut u8 {
        let all = mmap(null_mut(), TIMES * MEGABYTE, 0, PRIVATE_OF_NO_FILE, -1, 0);
        for i in 0..TIMES {
            let place = all.cast::<u8>().add(i * MEGABYTE).cast();
            let fd = file.as_raw_fd();
            let got = mmap(place, MEGABYTE, READ_AND_WRITE, SHARED_AT_PLACE, fd, 0);
            assert_eq!(got, place);
        }
        all.cast()
    }

    /// A count past 32 bits. The output's megabytes are one and the same memory, and are all given
    /// the same bytes.
    #[test]
    fn count_past_32_bits() {
        let path = concat!(env!("CARGO_TARGET_TMPDIR"), "/megabyte");
        let mut options = File::options();
        let file = options.read(true).write(true).create(true).truncate(true);
        let file = file.open(path).expect("a file");
        file.set_len(MEGABYTE as u64).expect("a megabyte");
        let storage: Vec<u8> = (0..MEGABYTE).map(|i| (i % 251) as u8).collect();
        let list = [0, MEGABYTE as u32].repeat(TIMES);
        // The output is written by this call alone, and looked at when it is back.
        unsafe {
            let output = spread(&file);
            let gather = |room: usize| {
                let (from, size) = (storage.as_ptr(), storage.len());
                let got = ffi::slp_gather(from, size, list.as_ptr(), list.len(), output, room);
                (got.code, got.number)
            };
            assert_eq!(gather(TIMES * MEGABYTE - 1), (7, 0));
            assert_eq!(fs::read(path).expect("the output"), vec![0; MEGABYTE]);
            assert_eq!(gather(TIMES * MEGABYTE), (0, 4_296_015_872));
            assert_eq!(munmap(output.cast(), TIMES * MEGABYTE), 0);
        }
        assert_eq!(fs::read(path).expect("the output"), storage);
    }
}
