//! The national line of 500 full returns, against the second program; and against the
//! first program's judge of the same returns, whose share of it is one over that ratio.

use crate::run::{ask_first, bench_two, Load};
use second::ffi::nation::first_nation;
use second::lent::Lent;
use second::make::WITH_IDS;
use second::nation::{nation, MOST_RETURNS, NATION_ROOM};
use second::rng::Rng;
use std::hint::black_box;

/// A round goes over 16,000 rows of each kind, so that a few are enough.
const ROUNDS: usize = 31;

pub fn bench(rng: &mut Rng) {
    let full = Load::new(rng, [32; WITH_IDS.len()], ROUNDS);
    let returns: Vec<Box<[u8]>> = full
        .returns
        .iter()
        .cycle()
        .take(MOST_RETURNS)
        .cloned()
        .collect();
    let file = [returns.concat()];
    let load = Load {
        name: format!("{MOST_RETURNS} returns"),
        repeats: 1,
        ..full
    };
    let [mut a, mut b] = [(); 2].map(|_| vec![0; NATION_ROOM]);
    let mut ask = |file: &Vec<u8>| {
        let room = Lent::whole(black_box(&mut a));
        assert_ne!(first_nation(black_box(file), room), 0);
    };
    let done = bench_two("nation", &load, &file, &mut ask, |file| {
        assert_ne!(nation(black_box(file), &mut b), 0);
    });
    bench_two("nation/judge", &load, &file, &mut ask, |_| {
        returns.iter().for_each(ask_first);
    });
    assert!(!done || a == b);
}
