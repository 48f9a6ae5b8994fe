//! Ratios between the first program and the second, on the same returns in one
//! run: `bench [FUNCTION..]`, all functions where none is named. The judge is
//! also set beside a plain sum of the bytes, and what plain_returns.c has beside
//! that (`/C`). The parts for the other functions come with the features
//! `lines`, `doubles`, `rows`, `explain`, `texts` and `nation`. Ten blocks, one and all of edition 2
//! come first, then how each function grows from two blocks to one less than all, in fewer
//! rounds, and last the national line of 500 full returns.

#[cfg(door_missing)]
compile_error!(
    "libdoor.a of the first program is missing: build it, or name its folder in NILOFERQ_LIB"
);

#[cfg(all(not(door_missing), feature = "nation"))]
mod nation;
#[cfg(all(not(door_missing), plain))]
mod plain;
#[cfg(all(not(door_missing), feature = "texts"))]
mod texts;

#[cfg(not(door_missing))]
mod run {
    #[cfg(plain)]
    use crate::plain;
    use second::ffi::judge::first_judge;
    use second::judge::judge;
    use second::kinds::{COUNTS_ROOM, KINDS};
    use second::lent::Lent;
    use second::make::{later, RowCounts, Rows, FIRST_FULL, MOST_BLOCKS, WITH_IDS};
    use second::rng::Rng;
    use second::timing::measure;
    use std::hint::black_box;

    /// Different returns in rotation, so that no single one is learnt by heart.
    const RETURNS: usize = 64;

    const ROUNDS: usize = 301;
    const FEWER: usize = 61;

    /// Returns of one size, how many rounds, and how often a round goes over
    /// them.
    pub struct Load {
        pub name: String,
        pub rounds: usize,
        #[cfg(feature = "rows")]
        pub rows: Vec<Rows>,
        pub returns: Vec<Box<[u8]>>,
        pub repeats: usize,
    }

    impl Load {
        /// In edition 2 where there are rows of a kind above 4.
        pub fn new(rng: &mut Rng, counts: RowCounts, rounds: usize) -> Self {
            let edition = 1 + u16::from(later(&counts));
            let rows = (0..RETURNS).map(|_| Rows::good_in(rng, edition, counts));
            let rows: Vec<Rows> = rows.collect();
            let returns: Vec<Box<[u8]>> = rows.iter().map(|r| r.to_bytes().into()).collect();
            let blocks = returns[0].len() / 512;
            let rows_of = |kind| rows[0].len(kind).to_string();
            let kinds: Vec<String> = (1..=KINDS.len() as u8).map(rows_of).collect();
            Load {
                name: format!("{blocks:>2}, {}", kinds.join("+")),
                rounds,
                #[cfg(feature = "rows")]
                rows,
                returns,
                repeats: 40 / blocks,
            }
        }

        fn with(mut self, rounds: usize) -> Self {
            self.rounds = rounds;
            self
        }

        /// A return of so many blocks, each kind's filled before the next.
        fn of_blocks(rng: &mut Rng, blocks: usize) -> Self {
            let rows = |kind: usize| (12 * (blocks - 1).saturating_sub(3 * kind)).min(32);
            Load::new(rng, std::array::from_fn(rows), FEWER)
        }
    }

    pub fn main() {
        let mut rng = Rng::new(7);
        let mut loads = vec![
            Load::of_blocks(&mut rng, FIRST_FULL).with(ROUNDS),
            Load::new(&mut rng, [0; WITH_IDS.len()], ROUNDS),
            Load::new(&mut rng, [32; WITH_IDS.len()], ROUNDS),
        ];
        let others = (2..MOST_BLOCKS).filter(|&blocks| blocks != FIRST_FULL);
        loads.extend(others.map(|blocks| Load::of_blocks(&mut rng, blocks)));
        println!("{ROUNDS} rounds ({FEWER} for how they grow) over {RETURNS} returns, medians, ns per call");
        println!(
            "{:<14}{:<30}{:>12}{:>12}{:>16}",
            "function", "blocks, rows", "niloferq", "other", "niloferq/other"
        );
        for load in &loads {
            bench_judge(load);
            #[cfg(feature = "lines")]
            lines::bench(load);
            #[cfg(feature = "doubles")]
            doubles::bench(load);
            #[cfg(feature = "rows")]
            rows::bench(load);
            #[cfg(feature = "explain")]
            explain::bench(load);
            #[cfg(feature = "texts")]
            crate::texts::bench(load);
        }
        #[cfg(feature = "nation")]
        crate::nation::bench(&mut rng);
    }

    fn bench_judge(load: &Load) {
        bench_two("judge", load, &load.returns, ask_first, |bytes| {
            black_box(judge(black_box(bytes)));
        });
        bench_two("judge/sum", load, &load.returns, ask_first, |bytes| {
            let add = |sum: u32, &byte: &u8| sum.wrapping_add(u32::from(byte));
            black_box(black_box(bytes).iter().fold(0u32, add));
        });
        #[cfg(plain)]
        bench_two("judge/C", load, &load.returns, ask_first, |bytes| {
            let mut counts = [0; COUNTS_ROOM];
            assert_eq!(plain::judge(black_box(bytes), black_box(&mut counts)), 0);
            black_box(counts);
        });
    }

    pub fn ask_first<B: AsRef<[u8]>>(bytes: &B) {
        let mut counts = [0; COUNTS_ROOM];
        let room = Lent::whole(black_box(&mut counts));
        assert_eq!(first_judge(black_box(bytes.as_ref()), room), 0);
        black_box(counts);
    }

    /// One line for a function with two ways of it, and whether it was asked for.
    pub fn bench_two<I>(
        function: &str,
        load: &Load,
        inputs: &[I],
        first: impl FnMut(&I),
        second: impl FnMut(&I),
    ) -> bool {
        let mut named = std::env::args().skip(1).peekable();
        if named.peek().is_some() && named.all(|name| name != function) {
            return false;
        }
        // how it grows is asked against the second program alone
        if load.rounds == FEWER && function.contains('/') {
            return false;
        }
        let times = measure(inputs, load.rounds, load.repeats, first, second);
        println!(
            "{function:<14}{:<30}{:>12.1}{:>12.1}{:>16.2}",
            load.name, times.first, times.second, times.ratio
        );
        true
    }

    #[cfg(feature = "lines")]
    mod lines {
        use super::*;
        use second::ffi::lines::{first_figures, first_lines};
        use second::sheets::{figures, NUMBERS};
        use second::text::LINES_ROOM;

        pub fn bench(load: &Load) {
            let [mut a, mut b] = [[0; NUMBERS]; 2];
            bench_two(
                "figures",
                load,
                &load.returns,
                |bytes| assert_eq!(first_figures(black_box(bytes), Lent::whole(&mut a)), 0),
                |bytes| assert_eq!(figures(black_box(bytes), &mut b), 0),
            );
            let [mut a, mut b] = [[0; LINES_ROOM]; 2];
            bench_two(
                "lines",
                load,
                &load.returns,
                |bytes| assert_ne!(first_lines(black_box(bytes), Lent::whole(&mut a)), 0),
                |bytes| assert_ne!(second::sheets::lines(black_box(bytes), &mut b), 0),
            );
        }
    }

    #[cfg(feature = "doubles")]
    mod doubles {
        use super::*;
        use second::doubles::subtotal;
        use second::ffi::doubles::first_subtotal;

        pub fn bench(load: &Load) {
            for (code, name) in [(0, "on-site"), (1, "off-site"), (2, "decay")] {
                let [mut a, mut b] = [[0; 8]; 2];
                bench_two(
                    name,
                    load,
                    &load.returns,
                    |bytes| {
                        let room = Lent::whole(&mut a);
                        assert_eq!(first_subtotal(black_box(bytes), black_box(code), room), 0);
                    },
                    |bytes| assert_eq!(subtotal(black_box(bytes), black_box(code), &mut b), 0),
                );
                #[cfg(plain)]
                {
                    let mut c = 0.0;
                    let done = bench_two(
                        &format!("{name}/C"),
                        load,
                        &load.returns,
                        |bytes| {
                            let room = Lent::whole(&mut a);
                            assert_eq!(first_subtotal(black_box(bytes), black_box(code), room), 0);
                        },
                        |bytes| {
                            assert_eq!(
                                plain::subtotal(black_box(bytes), black_box(code), &mut c),
                                0
                            )
                        },
                    );
                    assert!(!done || f64::from_le_bytes(a).to_bits() == c.to_bits());
                }
            }
        }
    }

    #[cfg(feature = "explain")]
    mod explain {
        use super::*;
        use second::explain::{explain, EXPLAIN_ROOM};
        use second::ffi::explain::{first_explain, first_heaviest};
        use second::heaviest::{heaviest, HEAVIEST_ROOM};

        pub fn bench(load: &Load) {
            let [mut a, mut b] = [[0; EXPLAIN_ROOM]; 2];
            bench_two(
                "explain",
                load,
                &load.returns,
                |bytes| assert_ne!(first_explain(black_box(bytes), Lent::whole(&mut a)), 0),
                |bytes| assert_ne!(explain(black_box(bytes), &mut b), 0),
            );
            let [mut a, mut b] = [[0; HEAVIEST_ROOM]; 2];
            bench_two(
                "heaviest",
                load,
                &load.returns,
                |bytes| {
                    let room = Lent::whole(&mut a);
                    assert_eq!(first_heaviest(black_box(bytes), black_box(0), room), 0);
                },
                |bytes| assert_eq!(heaviest(black_box(bytes), black_box(0), &mut b), 0),
            );
        }
    }

    #[cfg(feature = "rows")]
    mod rows {
        use super::*;
        use second::ffi::rows::{first_read, first_write};
        use second::kinds::{RETURN_ROOM, ROWS_ROOM};
        use second::lists::RowLists;
        use second::reader::read;

        pub fn bench(load: &Load) {
            let [mut a, mut b] = [[0; ROWS_ROOM]; 2];
            let [mut counts_a, mut counts_b] = [[0; COUNTS_ROOM]; 2];
            bench_two(
                "read",
                load,
                &load.returns,
                |bytes| {
                    let (rows, counts) = (Lent::whole(&mut a), Lent::whole(&mut counts_a));
                    assert_eq!(first_read(black_box(bytes), rows, counts), 0);
                },
                |bytes| assert_eq!(read(black_box(bytes), &mut b, &mut counts_b), 0),
            );

            #[cfg(plain)]
            {
                let (mut c, mut counts_c) = ([0; ROWS_ROOM], [0; COUNTS_ROOM]);
                let done = bench_two(
                    "read/C",
                    load,
                    &load.returns,
                    |bytes| {
                        let (rows, counts) = (Lent::whole(&mut a), Lent::whole(&mut counts_a));
                        assert_eq!(first_read(black_box(bytes), rows, counts), 0);
                    },
                    |bytes| assert_eq!(plain::read(black_box(bytes), &mut c, &mut counts_c), 0),
                );
                assert!(!done || (a, counts_a) == (c, counts_c));
            }

            let lists = load.rows.iter();
            let lists: Vec<RowLists> = lists.map(|r| RowLists::of(String::new(), r)).collect();
            let [mut a, mut b] = [[0; RETURN_ROOM]; 2];
            let [mut size_a, mut size_b] = [[0; 1]; 2];
            bench_two(
                "write",
                load,
                &lists,
                |lists| {
                    let made = black_box(lists);
                    let (room, size) = (Lent::whole(&mut a), Lent::whole(&mut size_a));
                    let answer = first_write(made.edition, &made.rows, &made.lengths, room, size);
                    assert_eq!(answer, 0);
                },
                |lists| {
                    let made = black_box(lists);
                    assert_eq!(made.write(&mut b, &mut size_b), 0);
                },
            );
            // With no room all rules are tried and nothing is written.
            bench_two(
                "write/rules",
                load,
                &lists,
                |lists| {
                    let made = black_box(lists);
                    let (room, size) = (Lent::front(&mut a, 0), Lent::whole(&mut size_a));
                    let answer = first_write(made.edition, &made.rows, &made.lengths, room, size);
                    assert_eq!(answer, 9000);
                },
                |lists| {
                    let made = black_box(lists);
                    assert_eq!(made.write(&mut [], &mut size_b), 9000);
                },
            );
        }
    }
}

#[cfg(not(door_missing))]
fn main() {
    run::main()
}

#[cfg(door_missing)]
fn main() {}
