//! What a comparison covered: how often each thing came, and how often it has to come.

/// How often something has to come.
#[derive(Clone, Copy, Debug, PartialEq, Eq)]
pub enum Due {
    /// It needn't, and is told where it did.
    Told,
    /// At least once, where shares are asked for.
    Once,
    /// In so many of a thousand inputs at least, where shares are asked for.
    Thousandths(usize),
    /// So many times at least, where counts are asked for.
    Times(usize),
    /// It can't come, however many inputs there are.
    Never,
}

/// What is asked of a run: a short one that was named for a quick try has to come to less.
#[derive(Clone, Copy)]
pub struct Asked {
    pub inputs: usize,
    pub shares: bool,
    pub counts: bool,
}

/// Counters that were added together, by the place of the first.
#[derive(Clone, Copy)]
pub struct Counters(usize);

struct Counter {
    name: String,
    times: usize,
    due: Due,
}

#[derive(Default)]
pub struct Coverage(Vec<Counter>);

impl Coverage {
    /// Counters of these names, all of them due so often.
    pub fn add(
        &mut self,
        due: Due,
        names: impl IntoIterator<Item = impl Into<String>>,
    ) -> Counters {
        let first = Counters(self.0.len());
        let counter = |name: String| Counter {
            name,
            times: 0,
            due,
        };
        let names = names.into_iter().map(Into::into);
        self.0.extend(names.map(counter));
        first
    }

    /// One more of the `nth` of these counters.
    pub fn count(&mut self, Counters(first): Counters, nth: usize) {
        self.0[first + nth].times += 1;
    }

    pub fn times(&self, Counters(first): Counters, nth: usize) -> usize {
        self.0[first + nth].times
    }

    /// A line for each counter, but for those of nothing that needn't come.
    pub fn print(&self, inputs: usize) {
        for Counter { name, times, due } in &self.0 {
            match due {
                Due::Told | Due::Never if *times == 0 => {}
                Due::Thousandths(_) => {
                    let share = 100.0 * *times as f64 / inputs.max(1) as f64;
                    println!("{name}: {times} ({share:.1} %)");
                }
                _ => println!("{name}: {times}"),
            }
        }
    }

    /// Whether each came as often as it has to; says of which it isn't so.
    pub fn reached(&self, asked: Asked) -> bool {
        let mut good = true;
        for Counter { name, times, due } in &self.0 {
            let least = match *due {
                Due::Once if asked.shares => 1,
                Due::Thousandths(share) if asked.shares => (share * asked.inputs).div_ceil(1_000),
                Due::Times(least) if asked.counts => least,
                _ => 0,
            };
            if *times < least {
                eprintln!("{name}: {times}, and {least} are due");
                good = false;
            }
            if *due == Due::Never && *times > 0 {
                eprintln!("{name}: {times}, and it can't come");
                good = false;
            }
        }
        good
    }

    /// The names of those that came, and how often.
    #[cfg(test)]
    pub fn came(&self) -> Vec<(&str, usize)> {
        let came = self.0.iter().filter(|counter| counter.times > 0);
        came.map(|counter| (counter.name.as_str(), counter.times))
            .collect()
    }

    /// Whether each that has to come at all came so often, and nothing that can't.
    #[cfg(test)]
    pub fn each_came(&self, least: usize) -> bool {
        self.0.iter().all(|counter| match counter.due {
            Due::Told => true,
            Due::Never => counter.times == 0,
            _ => counter.times >= least,
        })
    }
}

/// A sort of things, and whether one is of it.
pub type Sort<T> = (&'static str, fn(&T) -> bool);

/// Counters for things that may be of several sorts.
pub struct Sorts<T: 'static> {
    table: &'static [Sort<T>],
    counters: Counters,
}

impl<T> Sorts<T> {
    pub fn new(table: &'static [Sort<T>], due: Due, coverage: &mut Coverage) -> Self {
        let counters = coverage.add(due, table.iter().map(|(name, _)| *name));
        Sorts { table, counters }
    }

    pub fn note(&self, thing: &T, coverage: &mut Coverage) {
        for (nth, (_, holds)) in self.table.iter().enumerate() {
            if holds(thing) {
                coverage.count(self.counters, nth);
            }
        }
    }
}

#[cfg(test)]
mod tests {
    use super::*;

    const ASKED: Asked = Asked {
        inputs: 2_000,
        shares: true,
        counts: true,
    };

    /// By hand: each demand is missed by one, then met, and none is made of a short run.
    #[test]
    fn demands_are_made() {
        for (due, least) in [
            (Due::Told, 0),
            (Due::Once, 1),
            (Due::Times(3), 3),
            (Due::Thousandths(2), 4),
        ] {
            let mut coverage = Coverage::default();
            let counters = coverage.add(due, ["one", "two"]);
            for times in 0..=least {
                assert_eq!(coverage.reached(ASKED), times == least, "{due:?}");
                (0..2).for_each(|nth| coverage.count(counters, nth));
            }
            assert!(Coverage::default().reached(ASKED));
            assert_eq!(coverage.times(counters, 1), least + 1);
        }
        let mut coverage = Coverage::default();
        coverage.add(Due::Once, ["once"]);
        coverage.add(Due::Times(1), ["times"]);
        let [shares, counts] = [false; 2];
        assert!(coverage.reached(Asked {
            shares,
            counts,
            ..ASKED
        }));
        assert!(!coverage.reached(Asked { shares, ..ASKED }));
        assert!(!coverage.reached(Asked { counts, ..ASKED }));
    }

    /// What can't come fails a run of any length.
    #[test]
    fn never_is_never() {
        let mut coverage = Coverage::default();
        let counters = coverage.add(Due::Never, ["fourth"]);
        let short = Asked {
            inputs: 1,
            shares: false,
            counts: false,
        };
        assert!(coverage.reached(short) && coverage.each_came(1));
        coverage.count(counters, 0);
        assert!(!coverage.reached(short) && !coverage.each_came(0));
        assert_eq!(coverage.came(), [("fourth", 1)]);
    }

    #[test]
    fn a_thing_is_of_several_sorts() {
        static TABLE: [Sort<u32>; 2] = [("even", |n| n % 2 == 0), ("small", |&n| n < 3)];
        let mut coverage = Coverage::default();
        let sorts = Sorts::new(&TABLE, Due::Once, &mut coverage);
        (1..=4).for_each(|n| sorts.note(&n, &mut coverage));
        assert_eq!(coverage.came(), [("even", 2), ("small", 2)]);
    }
}
