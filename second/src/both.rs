//! Both programs asked the same of a return that is accepted: what the first says, or where
//! the second says another. As in `ffi`, no program gets a function that it doesn't ask for.

use crate::doubles::subtotal;
use crate::drive::{first_of, memory_difference};
use crate::explain::{explain, EXPLAIN_ROOM};
use crate::ffi::doubles::first_subtotal;
use crate::ffi::explain::{first_explain, first_heaviest};
use crate::ffi::lines::first_figures;
use crate::ffi::nation::first_nation;
use crate::heaviest::{heaviest, HEAVIEST_ROOM};
use crate::lent::Lent;
use crate::nation::{nation, NATION_ROOM};
use crate::sheets::{figures, NUMBERS};
use std::fmt::Debug;

#[inline]
pub fn both_figures(bytes: &[u8]) -> Result<[u64; NUMBERS], String> {
    let [mut found, mut due] = [[0; NUMBERS]; 2];
    let answers = [
        first_figures(bytes, Lent::whole(&mut found)),
        figures(bytes, &mut due),
    ];
    accepted("the figures", answers, found, &due)
}

#[inline]
pub fn both_doubles(bytes: &[u8]) -> Result<[f64; 3], String> {
    let mut doubles = [0.0; 3];
    for (code, double) in (0..).zip(&mut doubles) {
        let [mut found, mut due] = [[0; 8]; 2];
        let answers = [
            first_subtotal(bytes, code, Lent::whole(&mut found)),
            subtotal(bytes, code, &mut due),
        ];
        let found = accepted(&format!("the double of code {code}"), answers, found, &due)?;
        *double = f64::from_le_bytes(found);
    }
    Ok(doubles)
}

#[inline]
pub fn both_heaviest(bytes: &[u8]) -> Result<[[u64; HEAVIEST_ROOM]; 3], String> {
    let mut rows = [[0; HEAVIEST_ROOM]; 3];
    for (code, row) in (0..).zip(&mut rows) {
        let mut due = [0; HEAVIEST_ROOM];
        let answers = [
            first_heaviest(bytes, code, Lent::whole(row)),
            heaviest(bytes, code, &mut due),
        ];
        accepted(&format!("the row of code {code}"), answers, *row, &due)?;
    }
    Ok(rows)
}

#[inline]
pub fn both_explained(bytes: &[u8]) -> Result<String, String> {
    let [mut found, mut due] = [[0; EXPLAIN_ROOM]; 2];
    let lengths = [
        first_explain(bytes, Lent::whole(&mut found)),
        explain(bytes, &mut due),
    ];
    told("the explanation", lengths, &found, &due)
}

/// The national line of the return alone.
#[inline]
pub fn both_nation(bytes: &[u8]) -> Result<String, String> {
    let [mut found, mut due] = [(); 2].map(|_| vec![0; NATION_ROOM]);
    let lengths = [
        first_nation(bytes, Lent::whole(&mut found)),
        nation(bytes, &mut due),
    ];
    told("the national line", lengths, &found, &due)
}

/// What was found, where both answers are 0 and it is what is due.
fn accepted<T: PartialEq + Debug, const N: usize>(
    name: &str,
    answers: [u32; 2],
    found: [T; N],
    due: &[T; N],
) -> Result<[T; N], String> {
    let difference = first_of([
        (answers != [0; 2]).then(|| format!("answers {answers:?} for {name}")),
        memory_difference(name, &found, due),
    ]);
    difference.map_or(Ok(found), Err)
}

/// The same of a text, which has a length.
fn told(name: &str, lengths: [usize; 2], found: &[u8], due: &[u8]) -> Result<String, String> {
    let difference = first_of([
        (lengths[0] != lengths[1]).then(|| format!("lengths {lengths:?} of {name}")),
        memory_difference(name, found, due),
    ]);
    let text = String::from_utf8_lossy(&found[..lengths[1]]);
    difference.map_or(Ok(text.into_owned()), Err)
}
