//! Number 12: more wood carried off from clearing than is used.

use super::{four, two, used_records, Block, Refusal, CONVERSION, HARVEST};
use crate::wood::Wood;

/// "12, place 0, when L is above 100K, tried straight after 7" (02, §8). Only tried
/// when 1 to 7 are clean, so every field is within its limit.
pub(super) fn clearing_holds(blocks: &[Block]) -> Result<Wood, Refusal> {
    let wood = wood_of(blocks);
    if wood.holds() {
        Ok(wood)
    } else {
        Err(Refusal {
            number: 12,
            place: 0,
        })
    }
}

/// The sums over all conversion and harvest records.
pub(crate) fn wood_of(blocks: &[Block]) -> Wood {
    let mut wood = Wood::default();
    for block in blocks {
        let records = used_records(block, usize::from(block[1]));
        match block[0] {
            CONVERSION => {
                for r in records {
                    let [before, after, off_site] = [8, 10, 18].map(|at| two(r, at).into());
                    wood.clear([four(r, 4), before, after, off_site]);
                }
            }
            HARVEST => {
                for r in records {
                    wood.use_up([four(r, 4), two(r, 8).into(), four(r, 12), four(r, 16)]);
                }
            }
            _ => {}
        }
    }
    wood
}
