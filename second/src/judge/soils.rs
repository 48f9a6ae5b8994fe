//! Number 13: a soil type whose area now is another than twenty years ago.

use super::{four, two, used_records, Block, Refusal, RECORDS_PER_BLOCK, SOIL};
use crate::areas::{Areas, SoilType};

/// "straight after 12" (02, §11). Only tried when 1 to 7 are clean, so every field is
/// within its limit and there are at most 32 rows.
pub(super) fn soils_hold(blocks: &[Block]) -> Result<(), Refusal> {
    match uneven_of(blocks) {
        None => Ok(()),
        Some(SoilType { place, .. }) => Err(Refusal {
            number: 13,
            place: place as u32,
        }),
    }
}

/// The lowest soil type at fault, over all soil records.
pub(crate) fn uneven_of(blocks: &[Block]) -> Option<SoilType> {
    let mut areas = Areas::default();
    for (b, block) in blocks.iter().enumerate() {
        if block[0] == SOIL {
            let records = used_records(block, usize::from(block[1]));
            for (r, place) in records.iter().zip(RECORDS_PER_BLOCK * b..) {
                areas.add(place, [two(r, 6).into(), four(r, 8), four(r, 12)]);
            }
        }
    }
    areas.uneven()
}
