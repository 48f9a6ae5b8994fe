//! Why a return is refused (02, §7): "for a refusal, the number, the place and
//! the values that clash: the length, stored and computed check, the block's
//! header or non-zero byte, the two ids, the field and its limit, the sum of the
//! fractions". Where one row is refused, the row is named before them. With number 12
//! it "then shows 100K and L" (02, §8), with 13 the soil type at fault and its two area
//! sums (02, §11), with 14 the unit code and the edition, which has no such code (02,
//! §12). Of a return that is accepted, the heaviest rows and where its dry matter went
//! (02, §13).

use crate::heaviest;
use crate::judge::RECORDS_PER_BLOCK;
use crate::judge::{check, computed_check, edition, first_fault, four, record_at, stored_check};
use crate::judge::{two, uneven_of, unit_code, whole_blocks, wood_of};
use crate::judge::{Block, Fault, Record, Refusal};
use crate::kinds::{Kind, KINDS};
use crate::land::Conversion;
use crate::matter;
use crate::text::Text;

/// More than the longest text has, which is 375 bytes: three heaviest rows with ids of ten
/// digits and parts of twenty have 207, and the five totals behind them 168. That of a
/// refusal has 132, the off-site oxidised fraction of a row with an id of ten digits.
pub const EXPLAIN_ROOM: usize = 400;

/// The text that the program `explain` prints for these bytes.
pub fn text(bytes: &[u8]) -> Text {
    let mut text = Text::new();
    match check(bytes) {
        Ok(checked) => {
            heaviest::print(checked, &mut text);
            matter::print(matter::matter(checked), &mut text);
        }
        Err(refusal) => {
            text.refused(refusal);
            print_row(bytes, refusal, &mut text);
            print_clash(bytes, refusal, &mut text);
        }
    }
    text
}

/// Puts the text at the front of `room` and gives its length, or gives 0 and
/// leaves `room` alone when it is too short.
pub fn explain(bytes: &[u8], room: &mut [u8]) -> usize {
    text(bytes).put_into(room)
}

/// The numbers whose place is a row's. 13 is about all rows of a soil type, and its
/// place is the first of them.
const AT_A_ROW: [u32; 5] = [5, 6, 7, 13, 14];

/// Which row the place is, where it is a row's: its block, its
/// position there and its kind, so that nobody has to divide by twelve, and its id.
/// Parameters have none, and with number 5 the ids are what clashes.
fn print_row(bytes: &[u8], Refusal { number, place }: Refusal, text: &mut Text) {
    if !AT_A_ROW.contains(&number) {
        return;
    }
    let place = place as usize;
    let (kind, record) = record_at(whole_blocks(bytes), place);
    let kind = kind_of(kind);
    text.line("block ", (place / RECORDS_PER_BLOCK) as u64);
    text.line("row ", (place % RECORDS_PER_BLOCK) as u64);
    text.word_line("kind_name ", kind.name);
    if number != 5 && kind.has_id {
        text.line("id ", four(record, 0).into());
    }
}

/// The values that clash at a refusal's place, a block up to number 4 and a
/// record from number 5 to 7 and with 14. Number 12 is about the return as a whole, 13
/// about the soil type of the record.
fn print_clash(bytes: &[u8], refusal: Refusal, text: &mut Text) {
    let (blocks, place) = (whole_blocks(bytes), refusal.place as usize);
    match refusal.number {
        1 => text.line("length ", bytes.len() as u64),
        2 => {
            text.line("stored ", stored_check(&blocks[place]).into());
            text.line("computed ", computed_check(&blocks[place]).into());
        }
        3 => {
            print_header(&blocks[place], text);
            text.line("number_due ", place as u64);
            text.line("blocks_due ", blocks.len() as u64);
            text.line("edition_first ", edition(&blocks[0]).into());
        }
        4 => print_fault(blocks, text),
        5 => {
            // A kind's blocks stand together and are full but for the last, so
            // its rows' places follow each other from block to block.
            let [before, here] = [place - 1, place].map(|place| record_at(blocks, place).1);
            text.line("id_before ", four(before, 0).into());
            text.line("id ", four(here, 0).into());
        }
        6 => {
            let (kind, record) = record_at(blocks, place);
            print_field(kind_of(kind), record, text);
        }
        7 => {
            let row = Conversion::of(record_at(blocks, place).1);
            let fractions =
                [row.on_site, row.off_site, row.decay].map(|share| u64::from(share.fraction));
            for (name, fraction) in ["onsite ", "offsite ", "decay "].iter().zip(fractions) {
                text.line(name, fraction);
            }
            text.line("sum ", fractions.iter().sum());
        }
        12 => {
            let wood = wood_of(blocks);
            text.line("used ", wood.used());
            text.line("cleared ", wood.l);
        }
        14 => {
            let (_, record) = record_at(blocks, place);
            text.line("unit_code ", unit_code(record).into());
            text.line("edition ", edition(&blocks[0]).into());
        }
        _ => {
            let uneven = uneven_of(blocks).expect("number 13 was given");
            text.line("soil_type ", uneven.number.into());
            text.line("area_now ", uneven.now);
            text.line("area_then ", uneven.then);
        }
    }
}

fn kind_of(kind: u8) -> &'static Kind {
    &KINDS[usize::from(kind) - 1]
}

/// What a block says of itself: "Offset 0 kind, 1 record count, 2 block number
/// from 0, 4 number of blocks, 6 edition".
fn print_header(block: &Block, text: &mut Text) {
    text.line("kind ", block[0].into());
    text.line("count ", block[1].into());
    text.line("number ", two(block, 2).into());
    text.line("blocks ", two(block, 4).into());
    text.line("edition ", edition(block).into());
}

/// Number 4: the header, and the neighbour's kind where that is what it clashes
/// with; or the byte, where the header is good.
fn print_fault(blocks: &[Block], text: &mut Text) {
    let (b, fault) = first_fault(blocks).expect("number 4 was given");
    let block = &blocks[b];
    text.word_line("fault ", fault.word());
    if fault == Fault::Stray {
        let at = first_stray(block).expect("a byte is at fault");
        text.line("offset ", at as u64);
        text.line("byte ", block[at].into());
        return;
    }
    print_header(block, text);
    match fault {
        Fault::Order => text.line("kind_before ", blocks[b - 1][0].into()),
        Fault::Unfilled => text.line("kind_next ", blocks[b + 1][0].into()),
        _ => {}
    }
}

/// The lowest offset of a non-zero byte where zero is due, in a block whose kind
/// and count are good: in a used record where no field is, in the unused records,
/// and in the twenty bytes behind them.
fn first_stray(block: &Block) -> Option<usize> {
    let (kind, count) = (kind_of(block[0]), usize::from(block[1]));
    let zero_due = |at: usize| (at - 8) / 40 >= count || kind.zero_due((at - 8) % 40);
    (8..508).find(|&at| block[at] != 0 && zero_due(at))
}

/// Number 6: the first field above its limit, counted from 0 with the id.
fn print_field(kind: &Kind, record: &Record, text: &mut Text) {
    let mut fields = (0..).zip(kind.fields);
    let above = fields.find(|(_, field)| field.of(record) > field.most);
    let (number, field) = above.expect("a field is at fault");
    text.line("field ", number);
    text.word_line("field_name ", field.name);
    text.line("value ", field.of(record).into());
    text.line("limit ", field.most.into());
}

#[cfg(test)]
#[path = "explain_tests/mod.rs"]
mod tests;
