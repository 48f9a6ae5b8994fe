//! Why the rows of a text are not written: "a refusal of writing: `refused NUMBER PLACE`, then
//! the values as explain prints them for that number" (rows as text, rule 12).
//!
//! They are worked out from the rows, since a return of them would not hold their values.

use crate::areas::Areas;
use crate::judge::Refusal;
use crate::kinds::KINDS;
use crate::lists::{first_place, row_at, rows_in, Lists};
use crate::text::Text;
use crate::typed::Typed;
use crate::wood::Wood;

const ROWS_PER_BLOCK: usize = 12;
const SOIL: u8 = 7;

/// The lines of a refusal of these rows.
pub fn print(typed: &Typed, refusal: Refusal, text: &mut Text) {
    text.refused(refusal);
    let place = refusal.place as usize;
    match refusal.number {
        10 if place == 0 => text.line("edition ", typed.edition.into()),
        10 => {
            text.word_line("kind_name ", KINDS[place - 1].name);
            text.line("rows ", typed.lines[place - 1].len() as u64);
        }
        12 => {
            let wood = wood_of(&typed.lists);
            text.line("used ", wood.used());
            text.line("cleared ", wood.l);
        }
        _ => print_row(typed, refusal, text),
    }
}

/// A refusal whose place is a row's.
fn print_row(typed: &Typed, Refusal { number, place }: Refusal, text: &mut Text) {
    let place = place as usize;
    let kinds = 1..=KINDS.len() as u8;
    let mut rows =
        kinds.filter_map(|kind| row_at(&typed.lists, kind, place).map(|row| (kind, row)));
    let (kind, row) = rows.next().expect("a row stands at this place");
    let of = &KINDS[usize::from(kind) - 1];
    text.line("block ", (place / ROWS_PER_BLOCK) as u64);
    text.line("row ", (place % ROWS_PER_BLOCK) as u64);
    text.word_line("kind_name ", of.name);
    if number != 5 && of.has_id {
        text.line("id ", row[0].into());
    }
    match number {
        5 => {
            let before = row_at(&typed.lists, kind, place - 1).expect("a row before it");
            text.line("id_before ", before[0].into());
            text.line("id ", row[0].into());
        }
        6 => {
            let mut fields = (0..).zip(row.iter().zip(of.fields));
            let above = fields.find(|(_, (&value, field))| value > field.most);
            let (nth, (&value, field)) = above.expect("a field is above its limit");
            text.line("field ", nth);
            text.word_line("field_name ", field.name);
            text.line("value ", value.into());
            text.line("limit ", field.most.into());
        }
        7 => {
            let parts = [row[4], row[7], row[13]].map(u64::from);
            for (name, part) in ["onsite ", "offsite ", "decay "].iter().zip(parts) {
                text.line(name, part);
            }
            text.line("sum ", parts.iter().sum());
        }
        14 => {
            text.line("unit_code ", row[1].into());
            text.line("edition ", typed.edition.into());
        }
        _ => {
            let uneven = areas_of(&typed.lists).uneven().expect("uneven soils");
            text.line("soil_type ", uneven.number.into());
            text.line("area_now ", uneven.now);
            text.line("area_then ", uneven.then);
        }
    }
    let nth = place - first_place(&typed.lists, kind);
    text.line("line ", typed.lines[usize::from(kind) - 1][nth].into());
}

fn wood_of(lists: &Lists) -> Wood {
    let mut wood = Wood::default();
    for row in rows_in::<15>(lists, 1) {
        wood.clear([row[1], row[2], row[3], row[7]]);
    }
    for row in rows_in::<5>(lists, 3) {
        wood.use_up([row[1], row[2], row[3], row[4]]);
    }
    wood
}

fn areas_of(lists: &Lists) -> Areas {
    let mut areas = Areas::default();
    let places = first_place(lists, SOIL)..;
    for (row, place) in rows_in::<9>(lists, SOIL.into()).iter().zip(places) {
        areas.add(place, [row[2], row[3], row[4]]);
    }
    areas
}
