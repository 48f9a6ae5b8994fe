//! Numbers 5 to 7, 12, 13 and 14.

use super::*;
use crate::judge::tests::{full, FULL};
use crate::make::{fields, WITH_IDS};

#[test]
fn ids() {
    let two = |kind, ids: [u32; 2]| {
        let blocks = [(4, 1), (kind, 2)];
        let hand = Hand::second(if kind < 4 { &[(3, 2), (4, 1)] } else { &blocks });
        let b = usize::from(kind > 4);
        explained(hand.four(b, 0, 0, ids[0]).four(b, 1, 0, ids[1]))
    };
    let due = "refused 5 1\nblock 0\nrow 1\nkind_name harvest\nid_before 9\nid 9\n";
    assert_eq!(two(3, [9, 9]), due);
    let due = "refused 5 13\nblock 1\nrow 1\nkind_name abandoned\nid_before 1\nid 0\n";
    assert_eq!(two(5, [1, 0]), due);
    let top = u32::MAX;
    let due = format!("refused 5 13\nblock 1\nrow 1\nkind_name savanna\nid_before {top}\nid 256\n");
    assert_eq!(two(6, [top, 256]), due);
    // The id before stands in the block before.
    let across = |id| {
        let hand = Hand::new(&[(1, 12), (1, 12), (1, 2), (4, 1)]);
        explained(hand.ids(0, 12, 0).ids(1, 12, 100).ids(2, 2, id))
    };
    let row = "refused 5 24\nblock 2\nrow 0\nkind_name conversion\nid_before 111\nid";
    assert_eq!(across(111), format!("{row} 111\n"));
    assert_eq!(across(7), format!("{row} 7\n"));
    assert!(across(112).starts_with("heaviest_onsite none\n"));
}

/// Number 6 at a row: its place, its kind's name and its id, where it has one.
fn field(
    (place, kind, id): (u32, &str, Option<u32>),
    (number, name): (u32, &str),
    value: u32,
    limit: u32,
) -> String {
    let (block, row) = (place / 12, place % 12);
    let id = id.map_or(String::new(), |id| format!("id {id}\n"));
    format!(
        "refused 6 {place}\nblock {block}\nrow {row}\nkind_name {kind}\n{id}\
         field {number}\nfield_name {name}\nvalue {value}\nlimit {limit}\n"
    )
}

const KIND_NAMES: [&str; KINDS.len()] = [
    "conversion",
    "stock",
    "harvest",
    "parameters",
    "abandoned",
    "savanna",
    "soil",
    "crop",
];

/// The names of each row's fields, in their order.
const NAMES: [&str; KINDS.len()] = [
    "id area before after on-site_fraction on-site_oxidised_fraction on-site_carbon_fraction \
     off-site_fraction off-site_oxidised_fraction off-site_carbon_fraction ten-year_area \
     ten-year_before ten-year_after decay_fraction decay_carbon_fraction",
    "id unit_code rate amount carbon_fraction",
    "id F G I J",
    "N CH4 CO N/C N2O NOx",
    "id area growth_rate carbon_fraction longer_area longer_growth_rate longer_carbon_fraction",
    "id area density fraction_really_burned live_fraction live_oxidised_fraction \
     live_carbon_fraction dead_oxidised_fraction dead_carbon_fraction N/C CH4 CO N2O NOx",
    "id land_system soil_type area_now area_then native base tillage input",
    "id production residue_ratio dry_matter burned_fraction oxidised_fraction carbon_fraction \
     N/C CH4 CO N2O NOx",
];

/// Each field one above its limit, where its bytes hold that.
#[test]
fn fields_one_by_one() {
    for (kind, names) in (1..).zip(NAMES) {
        let names: Vec<&str> = names.split_whitespace().collect();
        assert_eq!(names.len(), fields(kind).len());
        for (number, (&name, of)) in names.iter().zip(fields(kind)).enumerate() {
            assert_eq!(name, of.name);
            if !of.can_exceed() {
                continue;
            }
            let limit = of.most;
            let mut rows = Rows::good_in(&mut Rng::new(151), 2, [1; WITH_IDS.len()]);
            let row = rows.row(kind, 0);
            row[number] = limit + 1;
            let id = (kind != 4).then_some(row[0]);
            // One block of each kind, in order.
            let place = 12 * (u32::from(kind) - 1);
            let kind_name = KIND_NAMES[usize::from(kind) - 1];
            let due = field(
                (place, kind_name, id),
                (number as u32, name),
                limit + 1,
                limit,
            );
            assert_eq!(text_of(&rows.to_bytes()), due);
        }
    }
}

/// The first field above its limit, in the first row that has one, with all of
/// its bytes.
#[test]
fn the_first_of_several_fields() {
    let mut rows = Rows::good(&mut Rng::new(152), [3, 14, 1]);
    rows.harvest[0][1] = u32::MAX;
    let harvest = (36, "harvest", Some(rows.harvest[0][0]));
    let f = field(harvest, (1, "F"), u32::MAX, 10_000_000);
    assert_eq!(text_of(&rows.to_bytes()), f);
    rows.stock[13] = [rows.stock[13][0], 255, 65_535, u32::MAX, 65_535];
    let stock = (24 + 1, "stock", Some(rows.stock[13][0]));
    let unit_code = field(stock, (1, "unit_code"), 255, 1);
    assert_eq!(text_of(&rows.to_bytes()), unit_code);
    rows.stock[13][1] = 1;
    let rate = field(stock, (2, "rate"), 65_535, 10_000);
    assert_eq!(text_of(&rows.to_bytes()), rate);
    rows.conversion[2][14] = 1_001;
    rows.conversion[2][13] = 1_002;
    let conversion = (2, "conversion", Some(rows.conversion[2][0]));
    let decay = field(conversion, (13, "decay_fraction"), 1_002, 1_000);
    assert_eq!(text_of(&rows.to_bytes()), decay);
}

/// The last row of the last block, and the first of the second: all digits of both.
#[test]
fn the_row_is_named() {
    let first_lines = |text: String| text.lines().take(5).collect::<Vec<_>>().join(" ");
    let twelve = |place: usize| {
        let hand = Hand::new(&[(1, 12), (1, 12), (1, 8), (4, 1)]);
        let hand = hand.ids(0, 12, 0).ids(1, 12, 12).ids(2, 8, 24);
        first_lines(explained(hand.two(place / 12, place % 12, 8, 10_001)))
    };
    for (place, block, row) in [(0, 0, 0), (11, 0, 11), (12, 1, 0), (23, 1, 11), (31, 2, 7)] {
        let due =
            format!("refused 6 {place} block {block} row {row} kind_name conversion id {place}");
        assert_eq!(twelve(place), due);
    }
    let b = FULL.len() - 1;
    let last = explained(full().four(b, 7, 0, u32::MAX).two(b, 7, 16, 10_001));
    let due = "refused 6 259 block 21 row 7 kind_name crop id 4294967295";
    assert_eq!(first_lines(last), due);
}

#[test]
fn fractions() {
    let three = |on_site, off_site, decay| {
        let hand = Hand::new(&[(1, 2), (4, 1)]).ids(0, 2, 0);
        let on = hand.two(0, 1, 12, on_site).two(0, 1, 18, off_site);
        explained(on.two(0, 1, 32, decay))
    };
    let row = "refused 7 1\nblock 0\nrow 1\nkind_name conversion\nid 1\n";
    let due = format!("{row}onsite 1000\noffsite 1000\ndecay 1000\nsum 3000\n");
    assert_eq!(three(1_000, 1_000, 1_000), due);
    let due = format!("{row}onsite 500\noffsite 300\ndecay 201\nsum 1001\n");
    assert_eq!(three(500, 300, 201), due);
    assert!(three(500, 300, 200).starts_with("heaviest_onsite none\n"));
}

/// Number 12 names no row: "shows 100K and L" of the whole return.
#[test]
fn clearing() {
    let with = |used: u32, cleared: u32| {
        let mut rows = worked_day();
        // K = 10 x used, and L = 2 x (1 + cleared) x 1.
        rows.harvest = vec![[1, used, 10, 0, 0], [2, 0, 9_999, 0, 0]];
        rows.conversion = vec![rows.conversion[0]; 2];
        for (id, row) in (3..).zip(&mut rows.conversion) {
            row[..4].copy_from_slice(&[id, 1, 12, 10]);
            row[7] = 1;
        }
        rows.conversion[1][1] = cleared;
        text_of(&rows.to_bytes())
    };
    assert_eq!(with(1, 500), "refused 12 0\nused 1000\ncleared 1002\n");
    assert_eq!(with(0, 0), "refused 12 0\nused 0\ncleared 2\n");
    let large = "refused 12 0\nused 1999000\ncleared 2000002\n";
    assert_eq!(with(1_999, 1_000_000), large);
    assert!(with(1, 499).starts_with("heaviest_onsite 4\n"));
}

/// A thinner row clears nothing, and doesn't take away from what others clear.
#[test]
fn thinner_rows_clear_nothing() {
    let mut rows = worked_day();
    rows.harvest[0] = [1, 0, 0, 0, 0];
    let mut thinner = rows.conversion[0];
    (thinner[0], thinner[2], thinner[3]) = (8, 100, 1_000);
    rows.conversion.push(thinner);
    let due = "refused 12 0\nused 0\ncleared 36000000\n";
    assert_eq!(text_of(&rows.to_bytes()), due);
    rows.conversion.remove(0);
    let due = "heaviest_onsite none\nheaviest_offsite none\nheaviest_decay 8\n";
    assert!(text_of(&rows.to_bytes()).starts_with(due));
}

/// Number 13 names the row at its place, the type there, and both sums over all rows of it.
#[test]
fn soils() {
    let with = |soils: &[[u32; 3]]| {
        let mut rows = worked_day();
        rows.edition = 2;
        let row = |(id, &[own, now, then]): (u32, &[u32; 3])| [id, 9, own, now, then, 1, 1, 1, 1];
        rows.soil = (7..).zip(soils).map(row).collect();
        text_of(&rows.to_bytes())
    };
    let due = "refused 13 48\nblock 4\nrow 0\nkind_name soil\nid 7\nsoil_type 3\narea_now 5\narea_then 4\n";
    assert_eq!(with(&[[3, 5, 4]]), due);
    // The lowest type that is uneven, at its first row, which is even by itself.
    let rows = [
        [9, 1, 0],
        [2, 8, 8],
        [3, 5, 5],
        [9, 0, 7],
        [3, 0, 2],
        [3, 1, 1],
    ];
    let due = "refused 13 50\nblock 4\nrow 2\nkind_name soil\nid 9\nsoil_type 3\narea_now 6\narea_then 8\n";
    assert_eq!(with(&rows), due);
    let due = "refused 13 48\nblock 4\nrow 0\nkind_name soil\nid 7\nsoil_type 9\narea_now 1\narea_then 7\n";
    assert_eq!(with(&[rows[0], rows[1], rows[2], rows[3]]), due);
    let top = [[65_535, 100_000, 0]; 32];
    let due = "refused 13 48\nblock 4\nrow 0\nkind_name soil\nid 7\nsoil_type 65535\narea_now 3200000\narea_then 0\n";
    assert_eq!(with(&top), due);
    assert!(with(&[[3, 5, 5]]).starts_with("heaviest_onsite 7\n"));
    assert!(with(&[[3, 5, 0], [3, 0, 5]]).starts_with("heaviest_onsite 7\n"));
}

/// Number 14 names the row, then its unit code and the edition, which has no such code.
#[test]
fn trees() {
    let with = |edition: u16, codes: &[u32]| {
        let mut rows = worked_day();
        rows.edition = edition;
        let row = |(id, &code): (u32, &u32)| [id, code, 1, 1, 1];
        rows.stock = (7..).zip(codes).map(row).collect();
        text_of(&rows.to_bytes())
    };
    let due = "refused 14 12\nblock 1\nrow 0\nkind_name stock\nid 7\nunit_code 1\nedition 3\n";
    assert_eq!(with(3, &[1]), due);
    assert_eq!(with(3, &[1, 0, 1]), due);
    let mut codes = [0; 32];
    codes[31] = 1;
    let due = "refused 14 43\nblock 3\nrow 7\nkind_name stock\nid 38\nunit_code 1\nedition 3\n";
    assert_eq!(with(3, &codes), due);
    // A code that there isn't is a field above its limit, in any edition.
    for edition in [1, 2, 3] {
        let due = field((13, "stock", Some(8)), (1, "unit_code"), 2, 1);
        assert_eq!(with(edition, &[1, 2]), due);
    }
    for edition in [1, 2] {
        assert!(with(edition, &[1, 1]).starts_with("heaviest_onsite 7\n"));
    }
}
