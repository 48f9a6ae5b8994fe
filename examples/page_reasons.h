/* What each refusal means and what to do, in the sentences of docs/EXPLAIN.md, which has them with examples; examples/page_test holds them to it. In them
 * `..` is a name and **..** is strong; a line that begins with - is one of a list. */
#ifndef PAGE_REASONS_H
#define PAGE_REASONS_H

#include <stdint.h>

/* By number, and for number 4 by its fault too. */
static const struct reason {
    uint32_t number;
    const char *fault, *title, *lines[8];
} reasons[] = {
    {1, "", "the length", {
        "`length` is the number of bytes in the file. A return has 1 to 22 blocks of 512 bytes, so 512, 1,024 and so on up to 11,264.",
        "11265 stands for any longer file.",
        "**Look at** the size of the file that you sent, and of the file at the desk. **Do**: if they differ, the file was cut off or changed on "
            "the way. Send it again, as a file of bytes and not as text. If they are the same, the program that wrote the file left a block "
            "unfinished or put something behind the last one: write the return anew.",
    }},
    {2, "", "the check", {
        "`stored` is the check that stands in the block, at offsets 508 to 511. `computed` is the check that the block's bytes come to.",
        "**Look at** your own adding sheet of the block. `examples/adding FILE BLOCK` prints one to lay beside it (docs/ADDING.md).",
        "**Do**: if your sheet comes to `stored`, a byte of the block was changed after you added it up. Send the return again. If your sheet "
            "comes to `computed`, the check was copied wrongly: put `computed` into the block, with `--added`.",
        "Do not put it in without the sheet, for then a damaged byte would count as good.",
    }},
    {3, "", "the header", {
        "The first five lines are the block's header as it stands there: `kind`, `count`, `number`, `blocks` and `edition`. Then comes what is "
            "due: `number_due` is the block's place in the file, `blocks_due` the number of blocks that the file has. `edition_first` is block 0's "
            "edition.",
        "**Look at** these in turn. **Do** what stands beside the first that does not hold, with `examples/put`, which puts the block's check "
            "right.",
        "- `number` is `number_due`; if it does not hold: a block was lost, sent twice or put in the wrong place. Put the blocks in order and "
            "number them from 0",
        "- `blocks` is `blocks_due`; if it does not hold: blocks are missing or too many. Find them; if the file is whole, put its number of "
            "blocks into every header",
        "- `edition` is 1, 2 or 3, and is `edition_first`; if it does not hold: blocks of two returns were mixed, or an edition was mistyped. "
            "All blocks have the same one",
        "- `kind` is 1 to 4 in edition 1, and 1 to 8 in editions 2 and 3; if it does not hold: the kind was mistyped. If there are rows of "
            "abandoned land, savanna, mineral soil or crop residues, the return has to be of edition 2 or 3",
        "`count` is shown since it stands in the header. Number 3 does not look at it.",
    }},
    {4, "order", "the blocks: the order of the kinds", {
        "The kinds have to rise from block to block, or stay the same. `kind_before` is the kind of the block before this one, and it is higher.",
        "**Look at** `kind` and `kind_before`. **Do**: if one of them was mistyped, put it right. If not, put the blocks in the order of their "
            "kinds and number them anew.",
    }},
    {4, "end", "the blocks: the end", {
        "A return has one block of parameters, kind 4. In edition 1 it is the last block. In editions 2 and 3 only blocks of abandoned land, "
            "savanna, mineral soil and crop residues, kinds 5 to 8, come behind it.",
        "**Look at** `kind`. If it is 1 to 3, this is the last block, and no parameters follow. If it is 4, a block of kind 1 to 4 follows. If "
            "it is 5 to 8, no parameters stand before it.",
        "**Do**: put the one block of parameters where it belongs. A return needs one even where there is nothing to burn.",
    }},
    {4, "fourth", "the blocks: a fourth of its kind", {
        "A kind has at most three blocks, and this is the fourth or a later one.",
    }},
    {4, "count", "the blocks: the record count", {
        "A block has 1 to 12 rows, and the block of parameters exactly 1.",
        "**Look at** `count`, and count the rows in the block. **Do**: put the right count in. A block without rows is left out; the others are "
            "then numbered anew.",
    }},
    {4, "unfilled", "the blocks: a block that is not full", {
        "Where a kind goes on in the next block, this one has to be full, with 12 rows. `kind_next` is the kind of the next block, and it is "
            "this block's.",
        "**Look at** whether the next block has the right kind.",
        "**Do**: put the kind right, or move rows up from the next block until this one has 12.",
    }},
    {4, "overfilled", "the blocks: more than 32 rows of a kind", {
        "A kind has at most 32 rows: two blocks of 12 and a third of 8. This is the third block of its kind, and it has more than 8.",
        "**Look at** the number of rows of this kind. **Do**: put some of them together, or ask the desk how to share them between two returns.",
    }},
    {4, "stray", "the blocks: a byte that has to be zero", {
        "Zero is due in every byte that is no field: before, between and behind a row's fields, in the records behind the last row, and at "
            "offsets 488 to 507. `offset` is where in the block the first byte stands that is not zero, and `byte` is what stands there.",
        "**Look at** the offset. Take 8 from it and divide by 40: the whole part is the position of the record, the rest is the byte in it. "
            "Position 12 is the zeros behind the records.",
        "**Do**: if there is such a row, put the right record count in. If not, put zeros in the whole record. In a row that counts, a field "
            "stands in the wrong place: see the table of fields below.",
    }},
    {5, "", "the ids", {
        "The ids of a kind have to rise from row to row, from one block to the next as well. `id` is the id of the row at the place, and "
            "`id_before` that of the row before it.",
        "**Look at** the two ids, and at the record at the place if `id` is 0. An id of 0 behind another is most often no row at all: the record "
            "is empty, all zeros, and the record count is too high",
        "**Do**: count the rows that you meant to send, and put that count in; do not give the empty record an id, for then a row would count "
            "that nobody sent. If there is a row there, and the ids are the same, it was entered twice, or two rows have got the same id: leave one "
            "out or give it another id. If `id` is lower, sort the rows by their ids.",
    }},
    {6, "", "a field above its limit", {
        "`field` is the field's number in the row, from 0, and `field_name` its name, with `_` for a space. `value` is what stands there and "
            "`limit` the most that may. If several fields of the row are too high, it is the first of them.",
        "**Look at** the field's unit in the table of fields below. Often the number is right and the unit is not",
        "**Do**: put the number into the unit of the table. If it is still above the limit, look for a digit too many.",
        "The carbon fraction of crop residues alone is in 0.0001, as the workbook's table has four digits: 0.4853 is 4853 there, and 0.5 is "
            "5000. No number refuses 485 or 500: it is within the limit, and the row would come to a tenth of what is due.",
    }},
    {14, "", "scattered trees in edition 3", {
        "Edition 3 has no scattered trees: there the unit code of every stock row is 0, for land. `unit_code` is what stands in the row, and "
            "`edition` is the return's.",
        "**Look at** the row: its amount is a number of trees, in thousands, and its rate the growth of a thousand trees. Street trees are now "
            "reported as land, by the area that they cover. **Do** one of these two:",
        "- **Report the trees as land**, where their area is known. Three fields of the row change, and the others stay.",
        "- **Send the return as edition 2**, as before, where the area is not known. Put 2 in for the edition of every block, from block 0 to "
            "the last",
        "Do not put unit code 0 in alone: the row would then say an area and a growth that nobody measured",
    }},
    {7, "", "the fractions", {
        "`onsite`, `offsite` and `decay` are the on-site, off-site and decay fraction of a conversion row, in thousandths. `sum` is what they "
            "add up to, and it may be at most 1000.",
        "**Look at** the three fractions. What is burned on the site, what is burned elsewhere and what is left to decay are parts of the same "
            "wood, so together they can't be more than all of it.",
        "**Do**: put the wrong one right. If all three were rounded up, round one of them down. A sum below 1000 is good.",
    }},
    {12, "", "the wood from clearing", {
        "More wood comes from clearing than was used. `used` is all wood that was used, by the harvest rows: 100 K, where K is worksheet 5-1's. "
            "`cleared` is the wood from clearing that was burned off the site, by the conversion rows: L. Both are in 10^-6 kt of dry matter, so "
            "1,000,000 is 1 kt. `cleared` may be as high as `used`, and no higher.",
        "**Look at** the harvest rows first: `F`, `G`, `I` and `J`, with their units in the table of fields below. Most often a harvest row is "
            "missing, or all of them; fuelwood, `I`, was left at 0, or the fuelwood from clearing was taken out of it; or a number is in a larger "
            "unit, as kt for 0.1 kt.",
        "`I` is all fuelwood, also that from clearing: the worksheet itself takes `cleared` away from `used`.",
        "Then look at the conversion rows: `area`, `before`, `after` and `off-site_fraction`. No other field moves `cleared`. An area in ha for "
            "0.01 kha makes it ten times too high, and the off-site fraction is only what was carried off and burned elsewhere.",
        "**Do**: put the wrong number right. If rows are missing, write the return anew with them. If every row is right, do not change one to "
            "make the return pass: ask the desk.",
    }},
    {13, "", "the areas of a soil type", {
        "Land changes its use, but not its soil: the rows of a soil type have to have as much area now as twenty years ago, all of them "
            "together. `soil_type` is the lowest soil type of which this does not hold, and the row that is named is the first row of this type, "
            "whether or not the slip is in it. `area_now` and `area_then` are the two areas of the type, now and twenty years ago, added up over all "
            "rows of it, in 0.001 Mha. They have to be equal.",
        "**Look at** all rows with this soil type, whatever their land system and wherever they stand among the rows of mineral soil: "
            "`soil_type`, `area_now` and `area_then`. Most often a land system that gave or got the land is missing, also one that has nothing left "
            "of it now; a soil type was mistyped, so that two types are out of balance by as much; or one of the areas is in another unit.",
        "**Do**: put the wrong number right. If rows are missing, write the return anew with them. If every row is right, do not change one to "
            "make the return pass: ask the desk.",
    }},
};

/* The fields of every kind: the first of its bytes in a record and how many there are, its limit and its unit. */
static const struct field {
    uint32_t kind;
    const char *name;
    unsigned first, width;
    const char *limit, *unit;
} fields[] = {
    {1, "id", 0, 4, "none", ""},
    {1, "area", 4, 4, "1,000,000", "0.01 kha"},
    {1, "before", 8, 2, "10,000", "0.1 t/ha"},
    {1, "after", 10, 2, "10,000", "0.1 t/ha"},
    {1, "on-site_fraction", 12, 2, "1,000", "0.001"},
    {1, "on-site_oxidised_fraction", 14, 2, "1,000", "0.001"},
    {1, "on-site_carbon_fraction", 16, 2, "1,000", "0.001"},
    {1, "off-site_fraction", 18, 2, "1,000", "0.001"},
    {1, "off-site_oxidised_fraction", 20, 2, "1,000", "0.001"},
    {1, "off-site_carbon_fraction", 22, 2, "1,000", "0.001"},
    {1, "ten-year_area", 24, 4, "1,000,000", "0.01 kha"},
    {1, "ten-year_before", 28, 2, "10,000", "0.1 t/ha"},
    {1, "ten-year_after", 30, 2, "10,000", "0.1 t/ha"},
    {1, "decay_fraction", 32, 2, "1,000", "0.001"},
    {1, "decay_carbon_fraction", 34, 2, "1,000", "0.001"},
    {2, "id", 0, 4, "none", ""},
    {2, "unit_code", 4, 1, "1", "0 is land, 1 is scattered trees, not in edition 3"},
    {2, "rate", 6, 2, "10,000", "0.01 t/ha, or 0.0001 kt per thousand trees"},
    {2, "amount", 8, 4, "10,000,000", "0.01 kha, or one thousand trees"},
    {2, "carbon_fraction", 12, 2, "1,000", "0.001"},
    {3, "id", 0, 4, "none", ""},
    {3, "F", 4, 4, "10,000,000", "0.1 thousand m3"},
    {3, "G", 8, 2, "10,000", "0.001"},
    {3, "I", 12, 4, "10,000,000", "0.1 kt"},
    {3, "J", 16, 4, "10,000,000", "0.1 kt"},
    {4, "N", 4, 2, "1,000", "0.001"},
    {4, "CH4", 6, 2, "1,000", "0.001"},
    {4, "CO", 8, 2, "1,000", "0.001"},
    {4, "N/C", 10, 2, "1,000", "0.001"},
    {4, "N2O", 12, 2, "1,000", "0.001"},
    {4, "NOx", 14, 2, "1,000", "0.001"},
    {5, "id", 0, 4, "none", ""},
    {5, "area", 4, 4, "10,000,000", "0.01 kha"},
    {5, "growth_rate", 8, 2, "10,000", "0.01 t/ha"},
    {5, "carbon_fraction", 10, 2, "1,000", "0.001"},
    {5, "longer_area", 12, 4, "10,000,000", "0.01 kha"},
    {5, "longer_growth_rate", 16, 2, "10,000", "0.01 t/ha"},
    {5, "longer_carbon_fraction", 18, 2, "1,000", "0.001"},
    {6, "id", 0, 4, "none", ""},
    {6, "area", 4, 4, "1,000,000", "0.01 kha"},
    {6, "density", 8, 2, "10,000", "0.1 t/ha"},
    {6, "fraction_really_burned", 10, 2, "1,000", "0.001"},
    {6, "live_fraction", 12, 2, "1,000", "0.001"},
    {6, "live_oxidised_fraction", 14, 2, "1,000", "0.001"},
    {6, "live_carbon_fraction", 16, 2, "1,000", "0.001"},
    {6, "dead_oxidised_fraction", 18, 2, "1,000", "0.001"},
    {6, "dead_carbon_fraction", 20, 2, "1,000", "0.001"},
    {6, "N/C", 22, 2, "1,000", "0.001"},
    {6, "CH4", 24, 2, "1,000", "0.001"},
    {6, "CO", 26, 2, "1,000", "0.001"},
    {6, "N2O", 28, 2, "1,000", "0.001"},
    {6, "NOx", 30, 2, "1,000", "0.001"},
    {7, "id", 0, 4, "none", ""},
    {7, "land_system", 4, 2, "65,535", "a number of the desk's own"},
    {7, "soil_type", 6, 2, "65,535", "a number of the desk's own"},
    {7, "area_now", 8, 4, "100,000", "0.001 Mha"},
    {7, "area_then", 12, 4, "100,000", "0.001 Mha"},
    {7, "native", 16, 2, "10,000", "0.1 t/ha"},
    {7, "base", 18, 2, "300", "0.01"},
    {7, "tillage", 20, 2, "300", "0.01"},
    {7, "input", 22, 2, "300", "0.01"},
    {8, "id", 0, 4, "none", ""},
    {8, "production", 4, 4, "10,000,000", "0.1 kt"},
    {8, "residue_ratio", 8, 2, "1,000", "0.01"},
    {8, "dry_matter", 10, 2, "1,000", "0.001"},
    {8, "burned_fraction", 12, 2, "1,000", "0.001"},
    {8, "oxidised_fraction", 14, 2, "1,000", "0.001"},
    {8, "carbon_fraction", 16, 2, "10,000", "0.0001"},
    {8, "N/C", 18, 2, "1,000", "0.001"},
    {8, "CH4", 20, 2, "1,000", "0.001"},
    {8, "CO", 22, 2, "1,000", "0.001"},
    {8, "N2O", 24, 2, "1,000", "0.001"},
    {8, "NOx", 26, 2, "1,000", "0.001"},
};
enum { REASONS = sizeof reasons / sizeof *reasons, FIELDS = sizeof fields / sizeof *fields };

#endif
