//! Packing and unpacking, against the second program.

use crate::run::{bench_two, Load};
use second::ffi::texts::{first_pack, first_unpack};
use second::kinds::RETURN_ROOM;
use second::lent::Lent;
use second::pack::pack;
use second::unpack::{text, unpack, UNPACK_ROOM};
use std::hint::black_box;

pub fn bench(load: &Load) {
    let texts = load.returns.iter();
    let texts: Vec<String> = texts.map(|bytes| text(bytes).expect("accepted")).collect();
    let [mut a, mut b] = [[0; RETURN_ROOM]; 2];
    let [mut size_a, mut size_b] = [[0; 1]; 2];
    let done = bench_two(
        "pack",
        load,
        &texts,
        |text| {
            let (room, size) = (Lent::whole(&mut a), Lent::whole(&mut size_a));
            assert_eq!(first_pack(black_box(text.as_bytes()), room, size), 0);
        },
        |text| assert_eq!(pack(black_box(text.as_bytes()), &mut b, &mut size_b), 0),
    );
    assert!(!done || (a, size_a) == (b, size_b));
    let [mut a, mut b] = [[0; UNPACK_ROOM]; 2];
    let done = bench_two(
        "unpack",
        load,
        &load.returns,
        |bytes| {
            let (room, size) = (Lent::whole(&mut a), Lent::whole(&mut size_a));
            assert_eq!(first_unpack(black_box(bytes), room, size), 0);
        },
        |bytes| assert_eq!(unpack(black_box(bytes), &mut b, &mut size_b), 0),
    );
    assert!(!done || (a, size_a) == (b, size_b));
}
