//! Inputs at the limits of SPEC 12.4: pairs, parts, ends, property bytes, levels, records and the log.
use super::numbers::{number, put_numbers};
use super::records::{begin, coordinate, end, laid, xy, Node};
use crate::input::{once, Call, Input, Properties, Row, Tree, What};
use original::tree::{put_list, Store};

/// More than is usable, everywhere.
const ALL: [usize; 8] = [64 * 4098 + 63, 131_076, 65_538, 65_538, 65_538, 65_538, 65_538, 65_540];

pub fn each(give: &mut dyn FnMut(Input)) {
    row(give, 4, pairs());
    row(give, 7, parts());
    row(give, 7, ends());
    row(give, 1, property_bytes());
    levels(give);
    records(give);
    lists_at_usable_ends(give);
    full_log(give);
    long_properties(give);
}

fn row(give: &mut dyn FnMut(Input), declared: u8, calls: Vec<What>) {
    let mut calls: Vec<Call> = calls.into_iter().map(Call::from).collect();
    put_numbers(&mut calls, |_, nexts| u32::MAX - nexts as u32);
    give(Input::Row(Row { declared, detect: false, promote: false, held: ALL, scrambled: false, calls }));
}

fn times(event: [u8; 64], times: u32) -> What {
    What::Event { bytes: event.to_vec(), times }
}

/// 65,536 pairs with every value, and one more; the next feature begins at the front again.
fn pairs() -> Vec<What> {
    let full = coordinate(1, 2, 15, [3, 4, 5, 6], 0);
    vec![
        once(begin(4, 0, 0, 0)),
        times(full, 65_536),
        once(full),
        once(xy(7, 8, 0)),
        once(end(4, 0, 0)),
        What::Finish,
        once(xy(7, 8, 0)),
        What::Next,
        once(xy(7, 8, 0)),
        What::Finish,
        What::Next,
    ]
}

/// 4,095 parts, and one more; what is pending beside them is carried over.
fn parts() -> Vec<What> {
    let mut calls = vec![once(begin(7, 0, 0, 0))];
    for part in 0..4095 {
        calls.push(once(begin(1, 0, 0, part)));
        calls.push(once(xy(part.into(), 2, 0)));
        calls.push(once(end(1, 0, part)));
    }
    calls.push(once(xy(9, 9, 0)));
    calls.extend([end(1, 0, 0), end(2, 0, 0), end(2, 1, 0), end(3, 1, 0), end(7, 0, 0)].map(once));
    calls.extend([What::Finish, What::Next, once(end(3, 0, 0)), What::Finish, What::Next]);
    calls
}

/// 65,536 ends, and one more: refused in a collection too, where it would be dropped again.
fn ends() -> Vec<What> {
    let mut calls = vec![times(end(2, 0, 0), 65_536)];
    calls.extend([end(2, 0, 0), begin(7, 0, 0, 0), end(2, 0, 0), end(2, 1, 0), end(2, 0, 0)].map(once));
    calls.extend([What::Finish, What::Next, once(end(2, 0, 0)), What::Finish, What::Next]);
    calls
}

/// 65,536 property bytes in values of several widths, and what comes after.
fn property_bytes() -> Vec<What> {
    let text = |count: usize| What::Property { column: 9, kind: 14, bits: 0, text: vec![0xFE; count] };
    let byte = What::Property { column: 65_535, kind: 1, bits: 5, text: vec![] };
    let mut calls = vec![text(65_531), text(65_530), byte.clone(), What::Finish, What::Next];
    calls.extend([text(65_527), byte.clone(), byte, What::Finish, What::Next]);
    calls
}

fn levels(give: &mut dyn FnMut(Input)) {
    for depth in [15, 16, 17, 18, 64] {
        for kind in [1, 7, 12] {
            let mut node = Node { kind, lists: [Some(vec![1, 2]), None, None, None, None, None], parts: Some(vec![]) };
            for _ in 1..depth {
                node = Node { kind: 7, parts: Some(vec![node]), ..Default::default() };
            }
            let feature = number(depth as usize);
            give(Input::Tree(Tree { store: laid(node, || 0), declared: 0, flags: 0, feature, cut: depth }));
        }
    }
}

/// Tables of 4,096 records and more, whose root has all the others as parts, or one too many.
fn records(give: &mut dyn FnMut(Input)) {
    for (records, start, count) in
        [(4096, 1, 4095), (4097, 1, 4095), (4097, 1, 4096), (4097, 4096, 0), (4098, 4096, 1), (4096, 4096, 0)]
    {
        let mut store = Store { table: vec![0; 64 * records], pools: Default::default() };
        store.pools[0] = (0..2 * records as u64).collect();
        store.table[0] = 7;
        put_list(&mut store.table[..64], 6, start, count);
        for n in 1..records {
            let record = &mut store.table[64 * n..64 * n + 64];
            record[0] = 1;
            put_list(record, 0, 2 * n, 2);
        }
        for cut in [0, 4095, 4096, 4097] {
            give(Input::Tree(Tree { store: store.clone(), declared: 0, flags: 0, feature: u32::MAX - cut, cut }));
        }
    }
}

/// Each list at the end of its pool's usable words, and past it, in pools lent longer.
fn lists_at_usable_ends(give: &mut dyn FnMut(Input)) {
    for (pool, usable) in original::tree::MOST_WORDS.into_iter().enumerate() {
        for (start, count) in
            [(usable, 0), (usable - 2, 2), (usable - 1, 2), (usable, 1), (usable + 1, 0), (0, usable), (0, usable + 1)]
        {
            let mut store = Store { table: vec![0; 64], pools: Default::default() };
            store.pools[pool] = vec![0; usable + 2];
            store.pools[0].resize(store.pools[0].len().max(4), 0);
            store.table[0] = 4;
            put_list(&mut store.table, 0, 0, 4);
            put_list(&mut store.table, pool, start, count);
            give(Input::Tree(Tree { store, declared: 0, flags: 15, feature: number(pool), cut: 77 }));
        }
    }
}

/// Sixteen levels of two parts that are the same, each level's record read twice by the one above: more events than a log has.
fn full_log(give: &mut dyn FnMut(Input)) {
    let mut store = Store { table: vec![0; 64 * 4096], pools: Default::default() };
    store.pools[0] = (0..131_072).collect();
    let record = |store: &mut Store, n: usize, kind: u8, list: usize, start: usize, count: usize| {
        let bytes = &mut store.table[64 * n..64 * n + 64];
        bytes[0] = kind;
        put_list(bytes, list, start, count);
    };
    record(&mut store, 0, 7, 6, 1, 17);
    for part in 1..18 {
        record(&mut store, part, 4, 0, 0, 131_072);
    }
    for cut in [0, 64 * 1_048_576 - 1] {
        give(Input::Tree(Tree { store: store.clone(), declared: 0, flags: 0, feature: u32::MAX, cut }));
    }
}

/// Property bytes up to the usable 65,536 and past them, in columns that take none.
fn long_properties(give: &mut dyn FnMut(Input)) {
    for place in [65_533, 65_534, 65_535, 65_536, 65_540] {
        let first: &[u8] = if place % 2 == 1 { &[1, 0, 5] } else { &[] };
        let mut bytes = first.to_vec();
        bytes.resize(place, 0);
        bytes.extend_from_slice(&[1, 0, 77]);
        for stop in [1, 65_536] {
            give(Input::Properties(Properties { bytes: bytes.clone(), columns: Some(vec![255, 1]), stop, cut: 17 }));
        }
    }
    let bytes = [0, 0, 9].repeat(21_846);
    give(Input::Properties(Properties { bytes, columns: Some(vec![1]), stop: 65_536, cut: 1_000 }));
    let most = vec![1; 65_536];
    give(Input::Properties(Properties { bytes: vec![255, 255, 3, 0, 0, 4], columns: Some(most), stop: 65_535, cut: 5 }));
}
