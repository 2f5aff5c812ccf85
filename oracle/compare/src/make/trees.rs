//! Random trees, good, with shared parts, and damaged.
use super::pick::Pick;
use super::records::{laid, Node};
use crate::input::Tree;
use original::tree::{put_list, Store};

const PARENTS: [u8; 7] = [6, 7, 9, 10, 11, 12, 15];
const COLLECTION: u8 = 7;
const MOST_LINKED: usize = 3;
const ALL: [u8; 15] = super::records::TYPES;

/// Of a type that has parts: those that the crate reads in it.
fn usual_parts(kind: u8) -> &'static [u8] {
    match kind {
        6 | 15 => &[3],
        COLLECTION => &ALL,
        9 => &[2, 8],
        12 => &[2, 3, 8, 9, 10],
        _ => &[2, 8, 9],
    }
}

pub fn tree(pick: &mut Pick) -> Tree {
    let mut store = if pick.one_in(50) { linked(pick) } else { nested(pick) };
    let kind = store.table[0];
    if pick.one_in(4) {
        damage(pick, &mut store);
    }
    let declared = match pick.below(8) {
        0 => pick.byte() % 19,
        1 => pick.of(&ALL),
        2 | 3 => 0,
        _ => kind,
    };
    let flags = if pick.one_in(2) { 0 } else { pick.byte() % 16 };
    Tree { store, declared, flags, feature: pick.number(), cut: pick.word() as u32 }
}

/// A tree whose records have one holder each; in one of three, some then have several.
fn nested(pick: &mut Pick) -> Store {
    let deep = pick.one_in(100);
    let kind = match pick.below(30) {
        _ if deep => COLLECTION,
        0 => pick.byte(),
        _ => pick.of(&ALL),
    };
    let levels = if deep { 12 + pick.below(12) } else { 1 + pick.below(4) };
    let root = node(pick, kind, levels);
    let gaps = pick.one_in(4);
    let mut store = laid(root, || if gaps { pick.below(3) } else { 0 });
    if pick.one_in(3) {
        share(pick, &mut store);
    }
    store
}

fn share(pick: &mut Pick, store: &mut Store) {
    let records = store.records();
    for _ in 0..1 + pick.below(records) {
        let n = pick.below(records);
        link(pick, store, n, records);
    }
}

/// Records enough to pass level 16, of any types, each of which has some of the next ones for its parts: most have several holders, at
/// several levels.
fn linked(pick: &mut Pick) -> Store {
    let parts = (0..16 + pick.below(16)).map(|_| leaf(pick)).collect();
    let mut store = laid(Node { parts: Some(parts), ..leaf(pick) }, || 0);
    (0..store.records()).for_each(|n| link(pick, &mut store, n, 1));
    store
}

fn leaf(pick: &mut Pick) -> Node {
    let mut leaf = Node { kind: pick.of(&ALL), ..Default::default() };
    own_lists(pick, &mut leaf);
    leaf
}

/// Gives a record other parts, a few that begin at one of so many behind it. They may be parts already, and are then shared.
fn link(pick: &mut Pick, store: &mut Store, n: usize, farthest: usize) {
    let records = store.records();
    let start = n + 1 + pick.below(farthest.min(records - n));
    let count = pick.below(MOST_LINKED.min(records - start) + 1);
    put_list(&mut store.table[64 * n..64 * n + 64], 6, start, count);
}

fn node(pick: &mut Pick, kind: u8, levels: usize) -> Node {
    let mut node = Node { kind, ..Default::default() };
    if PARENTS.contains(&kind) && !pick.one_in(20) {
        // Far from its leaves a collection has one collection in it, so that a deep tree stays small.
        let chained = levels > 4 && kind == COLLECTION;
        let count = if chained || levels < 2 { usize::from(chained) } else { pick.below(4) };
        let parts = (0..count).map(|_| {
            let part = match pick.below(16) {
                _ if chained => COLLECTION,
                0 => pick.byte() % 19,
                _ => pick.of(usual_parts(kind)),
            };
            self::node(pick, part, levels - 1)
        });
        node.parts = Some(parts.collect());
    }
    if !PARENTS.contains(&kind) || pick.one_in(8) {
        own_lists(pick, &mut node);
    }
    node
}

fn own_lists(pick: &mut Pick, node: &mut Node) {
    let pairs = pick.below(6);
    let words = match pick.below(16) {
        0 => None,
        1 => Some(2 * pairs + 1),
        _ => Some(2 * pairs),
    };
    node.lists[0] = words.map(|count| (0..count).map(|_| pick.double()).collect());
    node.lists[1] = ends(pick, pairs);
    for value in 2..6 {
        let count = match pick.below(8) {
            0 | 1 => continue,
            2 => pick.below(pairs + 1),
            3 => pairs + 1,
            _ => pairs,
        };
        node.lists[value] = Some((0..count).map(|_| pick.double()).collect());
    }
}

fn ends(pick: &mut Pick, pairs: usize) -> Option<Vec<u64>> {
    let count = pick.below(5);
    let mut ends: Vec<u64> = (0..count).map(|_| pick.below(pairs + 1) as u64).collect();
    match pick.below(10) {
        0 | 1 => return None,
        2 => {}
        3 => ends.push(pairs as u64 + 1 + pick.below(3) as u64),
        4 => ends.push(pick.of(&[(1 << 31) - 1, 1 << 31, (1 << 31) + 1, u32::MAX.into()])),
        _ => ends.sort_unstable(),
    }
    Some(ends)
}

/// Bytes of the table changed, words moved, pools shorter or longer, the table cut or with more after it.
fn damage(pick: &mut Pick, store: &mut Store) {
    for _ in 0..1 + pick.below(3) {
        if store.table.is_empty() {
            return;
        }
        let record = 64 * pick.below(store.table.len().div_ceil(64));
        let pool = pick.below(6);
        match pick.below(8) {
            0 => store.table.truncate(pick.below(store.table.len() + 1)),
            1 => store.table.extend_from_slice(&[0; 64][..pick.of(&[1, 32, 63, 64])]),
            2 => store.pools[pool].truncate(store.pools[pool].len().saturating_sub(1)),
            3 => store.pools[pool].push(7),
            4 => change(store, record + pick.of(&[0, 1, 2, 3, 60, 63]), |byte| byte ^ 1 << pick.below(8)),
            5 => change(store, record + 4 + 4 * pick.below(14), |byte| byte.wrapping_add(1)),
            6 => change(store, record + 4 + 4 * pick.below(14), |byte| byte.wrapping_sub(1)),
            _ => change(store, record + pick.below(64), |_| pick.byte()),
        }
    }
}

fn change(store: &mut Store, at: usize, with: impl FnOnce(u8) -> u8) {
    if let Some(byte) = store.table.get_mut(at) {
        *byte = with(*byte);
    }
}
