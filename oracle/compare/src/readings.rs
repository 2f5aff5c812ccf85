//! Trees and property bytes read by both sides, into logs with room enough, with just too little, and with some between; and boxes.
//! `original::reading` says what there is the Rust's and what SPEC's, `boxes` what a box is held to. A feature's number is none of the
//! Rust's: of its records all other bytes are compared, and in their place stands the number that was asked for.
use crate::boxes::Boxes;
use crate::input::{Properties, Tree};
use crate::port::{self, Memory, PropertiesRead};
use crate::rows::Finished;
use crate::tally::{Asked, Tally};
use original::answer::{DONE, LOG_FULL, TEXT_NOT_UTF8};
use original::events::put_feature;
use original::properties::ValuesRead;
use original::reading;

const UNTOUCHED: u8 = 0xA5;

pub fn compare_tree(tree: &Tree, tally: &mut Tally) -> Result<(), String> {
    let mut expected = reading::read(&tree.store, tree.declared, tree.flags);
    put_feature(&mut expected.events, tree.feature);
    let given = Memory::of(&tree.store);
    let memory = given.clone();
    for length in log_lengths(expected.events.len(), 64, tree.cut) {
        let (number, events) = expected.cut((length / 64).min(reading::MOST_EVENTS));
        let mut log = vec![UNTOUCHED; length];
        let (answered, count) = port::read(&memory, tree.declared, tree.flags, tree.feature, &mut log);
        if (answered, count as usize) != (number, events.len() / 64) {
            let words = &expected.words;
            return Err(format!(
                "read answered {answered} after {count} events, not {number} after {} ({words})",
                events.len() / 64
            ));
        }
        check_log("read", &log, events)?;
        tally.answered(Asked::Read, number);
        tally.read_under(tree.feature);
        tally.reads += 1;
    }
    tally.read(if tree.declared == 0 { tree.store.table.first().copied().unwrap_or_default() } else { tree.declared });
    compare_boxes(tree, &memory, tally)?;
    if memory != given {
        return Err("a reading changed what it read".into());
    }
    Ok(())
}

/// Room enough and some bytes more, one record too few, and as many as `cut` says; each with a remainder under one record, or none.
fn log_lengths(bytes: usize, record: usize, cut: u32) -> Vec<usize> {
    let cut = cut as usize;
    let mut lengths = vec![bytes + cut % (2 * record)];
    if bytes > 0 {
        lengths.push(bytes - 1 - cut % record);
        lengths.push(cut % bytes);
    }
    lengths
}

fn check_log(what: &str, log: &[u8], expected: &[u8]) -> Result<(), String> {
    let (written, rest) = log.split_at(expected.len());
    if let Some(at) = (0..expected.len()).find(|at| written[*at] != expected[*at]) {
        return Err(format!("{what}: byte {at} of the log is {}, not {}", written[at], expected[at]));
    }
    match rest.iter().position(|byte| *byte != UNTOUCHED) {
        Some(at) => Err(format!("{what}: byte {} of the log was touched", expected.len() + at)),
        None => Ok(()),
    }
}

/// The boxes of a tree's records, and of numbers past its table.
fn compare_boxes(tree: &Tree, memory: &Memory, tally: &mut Tally) -> Result<(), String> {
    let boxes = Boxes::of(&tree.store);
    let records = tree.store.records() as u32;
    for n in boxes.asked().chain([records, records + 1, tree.cut, u32::MAX]) {
        let expected = boxes.answer(n);
        let answered = port::edges(memory, n);
        if answered != expected {
            return Err(format!("the box of record {n} is {answered:x?}, not {expected:x?}"));
        }
        tally.answered(Asked::Box, expected.0);
        tally.boxes += 1;
    }
    Ok(())
}

/// The root's box beside the one that the Rust's writer kept, where it must be the same.
pub fn compare_kept_box(finished: &Finished, tally: &mut Tally) -> Result<(), String> {
    let Some(kept) = finished.kept_box else { return Ok(()) };
    let answered = port::edges(&Memory::of(&finished.tree), 0);
    if answered != (DONE, kept) {
        return Err(format!("the box of a finished feature is {answered:x?}, and the Rust keeps {kept:x?}"));
    }
    tally.kept_box(finished.tree.records() > 1);
    Ok(())
}

/// Bytes past these are neither read nor changed.
const MOST_PROPERTY_BYTES: usize = 65536;

pub fn compare_properties(list: &Properties, tally: &mut Tally) -> Result<(), String> {
    let usable = &list.bytes[..list.bytes.len().min(MOST_PROPERTY_BYTES)];
    let rust = original::properties::read(usable, list.columns.as_deref(), list.stop);
    for length in log_lengths(rust.records.len(), 16, list.cut) {
        let (expected, records) = values_in(length / 16, &rust);
        let mut log = vec![UNTOUCHED; length];
        let answered = port::read_properties(&list.bytes, list.columns.as_deref(), list.stop, &mut log);
        if answered != expected {
            return Err(format!("properties gave {answered:?}, not {expected:?} ({})", rust.words));
        }
        check_log("properties", &log, records)?;
        if expected.number == LOG_FULL && rust.number == TEXT_NOT_UTF8 {
            tally.came_before(LOG_FULL, TEXT_NOT_UTF8);
        }
        tally.answered(Asked::ReadProperties, expected.number);
        tally.placed(Asked::ReadProperties, expected.number, expected.place);
        tally.lists += 1;
    }
    Ok(())
}

/// The Rust's reading with room for so many records. A full log tells of nothing behind it, and has no place.
fn values_in(room: usize, rust: &ValuesRead) -> (PropertiesRead, &[u8]) {
    let full = 16 * room < rust.records.len();
    let records = if full { &rust.records[..16 * room] } else { &rust.records };
    let (number, stopped, place) = if full { (LOG_FULL, false, 0) } else { (rust.number, rust.stopped, rust.place) };
    (PropertiesRead { number, count: records.len() as u32 / 16, stopped: stopped.into(), place }, records)
}
