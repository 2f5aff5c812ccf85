//! The calls of [`link`] on slices, each of which is lent as its pointer and its length. The answer is the bare number, and
//! what a call writes goes where its caller says.
use crate::link;
use crate::{Memory, StateWords, Tree};

/// A call with the table and the six pools between its other arguments.
macro_rules! with_lists {
    (link::$call:ident($($first:expr),*; $lists:ident.$pointer:ident; $($last:expr),*)) => {
        // SAFETY: every pointer and count is a slice's, or a reference's; what is written is borrowed by `&mut`.
        unsafe {
            link::$call(
                $($first,)*
                $lists.table.$pointer(), $lists.table.len(),
                $lists.xy.$pointer(), $lists.xy.len(),
                $lists.ends.$pointer(), $lists.ends.len(),
                $lists.z.$pointer(), $lists.z.len(),
                $lists.m.$pointer(), $lists.m.len(),
                $lists.t.$pointer(), $lists.t.len(),
                $lists.tm.$pointer(), $lists.tm.len(),
                $($last,)*
            )
        }
    };
}

#[inline]
pub fn start(state: &mut StateWords, declared: u8, detect: bool, promote: bool) {
    // SAFETY: a state's words are lent.
    unsafe { link::bintolage_start(state, declared, detect as u8, promote as u8) }
}

#[inline]
pub fn event(state: &mut StateWords, event: &[u8], memory: &mut Memory) -> u8 {
    with_lists!(link::bintolage_event(state, event.as_ptr(), event.len(); memory.as_mut_ptr;))
}

#[inline]
pub fn events(state: &mut StateWords, events: &[u8], memory: &mut Memory, taken: &mut usize) -> u8 {
    with_lists!(link::bintolage_events(state, events.as_ptr(), events.len(); memory.as_mut_ptr; taken))
}

#[inline]
pub fn property(
    state: &mut StateWords,
    column: u32,
    column_type: u8,
    bits: u64,
    text: &[u8],
    buffer: &mut [u8],
    place: &mut usize,
) -> u8 {
    // SAFETY: every pointer and count is a slice's, or a reference's; what is written is borrowed by `&mut`.
    unsafe {
        link::bintolage_property(
            state,
            column, column_type, bits,
            text.as_ptr(), text.len(),
            buffer.as_mut_ptr(), buffer.len(),
            place,
        )
    }
}

#[inline]
pub fn finish(state: &mut StateWords, memory: &mut Memory) -> u8 {
    with_lists!(link::bintolage_finish(state; memory.as_mut_ptr;))
}

#[inline]
pub fn next(state: &mut StateWords, memory: &mut Memory) -> u8 {
    with_lists!(link::bintolage_next(state; memory.as_mut_ptr;))
}

#[inline]
pub fn read(tree: Tree, declared: u8, flags: u8, feature: u32, log: &mut [u8], count: &mut u32) -> u8 {
    with_lists!(link::bintolage_read(; tree.as_ptr; declared, flags, feature, log.as_mut_ptr(), log.len(), count))
}

#[inline]
pub fn read_wkb(bytes: &[u8], feature: u32, log: &mut [u8], count: &mut u32) -> u8 {
    // SAFETY: every pointer and count is a slice's, or a reference's; what is written is borrowed by `&mut`.
    unsafe {
        link::bintolage_read_wkb(
            bytes.as_ptr(), bytes.len(),
            feature,
            log.as_mut_ptr(), log.len(),
            count,
        )
    }
}

#[inline]
pub fn write_wkb(events: &[u8], out: &mut [u8], written: &mut usize) -> u8 {
    // SAFETY: every pointer and count is a slice's, or a reference's; what is written is borrowed by `&mut`.
    unsafe {
        link::bintolage_write_wkb(
            events.as_ptr(), events.len(),
            out.as_mut_ptr(), out.len(),
            written,
        )
    }
}

/// Without columns nothing is read.
#[inline]
pub fn read_properties(
    bytes: &[u8],
    columns: Option<&[u8]>,
    stop: u32,
    log: &mut [u8],
    count: &mut u32,
    stopped: &mut u8,
    place: &mut usize,
) -> u8 {
    let types = columns.unwrap_or(&[]);
    // SAFETY: every pointer and count is a slice's, or a reference's; what is written is borrowed by `&mut`.
    unsafe {
        link::bintolage_read_properties(
            bytes.as_ptr(), bytes.len(),
            columns.is_some() as u8,
            types.as_ptr(), types.len(),
            stop,
            log.as_mut_ptr(), log.len(),
            count, stopped, place,
        )
    }
}

#[inline]
pub fn bbox(tree: Tree, n: u32, edges: &mut [u64; 4]) -> u8 {
    with_lists!(link::bintolage_box(; tree.as_ptr; n, edges.as_mut_ptr()))
}
