//! A polygon from a county map, a field with a well in it, becomes a feature and its tree, and well-known binary again: its
//! bytes are read to events, the writer takes them as they are, the tree reads back as the same events, and these are written
//! as the bytes that came. Bytes that were cut on their way are refused, and so are the events before the cut.
use bintolage::{event, geometry_type, read_wkb, usable, write_wkb, Event, Memory, Refusal, Tree, Writer};

/// Room for the events of the field, and more.
const LOG_BYTES: usize = 32 * usable::EVENT_BYTES;

// the county's own number for the field
const FIELD: u32 = 1204;

// laid down by hand from the layout in OGC Simple Features 1.2.1, 8.2; metres from the corner of the map's sheet
#[rustfmt::skip] // a pair on one line
const WKB: [u8; 161] = [
    1,                      // order mark: the lowest byte first
    3, 0, 0, 0,             // type: Polygon
    2, 0, 0, 0,             // rings
    5, 0, 0, 0,             // pairs of the field's edge
    0, 0, 0, 0, 0, 0, 0, 0,            0, 0, 0, 0, 0, 0, 0, 0,            // 0 0
    0, 0, 0, 0, 0, 0, 0x79, 0x40,      0, 0, 0, 0, 0, 0, 0, 0,            // 400 0
    0, 0, 0, 0, 0, 0, 0x79, 0x40,      0, 0, 0, 0, 0, 0x40, 0x6f, 0x40,   // 400 250
    0, 0, 0, 0, 0, 0, 0, 0,            0, 0, 0, 0, 0, 0x40, 0x6f, 0x40,   // 0 250
    0, 0, 0, 0, 0, 0, 0, 0,            0, 0, 0, 0, 0, 0, 0, 0,            // 0 0
    4, 0, 0, 0,             // pairs of the ring around the well
    0, 0, 0, 0, 0, 0, 0x69, 0x40,      0, 0, 0, 0, 0, 0xc0, 0x62, 0x40,   // 200 150
    0, 0, 0, 0, 0, 0x40, 0x6a, 0x40,   0, 0, 0, 0, 0, 0, 0x64, 0x40,      // 210 160
    0, 0, 0, 0, 0, 0xc0, 0x67, 0x40,   0, 0, 0, 0, 0, 0, 0x64, 0x40,      // 190 160
    0, 0, 0, 0, 0, 0, 0x69, 0x40,      0, 0, 0, 0, 0, 0xc0, 0x62, 0x40,   // 200 150
];

// where a bad line broke off, within the first pair around the well
const CUT_BYTES: usize = 100;

/// What came before the cut is in the log, and is no feature; handed back as it is, it would be another field.
fn read_cut() {
    let mut log = [0; LOG_BYTES];
    let read = read_wkb(&WKB[..CUT_BYTES], FIELD, &mut log);
    if let Err(refusal) = read.answer {
        let (number, words) = (refusal.number(), refusal.words());
        println!("cut to {CUT_BYTES} bytes: refused with {number}, {words}; {} events came before", read.count);
    }
    if let Err(refusal) = write_wkb(&log[..read.count * usable::EVENT_BYTES], &mut [0; WKB.len()]) {
        let (number, words) = (refusal.number(), refusal.words());
        println!("these events as well-known binary: refused with {number}, {words}");
    }
}

/// The feature of the polygon, finished, of the events that the log then begins with; says how many bytes of it they are.
fn write_field(writer: &mut Writer, log: &mut [u8]) -> Result<usize, Refusal> {
    let read = read_wkb(&WKB, FIELD, log);
    read.answer?;
    println!("{} bytes: {} events of feature {FIELD}", WKB.len(), read.count);
    let given = read.count * usable::EVENT_BYTES;
    writer.events(&log[..given]).answer?;
    writer.finish()?;
    Ok(given)
}

fn print_event(e: Event) {
    match e.kind {
        geometry_type::POLYGON => println!("polygon of {} rings", e.size),
        geometry_type::LINE_STRING => println!("  ring {}, {} pairs", e.idx, e.size),
        event::XY => println!("    {:.1} {:.1}", f64::from_bits(e.x), f64::from_bits(e.y)),
        _ => {}
    }
}

/// The tree's events, beside those that came of the well-known binary; says how many bytes of the log they are.
fn read_field(tree: Tree, given: &[u8], log: &mut [u8]) -> Result<usize, Refusal> {
    let read = tree.read(geometry_type::POLYGON, 0, FIELD, log);
    read.answer?;
    Event::in_log(log, read.count).for_each(print_event);
    let read_back = read.count * usable::EVENT_BYTES;
    assert_eq!(&log[..read_back], given, "the tree has other events");
    println!("the tree has the same {} events", read.count);
    Ok(read_back)
}

/// The tree's events as well-known binary, beside the bytes that came: all their order marks are 1.
fn hand_back(events: &[u8]) -> Result<(), Refusal> {
    let mut out = [0; WKB.len()];
    let written = write_wkb(events, &mut out)?;
    assert_eq!(out[..written], WKB, "other bytes go back to the county");
    println!("the same {written} bytes go back to the county");
    Ok(())
}

fn main() -> Result<(), Refusal> {
    let (mut table, mut xy, mut ends) = ([0; usable::GEOMETRY_BYTES], [0; 18], [0; 2]);
    let memory =
        Memory { table: &mut table, xy: &mut xy, ends: &mut ends, z: &mut [], m: &mut [], t: &mut [], tm: &mut [] };
    let mut writer = Writer::start(geometry_type::POLYGON, false, false, memory, &mut []);
    let (mut log, mut log_back) = ([0; LOG_BYTES], [0; LOG_BYTES]);
    read_cut();
    let given = write_field(&mut writer, &mut log)?;
    let read_back = read_field(writer.tree(), &log[..given], &mut log_back)?;
    hand_back(&log_back[..read_back])
}
