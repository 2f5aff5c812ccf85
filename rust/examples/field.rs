//! A field edge with two keep-out rings, and what the crew has to know; then a field in two blocks. Each is written, read back
//! and printed, with the box around it. A name that is not UTF-8 is refused, whether it was sent or typed, and the dealer is
//! told where it went bad.
use bintolage::{column_type, event, geometry_type, usable, Event, Memory, Refusal, Tree, Value, ValueRecord, Writer};

const COLUMNS: [u8; 3] = [column_type::DOUBLE, column_type::USHORT, column_type::STRING];
const NAMES: [&str; 3] = ["depth", "slope", "crew"];

// the columns, by their numbers
const DEPTH: u16 = 0;
const SLOPE: u16 = 1;
const CREW: u16 = 2;

// the numbers of the two features
const FIELD: u32 = 1;
const BLOCKS: u32 = 2;

// another of the crew, typed on an old keypad, which writes Latin-1
const TYPED: &[u8] = b"H. Schr\xe4der";

// properties as an office sends them that has the name from such a keypad: a slope of 3, and the crew
const SENT: &[u8] = b"\x01\x00\x03\x00\x02\x00\x0b\x00\x00\x00H. Schr\xe4der";

const EDGE: [(f64, f64); 5] = [(0.0, 0.0), (400.0, 0.0), (400.0, 250.0), (0.0, 250.0), (0.0, 0.0)];
const MAIN_PIPE: [(f64, f64); 5] = [(50.0, 40.0), (50.0, 60.0), (350.0, 60.0), (350.0, 40.0), (50.0, 40.0)];
const WELL: [(f64, f64); 4] = [(200.0, 150.0), (210.0, 160.0), (190.0, 160.0), (200.0, 150.0)];
const WEST: [(f64, f64); 4] = [(450.0, 20.0), (600.0, 20.0), (600.0, 310.0), (450.0, 20.0)];
const EAST: [(f64, f64); 4] = [(620.0, -40.0), (780.0, -40.0), (780.0, 200.0), (620.0, -40.0)];

fn write_ring(writer: &mut Writer, feature: u32, idx: u32, pairs: &[(f64, f64)]) -> Result<(), Refusal> {
    writer.event(&Event::begin(feature, geometry_type::LINE_STRING, false, pairs.len() as u32, idx))?;
    for (i, &(x, y)) in pairs.iter().enumerate() {
        writer.event(&Event::xy(feature, x, y, i as u32))?;
    }
    writer.event(&Event::end(feature, geometry_type::LINE_STRING, false, idx))
}

fn write_field(writer: &mut Writer) -> Result<(), Refusal> {
    writer.event(&Event::begin(FIELD, geometry_type::POLYGON, true, 3, 0))?;
    write_ring(writer, FIELD, 0, &EDGE)?;
    write_ring(writer, FIELD, 1, &MAIN_PIPE)?;
    write_ring(writer, FIELD, 2, &WELL)?;
    writer.event(&Event::end(FIELD, geometry_type::POLYGON, true, 0))
}

fn write_block(writer: &mut Writer, idx: u32, pairs: &[(f64, f64)]) -> Result<(), Refusal> {
    writer.event(&Event::begin(BLOCKS, geometry_type::POLYGON, false, 1, idx))?;
    write_ring(writer, BLOCKS, 0, pairs)?;
    writer.event(&Event::end(BLOCKS, geometry_type::POLYGON, false, idx))
}

fn write_blocks(writer: &mut Writer) -> Result<(), Refusal> {
    writer.event(&Event::begin(BLOCKS, geometry_type::MULTI_POLYGON, false, 2, 0))?;
    write_block(writer, 0, &WEST)?;
    write_block(writer, 1, &EAST)?;
    writer.event(&Event::end(BLOCKS, geometry_type::MULTI_POLYGON, false, 0))
}

fn print_bad_text(origin: &str, column: u16, text: &[u8], at: usize) {
    println!("{origin}, {}: not UTF-8 at byte {at} ({:#04x})", NAMES[column as usize], text[at]);
}

/// A reading says the place alone; the text is found behind the values that came before it.
fn read_sent() -> Result<(), Refusal> {
    let mut log = [0; 8 * usable::VALUE_BYTES];
    let read = bintolage::read_properties(SENT, Some(&COLUMNS), None, &mut log);
    if let (Err(Refusal::NotUtf8 { at }), Some(text)) = (read.answer, read.refused_text(SENT, &COLUMNS, &log)) {
        print_bad_text("sent", text.column, text.bytes, at);
        return Ok(());
    }
    read.answer
}

/// A name that is not UTF-8 is refused, and the feature goes on as though it had not come.
fn write_typed(writer: &mut Writer, name: &[u8]) -> Result<(), Refusal> {
    let answer = writer.text(CREW.into(), COLUMNS[CREW as usize], name);
    if let Err(Refusal::NotUtf8 { at }) = answer {
        print_bad_text("typed", CREW, name, at);
        return Ok(());
    }
    answer
}

fn write_properties(writer: &mut Writer) -> Result<(), Refusal> {
    writer.property(DEPTH.into(), Value::Double(1.15))?;
    writer.property(SLOPE.into(), Value::UShort(3))?;
    write_typed(writer, TYPED)?;
    writer.property(CREW.into(), Value::String("Jensen, Søren"))
}

fn print_event(e: Event) {
    const RING_END: u8 = geometry_type::LINE_STRING + event::END;
    const POLYGON_END: u8 = geometry_type::POLYGON + event::END;
    const MULTI_POLYGON_END: u8 = geometry_type::MULTI_POLYGON + event::END;
    match e.kind {
        geometry_type::MULTI_POLYGON => println!("field of {} blocks", e.size),
        geometry_type::POLYGON => println!("polygon of {} ring{}", e.size, if e.size == 1 { "" } else { "s" }),
        geometry_type::LINE_STRING => println!("  ring {}, {} pairs", e.idx, e.size),
        event::XY => println!("    {:.1} {:.1}", f64::from_bits(e.x), f64::from_bits(e.y)),
        RING_END => println!("  end of ring {}", e.idx),
        POLYGON_END => println!("end of polygon"),
        MULTI_POLYGON_END => println!("end of field"),
        _ => {}
    }
}

/// The box of record 0 is around the whole feature, also where all its pairs are in its parts.
fn print_feature(tree: Tree, feature: u32) -> Result<(), Refusal> {
    let mut log = [0; 64 * usable::EVENT_BYTES];
    let read = tree.read(geometry_type::UNKNOWN, 0, feature, &mut log);
    read.answer?;
    Event::in_log(&log, read.count).for_each(print_event);
    let b = tree.bbox(0);
    b.answer?;
    println!("box {:.1} {:.1} to {:.1} {:.1}", b.least_x, b.least_y, b.greatest_x, b.greatest_y);
    Ok(())
}

fn print_properties(bytes: &[u8]) -> Result<(), Refusal> {
    let mut log = [0; 8 * usable::VALUE_BYTES];
    let read = bintolage::read_properties(bytes, Some(&COLUMNS), None, &mut log);
    read.answer?;
    for record in ValueRecord::in_log(&log, read.count) {
        print!("{}: ", NAMES[record.column as usize]);
        match record.value(bytes) {
            Some(Value::Double(v)) => println!("{v:.2}"),
            Some(Value::String(v)) => println!("{v}"),
            _ => println!("{}", record.word),
        }
    }
    Ok(())
}

fn main() -> Result<(), Refusal> {
    read_sent()?;
    // a small terminal's memory; z, m, t and tm are not used
    let (mut table, mut xy, mut ends, mut properties) = ([0; 8 * usable::GEOMETRY_BYTES], [0; 128], [0; 64], [0; 256]);
    let memory =
        Memory { table: &mut table, xy: &mut xy, ends: &mut ends, z: &mut [], m: &mut [], t: &mut [], tm: &mut [] };
    let mut writer = Writer::start(geometry_type::UNKNOWN, false, false, memory, &mut properties);
    write_field(&mut writer)?;
    write_properties(&mut writer)?;
    print_feature(writer.finish()?, FIELD)?;
    print_properties(writer.properties())?;
    writer.next_feature()?;
    write_blocks(&mut writer)?;
    print_feature(writer.finish()?, BLOCKS)?;
    writer.next_feature()
}
