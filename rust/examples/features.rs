//! Three features in one log: a field's edge, a pipe run and a well, each read into what is left of the log under its number.
//! Then each is found again by that number, in another order. An event that has strayed from one feature into another is
//! refused.
use bintolage::{event, geometry_type, usable, Event, Memory, Refusal, Writer};

const LOG_RECORDS: usize = 32;

// the crew's own numbers for the features; any will do
const EDGE: u32 = 1204;
const PIPE_RUN: u32 = 0;
const WELL: u32 = u32::MAX;

const EDGE_PAIRS: [(f64, f64); 5] = [(0.0, 0.0), (400.0, 0.0), (400.0, 250.0), (0.0, 250.0), (0.0, 0.0)];
const PIPE_RUN_PAIRS: [(f64, f64); 2] = [(350.0, 200.0), (350.0, 20.5)];

/// The records of the features so far.
struct Log {
    bytes: [u8; LOG_RECORDS * usable::EVENT_BYTES],
    used: usize,
}

fn write_line(writer: &mut Writer, feature: u32, tagged: bool, pairs: &[(f64, f64)]) -> Result<(), Refusal> {
    writer.event(&Event::begin(feature, geometry_type::LINE_STRING, tagged, pairs.len() as u32, 0))?;
    for (i, &(x, y)) in pairs.iter().enumerate() {
        writer.event(&Event::xy(feature, x, y, i as u32))?;
    }
    writer.event(&Event::end(feature, geometry_type::LINE_STRING, tagged, 0))
}

fn write_edge(writer: &mut Writer) -> Result<(), Refusal> {
    writer.event(&Event::begin(EDGE, geometry_type::POLYGON, true, 1, 0))?;
    write_line(writer, EDGE, false, &EDGE_PAIRS)?;
    writer.event(&Event::end(EDGE, geometry_type::POLYGON, true, 0))
}

/// The edge's pair has strayed here: it is refused, and the pipe run goes on as though it had not come.
fn write_pipe_run(writer: &mut Writer) -> Result<(), Refusal> {
    write_line(writer, PIPE_RUN, true, &PIPE_RUN_PAIRS)?;
    if let (Some(feature), Err(refusal)) = (writer.state().feature(), writer.event(&Event::xy(EDGE, 400.0, 250.0, 2))) {
        let (number, words) = (refusal.number(), refusal.words());
        println!("feature {feature}: an event of feature {EDGE} is refused with {number}, {words}");
    }
    Ok(())
}

fn write_well(writer: &mut Writer) -> Result<(), Refusal> {
    writer.event(&Event::begin(WELL, geometry_type::POINT, false, 0, 0))?;
    writer.event(&Event::xy(WELL, 200.0, 150.0, 0))?;
    writer.event(&Event::end(WELL, geometry_type::POINT, false, 0))
}

/// The finished feature goes behind those that the log has, under the number that its events had.
fn read_behind_the_others(writer: &mut Writer, log: &mut Log) -> Result<(), Refusal> {
    let feature = writer.state().feature().unwrap_or_default();
    let left = &mut log.bytes[log.used * usable::EVENT_BYTES..];
    let read = writer.finish()?.read(geometry_type::UNKNOWN, 0, feature, left);
    read.answer?;
    println!("feature {feature}: {} records from record {} on", read.count, log.used);
    log.used += read.count;
    writer.next_feature()
}

fn print_event(e: Event) {
    match e.kind {
        geometry_type::POLYGON => println!("  polygon"),
        geometry_type::LINE_STRING => println!("  line of {} pairs", e.size),
        geometry_type::POINT => println!("  point"),
        event::XY => println!("    {:.1} {:.1}", f64::from_bits(e.x), f64::from_bits(e.y)),
        _ => {}
    }
}

fn find(log: &Log, feature: u32) {
    println!("found feature {feature}");
    Event::in_log(&log.bytes, log.used).filter(|e| e.feature == feature).for_each(print_event);
}

fn main() -> Result<(), Refusal> {
    let (mut table, mut xy, mut ends) = ([0; usable::GEOMETRY_BYTES], [0; 16], [0; 1]);
    let memory =
        Memory { table: &mut table, xy: &mut xy, ends: &mut ends, z: &mut [], m: &mut [], t: &mut [], tm: &mut [] };
    let mut writer = Writer::start(geometry_type::UNKNOWN, false, false, memory, &mut []);
    let mut log = Log { bytes: [0; LOG_RECORDS * usable::EVENT_BYTES], used: 0 };
    write_edge(&mut writer)?;
    read_behind_the_others(&mut writer, &mut log)?;
    write_pipe_run(&mut writer)?;
    read_behind_the_others(&mut writer, &mut log)?;
    write_well(&mut writer)?;
    read_behind_the_others(&mut writer, &mut log)?;
    find(&log, WELL);
    find(&log, EDGE);
    find(&log, PIPE_RUN);
    Ok(())
}
