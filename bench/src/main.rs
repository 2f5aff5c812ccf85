//! The crate's own Rust, and GEOS, beside the proved library: the same inputs, one process, the two in turn.
mod boxes;
#[cfg_attr(not(geos), path = "no_geos.rs")]
mod geos;
mod inputs;
mod port;
mod rows;
mod timing;
mod wkb;

use boxes::BoxTimes;
use inputs::{all_layers_below, ever_deeper, next_layer, Shared, EVENT};
use inputs::{closed_polygons, ints, line, line_with_z_and_m, nested, open_rings_end, polygon_and_open_ring, polygons, strings};
use std::time::Duration;
use timing::{Rounds, Times};
use wkb::Order;

const MOST_PAIRS: usize = 65536;
const SIZES: [usize; 5] = [256, 1024, 4096, 16384, MOST_PAIRS];
/// Polygons, and the pairs of each.
const FIELDS: [(usize, usize); 3] = [(4000, 16), (4000, 4), (2, 8)];
const WIDTHS: [usize; 5] = [16, 32, 64, 128, 256];
/// A name, and the tree of a width.
type Sharing = (&'static str, fn(usize) -> Shared);
const SHARINGS: [Sharing; 3] = [
    ("16 layers, parts the next layer", next_layer),
    ("16 layers, parts to the table's end", all_layers_below),
    ("2 layers, met ever deeper", ever_deeper),
];
/// How many collections lie in each other.
const DEPTHS: [usize; 4] = [100, 1000, 10_000, 100_000];
const ORDERS: [(&str, Order); 2] = [("little-endian", Order::Lowest), ("big-endian", Order::Highest)];

fn microseconds(time: Duration) -> f64 {
    time.as_secs_f64() * 1e6
}

fn head(title: &str) {
    head_beside(title, "Rust us", "ours/R");
}

fn head_beside(title: &str, peer: &str, ratio: &str) {
    println!("{title:<46} {peer:>10} {:>10} {ratio:>7} {:>10} {:>7}", "ours us", "copy us", "ours/c");
}

fn row(name: &str, times: Times) {
    let [port, copy] = [times.port, times.copy].map(microseconds);
    let [peer, ratio] = match times.peer.map(microseconds) {
        Some(peer) => [peer, port / peer].map(|number| format!("{number:.2}")),
        None => ["missing".into(), String::new()],
    };
    println!("{name:<46} {peer:>10} {port:>10.2} {ratio:>7} {copy:>10.2} {:>7.2}", port / copy);
}

fn boxes(rounds: Rounds) {
    println!("{:<46} {:>10} {:>10} {:>10} {:>7} {:>7}", "boxes", "Rust us", "list us", "parts us", "parts/R", "parts/l");
    for (count, pairs) in FIELDS {
        let BoxTimes { rust, list, parts } = boxes::of_parts(rounds, &polygons(count, pairs), &line(count * pairs));
        let [rust, list, parts] = [rust, list, parts].map(microseconds);
        let name = format!("MultiPolygon, {count} polygons of {pairs} pairs");
        println!("{name:<46} {rust:>10.2} {list:>10.2} {parts:>10.2} {:>7.2} {:>7.2}", parts / rust, parts / list);
    }
}

fn shared_parts(rounds: Rounds) {
    println!("{:<46} {:>10} {:>10} {:>8}", "boxes where records share parts", "places", "ours us", "ns/place");
    for (name, tree_of) in SHARINGS {
        for width in WIDTHS {
            let shared = tree_of(width);
            let places = shared.places;
            let ours = microseconds(boxes::of_shared(rounds, shared));
            println!("{:<46} {places:>10} {ours:>10.2} {:>8.2}", format!("{name}, {width} wide"), ours * 1e3 / places as f64);
        }
    }
}

fn well_known_binary(rounds: Rounds) {
    head_beside("well-known binary, to 64-byte events", "GEOS us", "ours/G");
    let features = [
        (format!("LineString, {MOST_PAIRS} pairs"), line(MOST_PAIRS)),
        ("MultiPolygon, 4000 of 16 pairs".into(), closed_polygons(4000, 16)),
    ];
    for (name, feature) in &features {
        for (order_name, order) in ORDERS {
            row(&format!("{name}, {order_name}"), rows::read_wkb(rounds, feature, order));
        }
    }
    head_beside("64-byte events, to well-known binary", "GEOS us", "ours/G");
    for (name, feature) in &features {
        row(name, rows::write_wkb(rounds, feature));
    }
}

fn nested_lists(rounds: Rounds) {
    // Of the deepest a round takes long, and it varies little.
    let few = Rounds { warming: 1, counted: rounds.counted.min(5) };
    println!("{:<46} {:>10} {:>10} {:>10}", "lists nested too deep to be written", "records", "ours us", "ns/record");
    for depth in DEPTHS {
        let list = nested(depth);
        let records = list.events.len() / EVENT;
        let ours = microseconds(rows::judge_nested(few, &list));
        println!("{:<46} {records:>10} {ours:>10.2} {:>10.2}", format!("{depth} collections"), ours * 1e3 / records as f64);
    }
}

fn counted() -> usize {
    let words: Vec<String> = std::env::args().skip(1).collect();
    match &words[..] {
        [] => 300,
        [name, number] if name == "--rounds" => number.parse().expect("--rounds takes a number"),
        _ => panic!("what is {words:?}?"),
    }
}

fn main() {
    let rounds = Rounds { warming: 5, counted: counted() };
    println!("Least of {} rounds after {} that are not counted; buffers warm.", rounds.counted, rounds.warming);
    head("geometries, from and to 64-byte events");
    let line_of = |pairs| (format!("LineString, {pairs} pairs"), line(pairs));
    let features = [
        line_of(MOST_PAIRS),
        ("MultiPolygon, 4000 polygons of 16 pairs".into(), polygons(4000, 16)),
        ("MultiPolygon, 4000 polygons of 4 pairs".into(), polygons(4000, 4)),
        ("LineString, 65536 pairs with z and m".into(), line_with_z_and_m(MOST_PAIRS)),
    ];
    for (name, feature) in &features {
        row(&format!("write {name}"), rows::write(rounds, feature));
        row("      a call for each event", rows::write_each(rounds, feature));
        row(&format!("read  {name}"), rows::read(rounds, feature));
    }
    let carried = MOST_PAIRS - 4;
    row("next, 65532 pairs carried", rows::carry(rounds, &polygon_and_open_ring(carried), &open_rings_end(), 16 * carried));

    head("properties");
    row("write 10922 Ints", rows::write_properties(rounds, &ints()));
    row("read  10922 Ints", rows::read_properties(rounds, &ints()));
    row("write 1024 Strings of 58 bytes", rows::write_properties(rounds, &strings()));
    row("write 1024 Strings, Rust's given as checked", rows::write_checked_texts(rounds, &strings()));
    row("read  1024 Strings of 58 bytes", rows::read_properties(rounds, &strings()));

    head("how it grows");
    for (name, feature) in &SIZES.map(line_of) {
        row(&format!("write {name}"), rows::write(rounds, feature));
        row(&format!("read  {name}"), rows::read(rounds, feature));
    }

    boxes(rounds);
    shared_parts(rounds);
    well_known_binary(rounds);
    nested_lists(rounds);
}
