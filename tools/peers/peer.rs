//! What blockdesk does of a feed's two files, by hand over Rust's csv crate. tools/bench builds and calls it. Each file is read by
//! one record that is used again.
use csv::{ByteRecord, Reader, ReaderBuilder, Writer};
use std::collections::{BTreeMap, HashMap, HashSet};
use std::fs::{File, read_to_string};

const HELP: &str = "\
usage: peer deficits FEED | peer write FEED FOLDER

deficits puts the sum of the maxima of the deficit functions. write writes both files of a feed into a folder, with the blocks
of FEED/blocks.csv.

Example: peer deficits /tmp/city
";

struct End {
    sequence: u64,
    arrival: Option<u32>,
    departure: Option<u32>,
    stop: String,
}

struct Trip {
    first: End,
    last: End,
    sequences: HashSet<u64>,
}

fn reader(folder: &str, name: &str) -> Reader<File> {
    ReaderBuilder::new().flexible(true).from_path(format!("{folder}/{name}")).unwrap()
}

fn column(header: &ByteRecord, name: &str) -> usize {
    header.iter().position(|field| field == name.as_bytes()).unwrap()
}

fn text(field: &[u8]) -> &str {
    std::str::from_utf8(field).unwrap()
}

fn seconds(field: &[u8]) -> Option<u32> {
    let field = text(field).trim();
    if field.is_empty() {
        return None;
    }
    let parts: Vec<u32> = field.split(':').map(|part| part.parse().unwrap()).collect();
    Some(3600 * parts[0] + 60 * parts[1] + parts[2])
}

/// The settings of the city of tools/make_feeds, as it writes them: services, the layover, and those of single terminals.
fn settings(folder: &str) -> (HashSet<String>, u32, HashMap<String, u32>) {
    let desk = read_to_string(format!("{folder}/desk.toml")).unwrap();
    let line = |key: &str| desk.lines().find_map(|line| line.strip_prefix(key)).unwrap().to_string();
    let services = line("services = ").split('"').skip(1).step_by(2).map(String::from).collect();
    let own = line("layovers = ");
    let own = own.trim_matches(|c| "{} ".contains(c)).split(", ").map(|entry| entry.split_once(" = ").unwrap());
    let own = own.map(|(terminal, minutes)| (terminal.to_string(), minutes.parse().unwrap())).collect();
    (services, line("layover = ").parse().unwrap(), own)
}

fn deficits(folder: &str) {
    let (services, layover, own) = settings(folder);
    let mut record = ByteRecord::new();
    let mut terminals = HashMap::new();
    let mut rows = reader(folder, "terminals.csv");
    while rows.read_byte_record(&mut record).unwrap() {
        terminals.insert(text(&record[0]).to_string(), text(&record[1]).to_string());
    }
    let mut rows = reader(folder, "trips.txt");
    let header = rows.byte_headers().unwrap().clone();
    let (service, trip) = (column(&header, "service_id"), column(&header, "trip_id"));
    let mut trips: HashMap<Vec<u8>, Option<Trip>> = HashMap::new();
    while rows.read_byte_record(&mut record).unwrap() {
        if services.contains(text(&record[service])) {
            trips.insert(record[trip].to_vec(), None);
        }
    }
    let mut rows = reader(folder, "stop_times.txt");
    let header = rows.byte_headers().unwrap().clone();
    let [trip, arrival, departure, stop, sequence] =
        ["trip_id", "arrival_time", "departure_time", "stop_id", "stop_sequence"].map(|name| column(&header, name));
    while rows.read_byte_record(&mut record).unwrap() {
        text(&record[trip]);
        let Some(kept) = trips.get_mut(&record[trip]) else { continue };
        let number = text(&record[sequence]).trim().parse().unwrap();
        let end = || End {
            sequence: number,
            arrival: seconds(&record[arrival]),
            departure: seconds(&record[departure]),
            stop: text(&record[stop]).to_string(),
        };
        match kept {
            None => *kept = Some(Trip { first: end(), last: end(), sequences: HashSet::from([number]) }),
            Some(kept) => {
                assert!(kept.sequences.insert(number));
                if number < kept.first.sequence {
                    kept.first = end();
                }
                if number > kept.last.sequence {
                    kept.last = end();
                }
            }
        }
    }
    let mut changes: HashMap<&str, BTreeMap<u32, i32>> = HashMap::new();
    for trip in trips.values().flatten() {
        let from = terminals.get(&trip.first.stop).unwrap_or(&trip.first.stop);
        let to = terminals.get(&trip.last.stop).unwrap_or(&trip.last.stop);
        let departs = trip.first.departure.or(trip.first.arrival).unwrap() / 60;
        let arrives = trip.last.arrival.or(trip.last.departure).unwrap().div_ceil(60);
        let ends = arrives + own.get(to).unwrap_or(&layover);
        *changes.entry(from).or_default().entry(departs).or_default() += 1;
        *changes.entry(to).or_default().entry(ends).or_default() -= 1;
    }
    let most = |changes: &BTreeMap<u32, i32>| {
        let (mut now, mut most) = (0, 0);
        for change in changes.values() {
            now += change;
            most = most.max(now);
        }
        most
    };
    println!("sum {}", changes.values().map(most).sum::<i32>());
}

fn write(folder: &str, to: &str) {
    let mut record = ByteRecord::new();
    let mut blocks: HashMap<Vec<u8>, Vec<u8>> = HashMap::new();
    let mut rows = reader(folder, "blocks.csv");
    while rows.read_byte_record(&mut record).unwrap() {
        blocks.insert(record[1].to_vec(), record[0].to_vec());
    }
    let mut rows = reader(folder, "trips.txt");
    let mut out = Writer::from_path(format!("{to}/trips_blocks.txt")).unwrap();
    let mut header = rows.byte_headers().unwrap().clone();
    let trip = column(&header, "trip_id");
    header.push_field(b"block_id");
    out.write_byte_record(&header).unwrap();
    while rows.read_byte_record(&mut record).unwrap() {
        let block = blocks.get(&record[trip]).map_or(&b""[..], |block| block);
        record.push_field(block);
        out.write_byte_record(&record).unwrap();
    }
    out.flush().unwrap();
    let mut rows = reader(folder, "stop_times.txt");
    let mut out = Writer::from_path(format!("{to}/stop_times_blocks.txt")).unwrap();
    out.write_byte_record(rows.byte_headers().unwrap()).unwrap();
    while rows.read_byte_record(&mut record).unwrap() {
        record.iter().for_each(|field| _ = text(field));
        out.write_byte_record(&record).unwrap();
    }
    out.flush().unwrap();
}

fn main() {
    let words: Vec<String> = std::env::args().skip(1).collect();
    match words.iter().map(String::as_str).collect::<Vec<_>>()[..] {
        ["--help"] => print!("{HELP}"),
        ["deficits", folder] => deficits(folder),
        ["write", folder, to] => write(folder, to),
        _ => {
            eprintln!("{}", HELP.lines().next().unwrap());
            std::process::exit(2);
        }
    }
}
