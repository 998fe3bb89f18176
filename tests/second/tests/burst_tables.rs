//! The published burst tables, every row through a capture of its own.

mod common;

use common::*;
use second::capture::SETTINGS;

const TABLES: [&str; 5] = [
    include_str!("../../data/burst-tables/000.csv"),
    include_str!("../../data/burst-tables/001.csv"),
    include_str!("../../data/burst-tables/002.csv"),
    include_str!("../../data/burst-tables/003.csv"),
    include_str!("../../data/burst-tables/004.csv"),
];

struct Row {
    length: u32,
    start: u32,
    interleaved: bool,
    order: Vec<u32>,
}

fn rows(table: &str) -> Vec<Row> {
    table.lines().skip(1).map(row).collect()
}

fn row(line: &str) -> Row {
    let fields: Vec<&str> = line.split(',').collect();
    let number = |field: &str| field.parse().expect("a decimal");
    let interleaved = match fields[2] {
        "sequential" => false,
        "interleaved" => true,
        other => panic!("unknown order {other}"),
    };
    Row {
        length: number(fields[0]),
        start: number(fields[1]),
        interleaved,
        order: fields[3].split(' ').map(number).collect(),
    }
}

fn settings_for(row: &Row, latency: u32) -> [u32; SETTINGS] {
    let length_code = row.length.trailing_zeros();
    let mode = latency << 4 | u32::from(row.interleaved) << 3 | length_code;
    with(CASE, &[(3, mode)])
}

#[test]
fn all_300_rows() {
    let mut checked = 0;
    for row in TABLES.iter().flat_map(|table| rows(table)) {
        for latency in [2, 3] {
            let settings = settings_for(&row, latency);
            let events = [(0, active(0)), (3, read_from(0, row.start))];
            assert_eq!(cells_of(&settings, &events), row.order);
        }
        checked += 1;
    }
    assert_eq!(checked, 300);
}

#[test]
fn the_same_order_in_every_block_of_a_row() {
    for row in rows(TABLES[0]) {
        let settings = settings_for(&row, 3);
        for block in [row.length, 1024 - row.length] {
            let events = [(0, active(0)), (3, read_from(0, block + row.start))];
            let expected: Vec<u32> = row.order.iter().map(|place| block + place).collect();
            assert_eq!(cells_of(&settings, &events), expected);
        }
    }
}
