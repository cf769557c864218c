//! Every example of document 01.

mod common;

use common::{header_section, Session};
use second::calls::{self, Connection, Gave, RECORDS};
use second::integers;
use second::lister;
use second::replay;
use second::{block, hex};

#[test]
fn integers_of_rfc_9000() {
    let samples: [(&str, u64); 5] = [
        ("c2197c5eff14e88c", 151_288_809_941_952_652),
        ("9d7f3e7d", 494_878_333),
        ("7bbd", 15_293),
        ("25", 37),
        ("4025", 37),
    ];
    for (text, value) in samples {
        let bytes = hex::parse(text).unwrap();
        assert_eq!(integers::read(&bytes, 0), Some((value, bytes.len())), "{text}");
        for cut in 0..bytes.len() {
            assert_eq!(integers::read(&bytes[..cut], 0), None, "{text} cut to {cut}");
        }
    }
}

#[test]
fn integers_worked_by_hand() {
    let mut session = Session::new();
    session.says("V 25", "0 0 0 value 37 1");
    session.says("V 4025", "0 0 0 value 37 2");
    session.says("N 37 1", "0 0 0 written 1 25");
    session.says("N 16383 2", "0 0 0 written 2 7fff");
    session.says("N 16384 4", "0 0 0 written 4 80004000");
    session.says("N 4611686018427387903 8", "0 0 0 written 8 ffffffffffffffff");
    session.says("N 4611686018427387904 8", "8 0 0 written 0 aaaaaaaaaaaaaaaa");
}

#[test]
fn every_size_reads_back_and_the_shortest_is_written() {
    for size in integers::SIZES {
        let highest = u64::MAX >> (66 - 8 * size);
        for value in [0, 1, 37, 63, 64, 16_383, 16_384, (1 << 30) - 1, 1 << 30, integers::HIGHEST] {
            if value <= highest {
                assert_eq!(integers::read(&integers::write_in(value, size), 0), Some((value, size)));
            } else {
                assert!(integers::size(value).is_none_or(|shortest| shortest > size));
            }
        }
        assert_eq!(integers::size(highest), Some(size));
    }
    assert_eq!(integers::write(integers::HIGHEST + 1), None);
}

#[test]
fn the_block_of_method_get() {
    let bytes = hex::parse("0e00010007003a6d6574686f64474554").unwrap();
    let lines = block::lines(&bytes).unwrap();
    assert_eq!(lines, [block::Line { name: b":method", value: b"GET" }]);
    assert_eq!(block::record(b":method", b"GET"), bytes);
    assert_eq!(block::lines(&[]), Some(Vec::new()));
}

#[test]
fn an_empty_stream_ended() {
    let mut session = Session::new();
    session.accepts("O 0");
    session.says("E 0", "269 0 0 -");
    session.state("0 4 2 - - - - 0 0");
}

#[test]
fn data_first() {
    let mut session = Session::new();
    session.accepts("O 0");
    session.says("F 0 8 0000", "261 2 1 -");
    session.state("261 4 2 - - - - 0 0 0:0:request");
}

#[test]
fn a_header_section_alone() {
    let mut session = Session::new();
    session.request(None);
    session.says("E 0", "0 0 0 whole");
}

#[test]
fn ended_inside_data() {
    let mut session = Session::new();
    session.request(None);
    session.says("F 0 8 00036162", "0 4 1 content 2 2");
    session.says("E 0", "262 0 0 -");
}

#[test]
fn content_length_equal() {
    let mut session = Session::new();
    session.request(Some("3"));
    session.says("F 0 8 0003616263", "0 5 1 content 2 3");
    session.says("E 0", "0 0 0 whole");
}

#[test]
fn content_length_above() {
    let mut session = Session::new();
    session.request(Some("4"));
    session.says("F 0 8 0003616263", "0 5 1 content 2 3");
    session.says("E 0", "270 0 0 -");
    session.state("0 4 2 - - - - 0 0");
}

#[test]
fn content_length_below() {
    let mut session = Session::new();
    session.request(Some("2"));
    session.says("F 0 8 0003616263", "270 2 1 -");
    session.says("E 0", "1 0 0 -");
}

#[test]
fn empty_data_and_a_skipped_frame_behind_the_content() {
    let mut session = Session::new();
    session.request(Some("3"));
    session.says("F 0 8 000361626300002100", "0 5 1 content 2 3");
    session.says("F 0 8 00002100", "0 4 2 -");
    session.says("E 0", "0 0 0 whole");
}

#[test]
fn data_behind_trailers() {
    let mut session = Session::new();
    session.request(None);
    session.says("F 0 8 0101000000", "0 3 1 section 2 1 1");
    session.accepts("H 0 -");
    session.says("F 0 8 0000", "261 2 1 -");
}

#[test]
fn goaway_first_on_the_control_stream() {
    let mut session = Session::new();
    session.accepts("O 2");
    session.says("F 2 8 000701", "266 3 1 -");
}

#[test]
fn settings_payloads() {
    for (payload, answer) in [
        ("040406010601", "265 7 1 -"),
        ("04020300", "265 5 1 -"),
        ("040106", "262 4 1 -"),
        ("0404060107", "0 6 1 -"),
    ] {
        let mut session = Session::new();
        session.accepts("O 2");
        session.says(&format!("F 2 8 00{payload}"), answer);
    }
}

/// Four DATA frames that come to `sum`; the answer number of the last one's header.
fn content_of(sum: u64) -> u16 {
    let mut connection = Connection::fresh();
    let mut row = calls::empty_row(RECORDS);
    calls::open(&mut connection, &mut row, 0);
    calls::feed(&mut connection, &mut row, 0, 1, &[1, 1, 0]);
    let sound = hex::parse(&header_section(None)).unwrap();
    assert_eq!(calls::section(&mut connection, &mut row, 0, &sound).number, 0);
    for length in [300_000, 1, 700_000, sum - 1_000_001] {
        let header = [vec![0], integers::write(length).unwrap()].concat();
        let answer = calls::feed(&mut connection, &mut row, 0, 1, &header);
        assert_eq!((answer.consumed, answer.headers), (header.len(), 1));
        if answer.number != 0 {
            assert!(row.iter().all(Option::is_none));
            return answer.number;
        }
        let payload = vec![0x61; length as usize];
        let answer = calls::feed(&mut connection, &mut row, 0, 0, &payload);
        assert_eq!(answer.gave, Gave::Content { start: 0, length: length as usize });
    }
    assert_eq!(calls::feed(&mut connection, &mut row, 0, 1, &[0, 0]).number, 0);
    assert_eq!(calls::end(&mut connection, &mut row, 0).gave, Gave::Whole);
    0
}

#[test]
fn content_without_a_stated_length() {
    assert_eq!(content_of(1_048_576), 0);
    assert_eq!(content_of(1_048_577), 0x010c);
}

#[test]
fn the_lister() {
    let input = hex::parse("01010000036162632100").unwrap();
    let output =
        "offset type length use\n0 1 1 header section\n3 0 3 content\n8 33 0 skipped\nend 10 whole\n";
    assert_eq!(lister::list(&input), output);
}

#[test]
fn the_listers_other_lines() {
    let listed = |text: &str| lister::list(&hex::parse(text).unwrap());
    let heading = "offset type length use\n";
    assert_eq!(listed("-"), format!("{heading}refused 0 269\n"));
    assert_eq!(listed("0000"), format!("{heading}refused 2 261\n"));
    assert_eq!(listed("2105"), format!("{heading}0 33 5 skipped\nrefused 2 262\n"));
    assert_eq!(listed("01000100"), format!("{heading}0 1 0 header section\n2 1 0 trailers\nend 4 whole\n"));
    let data = format!("{heading}0 1 0 header section\n2 0 0 content\n4 0 1048576 content\n");
    assert_eq!(listed("0100000000801000006162"), format!("{data}refused 11 262\n"));
    assert_eq!(
        listed("010000008010"),
        format!("{heading}0 1 0 header section\n2 0 0 content\nrefused 6 262\n")
    );
    assert_eq!(listed("01000080100001"), format!("{heading}0 1 0 header section\nrefused 7 268\n"));
    assert_eq!(
        listed("ffffffffffffffffffffffffffffffff"),
        format!("{heading}0 4611686018427387903 4611686018427387903 skipped\nrefused 16 262\n")
    );
    // A type alone is a cut header, whatever it is.
    assert_eq!(listed("04"), format!("{heading}refused 1 262\n"));
}

#[test]
fn the_listers_input_limit() {
    let mut input = vec![0x01, 0x00, 0x00];
    input.extend(integers::write_in(65_536 - 7, 4));
    input.resize(65_536, 0x61);
    let output = "offset type length use\n0 1 0 header section\n2 0 65529 content\nend 65536 whole\n";
    assert_eq!(lister::list(&input), output);
    input.push(0);
    assert_eq!(lister::list(&input), "too long\n");
}

#[test]
fn the_replay_example() {
    let script = b"O 0\nF 0 8 0101000003616263\nD\nH 0 -\n";
    let output = "0 0 0 -\n0 3 1 section 2 1 1\n0 0 0 state 0 4 2 - - - - 0 0 0:0:request+\n270 0 0 -\n";
    assert_eq!(replay::run(script), output);
    assert_eq!(replay::run(&script[..script.len() - 1]), output);
}

#[test]
fn replay_input_that_is_no_call() {
    for script in second::compare::edge_scripts() {
        let output = replay::run(&script);
        if script.len() > replay::INPUT_LIMIT {
            assert_eq!(output, "too long\n");
        } else if script.starts_with(b"S\n") {
            assert_eq!(output, "0 0 0 -\nbad line\n", "{}", String::from_utf8_lossy(&script));
        }
    }
    assert_eq!(replay::run(b""), "");
    assert_eq!(replay::run(b"\n"), "bad line\n");
    assert_eq!(replay::run(b"D\n\xff\n"), "0 0 0 state 0 0 2 - - - - 0 0\nbad line\n");
}
