//! Each row of the table of numbers, what it leaves, and the orders of precedence.

mod common;

use common::{block, header_section, malformed, Session, GET, UNREADABLE};

const FRESH: &str = "0 0 2 - - - - 0 0";

/// A request that waits for its header section.
fn due() -> Session {
    let mut session = Session::new();
    session.accepts("O 0");
    session.says("F 0 1 010100", "0 3 1 section 2 1 1");
    session
}

/// A connection dead of DATA before the header section.
fn dead() -> Session {
    let mut session = Session::new();
    session.accepts("O 0");
    session.says("F 0 1 0000", "261 2 1 -");
    session
}

#[test]
fn one_stream_not_open() {
    let mut session = Session::new();
    for id in ["0", "1", "2", "3", "4611686018427387904", "18446744073709551615"] {
        session.says(&format!("F {id} 1 00"), "1 0 0 -");
        session.says(&format!("H {id} -"), "1 0 0 -");
        session.says(&format!("E {id}"), "1 0 0 -");
        session.says(&format!("R {id}"), "1 0 0 -");
    }
    session.state(FRESH);
    session.request(None);
    session.says("E 0", "0 0 0 whole");
    session.says("E 0", "1 0 0 -");
}

#[test]
fn two_id_is_not_next() {
    let mut session = Session::new();
    for id in ["1", "3", "4", "6", "4611686018427387900", "4611686018427387904", "18446744073709551615"] {
        session.says(&format!("O {id}"), "2 0 0 -");
    }
    session.state(FRESH);
    session.accepts("O 0");
    session.says("O 0", "2 0 0 -");
    session.accepts("O 2");
    session.says("O 2", "2 0 0 -");
    session.accepts("O 6");
    session.accepts("O 4");
    session.state("0 8 10 - - - - 0 0 0:0:request 1:2:untyped 2:6:untyped 3:4:request");
}

#[test]
fn three_no_free_record() {
    let mut session = Session::new();
    for id in 0..24 {
        session.accepts(&format!("O {}", 4 * id));
    }
    session.says("O 96", "3 0 0 -");
    session.says("O 2", "3 0 0 -");
    session.says("R 20", "0 0 0 freed");
    session.accepts("O 2");
    session.says("O 96", "3 0 0 -");
    session.says("R 0", "0 0 0 freed");
    session.accepts("O 96");
}

#[test]
fn four_section_is_due() {
    let mut session = due();
    session.says("F 0 1 00", "4 0 0 -");
    session.says("F 0 0 -", "4 0 0 -");
    session.says("E 0", "4 0 0 -");
    session.state("0 4 2 - - - - 0 0 0:0:request+");
    session.says("R 0", "0 0 0 freed");
}

#[test]
fn five_no_section_is_due() {
    let mut session = Session::new();
    session.accepts("O 0");
    session.says(&format!("H 0 {}", header_section(None)), "5 0 0 -");
    session.says("F 0 1 0102", "0 2 1 -");
    session.says(&format!("H 0 {}", header_section(None)), "5 0 0 -");
    session.says("F 0 1 00", "0 1 0 section 0 1 0");
    session.says(&format!("H 0 {}", header_section(None)), "5 0 0 -");
    session.says("F 0 1 00", "0 1 0 section 0 1 1");
    session.accepts(&format!("H 0 {}", header_section(None)));
    session.says(&format!("H 0 {}", header_section(None)), "5 0 0 -");
    session.accepts("O 2");
    session.says("H 2 -", "5 0 0 -");
}

#[test]
fn six_block_unreadable() {
    let mut session = due();
    session.says(&format!("H 0 {UNREADABLE}"), "6 0 0 -");
    session.says(&format!("H 0 {UNREADABLE}"), "6 0 0 -");
    session.state("0 4 2 - - - - 0 0 0:0:request+");
    session.accepts(&format!("H 0 {}", header_section(None)));
}

#[test]
fn seven_buffer_too_short() {
    let mut session = Session::new();
    session.says("W 64 63 2", "7 0 0 written 0 aaaa");
    session.says("W 64 63 3", "0 0 0 written 3 40403f");
    session.says("I 13 64 3", "7 0 0 written 0 aaaaaa");
    session.says("I 13 64 5", "0 0 0 written 4 0d024040aa");
    session.says("N 0 0", "7 0 0 written 0 -");
    session.says("C 11", "7 0 0 written 0 aaaaaaaaaaaaaaaaaaaaaa");
    session.says("C 13", "0 0 0 written 12 000409010006800040000700aa");
    session.says("G 8 2", "7 0 0 written 0 aaaa");
    session.state(FRESH);
}

#[test]
fn eight_bad_value() {
    let mut session = Session::new();
    session.says("W 4611686018427387904 0 1", "8 0 0 written 0 aa");
    session.says("W 0 4611686018427387904 1", "8 0 0 written 0 aa");
    session.says("I 4611686018427387904 0 1", "8 0 0 written 0 aa");
    session.says("I 0 18446744073709551615 1", "8 0 0 written 0 aa");
    session.says("N 4611686018427387904 0", "8 0 0 written 0 -");
    for id in ["1", "2", "3", "4611686018427387903", "4611686018427387904", "18446744073709551612"] {
        session.says(&format!("G {id} 3"), "8 0 0 written 0 aaaaaa");
    }
    session.state(FRESH);
    session.says("G 8 3", "0 0 0 written 3 070108");
    session.says("G 12 3", "8 0 0 written 0 aaaaaa");
    session.says("G 8 3", "0 0 0 written 3 070108");
    session.says("G 0 3", "0 0 0 written 3 070100");
    session.says("G 4 3", "8 0 0 written 0 aaaaaa");
    session.state("0 0 2 0 - - - 0 0");
}

#[test]
fn nine_row_of_another_length() {
    let mut session = due();
    for records in ["0", "23", "25", "32"] {
        for call in ["S", "O 4", "O 1", "F 0 1 00", "F 9 1 00", "H 0 -", "E 0", "R 0"] {
            session.says(&format!("L {records} {call}"), "9 0 0 -");
        }
    }
    session.state("0 4 2 - - - - 0 0 0:0:request+");
}

#[test]
fn stream_faults_free_the_record() {
    for (lines, number) in [
        (vec![(":method", "CONNECT"), (":authority", "a")], "267"),
        (vec![(":method", "GET"), (":authority", "a"), (":path", "/")], "270"),
        (vec![(":method", "PUT"), (":scheme", "https"), (":authority", "a"), (":path", "/")], "267"),
    ] {
        let mut session = due();
        session.says(&format!("H 0 {}", block(&lines)), &format!("{number} 0 0 -"));
        session.state("0 4 2 - - - - 0 0");
        for call in ["F 0 1 0000", "H 0 -", "E 0", "R 0"] {
            session.says(call, "1 0 0 -");
        }
        session.accepts("O 4");
        session.state("0 8 2 - - - - 0 0 0:4:request");
    }
    let mut session = Session::new();
    session.request(None);
    session.says("F 0 8 21000080100001", "268 7 2 -");
    session.state("0 4 2 - - - - 0 0");
}

#[test]
fn a_barred_id_is_spent() {
    let mut session = Session::new();
    session.says("G 4 3", "0 0 0 written 3 070104");
    session.accepts("O 0");
    session.says("O 8", "2 0 0 -");
    session.says("O 4", "267 0 0 -");
    session.says("O 4", "2 0 0 -");
    session.says("O 8", "267 0 0 -");
    session.accepts("O 2");
    session.state("0 12 6 4 - - - 0 0 0:0:request 1:2:untyped");
    session.says("E 4", "1 0 0 -");
}

#[test]
fn open_requests_go_on_below_our_goaway() {
    let mut session = Session::new();
    session.request(Some("1"));
    session.says("G 0 3", "0 0 0 written 3 070100");
    session.says("F 0 1 000161", "0 3 1 content 2 1");
    session.says("E 0", "0 0 0 whole");
    session.says("O 0", "2 0 0 -");
}

#[test]
fn every_connection_fault_is_kept_and_leaves_all_else() {
    // The stream, a first feed and its answer, the faulty feed and its answer, the kind that stays.
    let table = [
        ("2", "-", "0 0 0 -", "01", "259 1 0 -", "untyped"),
        ("2", "40", "0 1 0 -", "01", "259 1 0 -", "untyped"),
        ("2", "00", "0 1 0 -", "0000", "266 2 1 -", "control"),
        ("2", "00", "0 1 0 -", "04410100", "263 3 1 -", "control"),
        ("2", "00", "0 1 0 -", "0402020000", "265 4 1 -", "control"),
        ("2", "000400", "0 3 1 settings - 0 0", "0400", "261 2 1 -", "control"),
        ("2", "000400", "0 3 1 settings - 0 0", "0700", "262 2 1 -", "control"),
        ("2", "000400", "0 3 1 settings - 0 0", "030100", "264 3 1 -", "control"),
        ("0", "2100", "0 2 1 -", "0400", "261 2 1 -", "request"),
        ("0", "21", "0 1 0 -", "000180004001", "263 6 2 -", "request"),
    ];
    for (id, first, first_answer, faulty, answer, kind) in table {
        let mut session = Session::new();
        session.accepts(&format!("O {id}"));
        session.says(&format!("F {id} 9 {first}"), first_answer);
        session.says(&format!("F {id} 9 {faulty}"), answer);
        let code = answer.split(' ').next().unwrap();
        let next = if id == "0" { "4 2" } else { "0 6" };
        session.state(&format!("{code} {next} - - - - 0 0 0:{id}:{kind}"));
        let again = format!("{code} 0 0 -");
        for call in ["O 0", "O 99", "F 0 1 00", "F 98 1 00", "H 0 -", "E 0", "E 2", "R 0", "R 2"] {
            session.says(call, &again);
        }
        session.says("G 0 3", &format!("{code} 0 0 written 0 aaaaaa"));
        session.says("N 1 1", "0 0 0 written 1 01");
        session.says("V 01", "0 0 0 value 1 1");
        session.says("C 12", "0 0 0 written 12 000409010006800040000700");
        session.says("L 25 S", "9 0 0 -");
        session.says("E 0", &again);
        session.accepts("S");
        session.state(FRESH);
    }
}

#[test]
fn closed_critical_streams() {
    for kind in ["00", "02", "03", "4000", "80000002", "c000000000000003"] {
        for call in ["E", "R"] {
            let mut session = Session::new();
            session.accepts("O 2");
            let size = kind.len() / 2;
            session.says(&format!("F 2 0 {kind}"), &format!("0 {size} 0 -"));
            session.says(&format!("{call} 2"), "260 0 0 -");
            session.says("O 0", "260 0 0 -");
        }
    }
}

#[test]
fn end_inside_a_frame_is_a_connection_fault() {
    for (bytes, headers) in [("21", 0), ("40", 0), ("2105", 1), ("210500", 1), ("0140", 0)] {
        let mut session = Session::new();
        session.accepts("O 0");
        session.says(&format!("F 0 9 {bytes}"), &format!("0 {} {headers} -", bytes.len() / 2));
        session.says("E 0", "262 0 0 -");
        session.state("262 4 2 - - - - 0 0 0:0:request");
    }
}

#[test]
fn order_nine_before_a_dead_connection() {
    let mut session = dead();
    for call in ["S", "O 4", "F 0 1 00", "H 0 -", "E 0", "R 0"] {
        session.says(&format!("L 23 {call}"), "9 0 0 -");
    }
    session.says("E 0", "261 0 0 -");
}

#[test]
fn order_dead_before_one_and_two() {
    let mut session = dead();
    session.says("O 7", "261 0 0 -");
    session.says("E 7", "261 0 0 -");
    session.says("H 7 00", "261 0 0 -");
}

#[test]
fn order_two_before_barred_before_three() {
    let mut session = Session::new();
    for id in 0..24 {
        session.accepts(&format!("O {}", 4 * id));
    }
    session.says("G 96 4", "0 0 0 written 4 07024060");
    session.says("O 100", "2 0 0 -");
    session.says("O 96", "267 0 0 -");
    session.says("O 100", "267 0 0 -");
    session.says("O 2", "3 0 0 -");
}

#[test]
fn order_five_before_six_before_protocol() {
    let mut session = Session::new();
    session.accepts("O 0");
    session.says(&format!("H 0 {UNREADABLE}"), "5 0 0 -");
    session.says("F 0 1 0100", "0 2 1 section 2 0 1");
    session.says(&format!("H 0 {}{UNREADABLE}", malformed()), "6 0 0 -");
    session.says(&format!("H 0 {}", malformed()), "270 0 0 -");
}

#[test]
fn order_four_before_protocol() {
    let mut session = due();
    session.says("F 0 9 0400", "4 0 0 -");
    session.says("E 0", "4 0 0 -");
}

#[test]
fn order_for_our_goaway() {
    let mut session = Session::new();
    session.says("G 1 0", "8 0 0 written 0 -");
    session.says("G 4 0", "7 0 0 written 0 -");
    let mut session = dead();
    session.says("G 1 0", "261 0 0 written 0 -");
    session.says("G 4 64", &format!("261 0 0 written 0 {}", "aa".repeat(64)));
}

#[test]
fn order_of_the_header_section() {
    let with = |changes: &[(&'static str, &'static str)]| {
        let mut lines = GET.to_vec();
        for (name, value) in changes {
            match lines.iter_mut().find(|line| line.0 == *name) {
                Some(line) => line.1 = value,
                None => lines.push((name, value)),
            }
        }
        lines
    };
    let without = |name: &str, mut lines: Vec<(&'static str, &'static str)>| {
        lines.retain(|line| line.0 != name);
        lines
    };
    let long = "v".repeat(16_384);
    let long: &'static str = Box::leak(long.into_boxed_str());
    for (lines, number) in [
        // Size before CONNECT.
        (with(&[(":method", "CONNECT"), ("x", long)]), 270),
        // A rule before CONNECT.
        (with(&[(":method", "CONNECT"), ("upgrade", "x")]), 270),
        // CONNECT before a missing scheme or path.
        (without(":path", with(&[(":method", "CONNECT")])), 267),
        // A missing path before the scheme.
        (without(":path", with(&[(":scheme", "ftp")])), 270),
        // The scheme before the path, the origin and the Content-Length.
        (with(&[(":scheme", "ftp"), (":path", "x")]), 267),
        (with(&[(":scheme", "ftp"), (":authority", "a@b")]), 267),
        // The path and the origin before a Content-Length that is too large.
        (with(&[(":path", "x"), ("content-length", "1048577")]), 270),
        (with(&[(":authority", ""), ("content-length", "1048577")]), 270),
        (with(&[("content-length", "1048577")]), 267),
        // Above 2^62-1 it is one of the rules, before CONNECT.
        (with(&[(":method", "CONNECT"), ("content-length", "4611686018427387904")]), 270),
        (with(&[(":method", "CONNECT"), ("content-length", "4611686018427387903")]), 267),
        // An upload without a length is last: behind size, the rules, scheme, path and origin.
        (with(&[(":method", "PUT"), ("x", long)]), 270),
        (with(&[(":method", "PUT"), ("upgrade", "x")]), 270),
        (without(":scheme", with(&[(":method", "PUT")])), 270),
        (with(&[(":method", "PUT"), (":path", "*")]), 270),
        (with(&[(":method", "PUT"), (":authority", "a@b")]), 270),
        (with(&[(":method", "PUT")]), 267),
        (with(&[(":method", "PUT"), ("content-length", "0")]), 0),
    ] {
        let mut session = due();
        session.says(&format!("H 0 {}", block(&lines)), &format!("{number} 0 0 -"));
    }
}

#[test]
fn order_of_the_end() {
    // Inside a frame before no header section.
    let mut session = Session::new();
    session.accepts("O 0");
    session.says("F 0 9 2105", "0 2 1 -");
    session.says("E 0", "262 0 0 -");
    // Inside a frame before an unequal Content-Length.
    let mut session = Session::new();
    session.request(Some("3"));
    session.says("F 0 9 0002", "0 2 1 -");
    session.says("E 0", "262 0 0 -");
    // A control stream inside a frame gives the critical stream's code.
    let mut session = Session::new();
    session.control();
    session.says("F 2 9 0701", "0 2 1 -");
    session.says("E 2", "260 0 0 -");
}
