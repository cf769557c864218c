//! The readings settled in the list of open points, under their labels.

mod common;

use common::{block, header_section, Session, GET, UNREADABLE};

#[test]
fn a7_the_lowest_free_record_is_taken() {
    let mut session = Session::new();
    for id in ["0", "4", "2", "8"] {
        session.accepts(&format!("O {id}"));
    }
    session.says("R 2", "0 0 0 freed");
    session.says("R 0", "0 0 0 freed");
    session.accepts("O 12");
    session.accepts("O 6");
    session.state("0 16 10 - - - - 0 0 0:12:request 1:4:request 2:6:untyped 3:8:request");
}

#[test]
fn a15_our_goaway_is_not_tied_to_the_ids_opened() {
    let mut session = Session::new();
    session.says("G 4611686018427387900 10", "0 0 0 written 10 0708fffffffffffffffc");
    session.accepts("O 0");
    session.says("G 0 3", "0 0 0 written 3 070100");
    session.says("O 4", "267 0 0 -");
}

#[test]
fn a20_a_second_start_forgets_all() {
    let mut session = Session::new();
    session.control();
    session.says("F 2 1 0d0105", "0 3 1 maxpush 5");
    session.says("G 4 3", "0 0 0 written 3 070104");
    session.accepts("S");
    session.state("0 0 2 - - - - 0 0");
    session.control();
}

#[test]
fn b1_the_feed_stops_at_once_at_the_event() {
    let mut session = Session::new();
    session.control();
    session.says("F 2 9 0701052100", "0 3 1 goaway 5");
    session.says("F 2 9 21000d010321000d0104", "0 5 2 maxpush 3");
}

#[test]
fn b2_parts_reach_as_far_as_piece_and_payload_allow() {
    let mut session = Session::new();
    session.request(None);
    session.says("F 0 9 0003616200", "0 5 1 content 2 3");
    session.says("F 0 9 00016100020a0b", "0 3 1 content 2 1");
    session.says("F 0 9 00040a0b", "0 4 1 content 2 2");
    session.says("F 0 9 0c", "0 1 0 content 0 1");
    session.says("F 0 9 0d00", "0 1 0 content 0 1");
    session.says("E 0", "0 0 0 whole");
}

#[test]
fn b3_an_empty_section_starts_behind_its_header() {
    let mut session = Session::new();
    session.accepts("O 0");
    session.says("F 0 9 2100014000aa", "0 5 2 section 5 0 1");
    session.accepts(&format!("H 0 {}", header_section(None)));
    session.says("F 0 9 01", "0 1 0 -");
    session.says("F 0 9 00", "0 1 1 section 1 0 1");
    session.accepts("H 0 -");
    session.says("E 0", "0 0 0 whole");
}

#[test]
fn b4_a_header_at_the_pieces_end_gives_no_event() {
    let mut session = Session::new();
    session.accepts("O 0");
    session.says("F 0 9 0102", "0 2 1 -");
    session.says("F 0 9 -", "0 0 0 -");
    session.says("F 0 9 61", "0 1 0 section 0 1 0");
    session.says("F 0 9 6100", "0 1 0 section 0 1 1");
}

#[test]
fn b7_no_allowance_reads_no_header_byte() {
    let mut session = Session::new();
    session.accepts("O 0");
    session.says("F 0 0 2100", "0 0 0 -");
    session.says("F 0 1 21", "0 1 0 -");
    session.says("F 0 0 0261622100", "0 0 0 -");
    session.says("F 0 1 0261622100", "0 3 1 -");
    session.says("F 0 0 2100", "0 0 0 -");
    session.says("F 0 2 2100210021002100", "0 4 2 -");
    session.says("F 0 18446744073709551615 2100210021002100", "0 8 4 -");
}

#[test]
fn b9_the_payload_behind_the_last_allowed_header_is_read() {
    let mut session = Session::new();
    session.accepts("O 2");
    session.says("F 2 0 40000400", "0 2 0 -");
    session.says("F 2 1 04020601210321", "0 4 1 settings 1 0 0");
    session.says("F 2 1 2101002103", "0 3 1 -");
    session.says("F 2 1 21030a", "0 3 1 -");
    session.says("F 2 0 0b0c21", "0 2 0 -");
}

#[test]
fn b10_qpack_and_skipped_bytes_are_free() {
    let mut session = Session::new();
    session.accepts("O 2");
    session.accepts("O 6");
    session.accepts("O 10");
    session.says("F 2 0 02616263", "0 4 0 qpack 2 1 3");
    session.says("F 2 0 6162", "0 2 0 qpack 2 0 2");
    session.says("F 6 0 8000000361", "0 5 0 qpack 3 4 1");
    session.says("F 6 0 -", "0 0 0 -");
    session.says("F 10 0 210001020304", "0 6 0 -");
    session.state("0 0 14 - - - - 0 0 0:2:encoder 1:6:decoder 2:10:skipped");
    session.says("E 10", "0 0 0 freed");
}

#[test]
fn b11_a_piece_that_ends_with_the_type_gives_no_event() {
    let mut session = Session::new();
    session.accepts("O 2");
    session.says("F 2 1 02", "0 1 0 -");
    session.says("F 2 1 ff", "0 1 0 qpack 2 0 1");
}

#[test]
fn b13_equal_again_and_empty_settings() {
    let mut session = Session::new();
    session.control();
    session.says("F 2 1 070105", "0 3 1 goaway 5");
    session.says("F 2 1 07024005", "0 4 1 goaway 5");
    session.says("F 2 1 0d0105", "0 3 1 maxpush 5");
    session.says("F 2 1 0d0105", "0 3 1 maxpush 5");
    session.state("0 0 6 - 5 5 - 0 0 0:2:control");
}

#[test]
fn b14_bytes_offered_but_not_consumed_are_not_judged() {
    let mut session = Session::new();
    session.request(None);
    session.says("F 0 0 0003", "0 0 0 -");
    session.says("E 0", "0 0 0 whole");
}

#[test]
fn b15_a_fault_counts_the_headers_of_its_feed() {
    let mut session = Session::new();
    session.control();
    session.says("F 2 9 2100070240", "0 5 2 -");
    session.says("F 2 9 05", "0 1 0 goaway 5");
    session.says("F 2 9 07024000", "0 4 1 goaway 0");
    session.says("F 2 9 210007", "0 3 1 -");
    session.says("F 2 9 01", "0 1 1 -");
    session.says("F 2 9 0121", "264 1 0 -");
}

#[test]
fn b16_a_fault_leaves_no_trace_of_its_feed() {
    let mut session = Session::new();
    session.accepts("O 2");
    session.says("F 2 9 000301", "266 3 1 -");
    session.state("266 0 6 - - - - 0 0 0:2:untyped");
}

#[test]
fn b17_a_request_goes_on_until_its_end() {
    let mut session = Session::new();
    session.request(Some("1"));
    session.says("F 0 9 000161", "0 3 1 content 2 1");
    session.says("F 0 9 000021004000000101", "0 9 4 -");
    session.says("F 0 9 61", "0 1 0 section 0 1 1");
    session.accepts("H 0 -");
    session.says("F 0 9 2100", "0 2 1 -");
    session.says("E 0", "0 0 0 whole");
    session.says("F 0 9 2100", "1 0 0 -");
}

#[test]
fn c1_a_forbidden_type_waits_for_its_length() {
    let mut session = Session::new();
    session.accepts("O 0");
    session.says("F 0 9 0480", "0 2 0 -");
    session.says("E 0", "262 0 0 -");
}

#[test]
fn c3_position_before_length() {
    for (bytes, answer) in
        [("0180004001", "261 5 1 -"), ("00bfffffff", "261 5 1 -"), ("05bfffffff", "261 5 1 -")]
    {
        let mut session = Session::new();
        session.request(None);
        session.says("F 0 9 0100", "0 2 1 section 2 0 1");
        session.accepts("H 0 -");
        session.says(&format!("F 0 9 {bytes}"), answer);
    }
    let mut session = Session::new();
    session.accepts("O 0");
    session.says("F 0 9 00bfffffff", "261 5 1 -");
    let mut session = Session::new();
    session.control();
    session.says("F 2 9 04412c", "261 3 1 -");
}

#[test]
fn c4_headers_length_for_both_sections() {
    let mut session = Session::new();
    session.accepts("O 0");
    session.says("F 0 9 0180004001", "263 5 1 -");
    let mut session = Session::new();
    session.request(None);
    session.says("F 0 9 0180004001", "263 5 1 -");
    let mut session = Session::new();
    session.accepts("O 0");
    session.says("F 0 9 0180004000", "0 5 1 -");
    let payload = "61".repeat(16_384);
    session.says(&format!("F 0 9 {payload}00"), "0 16384 0 section 0 16384 1");
}

#[test]
fn c5_the_stated_length_of_data_counts() {
    let mut session = Session::new();
    session.request(Some("3"));
    session.says("F 0 9 00026162", "0 4 1 content 2 2");
    session.says("F 0 9 0002", "270 2 1 -");
    let mut session = Session::new();
    session.request(Some("0"));
    session.says("F 0 9 0000", "0 2 1 -");
    session.says("F 0 9 0001", "270 2 1 -");
    let mut session = Session::new();
    session.request(Some("1048576"));
    session.says("F 0 9 0080100000", "0 5 1 -");
}

#[test]
fn c8_skipped_frames_have_no_limit() {
    let mut session = Session::new();
    session.accepts("O 0");
    session.says("F 0 9 21ffffffffffffffff0400", "0 11 1 -");
    session.control();
    session.says("F 2 9 0affffffffffffffff0000", "0 11 1 -");
}

#[test]
fn c9_every_type_on_both_streams() {
    for kind in 0..64 {
        let forbidden = kind < 10 || kind == 13;
        let mut session = Session::new();
        session.request(None);
        let answer = match kind {
            0 => "0 2 1 -",
            1 => "0 2 1 section 2 0 1",
            _ if forbidden => "261 2 1 -",
            _ => "0 2 1 -",
        };
        session.says(&format!("F 0 9 {kind:02x}00"), answer);

        let mut session = Session::new();
        session.control();
        let answer = match kind {
            3 | 7 | 13 => "262 2 1 -",
            _ if forbidden => "261 2 1 -",
            _ => "0 2 1 -",
        };
        session.says(&format!("F 2 9 {kind:02x}00"), answer);

        let mut session = Session::new();
        session.accepts("O 2");
        let answer = if kind == 4 { "0 3 1 settings - 0 0" } else { "266 3 1 -" };
        session.says(&format!("F 2 9 00{kind:02x}00"), answer);
    }
}

#[test]
fn d1_cancel_push_waits_for_its_payload() {
    for (bytes, answer) in [
        ("0300", "262 2 1 -"),
        ("0309", "262 2 1 -"),
        ("030100", "264 3 1 -"),
        ("03020000", "262 4 1 -"),
        ("030140", "262 3 1 -"),
        ("03024000", "264 4 1 -"),
        ("0308c000000000000000", "264 10 1 -"),
    ] {
        let mut session = Session::new();
        session.control();
        session.says(&format!("F 2 9 {bytes}"), answer);
    }
    let mut session = Session::new();
    session.control();
    session.says("F 2 9 0301", "0 2 1 -");
    session.says("E 2", "260 0 0 -");
}

#[test]
fn d2_lengths_of_the_integer() {
    for kind in ["07", "0d"] {
        for length in 0..=9 {
            for first in ["00", "40", "80", "c0"] {
                let mut session = Session::new();
                session.control();
                let header = format!("{kind}{length:02x}");
                if length == 0 || length == 9 {
                    session.says(&format!("F 2 9 {header}{first}"), "262 2 1 -");
                    continue;
                }
                let mut payload = first.to_string() + &"00".repeat(length);
                payload.truncate(2 * length);
                let whole = [("00", 1), ("40", 2), ("80", 4), ("c0", 8)].contains(&(first, length));
                let consumed = length + 2;
                let event = if kind == "07" { "goaway" } else { "maxpush" };
                let answer =
                    if whole { format!("0 {consumed} 1 {event} 0") } else { format!("262 {consumed} 1 -") };
                session.says(&format!("F 2 9 {header}{payload}2100"), &answer);
            }
        }
    }
}

#[test]
fn d3_a_first_frame_other_than_settings_before_all_else() {
    for bytes in ["0000", "0700", "0309", "2100", "0200", "05bfffffff"] {
        let mut session = Session::new();
        session.accepts("O 2");
        let size = bytes.len() / 2 + 1;
        session.says(&format!("F 2 9 00{bytes}"), &format!("266 {size} 1 -"));
    }
}

#[test]
fn d4_settings_pair_by_pair() {
    for (payload, number) in [
        ("020006", 265),
        ("02", 262),
        ("060102", 262),
        ("0601060106", 265),
        ("0240", 262),
        ("00000000", 265),
        ("2100402100", 265),
        ("06014006", 262),
        ("0601400600", 265),
        ("0500", 265),
    ] {
        let mut session = Session::new();
        session.accepts("O 2");
        let length = payload.len() / 2;
        session
            .says(&format!("F 2 9 0004{length:02x}{payload}2100"), &format!("{number} {} 1 -", length + 3));
        session.state(&format!("{number} 0 6 - - - - 0 0 0:2:untyped"));
    }
}

#[test]
fn d6_settings_are_kept() {
    let mut session = Session::new();
    session.accepts("O 2");
    session.says("F 2 9 00040b0001064400014005070308", "262 14 1 -");
    let mut session = Session::new();
    session.accepts("O 2");
    session.says("F 2 9 00040a0001064400014005070301", "0 13 1 settings 1024 5 3");
    session.state("0 0 6 - - - 1024 5 3 0:2:control");
    let mut session = Session::new();
    session.accepts("O 2");
    session.says("F 2 9 00040906ffffffffffffffff", "0 12 1 settings 4611686018427387903 0 0");
}

#[test]
fn c3_settings_length_limit() {
    // 256 bytes: pairs of unknown identifiers, each of two bytes with a two-byte value.
    let payload: String = (0..64).map(|pair| format!("{:04x}4000", 0x4100 + pair)).collect();
    let mut session = Session::new();
    session.accepts("O 2");
    session.says(&format!("F 2 9 00044100{payload}"), "0 260 1 settings - 0 0");
    let mut session = Session::new();
    session.accepts("O 2");
    session.says("F 2 9 00044101", "263 4 1 -");
}

#[test]
fn d9_goaway_and_max_push_id_against_the_earlier() {
    let mut session = Session::new();
    session.control();
    session.says("F 2 9 0708ffffffffffffffff", "0 10 1 goaway 4611686018427387903");
    session.says("F 2 9 070104", "0 3 1 goaway 4");
    session.says("F 2 9 0d013f", "0 3 1 maxpush 63");
    session.says("F 2 9 070100", "0 3 1 goaway 0");
    session.says("F 2 9 0d013e", "264 3 1 -");
    session.state("264 0 6 - 0 63 - 0 0 0:2:control");
}

#[test]
fn e1_types_in_every_size_go_on_in_the_same_feed() {
    for (kind, size) in [("00", 1), ("4000", 2), ("80000000", 4), ("c000000000000000", 8)] {
        let mut session = Session::new();
        session.accepts("O 2");
        session.says(&format!("F 2 1 {kind}040021"), &format!("0 {} 1 settings - 0 0", size + 2));
        session.accepts("O 6");
        session.says(&format!("F 6 1 {kind}0400"), &format!("259 {size} 0 -"));
    }
}

#[test]
fn e2_each_critical_type_once() {
    for kind in ["00", "02", "03"] {
        let mut session = Session::new();
        session.accepts("O 2");
        session.accepts("O 6");
        session.says(&format!("F 6 1 {kind}"), "0 1 0 -");
        session.says("F 2 1 40", "0 1 0 -");
        session.says(&format!("F 2 1 {kind}"), "259 1 0 -");
    }
    let mut session = Session::new();
    for id in ["2", "6", "10"] {
        session.accepts(&format!("O {id}"));
        session.says(&format!("F {id} 1 04"), "0 1 0 -");
    }
}

#[test]
fn e4_untyped_streams_are_freed() {
    let mut session = Session::new();
    for (id, bytes, call) in
        [(2, "-", "E"), (6, "-", "R"), (10, "40", "E"), (14, "c00000", "R"), (18, "21", "R")]
    {
        session.accepts(&format!("O {id}"));
        let size = if bytes == "-" { 0 } else { bytes.len() / 2 };
        session.says(&format!("F {id} 1 {bytes}"), &format!("0 {size} 0 -"));
        session.says(&format!("{call} {id}"), "0 0 0 freed");
    }
    session.state("0 0 22 - - - - 0 0");
}

#[test]
fn g1_reset_while_a_section_is_due() {
    let mut session = Session::new();
    session.accepts("O 0");
    session.says("F 0 1 0100", "0 2 1 section 2 0 1");
    session.says("R 0", "0 0 0 freed");
    session.says("R 0", "1 0 0 -");
}

#[test]
fn g4_trailers_whose_section_is_due() {
    let mut session = Session::new();
    session.request(None);
    session.says("F 0 1 0100", "0 2 1 section 2 0 1");
    session.says("E 0", "4 0 0 -");
    session.says("F 0 1 -", "4 0 0 -");
    session.accepts("H 0 -");
    session.says("E 0", "0 0 0 whole");
}

#[test]
fn g5_content_length_is_judged_at_the_end_alone() {
    let mut session = Session::new();
    session.request(Some("5"));
    session.says("F 0 1 0100", "0 2 1 section 2 0 1");
    session.accepts("H 0 -");
    session.says("E 0", "270 0 0 -");
}

#[test]
fn h_trailers_refused_free_the_record() {
    let mut session = Session::new();
    session.request(None);
    session.says("F 0 1 0100", "0 2 1 section 2 0 1");
    session.says(&format!("H 0 {}", block(&GET)), "270 0 0 -");
    session.state("0 4 2 - - - - 0 0");
}

/// A header section of that method, with a Content-Length if one is given.
fn section_of(method: &'static str, length: Option<&'static str>) -> String {
    let mut lines = GET.to_vec();
    lines[0].1 = method;
    lines.extend(length.map(|length| ("content-length", length)));
    block(&lines)
}

#[test]
fn q1_1_the_three_methods_to_the_byte() {
    for (method, answer) in [
        ("PUT", "267 0 0 -"),
        ("POST", "267 0 0 -"),
        ("PATCH", "267 0 0 -"),
        ("put", "0 0 0 -"),
        ("PUTX", "0 0 0 -"),
        ("PATC", "0 0 0 -"),
    ] {
        let mut session = Session::new();
        session.accepts("O 0");
        session.says("F 0 1 010100", "0 3 1 section 2 1 1");
        session.says(&format!("H 0 {}", section_of(method, None)), answer);
        let open = answer.starts_with("0 ");
        session.says("E 0", if open { "0 0 0 whole" } else { "1 0 0 -" });
        session.state("0 4 2 - - - - 0 0");
    }
}

#[test]
fn q1_2_a_length_of_0_is_stated() {
    let mut session = Session::new();
    for (id, content, end) in [(0, "-", "0 0 0 whole"), (4, "0000", "0 0 0 whole"), (8, "0001", "1 0 0 -")] {
        session.accepts(&format!("O {id}"));
        session.says(&format!("F {id} 1 010100"), "0 3 1 section 2 1 1");
        session.accepts(&format!("H {id} {}", section_of("PUT", Some("0"))));
        let fed = match content {
            "-" => "0 0 0 -",
            "0000" => "0 2 1 -",
            _ => "270 2 1 -",
        };
        session.says(&format!("F {id} 1 {content}"), fed);
        session.says(&format!("E {id}"), end);
    }
}

#[test]
fn q1_4_trailers_state_nothing() {
    let mut session = Session::new();
    session.accepts("O 0");
    session.says("F 0 1 010100", "0 3 1 section 2 1 1");
    session.accepts(&format!("H 0 {}", section_of("PATCH", Some("1"))));
    session.says("F 0 1 000161", "0 3 1 content 2 1");
    session.says("F 0 1 0100", "0 2 1 section 2 0 1");
    session.says(&format!("H 0 {}", block(&[("content-length", "1")])), "270 0 0 -");
}

#[test]
fn q1_5_other_methods_go_on_without_a_length() {
    for method in ["GET", "DELETE", "put"] {
        let mut session = Session::new();
        session.accepts("O 0");
        session.says("F 0 1 010100", "0 3 1 section 2 1 1");
        session.accepts(&format!("H 0 {}", section_of(method, None)));
        session.says("F 0 1 0003616263", "0 5 1 content 2 3");
        session.accepts("O 4");
        session.says("E 0", "0 0 0 whole");
        session.says("F 4 1 010100", "0 3 1 section 2 1 1");
        session.accepts(&format!("H 4 {}", section_of(method, None)));
        session.says("F 4 1 0080100001", "268 5 1 -");
    }
}

/// Lines that come to that size: so many, each with 32 beside its name `x` and its value, and the first one's is long.
fn lines_of_size(size: usize, count: usize) -> String {
    let value = "v".repeat(size - 33 * count);
    let mut lines = vec![("x", ""); count];
    lines[0].1 = &value;
    block(&lines)
}

#[test]
fn q2_2_to_the_byte_in_both_sections() {
    for count in [1, 2, 491] {
        for (more, answer, end) in [(0, "0 0 0 -", "0 0 0 whole"), (1, "270 0 0 -", "1 0 0 -")] {
            let mut session = Session::new();
            session.accepts("O 0");
            session.says("F 0 1 010100", "0 3 1 section 2 1 1");
            // The four lines before have 39 bytes.
            let left = 16_384 - 39 - 4 * 32 + more;
            let block = section_of("GET", None) + &lines_of_size(left, count);
            session.says(&format!("H 0 {block}"), answer);
            session.says("E 0", end);
            let mut session = Session::new();
            session.request(None);
            session.says("F 0 1 0100", "0 2 1 section 2 0 1");
            session.says(&format!("H 0 {}", lines_of_size(16_384 + more, count)), answer);
            session.says("E 0", end);
        }
    }
}

#[test]
fn q2_3_behind_6_and_before_the_rules() {
    let mut session = Session::new();
    session.accepts("O 0");
    session.says("F 0 1 010100", "0 3 1 section 2 1 1");
    session.says(&format!("H 0 {}{UNREADABLE}", lines_of_size(16_385, 9)), "6 0 0 -");
    session.says(&format!("H 0 {}", section_of("CONNECT", None) + &lines_of_size(16_384, 9)), "270 0 0 -");
}

#[test]
fn q2_4_the_other_limits_stay() {
    let mut session = Session::new();
    session.accepts("O 0");
    session.says("F 0 9 0180004000", "0 5 1 -");
    session.accepts("O 4");
    session.says("C 12", "0 0 0 written 12 000409010006800040000700");
    session.accepts("O 2");
    session.says("F 2 9 0004020600", "0 5 1 settings 0 0 0");
    session.says("F 4 9 0180004001", "263 5 1 -");
}
