//! Blocks, byte classes, and the rules of header sections and trailers.

mod common;

use second::block;
use second::classes;
use second::hex;
use second::sections::{judge_block, Part};

type Lines = Vec<(Vec<u8>, Vec<u8>)>;

fn get() -> Lines {
    common::GET.iter().map(|(name, value)| (name.as_bytes().to_vec(), value.as_bytes().to_vec())).collect()
}

fn with(lines: &Lines, name: &[u8], value: &[u8]) -> Lines {
    let mut lines = lines.clone();
    lines.push((name.to_vec(), value.to_vec()));
    lines
}

fn set(name: &[u8], value: &[u8]) -> Lines {
    let mut lines = get();
    lines.iter_mut().find(|line| line.0 == name).unwrap().1 = value.to_vec();
    lines
}

fn without(name: &[u8]) -> Lines {
    let mut lines = get();
    lines.retain(|line| line.0 != name);
    lines
}

fn judge(part: Part, lines: &Lines) -> Result<Option<u64>, u16> {
    let bytes: Vec<u8> = lines.iter().flat_map(|(name, value)| block::record(name, value)).collect();
    judge_block(part, &bytes)
}

fn header(lines: &Lines) -> Result<Option<u64>, u16> {
    judge(Part::HeaderSection, lines)
}

fn trailers(lines: &Lines) -> Result<Option<u64>, u16> {
    judge(Part::Trailers, lines)
}

const MALFORMED: Result<Option<u64>, u16> = Err(0x010e);
const REJECTED: Result<Option<u64>, u16> = Err(0x010b);
const SOUND: Result<Option<u64>, u16> = Ok(None);

#[test]
fn byte_classes() {
    for byte in 0..=u8::MAX {
        let letter_or_digit = byte.is_ascii_alphanumeric();
        let token = letter_or_digit || b"!#$%&'*+-.^_`|~".contains(&byte);
        assert_eq!(classes::is_token(byte), token);
        assert_eq!(classes::is_name(byte), token && !byte.is_ascii_uppercase());
        assert_eq!(classes::is_value(byte), byte == 9 || (0x20..=0x7e).contains(&byte) || byte >= 0x80);
        assert_eq!(classes::is_digit(byte), byte.is_ascii_digit());
        assert_eq!(classes::is_blank(byte), byte == 9 || byte == 0x20);
    }
}

#[test]
fn unreadable_blocks() {
    for text in [
        "00",
        "04",
        "0400",
        "040001",
        "04000100",
        "0400010000",
        "0000",
        "0100ff",
        "020001",
        "02000100",
        "03000100ff",
        "040000000000",
        "040002000000",
        "040001010000",
        "040001000100",
        "050001000200aa",
        "0500010000",
        "0f00010007",
        "04000100000000",
        "0400010000000400",
    ] {
        assert_eq!(judge_block(Part::Trailers, &hex::parse(text).unwrap()), Err(6), "{text}");
        assert_eq!(judge_block(Part::HeaderSection, &hex::parse(text).unwrap()), Err(6), "{text}");
    }
    // An empty name is readable, and malformed; a name that fills the record is fine.
    assert_eq!(judge_block(Part::Trailers, &hex::parse("040001000000").unwrap()), MALFORMED);
    assert_eq!(judge_block(Part::Trailers, &hex::parse("05000100010061").unwrap()), SOUND);
}

#[test]
fn the_empty_block() {
    assert_eq!(judge_block(Part::HeaderSection, &[]), MALFORMED);
    assert_eq!(judge_block(Part::Trailers, &[]), SOUND);
}

#[test]
fn a_sound_header_section() {
    assert_eq!(header(&get()), SOUND);
    assert_eq!(header(&with(&get(), b"x", b"")), SOUND);
}

#[test]
fn every_byte_of_a_name_and_a_value() {
    for byte in 0..=u8::MAX {
        for name in [vec![byte], vec![b'a', byte], vec![byte, b'a']] {
            let answer = if classes::is_name(byte) { SOUND } else { MALFORMED };
            assert_eq!(header(&with(&get(), &name, b"v")), answer, "{name:?}");
            assert_eq!(trailers(&vec![(name, Vec::new())]), answer);
        }
        let inside = if classes::is_value(byte) { SOUND } else { MALFORMED };
        let edge = if classes::is_value(byte) && !classes::is_blank(byte) { SOUND } else { MALFORMED };
        for (value, answer) in [
            (vec![b'a', byte, b'a'], inside),
            (vec![byte], edge),
            (vec![byte, b'a'], edge),
            (vec![b'a', byte], edge),
        ] {
            assert_eq!(header(&with(&get(), b"x", &value)), answer, "{value:?}");
            assert_eq!(trailers(&vec![(b"x".to_vec(), value)]), answer);
        }
        let method = if classes::is_token(byte) { SOUND } else { MALFORMED };
        assert_eq!(header(&set(b":method", &[b'G', byte])), method);
    }
}

/// Lines named `x`, the first with a value that brings them to the size.
fn lines_of_size(size: usize, count: usize) -> Lines {
    let mut lines = vec![(b"x".to_vec(), Vec::new()); count];
    lines[0].1 = vec![b'v'; size - count * 33];
    lines
}

#[test]
fn each_line_counts_32() {
    for count in [1, 2, 3, 100, 496] {
        assert_eq!(trailers(&lines_of_size(16_384, count)), SOUND, "{count}");
        assert_eq!(trailers(&lines_of_size(16_385, count)), MALFORMED, "{count}");
    }
    // Four lines of GET, 39 bytes and 128.
    for count in [1, 2, 3, 100, 491] {
        for (size, answer) in [(16_217, SOUND), (16_218, MALFORMED)] {
            let mut lines = get();
            lines.extend(lines_of_size(size, count));
            assert_eq!(header(&lines), answer, "{count} lines of {size}");
        }
    }
    // Lines of one byte: 496 are 16,368, and 497 are above.
    assert_eq!(trailers(&vec![(b"x".to_vec(), Vec::new()); 496]), SOUND);
    assert_eq!(trailers(&vec![(b"x".to_vec(), Vec::new()); 497]), MALFORMED);
    // The empty section has no size.
    assert_eq!(trailers(&Vec::new()), SOUND);
    // 512 lines without a byte are within the limit, and malformed by their names.
    for count in [0, 1, 511, 512, 513] {
        let lines = vec![(Vec::new(), Vec::new()); count];
        assert_eq!(header(&lines), MALFORMED, "{count}");
        assert_eq!(trailers(&lines), if count == 0 { SOUND } else { MALFORMED }, "{count}");
    }
}

#[test]
fn size_is_counted_in_names_and_values() {
    assert_eq!(trailers(&vec![(vec![b'n'; 16_352], Vec::new())]), SOUND);
    assert_eq!(trailers(&vec![(vec![b'n'; 16_353], Vec::new())]), MALFORMED);
    assert_eq!(trailers(&vec![(b"x".to_vec(), vec![b'v'; 16_351])]), SOUND);
    assert_eq!(trailers(&vec![(b"x".to_vec(), vec![b'v'; 16_352])]), MALFORMED);
    assert_eq!(trailers(&vec![(b"x".to_vec(), vec![b'v'; 3]); 455]), SOUND);
    assert_eq!(trailers(&vec![(b"x".to_vec(), vec![b'v'; 3]); 456]), MALFORMED);
}

/// A section above the limit is malformed, whatever 0x010b it would have got.
#[test]
fn size_before_what_is_rejected() {
    for (name, value) in [(":method", "CONNECT"), (":method", "PUT"), (":scheme", "ftp")] {
        for (size, answer) in [(16_384, REJECTED), (16_385, MALFORMED)] {
            let mut lines = set(name.as_bytes(), value.as_bytes());
            let so_far: usize = lines.iter().map(|line| line.0.len() + line.1.len() + 32).sum();
            lines.push((b"x".to_vec(), vec![b'v'; size - so_far - 33]));
            assert_eq!(header(&lines), answer, "{value} in {size}");
        }
    }
}

#[test]
fn pseudo_fields() {
    for name in [":protocol", ":status", ":", ":Method", ":method ", ":pat", ":paths"] {
        let mut lines = get();
        lines.insert(0, (name.as_bytes().to_vec(), b"x".to_vec()));
        assert_eq!(header(&lines), MALFORMED, "{name}");
        assert_eq!(trailers(&vec![(name.as_bytes().to_vec(), b"x".to_vec())]), MALFORMED);
    }
    for (name, value) in get() {
        let mut lines = get();
        lines.insert(0, (name.clone(), value.clone()));
        assert_eq!(header(&lines), MALFORMED, "repeated");
        assert_eq!(trailers(&vec![(name.clone(), value.clone())]), MALFORMED);
        let mut lines = without(&name);
        lines.push((b"x".to_vec(), Vec::new()));
        lines.push((name.clone(), value));
        assert_eq!(header(&lines), MALFORMED, "after a plain field");
    }
    assert_eq!(header(&set(b":path", b"/ ")), MALFORMED);
    assert_eq!(header(&set(b":path", b"/ x")), SOUND);
}

#[test]
fn forbidden_fields() {
    for name in ["connection", "keep-alive", "proxy-connection", "transfer-encoding", "upgrade"] {
        assert_eq!(header(&with(&get(), name.as_bytes(), b"")), MALFORMED);
        assert_eq!(trailers(&vec![(name.as_bytes().to_vec(), b"x".to_vec())]), MALFORMED);
        assert_eq!(header(&with(&get(), format!("{name}s").as_bytes(), b"")), SOUND);
    }
}

#[test]
fn te_is_trailers_to_the_byte() {
    for value in ["", "Trailers", "trailers, gzip", "gzip", "trailers;q=1"] {
        assert_eq!(header(&with(&get(), b"te", value.as_bytes())), MALFORMED);
        assert_eq!(trailers(&vec![(b"te".to_vec(), value.as_bytes().to_vec())]), MALFORMED);
    }
    let once = with(&get(), b"te", b"trailers");
    assert_eq!(header(&once), SOUND);
    assert_eq!(header(&with(&once, b"te", b"trailers")), SOUND);
    assert_eq!(trailers(&vec![(b"te".to_vec(), b"trailers".to_vec())]), SOUND);
}

#[test]
fn methods() {
    assert_eq!(header(&without(b":method")), MALFORMED);
    assert_eq!(header(&set(b":method", b"")), MALFORMED);
    assert_eq!(header(&set(b":method", b"CONNECT")), REJECTED);
    for method in ["connect", "Connect", "get", "!"] {
        assert_eq!(header(&set(b":method", method.as_bytes())), SOUND);
    }
}

#[test]
fn content_lengths() {
    for (value, answer) in [
        ("0", Ok(Some(0))),
        ("00", Ok(Some(0))),
        ("3", Ok(Some(3))),
        ("1048576", Ok(Some(1_048_576))),
        ("0000000000000000000000000000000000000003", Ok(Some(3))),
        ("00000000000000000000000000000000000000001048576", Ok(Some(1_048_576))),
        ("1048577", REJECTED),
        ("4611686018427387903", REJECTED),
        ("04611686018427387903", REJECTED),
        ("4611686018427387904", MALFORMED),
        ("9999999999999999999", MALFORMED),
        ("18446744073709551616", MALFORMED),
        ("18446744073709551619", MALFORMED),
        ("9000000000000000000000000000000000000003", MALFORMED),
        ("", MALFORMED),
        ("+1", MALFORMED),
        ("-1", MALFORMED),
        ("1,1", MALFORMED),
        ("1, 1", MALFORMED),
        ("1 1", MALFORMED),
        ("0x1", MALFORMED),
        ("\u{661}", MALFORMED),
    ] {
        assert_eq!(header(&with(&get(), b"content-length", value.as_bytes())), answer, "{value}");
        let in_trailers = vec![(b"content-length".to_vec(), value.as_bytes().to_vec())];
        assert_eq!(trailers(&in_trailers), MALFORMED);
    }
    let twice = with(&with(&get(), b"content-length", b"1"), b"content-length", b"1");
    assert_eq!(header(&twice), MALFORMED);
}

#[test]
fn uploads_state_a_length() {
    let limit = (b"content-length", b"1048577");
    for method in ["PUT", "POST", "PATCH"] {
        let upload = set(b":method", method.as_bytes());
        assert_eq!(header(&upload), REJECTED, "{method}");
        for (value, length) in [("0", 0), ("00", 0), ("3", 3), ("1048576", 1_048_576)] {
            assert_eq!(header(&with(&upload, b"content-length", value.as_bytes())), Ok(Some(length)));
        }
        assert_eq!(header(&with(&upload, limit.0, limit.1)), REJECTED);
        // What only looks like a length states none; a malformed one is malformed.
        assert_eq!(header(&with(&upload, b"content-lengths", b"3")), REJECTED);
        assert_eq!(header(&with(&upload, b"x", b"content-length: 3")), REJECTED);
        assert_eq!(header(&with(&upload, b"content-length", b"")), MALFORMED);
        // Every earlier fault comes first.
        for (name, value) in [(":authority", "a@b"), (":authority", ""), (":path", "x"), (":path", "*")] {
            let mut lines = upload.clone();
            lines.iter_mut().find(|line| line.0 == name.as_bytes()).unwrap().1 = value.as_bytes().to_vec();
            assert_eq!(header(&lines), MALFORMED, "{method} {name} {value}");
        }
        assert_eq!(header(&with(&upload, b"te", b"gzip")), MALFORMED);
        assert_eq!(header(&with(&upload, b"host", b"b")), MALFORMED);
    }
    for method in [
        "put", "PUTX", "PATC", "PU", "XPUT", "Put", "POS", "POSTS", "post", "PATCHX", "patch", "GET", "HEAD",
        "DELETE", "OPTIONS", "TRACE",
    ] {
        let other = set(b":method", method.as_bytes());
        assert_eq!(header(&other), SOUND, "{method}");
        assert_eq!(header(&with(&other, limit.0, limit.1)), REJECTED, "{method}");
    }
    // A line named as a method is no method.
    assert_eq!(header(&with(&get(), b"method", b"PUT")), SOUND);
}

#[test]
fn schemes_and_paths() {
    for scheme in ["HTTP", "Https", "", "ftp", "httpss", "htt"] {
        assert_eq!(header(&set(b":scheme", scheme.as_bytes())), REJECTED);
    }
    assert_eq!(header(&set(b":scheme", b"http")), SOUND);
    assert_eq!(header(&without(b":scheme")), MALFORMED);
    assert_eq!(header(&without(b":path")), MALFORMED);
    for (path, answer) in [("", MALFORMED), ("*", MALFORMED), ("x", MALFORMED), ("//", SOUND), ("/#", SOUND)]
    {
        assert_eq!(header(&set(b":path", path.as_bytes())), answer, "{path}");
    }
    for (path, answer) in [("*", SOUND), ("*x", MALFORMED), ("**", MALFORMED), ("/", SOUND), ("", MALFORMED)]
    {
        let mut lines = set(b":path", path.as_bytes());
        lines[0].1 = b"OPTIONS".to_vec();
        assert_eq!(header(&lines), answer, "OPTIONS {path}");
    }
}

#[test]
fn authority_and_host() {
    for (authority, host, answer) in [
        (None, None, MALFORMED),
        (Some("a"), None, SOUND),
        (None, Some("a"), SOUND),
        (Some("a"), Some("a"), SOUND),
        (Some("a"), Some("b"), MALFORMED),
        (Some("a"), Some("A"), MALFORMED),
        (Some(""), None, MALFORMED),
        (None, Some(""), MALFORMED),
        (Some(""), Some(""), MALFORMED),
        (Some("a"), Some(""), MALFORMED),
        (Some(""), Some("a"), MALFORMED),
        (Some("a@b"), None, MALFORMED),
        (Some("a@b"), Some("a@b"), MALFORMED),
        (None, Some("a@b"), SOUND),
        (Some("a b\u{e9}/?#"), None, SOUND),
    ] {
        let mut lines = without(b":authority");
        lines.extend(authority.map(|value| (b":authority".to_vec(), value.as_bytes().to_vec())));
        lines.extend(host.map(|value| (b"host".to_vec(), value.as_bytes().to_vec())));
        assert_eq!(header(&lines), answer, "{authority:?} {host:?}");
    }
    let twice = with(&with(&get(), b"host", b"a"), b"host", b"a");
    assert_eq!(header(&twice), MALFORMED);
    let host = |count| vec![(b"host".to_vec(), Vec::new()); count];
    assert_eq!(trailers(&host(1)), SOUND);
    assert_eq!(trailers(&host(2)), MALFORMED);
}
