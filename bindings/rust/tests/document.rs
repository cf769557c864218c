//! The streams and numbers that document 01 works by hand, through the calls.

mod common;

use common::{block, get, hex, one_way, request, sound, unbound, Stream};
use eistulko::{
    write_header, write_integer_frame, write_opening, Block, Connection, Ended, Event, PushId, Refused,
    StreamId, TooLong, HEADER_ROOM, INTEGER_FRAME_ROOM, OPENING_ROOM,
};

/// The verdict of a request with that Content-Length, and its content; "H" is a HEADERS frame.
fn read(text: &str, content_length: Option<usize>) -> (Result<Ended, Refused>, String) {
    let bytes = hex(&text.replace('H', "01 01 00"));
    let (stream, verdict) =
        request([&bytes[..]], &[sound(content_length), block(&[("x-trailer", "1")])], unbound);
    (verdict, String::from_utf8(stream.content).unwrap())
}

fn whole(content: &str) -> (Result<Ended, Refused>, String) {
    (Ok(Ended::Whole), content.into())
}

fn refused(number: Refused, content: &str) -> (Result<Ended, Refused>, String) {
    (Err(number), content.into())
}

/// A control stream's events, or why it was refused.
fn control(text: &str) -> Result<Vec<Event<'static>>, Refused> {
    let (stream, fed) = one_way([&hex(text)[..]], unbound);
    fed.map(|_| stream.events)
}

#[test]
fn requests() {
    assert_eq!(read("", None), refused(Refused::RequestIncomplete, ""));
    assert_eq!(read("00 00", None), refused(Refused::FrameUnexpected, ""));
    assert_eq!(read("H", None), whole(""));
    assert_eq!(read("H 00 03 61 62", None), refused(Refused::FrameError, "ab"));
    assert_eq!(read("H 00 03 61 62 63", Some(3)), whole("abc"));
    assert_eq!(read("H 00 03 61 62 63", Some(4)), refused(Refused::MessageError, "abc"));
    assert_eq!(read("H 00 03 61 62 63", Some(2)), refused(Refused::MessageError, ""));
    assert_eq!(read("H 00 03 61 62 63 00 00 21 00", Some(3)), whole("abc"));
    assert_eq!(read("H H 00 00", None), refused(Refused::FrameUnexpected, ""));
    // A second HEADERS without DATA is trailers; a third is out of place.
    assert_eq!(read("H H", None), whole(""));
    assert_eq!(read("H H 01", None), refused(Refused::FrameError, ""));
    assert_eq!(read("H H H", None), refused(Refused::FrameUnexpected, ""));
    // The lister's input.
    assert_eq!(read("01 01 00 00 03 61 62 63 21 00", None), whole("abc"));
    // An empty HEADERS payload gives an empty section.
    assert_eq!(read("01 00 00 01 61", Some(1)), whole("a"));
}

#[test]
fn content_without_a_length_ends_at_1_048_576() {
    let mut bytes = hex("01 01 00 00 80 10 00 00");
    bytes.resize(bytes.len() + 1_048_576, b'a');
    let (stream, verdict) = request([&bytes[..]], &[get()], unbound);
    assert_eq!((stream.content.len(), verdict), (1_048_576, Ok(Ended::Whole)));
    // The fault is at the header of the byte too many.
    bytes.extend([0, 1]);
    let (stream, verdict) = request([&bytes[..]], &[get()], unbound);
    assert_eq!((stream.content.len(), verdict), (1_048_576, Err(Refused::RequestCancelled)));
}

#[test]
fn control_streams() {
    assert_eq!(control("00 07 01"), Err(Refused::MissingSettings));
    assert_eq!(control("00 04 04 06 01 06 01"), Err(Refused::SettingsError));
    assert_eq!(control("00 04 02 03 00"), Err(Refused::SettingsError));
    assert_eq!(control("00 04 01 06"), Err(Refused::FrameError));
    assert_eq!(control("00 21 00 04 00"), Err(Refused::MissingSettings));
    assert_eq!(control("00 04 00 04 00"), Err(Refused::FrameUnexpected));
    assert_eq!(control("00 04 00"), Ok(vec![Event::Settings]));
    // Integers of any size, and one that is not the whole payload.
    assert_eq!(control("00 04 00 07 01 25"), Ok(vec![Event::Settings, Event::Goaway(PushId(37))]));
    assert_eq!(control("00 04 00 07 02 40 25"), Ok(vec![Event::Settings, Event::Goaway(PushId(37))]));
    assert_eq!(control("00 04 00 07 02 25 25"), Err(Refused::FrameError));
    let highest = Event::MaxPushId(PushId((1 << 62) - 1));
    assert_eq!(control("00 04 00 0d 08 ff ff ff ff ff ff ff ff"), Ok(vec![Event::Settings, highest]));
    // RFC 9000's samples.
    for (payload, value) in [
        ("08 c2 19 7c 5e ff 14 e8 8c", 151_288_809_941_952_652),
        ("04 9d 7f 3e 7d", 494_878_333),
        ("02 7b bd", 15_293),
    ] {
        let events = vec![Event::Settings, Event::Goaway(PushId(value))];
        assert_eq!(control(&format!("00 04 00 07 {payload}")), Ok(events));
    }
}

#[test]
fn settings_are_kept() {
    let kept = |text: &str| {
        let settings = one_way([&hex(text)[..]], unbound).1.unwrap().settings();
        settings.map(|settings| (settings.section_size, settings.capacity, settings.blocked))
    };
    assert_eq!(kept("00"), None);
    assert_eq!(kept("00 04 00"), Some((None, 0, 0)));
    assert_eq!(kept("00 04 02 06 00"), Some((Some(0), 0, 0)));
    assert_eq!(kept("00 04 0c 01 50 00 06 80 00 40 00 07 10 00 00"), Some((Some(16_384), 4_096, 16)));
}

#[test]
fn goaway_both_ways() {
    let (mut stream, fed) = one_way([&hex("00 04 00 07 01 05 0d 01 03")[..]], unbound);
    let mut connection = fed.unwrap();
    assert_eq!((connection.client_goaway(), connection.max_push_id()), (Some(PushId(5)), Some(PushId(3))));
    // Equal is fine, and so are a lower GOAWAY and a higher MAX_PUSH_ID.
    stream.feed(&mut connection, &hex("07 01 05 07 01 04 0d 01 03 0d 01 04"), unbound).unwrap();
    assert_eq!((connection.client_goaway(), connection.max_push_id()), (Some(PushId(4)), Some(PushId(4))));

    let room = &mut [0xaa; 4][..];
    connection.open(StreamId(0)).unwrap();
    assert_eq!(connection.sent_goaway(), None);
    assert_eq!(connection.goaway(connection.next_request(), room), Ok(3));
    assert_eq!(room, hex("07 01 04 aa"));
    assert_eq!(connection.sent_goaway(), Some(StreamId(4)));
    // The barred ID is spent, the open request goes on, and one-way streams are not barred.
    assert_eq!(connection.open(StreamId(4)), Err(Refused::RequestRejected));
    assert_eq!(connection.next_request(), StreamId(8));
    assert_eq!(connection.open(StreamId(6)), Ok(()));
    assert_eq!(connection.open_requests().collect::<Vec<_>>(), [StreamId(0)]);
    assert_eq!(connection.open_one_ways().collect::<Vec<_>>(), [StreamId(2), StreamId(6)]);
    assert_eq!(connection.free_records(), 21);
}

#[test]
fn qpack_and_other_one_way_streams() {
    let mut connection = Connection::new();
    let mut told = Vec::new();
    for (id, text) in [(2, "02 3f"), (6, "03 80 81"), (10, "21 01 02"), (14, "40")] {
        let mut stream = Stream::new(&mut connection, id, &[]);
        stream.feed(&mut connection, &hex(text), unbound).unwrap();
        told.push((stream.encoder, stream.decoder));
    }
    assert_eq!(told[0], (hex("3f"), vec![]));
    assert_eq!(told[1], (vec![], hex("80 81")));
    assert_eq!(told[2..], vec![(vec![], vec![]); 2]);
    // One of an unknown type ends without fault, and so does one before its type.
    assert_eq!(connection.end(StreamId(10)), Ok(Ended::Freed));
    assert_eq!(connection.end(StreamId(14)), Ok(Ended::Freed));
}

/// The written bytes; those behind them stay.
fn written(write: impl Fn(&mut [u8]) -> Result<usize, Refused>) -> Result<Vec<u8>, Refused> {
    let mut room = vec![0xaa; 20];
    let answer = write(&mut room);
    let behind = room.split_off(answer.unwrap_or(0));
    assert!(behind.iter().all(|byte| *byte == 0xaa));
    // The exact room is enough, and one byte less is not.
    for bytes in 0..room.len() {
        let mut short = vec![0xaa; bytes];
        assert_eq!(write(&mut short), Err(Refused::RoomShort));
        assert_eq!(short, vec![0xaa; bytes]);
    }
    assert_eq!(write(&mut room.clone()).is_ok(), answer.is_ok());
    answer.map(|_| room)
}

#[test]
fn writes() {
    let frame = |value| written(|room| write_integer_frame(7, value, room));
    assert_eq!(frame(37), Ok(hex("07 01 25")));
    assert_eq!(frame(16_383), Ok(hex("07 02 7f ff")));
    assert_eq!(frame(16_384), Ok(hex("07 04 80 00 40 00")));
    assert_eq!(frame((1 << 62) - 1), Ok(hex("07 08 ff ff ff ff ff ff ff ff")));
    assert_eq!(frame(1 << 62), Err(Refused::BadValue));
    assert_eq!(written(|room| write_header(0, 37, room)), Ok(hex("00 25")));
    assert_eq!(written(|room| write_header(33, 1 << 62, room)), Err(Refused::BadValue));
    assert_eq!(written(|room| write_header(1 << 62, 0, room)), Err(Refused::BadValue));
    assert_eq!(written(write_opening), Ok(hex("00 04 09 01 00 06 80 00 40 00 07 00")));
    // 8 comes before 7.
    assert_eq!(write_integer_frame(7, 1 << 62, &mut []), Err(Refused::BadValue));
    let highest = (1 << 62) - 1;
    assert_eq!(write_header(highest, highest, &mut [0; HEADER_ROOM]), Ok(HEADER_ROOM));
    assert_eq!(write_integer_frame(highest, highest, &mut [0; INTEGER_FRAME_ROOM]), Ok(INTEGER_FRAME_ROOM));
    assert_eq!(write_opening(&mut [0; OPENING_ROOM]), Ok(OPENING_ROOM));
}

#[test]
fn our_opening_reads_back() {
    let mut opening = [0; OPENING_ROOM];
    write_opening(&mut opening).unwrap();
    let settings = one_way([&opening[..]], unbound).1.unwrap().settings().unwrap();
    assert_eq!((settings.section_size, settings.capacity, settings.blocked), (Some(16_384), 0, 0));
}

#[test]
fn section_blocks() {
    assert_eq!(*block(&[(":method", "GET")]), hex("0e 00 01 00 07 00 3a 6d 65 74 68 6f 64 47 45 54"));
    assert_eq!(*Block::new(), []);
    let mut block = block(&[("a", "")]);
    assert_eq!(*block, hex("05 00 01 00 01 00 61"));
    // The longest line, and one byte more in its name or in its value.
    let before = block.clone();
    assert_eq!(block.line([b'a'; 1], vec![b'b'; 65_531]), Err(TooLong));
    assert_eq!(block.line(vec![b'a'; 65_532], ""), Err(TooLong));
    assert_eq!(block, before);
    block.line("a", vec![b'b'; 65_530]).unwrap();
    assert_eq!(block[7..14], hex("ff ff 01 00 01 00 61"));
    assert_eq!(block.len(), 7 + 2 + 65_535);
}

/// So many lines more, which bring a block of `before` lines to a section of that size: each counts 32.
fn filled(mut block: Block, before: usize, size: usize, lines: usize) -> Block {
    let names_and_values = block.len() - 6 * before;
    let rest = size - names_and_values - 32 * before - 33 * lines;
    block.line("x", vec![b'y'; rest]).unwrap();
    for _ in 1..lines {
        block.line("x", "").unwrap();
    }
    block
}

#[test]
fn a_section_of_16_384_is_the_largest() {
    for lines in [1, 2, 100, 490] {
        for (size, verdict) in [(16_384, Ok(Ended::Whole)), (16_385, Err(Refused::MessageError))] {
            let header = filled(get(), 4, size, lines);
            assert!(header.len() < size);
            assert_eq!(request([&hex("01 01 00")[..]], &[header], unbound).1, verdict);
            let sections = [get(), filled(Block::new(), 0, size, lines)];
            assert_eq!(request([&hex("01 01 00 01 01 00")[..]], &sections, unbound).1, verdict);
        }
    }
}

/// 512 lines without a byte are as large as may be, and malformed by their names.
#[test]
fn lines_without_a_byte() {
    for lines in [0, 1, 512, 513] {
        let mut block = Block::new();
        for _ in 0..lines {
            block.line("", "").unwrap();
        }
        let verdict = if lines == 0 { Ok(Ended::Whole) } else { Err(Refused::MessageError) };
        assert_eq!(request([&hex("01 01 00 01 01 00")[..]], &[get(), block], unbound).1, verdict);
    }
}
