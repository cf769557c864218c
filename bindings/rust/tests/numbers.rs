//! Every number of document 01 by a call that gives it, what it leaves, and which comes before which.
//!
//! Number 9 and memory of any content are out of reach here: the row of a `Connection` has 24 records and its
//! fields are private. The tests beside the raw calls give 9.

mod common;

use common::{block, get, get_but, hex, put, Random};
use eistulko::{
    Block, Connection, Ended, Event, Fed, FeedRefused, Refused, StreamId, GOAWAY_ROOM, NO_BOUND, RECORDS,
};

type Given = Result<(), Refused>;

/// A number, and a call that gives it on the connection that `first` leaves.
struct Case {
    number: Refused,
    first: fn(&mut Connection) -> Given,
    call: fn(&mut Connection) -> Given,
}

fn open(connection: &mut Connection, id: u64) -> Given {
    connection.open(StreamId(id))
}

fn feed(connection: &mut Connection, id: u64, text: &str) -> Given {
    feed_all(connection, id, &hex(text))
}

/// Feeds up to a section that is due, or to the end.
fn feed_all(connection: &mut Connection, id: u64, mut bytes: &[u8]) -> Given {
    while !bytes.is_empty() {
        let fed = connection.feed(StreamId(id), bytes, NO_BOUND)?;
        bytes = &bytes[fed.used..];
        if let Some(Event::Section { last: true, .. }) = fed.event {
            assert!(bytes.is_empty());
        }
    }
    Ok(())
}

fn opened(connection: &mut Connection) -> Given {
    open(connection, 0)
}

fn one_way(connection: &mut Connection) -> Given {
    open(connection, 2)
}

fn due(connection: &mut Connection) -> Given {
    opened(connection)?;
    feed(connection, 0, "01 01 00")
}

fn behind(connection: &mut Connection, section: &Block) -> Given {
    due(connection)?;
    connection.give(StreamId(0), section)
}

fn behind_get(connection: &mut Connection) -> Given {
    behind(connection, &get())
}

fn control(connection: &mut Connection) -> Given {
    one_way(connection)?;
    feed(connection, 2, "00 04 00")
}

fn full(connection: &mut Connection) -> Given {
    (0..RECORDS as u64).try_for_each(|n| open(connection, 4 * n))
}

fn goaway(connection: &mut Connection, id: u64) -> Given {
    connection.goaway(StreamId(id), &mut [0; GOAWAY_ROOM]).map(drop)
}

fn give(connection: &mut Connection, block: &[u8]) -> Given {
    connection.give(StreamId(0), block)
}

fn end(connection: &mut Connection, id: u64) -> Given {
    connection.end(StreamId(id)).map(drop)
}

fn reset(connection: &mut Connection, id: u64) -> Given {
    connection.reset(StreamId(id))
}

const CASES: &[Case] = &[
    Case { number: Refused::NotOpen, first: |_| Ok(()), call: |c| feed(c, 0, "00") },
    Case { number: Refused::NotOpen, first: |_| Ok(()), call: |c| give(c, &get()) },
    Case { number: Refused::NotOpen, first: opened, call: |c| end(c, 4) },
    Case { number: Refused::NotOpen, first: |c| opened(c).and(reset(c, 0)), call: |c| reset(c, 0) },
    Case { number: Refused::NotOpen, first: |c| behind_get(c).and(end(c, 0)), call: |c| end(c, 0) },
    Case { number: Refused::NotNext, first: |_| Ok(()), call: |c| open(c, 4) },
    Case { number: Refused::NotNext, first: |_| Ok(()), call: |c| open(c, 1) },
    Case { number: Refused::NotNext, first: opened, call: opened },
    Case { number: Refused::NotNext, first: |_| Ok(()), call: |c| open(c, 1 << 62) },
    Case { number: Refused::NoRecord, first: full, call: |c| open(c, 96) },
    Case { number: Refused::NoRecord, first: full, call: |c| open(c, 2) },
    Case { number: Refused::SectionDue, first: due, call: |c| feed(c, 0, "00") },
    Case { number: Refused::SectionDue, first: due, call: |c| end(c, 0) },
    Case { number: Refused::NoSection, first: opened, call: |c| give(c, &get()) },
    Case { number: Refused::NoSection, first: behind_get, call: |c| give(c, &get()) },
    Case { number: Refused::Unreadable, first: due, call: |c| give(c, &hex("04 00")) },
    Case { number: Refused::Unreadable, first: due, call: |c| give(c, &hex("04 00 02 00 00 00")) },
    Case {
        number: Refused::RoomShort,
        first: opened,
        call: |c| c.goaway(StreamId(4), &mut [0; 2]).map(drop),
    },
    Case { number: Refused::BadValue, first: opened, call: |c| goaway(c, 2) },
    Case { number: Refused::BadValue, first: opened, call: |c| goaway(c, 1 << 62) },
    Case { number: Refused::BadValue, first: |c| goaway(c, 4), call: |c| goaway(c, 8) },
    Case { number: Refused::StreamCreationError, first: one_way, call: |c| feed(c, 2, "01") },
    Case {
        number: Refused::StreamCreationError,
        first: |c| control(c).and(open(c, 6)),
        call: |c| feed(c, 6, "00"),
    },
    Case { number: Refused::ClosedCriticalStream, first: control, call: |c| end(c, 2) },
    Case { number: Refused::ClosedCriticalStream, first: control, call: |c| reset(c, 2) },
    Case {
        number: Refused::ClosedCriticalStream,
        first: |c| one_way(c).and(feed(c, 2, "03")),
        call: |c| end(c, 2),
    },
    Case { number: Refused::FrameUnexpected, first: opened, call: |c| feed(c, 0, "04 00") },
    Case { number: Refused::FrameUnexpected, first: control, call: |c| feed(c, 2, "01 00") },
    Case { number: Refused::FrameError, first: control, call: |c| feed(c, 2, "07 00") },
    Case { number: Refused::FrameError, first: |c| behind_get(c).and(feed(c, 0, "00")), call: |c| end(c, 0) },
    Case { number: Refused::ExcessiveLoad, first: opened, call: |c| feed(c, 0, "01 80 00 40 01") },
    Case { number: Refused::ExcessiveLoad, first: one_way, call: |c| feed(c, 2, "00 04 41 01") },
    Case { number: Refused::IdError, first: control, call: |c| feed(c, 2, "03 01 00") },
    Case { number: Refused::IdError, first: control, call: |c| feed(c, 2, "07 01 04 07 01 05") },
    Case { number: Refused::IdError, first: control, call: |c| feed(c, 2, "0d 01 05 0d 01 04") },
    Case { number: Refused::SettingsError, first: one_way, call: |c| feed(c, 2, "00 04 02 02 00") },
    Case { number: Refused::MissingSettings, first: one_way, call: |c| feed(c, 2, "00 21 00") },
    Case { number: Refused::RequestRejected, first: |c| goaway(c, 0), call: opened },
    Case { number: Refused::RequestRejected, first: due, call: |c| give(c, &get_but(":method", "CONNECT")) },
    Case { number: Refused::RequestRejected, first: due, call: |c| give(c, &get_but(":scheme", "ftp")) },
    Case { number: Refused::RequestRejected, first: due, call: |c| give(c, &put(1_048_577)) },
    Case { number: Refused::RequestRejected, first: due, call: |c| give(c, &get_but(":method", "PUT")) },
    Case { number: Refused::RequestRejected, first: due, call: |c| give(c, &get_but(":method", "POST")) },
    Case { number: Refused::RequestRejected, first: due, call: |c| give(c, &get_but(":method", "PATCH")) },
    Case { number: Refused::RequestCancelled, first: behind_get, call: |c| feed(c, 0, "00 80 10 00 01") },
    Case { number: Refused::RequestIncomplete, first: opened, call: |c| end(c, 0) },
    Case { number: Refused::MessageError, first: due, call: |c| give(c, &block(&[("connection", "close")])) },
    Case { number: Refused::MessageError, first: due, call: |c| give(c, &[]) },
    Case { number: Refused::MessageError, first: |c| behind(c, &put(1)), call: |c| end(c, 0) },
    Case { number: Refused::MessageError, first: |c| behind(c, &put(1)), call: |c| feed(c, 0, "00 02") },
];

/// All that a host can see of a connection but its code and its requests.
fn seen(connection: &Connection) -> impl PartialEq + std::fmt::Debug {
    let ways: Vec<StreamId> = connection.open_one_ways().collect();
    let (ours, theirs) = (connection.sent_goaway(), connection.client_goaway());
    (ways, connection.next_one_way(), connection.settings(), connection.has_control(), ours, theirs)
}

#[test]
fn each_number_and_what_it_leaves() {
    for (place, Case { number, first, call }) in CASES.iter().enumerate() {
        let mut connection = Connection::new();
        assert_eq!(first(&mut connection), Ok(()), "case {place}");
        let before = connection.clone();
        assert_eq!(call(&mut connection), Err(*number), "case {place}");
        if number.is_connection_fault() {
            assert_eq!(connection.code(), Some(*number));
            assert!(connection.open_requests().eq(before.open_requests()));
            every_call_gives(&mut connection, *number);
        } else if number.is_stream_fault() {
            assert_eq!(connection.code(), None);
            assert_eq!(connection.open_requests().count(), 0, "case {place}");
            assert_eq!(connection.next_request(), StreamId(4));
            assert_eq!(seen(&connection), seen(&before));
        } else {
            assert_eq!(connection, before, "case {place}");
        }
    }
    let mut given: Vec<Refused> = CASES.iter().map(|case| case.number).collect();
    given.dedup();
    let all: Vec<Refused> =
        Refused::ALL.iter().copied().filter(|number| *number != Refused::OtherRow).collect();
    assert_eq!(given, all);
}

fn every_call_gives(connection: &mut Connection, code: Refused) {
    let before = connection.clone();
    let next = connection.next_request().0;
    let calls = [
        open(connection, next),
        open(connection, 3),
        feed(connection, 0, "00"),
        give(connection, &[]),
        end(connection, 400),
        reset(connection, 0),
        goaway(connection, 1),
    ];
    assert_eq!(calls, [Err(code); 7]);
    assert_eq!(*connection, before);
    connection.restart();
    assert_eq!(*connection, Connection::new());
}

#[test]
fn a_barred_id_comes_before_a_full_row() {
    let mut connection = Connection::new();
    full(&mut connection).unwrap();
    goaway(&mut connection, 96).unwrap();
    assert_eq!(open(&mut connection, 96), Err(Refused::RequestRejected));
    assert_eq!(connection.next_request(), StreamId(100));
    assert_eq!(open(&mut connection, 2), Err(Refused::NoRecord));
}

#[test]
fn a_freed_record_is_used_again() {
    let mut connection = Connection::new();
    full(&mut connection).unwrap();
    assert_eq!((open(&mut connection, 96), connection.free_records()), (Err(Refused::NoRecord), 0));
    reset(&mut connection, 44).unwrap();
    assert_eq!((open(&mut connection, 96), connection.free_records()), (Ok(()), 0));
}

/// The last that is looked at in a header section.
#[test]
fn an_upload_states_a_length() {
    let given = |method, line: Option<(&str, &str)>| {
        let mut connection = Connection::new();
        due(&mut connection).unwrap();
        let mut block = get_but(":method", method);
        if let Some((name, value)) = line {
            block.line(name, value).unwrap();
        }
        (give(&mut connection, &block), end(&mut connection, 0))
    };
    for method in ["PUT", "POST", "PATCH"] {
        assert_eq!(given(method, None), (Err(Refused::RequestRejected), Err(Refused::NotOpen)), "{method}");
        assert_eq!(given(method, Some(("content-length", "0"))), (Ok(()), Ok(())));
        let malformed = (Err(Refused::MessageError), Err(Refused::NotOpen));
        assert_eq!(given(method, Some(("host", "other"))), malformed);
    }
    for method in ["put", "PUTX", "PATC", "DELETE"] {
        assert_eq!(given(method, None), (Ok(()), Ok(())), "{method}");
    }
}

#[test]
fn an_unreadable_block_leaves_the_section_due() {
    let mut connection = Connection::new();
    due(&mut connection).unwrap();
    assert_eq!(give(&mut connection, &[1]), Err(Refused::Unreadable));
    assert_eq!(give(&mut connection, &get()), Ok(()));
    assert_eq!(connection.end(StreamId(0)), Ok(Ended::Whole));
}

#[test]
fn an_allowance_of_0_reads_no_header() {
    let mut connection = Connection::new();
    behind_get(&mut connection).unwrap();
    let mut fed = |piece, allow| connection.feed(StreamId(0), piece, allow).unwrap();
    assert_eq!(fed(b"\x00\x01a", 0), Fed { event: None, used: 0, heads: 0 });
    assert_eq!(fed(b"\x00\x01", 1), Fed { event: None, used: 2, heads: 1 });
    // Payload bytes are free.
    assert_eq!(fed(b"a", 0), Fed { event: Some(Event::Content(b"a")), used: 1, heads: 0 });
}

#[test]
fn numbers_and_refusals_are_one_to_one() {
    let numbers: Vec<u64> = Refused::ALL.iter().map(|refused| refused.number()).collect();
    assert_eq!(numbers, (1..=9).chain(0x0103..=0x010e).collect::<Vec<_>>());
    for number in 0..0x0200 {
        let refused = Refused::of(number);
        assert_eq!(refused.map(Refused::number), numbers.contains(&number).then_some(number));
        assert_eq!(refused.is_some_and(Refused::is_connection_fault), (0x0103..=0x010a).contains(&number));
        assert_eq!(refused.is_some_and(Refused::is_stream_fault), (0x010b..=0x010e).contains(&number));
    }
    assert_eq!(
        Refused::FrameError.to_string(),
        "0x0106: A frame of a wrong length, or the stream ended inside one"
    );
}

/// Calls of all kinds at random, on any ID and with any bytes: each refusal leaves what its number says.
#[test]
fn random_calls() {
    let mut given = std::collections::BTreeSet::new();
    for seed in 0..3_000 {
        let random = &mut Random(seed);
        let mut connection = Connection::new();
        for _ in 0..60 {
            let before = connection.clone();
            let id = match random.below(4) {
                0 => connection.next_request().0,
                1 => connection.next_one_way().0,
                _ => 2 * random.below(8) as u64,
            };
            let bytes: Vec<u8> =
                (0..random.below(6)).map(|_| [0, 0, 1, 4, 7, 13, 33, 64][random.below(8)]).collect();
            let answer = match random.below(12) {
                0..=1 => open(&mut connection, id),
                2 => end(&mut connection, id),
                3 => reset(&mut connection, id),
                4 if random.below(8) == 0 => goaway(&mut connection, id),
                4..=5 => connection.give(StreamId(id), &get()),
                6 => connection.give(StreamId(id), &bytes),
                _ => connection
                    .feed(StreamId(id), &bytes, random.below(4) as u64)
                    .map(drop)
                    .map_err(Refused::from),
            };
            if let Err(number) = answer {
                given.insert(number);
                let dead = before.code().is_some();
                let fault = number.is_connection_fault() || number.is_stream_fault();
                assert_eq!(connection == before, dead || !fault, "{seed}: {number}");
                assert_eq!(
                    connection.code(),
                    number.is_connection_fault().then_some(number),
                    "{seed}: {number}"
                );
            }
        }
    }
    assert!(given.len() >= 14, "{given:?}");
}

/// A fault tells the bytes up to and including the one that brought it, and the headers finished, the faulty one counted; a number of
/// the house tells 0 and 0.
#[test]
fn a_refused_feed_tells_where() {
    let mut connection = Connection::new();
    let at = |why, used, heads| Err(FeedRefused { why, used, heads });
    assert_eq!(connection.feed(StreamId(0), &[0, 0], NO_BOUND), at(Refused::NotOpen, 0, 0));
    connection.open(StreamId(0)).unwrap();
    assert_eq!(
        connection.feed(StreamId(0), &[33, 0, 33, 1, 7, 4, 0, 9], NO_BOUND),
        at(Refused::FrameUnexpected, 7, 3)
    );
    assert_eq!(connection.feed(StreamId(0), &[33, 0], NO_BOUND), at(Refused::FrameUnexpected, 0, 0));
}
