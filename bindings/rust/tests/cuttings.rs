//! What a stream comes to depends on its bytes alone, and a cut PUT is never whole.

mod common;

use common::{block, get, get_but, hex, one_way, put, request, sound, unbound, Random, Stream};
use eistulko::{Block, Connection, Ended, Refused, StreamId};

/// A request's bytes, its header section and trailers, and what it comes to.
type Request = (Vec<u8>, [Block; 2], Result<Ended, Refused>);

fn requests() -> Vec<Request> {
    let trailers = || block(&[("x-sum", "9f")]);
    let mut requests = Vec::new();
    for (text, length, verdict) in [
        ("01 03 00 d1 d7 00 02 61 62 40 00 03 63 64 65", Some(5), Ok(Ended::Whole)),
        ("21 02 ff ff 01 00 00 00 00 40 03 61 62 63 21 00 01 02 00 d1 2f 01 07", None, Ok(Ended::Whole)),
        ("01 02 00 d1 00 02 61 62 00 02 63 64", Some(3), Err(Refused::MessageError)),
        ("01 02 00 d1 00 02 61 62 00 02 63 64", Some(5), Err(Refused::MessageError)),
        ("01 02 00 d1 00 02 61 62 00 80 10 00 00 61", None, Err(Refused::RequestCancelled)),
        ("01 01 00 00 01 61 01 01 00 00 01 62", None, Err(Refused::FrameUnexpected)),
        ("01 01 00 00 04 61 62", Some(4), Err(Refused::FrameError)),
        ("c0 00 00 00 00 00 00 21 00", None, Err(Refused::RequestIncomplete)),
        ("21 01 61 01 80 00 40 01", None, Err(Refused::ExcessiveLoad)),
    ] {
        requests.push((hex(text), [sound(length), trailers()], verdict));
    }
    let bad = block(&[("te", "gzip")]);
    let rejected = Err(Refused::MessageError);
    requests.push((hex("01 02 00 d1 00 01 61"), [bad.clone(), trailers()], rejected));
    let unsized_put = [get_but(":method", "PUT"), trailers()];
    requests.push((hex("21 00 01 02 00 d1 00 01 61"), unsized_put, Err(Refused::RequestRejected)));
    requests.push((hex("01 02 00 d1 00 01 61 01 03 00 00 00"), [put(1), bad], rejected));
    requests
}

const ONE_WAYS: &[(&str, Option<Refused>)] = &[
    ("00 04 07 06 80 00 40 00 01 05 21 02 61 62 07 02 40 25 0d 01 04 07 01 20", None),
    ("40 00 04 00 40 21 00 0d 08 c0 00 00 00 00 00 00 09", None),
    ("02 3f e1 1f 00", None),
    ("40 03 80 81", None),
    ("21 00 04 07 01", None),
    ("80 00 00 01 00", Some(Refused::StreamCreationError)),
    ("00 04 04 06 01 06 02", Some(Refused::SettingsError)),
    ("00 04 03 06 01 07", Some(Refused::FrameError)),
    ("00 04 00 07 01 04 0d 01 01 07 01 05", Some(Refused::IdError)),
    ("00 04 00 0d 03 40 01 00", Some(Refused::FrameError)),
    ("00 0d 01 00", Some(Refused::MissingSettings)),
    ("00 04 02 01 00 04 00", Some(Refused::FrameUnexpected)),
];

/// Cuttings of a stream into pieces: each in two, each in three, byte by byte, and some at random.
fn cuttings<'a>(bytes: &'a [u8], random: &mut Random) -> Vec<Vec<&'a [u8]>> {
    let mut cuttings = vec![bytes.chunks(1).collect()];
    for second in 0..=bytes.len() {
        for first in 0..=second {
            cuttings.push(vec![&bytes[..first], &bytes[first..second], &bytes[second..]]);
        }
    }
    cuttings.extend((0..100).map(|_| random.cut(bytes, 5)));
    cuttings
}

#[test]
fn a_request_is_the_same_in_any_cutting() {
    let random = &mut Random(9114);
    for (bytes, blocks, verdict) in requests() {
        let uncut = request([&bytes[..]], &blocks, unbound);
        assert_eq!(uncut.1, verdict, "{bytes:x?}");
        for pieces in cuttings(&bytes, random) {
            assert_eq!(told(request(pieces.clone(), &blocks, unbound)), told(uncut.clone()), "{pieces:x?}");
            let allowed = request(pieces.clone(), &blocks, || 1 + random.below(3) as u64);
            assert_eq!(told(allowed), told(uncut.clone()), "{pieces:x?}");
        }
    }
}

/// Without the headers of a refused stream: its last feed tells none, and how many those were depends on the
/// pieces.
fn told<T, E>((mut stream, verdict): (Stream, Result<T, E>)) -> (Stream, Result<T, E>) {
    if verdict.is_err() {
        stream.heads = 0;
    }
    (stream, verdict)
}

#[test]
fn a_one_way_stream_is_the_same_in_any_cutting() {
    let random = &mut Random(9204);
    for (text, refused) in ONE_WAYS {
        let bytes = hex(text);
        let uncut = told(one_way([&bytes[..]], unbound));
        assert_eq!(uncut.1.as_ref().err(), refused.as_ref(), "{text}");
        for pieces in cuttings(&bytes, random) {
            assert_eq!(told(one_way(pieces.clone(), unbound)), uncut, "{pieces:x?}");
            assert_eq!(told(one_way(pieces.clone(), || 1 + random.below(3) as u64)), uncut, "{pieces:x?}");
        }
    }
}

/// A PUT of "leaves" whose last byte is the content's last, by its frames.
const PUT: &[&str] =
    &["21 01 61", "01 02 00 d1", "00 02 6c 65", "2f 03 00 01 61", "00 00", "00 03 61 76 65", "00 01 73"];

/// Ended after each proper part of its bytes, a PUT with a Content-Length is refused with the code of where
/// it was cut.
#[test]
fn a_cut_put_is_never_whole() {
    let bytes = hex(&PUT.join(" "));
    let mut boundaries = vec![0];
    for frame in PUT {
        boundaries.push(boundaries[boundaries.len() - 1] + hex(frame).len());
    }
    let blocks = [put(6)];
    for cut in 0..bytes.len() {
        let expected = match boundaries.iter().position(|boundary| *boundary == cut) {
            None => Refused::FrameError,
            Some(frames) if frames < 2 => Refused::RequestIncomplete,
            Some(_) => Refused::MessageError,
        };
        for size in 1..=bytes.len() {
            assert_eq!(request(bytes[..cut].chunks(size), &blocks, unbound).1, Err(expected), "cut to {cut}");
        }
    }
    let (stream, verdict) = request([&bytes[..]], &blocks, unbound);
    assert_eq!((&stream.content[..], verdict), (&b"leaves"[..], Ok(Ended::Whole)));
}

/// With frames behind the content, whole only where no content is missing.
#[test]
fn whole_means_all_of_the_content() {
    let bytes = hex(&format!("{} 21 02 00 00 01 02 00 d2", PUT.join(" ")));
    let mut whole = Vec::new();
    for cut in 0..=bytes.len() {
        let blocks = [put(6), block(&[("x-sum", "9f")])];
        let (stream, verdict) = request([&bytes[..cut]], &blocks, unbound);
        match verdict {
            Ok(ended) => {
                assert_eq!((ended, &stream.content[..]), (Ended::Whole, &b"leaves"[..]));
                whole.push(cut);
            }
            Err(number) => assert!(number.is_stream_fault() || number.is_connection_fault()),
        }
    }
    let all = hex(&PUT.join(" ")).len();
    assert_eq!(whole, [all, all + 4, all + 8]);
}

/// Content without a length, which is no upload's: the half cannot be told from the whole, and a lost link must be a reset.
#[test]
fn without_a_length_the_fin_alone_tells() {
    let half = hex("01 01 00 00 02 6c 65");
    assert_eq!(request([&half[..]], &[get()], unbound).1, Ok(Ended::Whole));
    let mut connection = Connection::new();
    let mut stream = Stream::new(&mut connection, 0, &[get()]);
    stream.feed(&mut connection, &half, unbound).unwrap();
    assert_eq!(connection.reset(StreamId(0)), Ok(()));
    assert_eq!(connection.end(StreamId(0)), Err(Refused::NotOpen));
}

/// A frame of a type below 64.
fn frame(kind: u8, payload: &[u8]) -> Vec<u8> {
    [&[kind, 0x40 | (payload.len() >> 8) as u8, payload.len() as u8], payload].concat()
}

/// How a random request is brought to its end.
#[derive(Clone, Copy, Debug, PartialEq)]
enum Fate {
    Whole,
    /// A byte of the stated content never comes.
    Short,
    /// The link is lost at any byte.
    Lost,
}

struct Open {
    stream: Stream,
    rest: Vec<u8>,
    content: Vec<u8>,
    fate: Fate,
}

/// 24 streams at a time, a piece of one after a piece of another: each comes to what it is, whatever the
/// others do.
#[test]
fn interleaved_streams_do_not_disturb_each_other() {
    const REQUESTS: usize = 2_000;
    let random = &mut Random(7);
    let mut connection = Connection::new();
    let mut control = Stream::new(&mut connection, 2, &[]);
    let mut pushes = 0;
    control.feed(&mut connection, &hex("00 04 00"), unbound).unwrap();
    let mut open: Vec<Open> = Vec::new();
    let (mut begun, mut came) = (0, [0; 3]);
    while begun < REQUESTS || !open.is_empty() {
        while begun < REQUESTS && connection.free_records() > 0 {
            let id = connection.next_request().0;
            open.push(any_request(&mut connection, id, random));
            begun += 1;
        }
        if random.below(50) == 0 {
            pushes += 1;
            control.feed(&mut connection, &frame(13, &[pushes.min(63) as u8]), unbound).unwrap();
        }
        let place = random.below(open.len());
        let Open { stream, rest, .. } = &mut open[place];
        let piece: Vec<u8> = rest.drain(..(1 + random.below(60)).min(rest.len())).collect();
        stream.feed(&mut connection, &piece, || 1 + random.below(4) as u64).unwrap();
        if rest.is_empty() {
            let Open { stream, content, fate, .. } = open.swap_remove(place);
            match fate {
                Fate::Whole => assert_eq!(connection.end(stream.id()), Ok(Ended::Whole)),
                Fate::Short => assert_eq!(connection.end(stream.id()), Err(Refused::MessageError)),
                Fate::Lost => assert_eq!(connection.reset(stream.id()), Ok(())),
            }
            assert!(content.starts_with(&stream.content));
            assert!(fate == Fate::Lost || content.len() == stream.content.len());
            came[fate as usize] += 1;
        }
        let ids: Vec<StreamId> = open.iter().map(|open| open.stream.id()).collect();
        assert!(connection.open_requests().all(|id| ids.contains(&id)));
        assert_eq!(connection.free_records(), 23 - ids.len());
    }
    assert!(came.iter().all(|count| *count > REQUESTS / 10), "{came:?}");
    assert_eq!(control.events.len(), 1 + pushes);
}

fn any_request(connection: &mut Connection, id: u64, random: &mut Random) -> Open {
    let fate = [Fate::Whole, Fate::Short, Fate::Lost][random.below(3)];
    let mut rest = frame(1, &vec![0; random.below(9)]);
    let mut content = Vec::new();
    for _ in 0..random.below(6) {
        if random.below(3) == 0 {
            rest.extend(frame(33, &vec![0; random.below(80)]));
        } else {
            let part: Vec<u8> = (0..random.below(200)).map(|_| random.below(256) as u8).collect();
            rest.extend(frame(0, &part));
            content.extend(part);
        }
    }
    if fate == Fate::Lost {
        rest.truncate(random.below(rest.len()));
    }
    let stated = content.len() + usize::from(fate == Fate::Short);
    Open { stream: Stream::new(connection, id, &[put(stated)]), rest, content, fate }
}
