use crate::raw::{self, Record, Report, RECORDS};
use crate::{PushId, Refused, StreamId};

/// An allowance of frame headers that bounds nothing.
pub const NO_BOUND: u64 = u64::MAX;

/// Room that is always enough for [`Connection::goaway`].
pub const GOAWAY_ROOM: usize = 10;

/// One client's connection: the engine's record of it and the row of its streams' records, as one started
/// pair.
///
/// Plain memory of 1,552 bytes: it may be moved, and a clone goes on from the same state. After a connection
/// fault every call but [`restart`](Self::restart) is refused with its [code](Self::code).
#[derive(Clone, Debug, PartialEq, Eq)]
pub struct Connection {
    record: raw::Connection,
    row: [Record; RECORDS],
}

/// What a feed came to.
#[derive(Clone, Copy, Debug, PartialEq, Eq)]
pub struct Fed<'piece> {
    /// What the consumed bytes told, if anything.
    pub event: Option<Event<'piece>>,
    /// Bytes of the piece that were consumed; offer the rest again.
    pub used: usize,
    /// Frame headers that were finished in them.
    pub heads: u64,
}

/// What a feed tells. A part is of the piece.
#[derive(Clone, Copy, Debug, PartialEq, Eq)]
pub enum Event<'piece> {
    /// Content of the request.
    Content(&'piece [u8]),
    /// Bytes of a section, for the QPACK decoder. After the last, which may be none, the section is due.
    Section {
        /// The bytes.
        part: &'piece [u8],
        /// Whether they are the section's last.
        last: bool,
    },
    /// Bytes of a QPACK stream.
    Qpack {
        /// The bytes.
        part: &'piece [u8],
        /// Of which stream.
        kind: Qpack,
    },
    /// The client's SETTINGS came: see [`Connection::settings`].
    Settings,
    /// The client's GOAWAY came.
    Goaway(PushId),
    /// The client's MAX_PUSH_ID came.
    MaxPushId(PushId),
}

/// A client's QPACK stream.
#[derive(Clone, Copy, Debug, PartialEq, Eq, Hash)]
pub enum Qpack {
    /// Of type 2.
    Encoder,
    /// Of type 3.
    Decoder,
}

/// Why a feed was refused, and where.
#[derive(Clone, Copy, Debug, PartialEq, Eq, Hash)]
pub struct FeedRefused {
    /// Why.
    pub why: Refused,
    /// Bytes of the piece up to and including the one that brought the fault; 0 if it was none of the bytes'.
    pub used: usize,
    /// Frame headers finished in this piece, a faulty one counted.
    pub heads: u64,
}

impl From<FeedRefused> for Refused {
    fn from(refused: FeedRefused) -> Refused {
        refused.why
    }
}

impl std::fmt::Display for FeedRefused {
    fn fmt(&self, to: &mut std::fmt::Formatter<'_>) -> std::fmt::Result {
        write!(to, "{}, at byte {} of the piece", self.why, self.used)
    }
}

impl std::error::Error for FeedRefused {}

/// What an accepted end says of the stream. Its record is free either way.
#[derive(Clone, Copy, Debug, PartialEq, Eq, Hash)]
pub enum Ended {
    /// The request is whole: act on it.
    Whole,
    /// A one-way stream of an unknown type, or of none yet, is done.
    Freed,
}

/// A client's SETTINGS, as far as they are kept.
#[derive(Clone, Copy, Debug, PartialEq, Eq)]
pub struct Settings {
    /// The largest section that it accepts, if it states one.
    pub section_size: Option<u64>,
    /// Its QPACK table capacity.
    pub capacity: u64,
    /// How many of its streams QPACK may block.
    pub blocked: u64,
}

impl Connection {
    /// A fresh connection without a stream.
    pub fn new() -> Connection {
        let (record, row) = raw::blank();
        let mut connection = Connection { record, row };
        connection.restart();
        connection
    }

    /// Makes it a fresh one again, whatever it was.
    pub fn restart(&mut self) {
        let number = raw::start(&mut self.record, &mut self.row);
        assert_eq!(number, 0, "a row of 24 is accepted");
    }

    /// A stream is opened: the [next request](Self::next_request) or the [next one-way
    /// stream](Self::next_one_way).
    ///
    /// Refused as `NotNext`, `RequestRejected` if our GOAWAY bars it (the ID is spent), `NoRecord`.
    pub fn open(&mut self, id: StreamId) -> Result<(), Refused> {
        raw::open(&mut self.record, &mut self.row, id.0).accepted().map(drop)
    }

    /// A piece of a stream's bytes, from the first one not consumed yet.
    ///
    /// Stops at the first event, at the end of the piece, or before a byte of a frame header once `allow` of
    /// them were finished in it. With an allowance of 1 or more and a piece that is not empty, an accepted
    /// feed consumes a byte or more. How a stream is cut, and the allowances, alter no verdict and no content.
    ///
    /// Refused as `NotOpen`, `SectionDue`, a connection fault other than `ClosedCriticalStream`,
    /// `RequestCancelled`, `MessageError`.
    pub fn feed<'piece>(
        &mut self,
        id: StreamId,
        piece: &'piece [u8],
        allow: u64,
    ) -> Result<Fed<'piece>, FeedRefused> {
        let report = raw::feed(&mut self.record, &mut self.row, id.0, piece, allow);
        let (used, heads) = (report.used as usize, report.heads);
        Refused::unless_0(report.number).map_err(|why| FeedRefused { why, used, heads })?;
        let part = &piece[report.start as usize..][..report.len as usize];
        let event = match (report.event, report.value) {
            (0, _) => None,
            (1, _) => Some(Event::Content(part)),
            (2, _) => Some(Event::Section { part, last: false }),
            (3, _) => Some(Event::Section { part, last: true }),
            (7, 2) => Some(Event::Qpack { part, kind: Qpack::Encoder }),
            (7, 3) => Some(Event::Qpack { part, kind: Qpack::Decoder }),
            (8, _) => Some(Event::Settings),
            (9, id) => Some(Event::Goaway(PushId(id))),
            (10, id) => Some(Event::MaxPushId(PushId(id))),
            _ => unreachable!("no event of a feed: {report:?}"),
        };
        Ok(Fed { event, used, heads })
    }

    /// The section that is due, decoded, as a section block: a [`Block`](crate::Block), or bytes in its form.
    /// Its size is its name and value bytes together and 32 for each line (RFC 9114, 4.2.2); above 16,384 it
    /// is a `MessageError`, before all else.
    ///
    /// Refused as `NotOpen`, `NoSection`, `Unreadable`, `RequestRejected`, `MessageError`.
    pub fn give(&mut self, id: StreamId, block: &[u8]) -> Result<(), Refused> {
        raw::give(&mut self.record, &mut self.row, id.0, block).accepted().map(drop)
    }

    /// The stream's FIN was read and every byte consumed. For anything else that ends a stream there is
    /// [`reset`](Self::reset).
    ///
    /// Refused as `NotOpen`, `SectionDue`, `ClosedCriticalStream`, `FrameError`, `RequestIncomplete`,
    /// `MessageError`.
    pub fn end(&mut self, id: StreamId) -> Result<Ended, Refused> {
        let report = raw::end(&mut self.record, &mut self.row, id.0).accepted()?;
        match report.event {
            11 => Ok(Ended::Whole),
            12 => Ok(Ended::Freed),
            _ => unreachable!("no event of an end: {report:?}"),
        }
    }

    /// The peer reset the stream, or the link, the connection, the stack or the host itself gave it up. Its
    /// record is free, whatever was due.
    ///
    /// Refused as `NotOpen`, and as `ClosedCriticalStream` for the control stream and the QPACK streams.
    pub fn reset(&mut self, id: StreamId) -> Result<(), Refused> {
        raw::reset(&mut self.record, &mut self.row, id.0).accepted().map(drop)
    }

    /// Writes our GOAWAY, for our control stream, and answers its length: requests from `id` upward will be
    /// refused, those open go on. [`next_request`](Self::next_request) lets in no new one.
    ///
    /// Refused as `BadValue` unless the ID is a multiple of 4 below 2^62 and no higher than one sent before,
    /// and as `RoomShort`.
    pub fn goaway(&mut self, id: StreamId, room: &mut [u8]) -> Result<usize, Refused> {
        raw::goaway(&mut self.record, id.0, room).count()
    }

    /// The connection fault that there was.
    pub fn code(&self) -> Option<Refused> {
        Refused::of(self.record.code)
    }

    /// The lowest request that was not opened yet.
    pub fn next_request(&self) -> StreamId {
        StreamId(self.record.requests)
    }

    /// The lowest one-way stream that was not opened yet.
    pub fn next_one_way(&self) -> StreamId {
        StreamId(self.record.oneways)
    }

    /// The requests that are open, in no order.
    pub fn open_requests(&self) -> impl Iterator<Item = StreamId> + '_ {
        self.row.iter().filter(|record| record.kind == 1).map(|record| StreamId(record.id))
    }

    /// The one-way streams that are open, in no order.
    pub fn open_one_ways(&self) -> impl Iterator<Item = StreamId> + '_ {
        self.row.iter().filter(|record| record.kind > 1).map(|record| StreamId(record.id))
    }

    /// How many more streams can be open at once.
    pub fn free_records(&self) -> usize {
        self.row.iter().filter(|record| record.kind == 0).count()
    }

    /// Whether the client's control stream has come.
    pub fn has_control(&self) -> bool {
        self.record.control != 0
    }

    /// Whether that QPACK stream of the client has come.
    pub fn has_qpack(&self, kind: Qpack) -> bool {
        match kind {
            Qpack::Encoder => self.record.encoder != 0,
            Qpack::Decoder => self.record.decoder != 0,
        }
    }

    /// The client's SETTINGS, if they came.
    pub fn settings(&self) -> Option<Settings> {
        let record = &self.record;
        (record.set != 0).then(|| Settings {
            section_size: (record.limited != 0).then_some(record.size),
            capacity: record.capacity,
            blocked: record.blocked,
        })
    }

    /// The ID of our last GOAWAY, if we sent one.
    pub fn sent_goaway(&self) -> Option<StreamId> {
        (self.record.sent != 0).then_some(StreamId(self.record.ours))
    }

    /// The ID of the client's last GOAWAY, if one came.
    pub fn client_goaway(&self) -> Option<PushId> {
        (self.record.goaways != 0).then_some(PushId(self.record.theirs))
    }

    /// The client's last MAX_PUSH_ID, if one came.
    pub fn max_push_id(&self) -> Option<PushId> {
        (self.record.pushes != 0).then_some(PushId(self.record.push))
    }
}

impl Default for Connection {
    fn default() -> Connection {
        Connection::new()
    }
}

impl Report {
    fn accepted(self) -> Result<Report, Refused> {
        Refused::unless_0(self.number).map(|()| self)
    }
}
