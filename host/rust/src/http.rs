//! HTTP/3 over a connection of quinn's: docs/HOST.md, "Each event of a stack", with a task for each stream.

use crate::gateway::{Asked, Gateway};
use crate::places::{Place, Places};
use crate::qpack::Qpack;
use eistulko::{
    Connection, Ended, Event, Refused, StreamId, GOAWAY_ROOM, HEADER_ROOM, NO_BOUND, OPENING_ROOM,
};
use quinn::{ReadError, RecvStream, SendStream, VarInt};
use std::cell::{Cell, RefCell};
use std::rc::Rc;
use std::time::Duration;
use tokio::sync::watch;
use tokio::task::spawn_local;
use tokio::time::{timeout, timeout_at, Instant};

const INTERNAL_ERROR: u64 = 0x0102;
const DATA: u64 = 0;
const HEADERS: u64 = 1;
const QUANTUM: usize = 16 << 10; // a request or an answer must move on by so much, or end,
const PATIENCE: Duration = Duration::from_secs(30); // in this time
const GRANT: Duration = Duration::from_secs(2); // for a stream of ours
const HELD_MOST: usize = 128 << 20; // bytes of unfinished requests, of all connections

/// What all connections share.
pub struct Server {
    pub gateway: Gateway,
    pub held: Cell<usize>,
    pub places: Places,
    pub stopping: watch::Receiver<bool>,
}

/// Why a stream is done before its time.
enum Fault {
    Stream(u64),     // it is refused with the code
    Connection(u64), // the connection is closed with it
    Lost,            // the client took it back, or is gone
}

impl From<Refused> for Fault {
    /// Numbers 1 to 9 would be a fault of this host.
    fn from(why: Refused) -> Fault {
        match why {
            _ if why.is_stream_fault() => Fault::Stream(why.number()),
            _ if why.is_connection_fault() => Fault::Connection(why.number()),
            _ => Fault::Connection(INTERNAL_ERROR),
        }
    }
}

struct Client {
    server: Rc<Server>,
    place: Rc<Place>,
    quic: quinn::Connection,
    engine: RefCell<Connection>,
    qpack: RefCell<Qpack>,
}

/// A request's content and section, counted among all that is held.
struct Held<'a> {
    of: &'a Cell<usize>,
    count: usize,
}

impl Held<'_> {
    fn add(&mut self, count: usize) -> Result<(), Fault> {
        self.count += count;
        self.of.set(self.of.get() + count);
        if self.of.get() > HELD_MOST {
            Err(Fault::Connection(Refused::ExcessiveLoad.number()))
        } else {
            Ok(())
        }
    }
}

impl Drop for Held<'_> {
    fn drop(&mut self) {
        self.of.set(self.of.get() - self.count);
    }
}

fn code(number: u64) -> VarInt {
    VarInt::from_u64(number).expect("an error code")
}

/// The lines of a block that the engine has accepted.
fn lines(mut block: &[u8]) -> impl Iterator<Item = (&[u8], &[u8])> {
    std::iter::from_fn(move || {
        let length = usize::from(u16::from_le_bytes(block.get(..2)?.try_into().ok()?));
        let (line, rest) = block[2..].split_at(length);
        block = rest;
        let name = usize::from(u16::from_le_bytes([line[2], line[3]]));
        Some(line[4..].split_at(name))
    })
}

/// What is kept of a header section. A method or a path that is longer than any we know is kept as none.
fn asked_by(block: &[u8]) -> Asked {
    let mut asked = Asked::default();
    let short = |value: &[u8]| {
        if value.len() < 16 {
            String::from_utf8_lossy(value).into_owned()
        } else {
            String::new()
        }
    };
    for (name, value) in lines(block) {
        match name {
            b":method" => asked.method = short(value),
            b":path" => asked.path = short(value),
            b"content-range" => asked.part = true,
            b"if-match" | b"if-none-match" | b"if-unmodified-since" => asked.conditional = true,
            _ => {}
        }
    }
    asked
}

/// The next bytes of a stream, in order; none at its FIN.
async fn next(recv: &mut RecvStream, until: Instant) -> Result<Option<quinn::Chunk>, Fault> {
    match timeout_at(until, recv.read_chunk(QUANTUM, true)).await {
        Err(_) => Err(Fault::Connection(Refused::ExcessiveLoad.number())),
        Ok(Ok(piece)) => Ok(piece),
        Ok(Err(ReadError::Reset(_) | ReadError::ConnectionLost(_))) => Err(Fault::Lost),
        Ok(Err(_)) => Err(Fault::Connection(INTERNAL_ERROR)),
    }
}

impl Client {
    /// A section is due: it is decoded and given.
    fn give(&self, id: StreamId, section: &[u8], asked: &mut Option<Asked>) -> Result<(), Fault> {
        let block = match self.qpack.borrow_mut().decode(id.0, section) {
            Ok(block) => block,
            Err(code) if Refused::of(code).is_some_and(Refused::is_stream_fault) => {
                return self.give_up(id, code)
            }
            Err(code) => return Err(Fault::Connection(code)),
        };
        self.engine.borrow_mut().give(id, &block)?;
        asked.get_or_insert_with(|| asked_by(&block)); // the second is trailers
        Ok(())
    }

    /// The host gives a request up by itself: for the engine that is a reset.
    fn give_up(&self, id: StreamId, code: u64) -> Result<(), Fault> {
        self.engine.borrow_mut().reset(id)?;
        Err(Fault::Stream(code))
    }

    /// A request, to its FIN.
    async fn read(&self, id: StreamId, recv: &mut RecvStream) -> Result<Asked, Fault> {
        let mut held = Held { of: &self.server.held, count: 0 };
        let (mut asked, mut section, mut since, mut until) = (None, Vec::new(), 0, Instant::now() + PATIENCE);
        while let Some(chunk) = next(recv, until).await? {
            let mut piece = &chunk.bytes[..];
            held.add(piece.len())?;
            since += piece.len();
            if since >= QUANTUM {
                (since, until) = (0, Instant::now() + PATIENCE);
                self.place.move_on();
            }
            while !piece.is_empty() {
                let fed = self.engine.borrow_mut().feed(id, piece, NO_BOUND).map_err(Refused::from)?;
                match (fed.event, &mut asked) {
                    (Some(Event::Content(part)), Some(Asked { content, .. })) => {
                        content.extend_from_slice(part)
                    }
                    (Some(Event::Section { part, last }), _) => {
                        section.extend_from_slice(part);
                        if last {
                            self.give(id, &section, &mut asked)?;
                            section.clear();
                        }
                    }
                    _ => {}
                }
                piece = &piece[fed.used..];
            }
        }
        match (self.engine.borrow_mut().end(id)?, asked) {
            (Ended::Whole, Some(asked)) => Ok(asked),
            _ => Err(Fault::Connection(INTERNAL_ERROR)),
        }
    }

    /// Each part must be taken in time. A client that wants no answer has none.
    async fn send(&self, send: &mut SendStream, bytes: &[u8]) -> Result<(), Fault> {
        for part in bytes.chunks(QUANTUM) {
            match timeout_at(Instant::now() + PATIENCE, send.write_all(part)).await {
                Err(_) => return Err(Fault::Connection(Refused::ExcessiveLoad.number())),
                Ok(Err(_)) => return Err(Fault::Lost),
                Ok(Ok(())) => {}
            }
        }
        Ok(())
    }

    /// A frame's header.
    async fn send_head(&self, send: &mut SendStream, kind: u64, length: u64) -> Result<(), Fault> {
        let mut head = [0; HEADER_ROOM];
        let count = eistulko::write_header(kind, length, &mut head)?;
        self.send(send, &head[..count]).await
    }

    async fn answer(&self, id: StreamId, asked: &Asked, send: &mut SendStream) -> Result<(), Fault> {
        let (status, length, mut content) = self.server.gateway.answer(asked);
        let (status, stated) = (status.to_string(), length.to_string());
        let mut fields =
            vec![(":status", &status[..]), ("content-type", "text/plain"), ("content-length", &stated[..])];
        if status == "405" {
            fields.push(("allow", "GET, PUT"));
        }
        let section = self.qpack.borrow_mut().encode(id.0, &fields);
        self.send_head(send, HEADERS, section.len() as u64).await?;
        self.send(send, &section).await?;
        if asked.method != "HEAD" {
            self.send_head(send, DATA, length).await?;
            let (mut left, mut part) = (length, [0; QUANTUM]);
            while left > 0 {
                let room = QUANTUM.min(usize::try_from(left).unwrap_or(QUANTUM));
                match content.read(&mut part[..room]) {
                    Ok(count) if count > 0 => {
                        self.send(send, &part[..count]).await?;
                        left -= count as u64;
                    }
                    _ => return Err(Fault::Stream(INTERNAL_ERROR)), // the file was cut under us
                }
            }
        }
        match timeout_at(Instant::now() + PATIENCE, send.finish()).await {
            Err(_) => Err(Fault::Connection(Refused::ExcessiveLoad.number())),
            Ok(_) => Ok(()),
        }
    }

    async fn request(self: Rc<Client>, id: StreamId, mut send: SendStream, mut recv: RecvStream) {
        let _busy = self.place.busy();
        let done = match self.read(id, &mut recv).await {
            Ok(asked) => self.answer(id, &asked, &mut send).await,
            Err(fault) => Err(fault),
        };
        match done {
            Ok(()) => {}
            Err(Fault::Stream(number)) => refuse(&mut send, &mut recv, number),
            Err(Fault::Connection(number)) => self.quic.close(code(number), b""),
            Err(Fault::Lost) => {
                let _ = self.engine.borrow_mut().reset(id); // it may have ended before
                refuse(&mut send, &mut recv, Refused::RequestCancelled.number());
            }
        }
    }

    /// A one-way stream of the client's. Its control stream is silent for long, so no time is set.
    async fn read_oneway(&self, id: StreamId, recv: &mut RecvStream) -> Result<(), Fault> {
        loop {
            let chunk = match recv.read_chunk(QUANTUM, true).await {
                Ok(Some(chunk)) => chunk,
                Ok(None) => return Ok(self.engine.borrow_mut().end(id).map(drop)?),
                Err(ReadError::ConnectionLost(_)) => return Ok(()),
                Err(_) => return Ok(self.engine.borrow_mut().reset(id)?),
            };
            let mut piece = &chunk.bytes[..];
            while !piece.is_empty() {
                let fed = self.engine.borrow_mut().feed(id, piece, NO_BOUND).map_err(Refused::from)?;
                if let Some(Event::Qpack { part, kind }) = fed.event {
                    let kind = if kind == eistulko::Qpack::Encoder { 2 } else { 3 };
                    self.qpack.borrow_mut().heard(kind, part).map_err(Fault::Connection)?;
                }
                piece = &piece[fed.used..];
            }
        }
    }

    async fn oneway(self: Rc<Client>, id: StreamId, mut recv: RecvStream) {
        if let Err(Fault::Connection(number)) = self.read_oneway(id, &mut recv).await {
            self.quic.close(code(number), b"");
        }
    }

    /// Our control stream: the opening, our GOAWAY when we stop, and never an end.
    async fn control(self: Rc<Client>) -> Result<(), Fault> {
        let Ok(opened) = timeout(GRANT, self.quic.open_uni()).await else {
            self.quic.close(code(Refused::StreamCreationError.number()), b""); // the client grants us none
            return Ok(());
        };
        let Ok(mut send) = opened else { return Ok(()) };
        let mut opening = [0; OPENING_ROOM];
        let count = eistulko::write_opening(&mut opening)?;
        self.send(&mut send, &opening[..count]).await?;
        let mut stopping = self.server.stopping.clone();
        if !*stopping.borrow() {
            tokio::select! {
                _ = send.stopped() => {
                    self.quic.close(code(Refused::ClosedCriticalStream.number()), b"");
                    return Ok(());
                }
                _ = stopping.changed() => {}
            }
        }
        let mut frame = [0; GOAWAY_ROOM];
        let count = {
            let mut engine = self.engine.borrow_mut();
            let next = engine.next_request();
            engine.goaway(next, &mut frame)?
        };
        self.send(&mut send, &frame[..count]).await?;
        self.quic.closed().await; // the stream stays open until then
        Ok(())
    }
}

fn refuse(send: &mut SendStream, recv: &mut RecvStream, number: u64) {
    let _ = send.reset(code(number)); // either side may be over already
    let _ = recv.stop(code(number));
}

/// A connection to its end. quinn tells of streams in their order, so each is opened as it comes.
pub async fn serve(server: Rc<Server>, quic: quinn::Connection) {
    let place = server.places.take(&quic);
    let client = Rc::new(Client {
        server,
        place,
        quic,
        engine: RefCell::new(Connection::new()),
        qpack: RefCell::new(Qpack::new()),
    });
    let control = client.clone();
    spawn_local(async move {
        if let Err(Fault::Connection(number)) = control.clone().control().await {
            control.quic.close(code(number), b"");
        }
    });
    loop {
        tokio::select! {
            stream = client.quic.accept_bi() => {
                let Ok((mut send, mut recv)) = stream else { return };
                let id = StreamId(VarInt::from(send.id()).into_inner());
                let opened = client.engine.borrow_mut().open(id);
                match opened {
                    Ok(()) => drop(spawn_local(client.clone().request(id, send, recv))),
                    Err(why) if why.is_stream_fault() => refuse(&mut send, &mut recv, why.number()),
                    Err(_) => client.quic.close(code(INTERNAL_ERROR), b""),
                }
            }
            stream = client.quic.accept_uni() => {
                let Ok(recv) = stream else { return };
                let id = StreamId(VarInt::from(recv.id()).into_inner());
                let opened = client.engine.borrow_mut().open(id);
                match opened {
                    Ok(()) => drop(spawn_local(client.clone().oneway(id, recv))),
                    Err(_) => client.quic.close(code(INTERNAL_ERROR), b""),
                }
            }
        }
    }
}
