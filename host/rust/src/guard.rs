//! What quinn-proto 0.9.2 panics for is kept from it, by a layer between it and rustls: docs/HOST.md, "Another stack".

use bytes::BytesMut;
use quinn::crypto::{
    CryptoError, ExportKeyingMaterialError, HeaderKey, KeyPair, Keys, PacketKey, ServerConfig, Session,
    UnsupportedVersion,
};
use quinn_proto::transport_parameters::TransportParameters;
use quinn_proto::{ConnectionId, Side, TransportError, TransportErrorCode};
use std::any::Any;
use std::cell::Cell;
use std::panic::{catch_unwind, set_hook, take_hook, AssertUnwindSafe};
use std::sync::Arc;

const UNKNOWN: u8 = 0x21; // a frame's type that nobody has

thread_local!(static CAUGHT: Cell<bool> = const { Cell::new(false) }); // a panic now is caught

/// Nothing is said of panics that are caught: nobody makes us print without end.
pub fn hush() {
    let say = take_hook();
    set_hook(Box::new(move |panic| {
        if !CAUGHT.get() {
            say(panic)
        }
    }));
}

/// TLS as rustls does it.
pub struct Guarded(pub Arc<rustls::ServerConfig>);

struct GuardedSession(Box<dyn Session>);

struct GuardedKey(Box<dyn PacketKey>);

/// A packet that ends within the type of its first frame: quinn-proto has no type then to name in its refusal, and unwraps it.
fn guard_frames(frames: &mut [u8]) {
    if frames.first().is_some_and(|first| frames.len() < 1 << (first >> 6)) {
        frames.fill(UNKNOWN);
    }
}

fn guard_pair(keys: KeyPair<Box<dyn PacketKey>>) -> KeyPair<Box<dyn PacketKey>> {
    KeyPair { local: keys.local, remote: Box::new(GuardedKey(keys.remote)) }
}

fn guard_keys(keys: Keys) -> Keys {
    Keys { header: keys.header, packet: guard_pair(keys.packet) }
}

impl PacketKey for GuardedKey {
    fn encrypt(&self, packet: u64, buf: &mut [u8], header_len: usize) {
        self.0.encrypt(packet, buf, header_len)
    }

    fn decrypt(&self, packet: u64, header: &[u8], payload: &mut BytesMut) -> Result<(), CryptoError> {
        self.0.decrypt(packet, header, payload)?;
        guard_frames(payload);
        Ok(())
    }

    fn tag_len(&self) -> usize {
        self.0.tag_len()
    }

    fn confidentiality_limit(&self) -> u64 {
        self.0.confidentiality_limit()
    }

    fn integrity_limit(&self) -> u64 {
        self.0.integrity_limit()
    }
}

impl Session for GuardedSession {
    fn initial_keys(&self, dst_cid: &ConnectionId, side: Side) -> Keys {
        guard_keys(self.0.initial_keys(dst_cid, side))
    }

    fn handshake_data(&self) -> Option<Box<dyn Any>> {
        self.0.handshake_data()
    }

    fn peer_identity(&self) -> Option<Box<dyn Any>> {
        self.0.peer_identity()
    }

    fn early_crypto(&self) -> Option<(Box<dyn HeaderKey>, Box<dyn PacketKey>)> {
        self.0
            .early_crypto()
            .map(|(header, packet)| -> (_, Box<dyn PacketKey>) { (header, Box::new(GuardedKey(packet))) })
    }

    fn early_data_accepted(&self) -> Option<bool> {
        self.0.early_data_accepted()
    }

    fn is_handshaking(&self) -> bool {
        self.0.is_handshaking()
    }

    fn read_handshake(&mut self, buf: &[u8]) -> Result<bool, TransportError> {
        self.0.read_handshake(buf)
    }

    /// Where max_datagram_frame_size is cut, quinn-proto unwraps it. The session is read alone here, so nothing of it is half done.
    fn transport_parameters(&self) -> Result<Option<TransportParameters>, TransportError> {
        CAUGHT.set(true);
        let read = catch_unwind(AssertUnwindSafe(|| self.0.transport_parameters()));
        CAUGHT.set(false);
        read.unwrap_or_else(|_| {
            Err(TransportError {
                code: TransportErrorCode::TRANSPORT_PARAMETER_ERROR,
                frame: None,
                reason: "a parameter that is cut".into(),
            })
        })
    }

    fn write_handshake(&mut self, buf: &mut Vec<u8>) -> Option<Keys> {
        self.0.write_handshake(buf).map(guard_keys)
    }

    fn next_1rtt_keys(&mut self) -> Option<KeyPair<Box<dyn PacketKey>>> {
        self.0.next_1rtt_keys().map(guard_pair)
    }

    fn is_valid_retry(&self, orig_dst_cid: &ConnectionId, header: &[u8], payload: &[u8]) -> bool {
        self.0.is_valid_retry(orig_dst_cid, header, payload)
    }

    fn export_keying_material(
        &self,
        output: &mut [u8],
        label: &[u8],
        context: &[u8],
    ) -> Result<(), ExportKeyingMaterialError> {
        self.0.export_keying_material(output, label, context)
    }
}

impl ServerConfig for Guarded {
    fn initial_keys(
        &self,
        version: u32,
        dst_cid: &ConnectionId,
        side: Side,
    ) -> Result<Keys, UnsupportedVersion> {
        ServerConfig::initial_keys(&*self.0, version, dst_cid, side).map(guard_keys)
    }

    fn retry_tag(&self, version: u32, orig_dst_cid: &ConnectionId, packet: &[u8]) -> [u8; 16] {
        self.0.retry_tag(version, orig_dst_cid, packet)
    }

    fn start_session(self: Arc<Self>, version: u32, params: &TransportParameters) -> Box<dyn Session> {
        Box::new(GuardedSession(ServerConfig::start_session(self.0.clone(), version, params)))
    }
}
