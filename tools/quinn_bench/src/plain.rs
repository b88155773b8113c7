//! A session for quinn-proto without a cipher, INSECURE: whoever can write datagrams can forge them. Its tags are those of this
//! repository's plain session, 32 bytes that name a key id, the sender, the space and the packet's number.
//! Headers aren't protected. The handshake tells each end the other's transport parameters.
use bytes::BytesMut;
use quinn_proto::crypto::{
    AeadKey, ClientConfig, CryptoError, ExportKeyingMaterialError, HandshakeTokenKey, HeaderKey,
    HmacKey, KeyPair, Keys, PacketKey, ServerConfig, Session, UnsupportedVersion,
};
use quinn_proto::transport_parameters::TransportParameters;
use quinn_proto::{ConnectError, ConnectionId, Side, TransportError, TransportErrorCode};
use std::any::Any;
use std::sync::Arc;

/// The id that the tags name. The client's first destination id isn't handed to the 1-RTT keys.
const KEY_ID: [u8; 8] = [0xd0, 0, 0, 0, 0, 0, 0, 0];

const TAG_LEN: usize = 32;

const INITIAL: u8 = 0;
const HANDSHAKE: u8 = 2;
const DATA: u8 = 1;

/// Makes and opens the tags of one sender in one space.
struct PlainKey {
    from: Side,
    space: u8,
}

impl PlainKey {
    fn tag(&self, number: u64) -> [u8; TAG_LEN] {
        let mut tag = [0; TAG_LEN];
        tag[..8].copy_from_slice(&KEY_ID);
        tag[16] = 0xa5;
        tag[17] = u8::from(self.from.is_server());
        tag[18..26].copy_from_slice(&number.to_be_bytes());
        tag[26] = KEY_ID.len() as u8;
        tag[31] = self.space;
        tag
    }
}

impl PacketKey for PlainKey {
    fn encrypt(&self, packet: u64, buf: &mut [u8], _header_len: usize) {
        let start = buf.len() - TAG_LEN;
        buf[start..].copy_from_slice(&self.tag(packet));
    }

    fn decrypt(&self, packet: u64, _header: &[u8], payload: &mut BytesMut) -> Result<(), CryptoError> {
        let start = payload.len().checked_sub(TAG_LEN).ok_or(CryptoError)?;
        if payload[start..] != self.tag(packet) {
            return Err(CryptoError);
        }
        payload.truncate(start);
        Ok(())
    }

    fn tag_len(&self) -> usize {
        TAG_LEN
    }

    fn confidentiality_limit(&self) -> u64 {
        u64::MAX
    }

    fn integrity_limit(&self) -> u64 {
        u64::MAX
    }
}

/// Leaves headers as they are.
struct BareHeader;

impl HeaderKey for BareHeader {
    fn decrypt(&self, _pn_offset: usize, _packet: &mut [u8]) {}

    fn encrypt(&self, _pn_offset: usize, _packet: &mut [u8]) {}

    fn sample_size(&self) -> usize {
        0
    }
}

fn packet_keys(side: Side, space: u8) -> KeyPair<Box<dyn PacketKey>> {
    KeyPair {
        local: Box::new(PlainKey { from: side, space }),
        remote: Box::new(PlainKey { from: !side, space }),
    }
}

fn keys(side: Side, space: u8) -> Keys {
    Keys {
        header: KeyPair {
            local: Box::new(BareHeader),
            remote: Box::new(BareHeader),
        },
        packet: packet_keys(side, space),
    }
}

/// How far the handshake is.
#[derive(Clone, Copy, PartialEq, Eq)]
enum Step {
    /// Nothing was written or read.
    Start,
    /// A client wrote its hello.
    HelloWritten,
    /// The peer's hello was read.
    HelloRead,
    /// The keys of the handshake are known.
    HasKeys,
    /// A client read the server's parameters.
    ParametersRead,
    /// A server wrote its parameters.
    ParametersWritten,
    Done,
}

/// One end's handshake. Each message is short enough for one packet.
struct PlainHandshake {
    side: Side,
    step: Step,
    parameters: Vec<u8>,
    peer: Option<TransportParameters>,
}

impl PlainHandshake {
    fn new(side: Side, parameters: &TransportParameters) -> Self {
        let mut bytes = Vec::new();
        parameters.write(&mut bytes);
        Self {
            side,
            step: Step::Start,
            parameters: bytes,
            peer: None,
        }
    }

    fn read_parameters(&mut self, mut message: &[u8]) -> Result<(), TransportError> {
        self.peer = Some(TransportParameters::read(self.side, &mut message)?);
        Ok(())
    }
}

impl Session for PlainHandshake {
    fn initial_keys(&self, _dst_cid: &ConnectionId, side: Side) -> Keys {
        keys(side, INITIAL)
    }

    fn handshake_data(&self) -> Option<Box<dyn Any>> {
        None
    }

    fn peer_identity(&self) -> Option<Box<dyn Any>> {
        None
    }

    fn early_crypto(&self) -> Option<(Box<dyn HeaderKey>, Box<dyn PacketKey>)> {
        None
    }

    fn early_data_accepted(&self) -> Option<bool> {
        None
    }

    fn is_handshaking(&self) -> bool {
        self.step != Step::Done
    }

    fn read_handshake(&mut self, message: &[u8]) -> Result<bool, TransportError> {
        match (self.side, self.step) {
            (Side::Server, Step::Start) => {
                self.read_parameters(message)?;
                self.step = Step::HelloRead;
            }
            (Side::Client, Step::HelloWritten) => self.step = Step::HelloRead,
            (Side::Client, Step::HasKeys) => {
                self.read_parameters(message)?;
                self.step = Step::ParametersRead;
            }
            (Side::Server, Step::ParametersWritten) => self.step = Step::Done,
            _ => {
                return Err(TransportError {
                    code: TransportErrorCode::PROTOCOL_VIOLATION,
                    frame: None,
                    reason: "not in this step".into(),
                })
            }
        }
        Ok(false)
    }

    fn transport_parameters(&self) -> Result<Option<TransportParameters>, TransportError> {
        Ok(self.peer)
    }

    fn write_handshake(&mut self, out: &mut Vec<u8>) -> Option<Keys> {
        let side = self.side;
        match (side, self.step) {
            (Side::Client, Step::Start) => {
                out.extend_from_slice(&self.parameters);
                self.step = Step::HelloWritten;
                None
            }
            (_, Step::HelloRead) => {
                if side.is_server() {
                    out.push(0);
                }
                self.step = Step::HasKeys;
                Some(keys(side, HANDSHAKE))
            }
            (Side::Server, Step::HasKeys) => {
                out.extend_from_slice(&self.parameters);
                self.step = Step::ParametersWritten;
                Some(keys(side, DATA))
            }
            (Side::Client, Step::ParametersRead) => {
                out.push(0);
                self.step = Step::Done;
                Some(keys(side, DATA))
            }
            _ => None,
        }
    }

    fn next_1rtt_keys(&mut self) -> Option<KeyPair<Box<dyn PacketKey>>> {
        Some(packet_keys(self.side, DATA))
    }

    fn is_valid_retry(&self, _: &ConnectionId, _header: &[u8], _payload: &[u8]) -> bool {
        false
    }

    fn export_keying_material(
        &self,
        _output: &mut [u8],
        _label: &[u8],
        _context: &[u8],
    ) -> Result<(), ExportKeyingMaterialError> {
        Err(ExportKeyingMaterialError)
    }
}

/// Starts plain sessions.
pub struct Plain;

impl ClientConfig for Plain {
    fn start_session(
        self: Arc<Self>,
        _version: u32,
        _server_name: &str,
        parameters: &TransportParameters,
    ) -> Result<Box<dyn Session>, ConnectError> {
        Ok(Box::new(PlainHandshake::new(Side::Client, parameters)))
    }
}

impl ServerConfig for Plain {
    fn initial_keys(&self, _version: u32, _dst_cid: &ConnectionId, side: Side) -> Result<Keys, UnsupportedVersion> {
        Ok(keys(side, INITIAL))
    }

    fn retry_tag(&self, _version: u32, _orig_dst_cid: &ConnectionId, _packet: &[u8]) -> [u8; 16] {
        [0; 16]
    }

    fn start_session(self: Arc<Self>, _version: u32, parameters: &TransportParameters) -> Box<dyn Session> {
        Box::new(PlainHandshake::new(Side::Server, parameters))
    }
}

/// Makes stateless reset tokens, which are the id itself.
impl HmacKey for Plain {
    fn sign(&self, data: &[u8], out: &mut [u8]) {
        out.fill(0);
        let len = data.len().min(out.len());
        out[..len].copy_from_slice(&data[..len]);
    }

    fn signature_len(&self) -> usize {
        TAG_LEN
    }

    fn verify(&self, _data: &[u8], _signature: &[u8]) -> Result<(), CryptoError> {
        Err(CryptoError)
    }
}

/// No Retry is sent, so no token is made.
impl HandshakeTokenKey for Plain {
    fn aead_from_hkdf(&self, _random_bytes: &[u8]) -> Box<dyn AeadKey> {
        unreachable!("no Retry is sent")
    }
}
