//! Many live connections of one server's endpoint, which routes datagrams to them by their ids.
use crate::plain::Plain;
use crate::{Configs, End, Pair};
use bytes::BytesMut;
use quinn_proto::{
    Connection, ConnectionHandle, ConnectionId, ConnectionIdGenerator, DatagramEvent, Endpoint,
    EndpointConfig, RandomConnectionIdGenerator,
};
use std::net::{Ipv4Addr, SocketAddr};
use std::sync::{Arc, Mutex};
use std::time::{Duration, Instant};

/// How many bytes a routed datagram has: a first byte, the id, and filler.
const DATAGRAM_LEN: usize = 40;

/// The first byte of a short header: of its bits only the fixed one is set.
const SHORT: u8 = 0x40;

/// The ids that the server issued, the oldest first.
type Issued = Arc<Mutex<Vec<ConnectionId>>>;

/// Chooses random ids as quinn-proto does by default, and keeps a list of them.
struct ListedIds {
    random: RandomConnectionIdGenerator,
    issued: Issued,
}

impl ConnectionIdGenerator for ListedIds {
    fn generate_cid(&mut self) -> ConnectionId {
        let id = self.random.generate_cid();
        self.issued.lock().expect("the ids").push(id);
        id
    }

    fn cid_len(&self) -> usize {
        self.random.cid_len()
    }

    fn cid_lifetime(&self) -> Option<Duration> {
        self.random.cid_lifetime()
    }
}

/// A datagram that comes again and again, from where it comes, and the connection that it is for.
struct Routed {
    handle: ConnectionHandle,
    remote: SocketAddr,
    datagram: [u8; DATAGRAM_LEN],
}

/// A server with many connections. One more is made by a fresh client in its pair, which is of no use afterwards.
pub struct Crowd {
    configs: Configs,
    pair: Pair,
    issued: Issued,
    connections: Vec<Connection>,
    routed: Vec<Routed>,
}

impl Crowd {
    /// So many connections, each from an address of its own.
    pub fn new(count: u32) -> Self {
        let mut configs = Configs::new(0);
        Arc::make_mut(&mut configs.server).concurrent_connections(count);
        let issued = Issued::default();
        let mut pair = Pair::new(&configs);
        pair.server.endpoint = Endpoint::new(listing(&issued), Some(configs.server.clone()));
        let mut crowd = Self {
            configs,
            pair,
            issued,
            connections: Vec::new(),
            routed: Vec::new(),
        };
        for number in 0..count {
            crowd.connect(number);
        }
        crowd
    }

    /// One more connection, and a datagram for it with the first id that it has.
    fn connect(&mut self, number: u32) {
        self.issued.lock().expect("the ids").clear();
        self.pair.now = Instant::now();
        self.pair.client = End::new(Endpoint::new(self.configs.endpoint.clone(), None), 1);
        self.pair.client.address = address(number);
        self.pair.connect();
        let (handle, connection) = self.pair.server.connection.take().expect("a connection");
        let id = self.issued.lock().expect("the ids")[0];
        self.connections.push(connection);
        self.routed.push(Routed {
            handle,
            remote: self.pair.client.address,
            datagram: datagram(&id),
        });
    }

    /// Hands that many datagrams to the endpoint, one for each connection in turn. Answers how many were for theirs.
    pub fn route(&mut self, count: usize) -> usize {
        let now = self.pair.now;
        let endpoint = &mut self.pair.server.endpoint;
        let in_turn = self.routed.iter().cycle().take(count);
        in_turn
            .filter(|to| {
                let answer = endpoint.handle(now, to.remote, None, None, BytesMut::from(&to.datagram[..]));
                matches!(answer, Some((handle, DatagramEvent::ConnectionEvent(_))) if handle == to.handle)
            })
            .count()
    }
}

/// What a server begins with whose ids are to be listed.
fn listing(issued: &Issued) -> Arc<EndpointConfig> {
    let issued = issued.clone();
    let mut config = EndpointConfig::new(Arc::new(Plain));
    config.cid_generator(move || {
        Box::new(ListedIds {
            random: RandomConnectionIdGenerator::default(),
            issued: issued.clone(),
        })
    });
    Arc::new(config)
}

/// The address of the client with this number.
fn address(number: u32) -> SocketAddr {
    let first = u32::from(Ipv4Addr::new(10, 1, 0, 0));
    SocketAddr::from((Ipv4Addr::from(first + number), 443))
}

/// A datagram with a short header that goes to this id.
fn datagram(id: &ConnectionId) -> [u8; DATAGRAM_LEN] {
    let mut bytes = [0; DATAGRAM_LEN];
    bytes[0] = SHORT;
    bytes[1..][..id.len()].copy_from_slice(id);
    bytes
}
