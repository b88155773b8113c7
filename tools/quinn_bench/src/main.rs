//! Work of two quinn-proto connections in memory, to be timed. `quinn_bench STREAMS BYTES` sends so many bytes on the first of so
//! many open streams, and `quinn_bench handshake N` connects N pairs of fresh ends in turn. It does what the words `bulk
//! connection STREAMS BYTES` and `bulk handshake N` of the program `endpoint_rows` of this repository do. `quinn_bench route
//! CONNECTIONS DATAGRAMS` hands so many datagrams in turn over so many live connections to the endpoint of their server.
mod plain;
mod route;

use bytes::BytesMut;
use plain::Plain;
use quinn_proto::congestion::NewRenoConfig;
use quinn_proto::{
    ClientConfig, Connection, ConnectionHandle, DatagramEvent, Dir, Endpoint, EndpointConfig,
    ServerConfig, StreamId, Transmit, TransportConfig, VarInt,
};
use route::Crowd;
use std::net::{Ipv4Addr, SocketAddr};
use std::str::FromStr;
use std::sync::Arc;
use std::time::{Duration, Instant};

/// Of each stream, of the connection, of what is held to send, and of what may be in flight at first.
const WINDOW: u32 = 1_048_576;

/// How long a round takes.
const ROUND: Duration = Duration::from_millis(1);

/// What the writer gives in one call.
const PIECE: [u8; 4_096] = [0x51; 4_096];

/// How many two-way streams the ends of a handshake permit.
const STREAMS: u32 = 10;

fn main() {
    let words: Vec<String> = std::env::args().skip(1).collect();
    match words.first() {
        Some(word) if word == "handshake" => connect_many(number(&words, 1, 0)),
        Some(word) if word == "route" => route_all(number(&words, 1, 1), number(&words, 2, 0)),
        _ => send_over(number(&words, 0, 1), number(&words, 1, 0)),
    }
}

/// The word in this place as a number.
fn number<T: FromStr>(words: &[String], place: usize, otherwise: T) -> T {
    words
        .get(place)
        .and_then(|word| word.parse().ok())
        .unwrap_or(otherwise)
}

/// Connects that many pairs of fresh ends in turn.
fn connect_many(count: u32) {
    let configs = Configs::new(STREAMS);
    let (mut client, mut server) = (0, 0);
    let start = Instant::now();
    for _ in 0..count {
        let mut pair = Pair::new(&configs);
        pair.connect();
        client += pair.client.datagrams();
        server += pair.server.datagrams();
    }
    let seconds = start.elapsed().as_secs_f64();
    println!("{count} connected, datagrams: {client} from clients, {server} from servers");
    println!("{seconds:.3} seconds, {:.0} handshakes a second", f64::from(count) / seconds);
}

/// Hands that many datagrams to the endpoint of that many connections.
fn route_all(connections: u32, count: usize) {
    let mut crowd = Crowd::new(connections);
    let start = Instant::now();
    let reached = crowd.route(count);
    let seconds = start.elapsed().as_secs_f64();
    println!("{reached} of {count} datagrams reached their own of {connections} connections");
    println!("{seconds:.3} seconds, {:.0} datagrams a second", count as f64 / seconds);
}

/// Sends that many bytes on the first of that many streams.
fn send_over(streams: u32, total: u64) {
    let mut pair = Pair::new(&Configs::new(streams));
    pair.connect();
    let id = pair.open_all(streams);
    let (client, server) = (pair.client.datagrams(), pair.server.datagrams());
    let start = Instant::now();
    let read = pair.run(id, total);
    let seconds = start.elapsed().as_secs_f64();
    println!(
        "{read} of {total} bytes read, datagrams: {} from the client, {} from the server",
        pair.client.datagrams() - client,
        pair.server.datagrams() - server,
    );
    println!("{seconds:.3} seconds, {:.0} MB/s", read as f64 / seconds / 1e6);
}

/// One end: an endpoint and its connection, once there is one.
struct End {
    endpoint: Endpoint,
    connection: Option<(ConnectionHandle, Connection)>,
    address: SocketAddr,
}

impl End {
    fn new(endpoint: Endpoint, last: u8) -> Self {
        Self {
            endpoint,
            connection: None,
            address: SocketAddr::from((Ipv4Addr::new(10, 0, 0, last), 443)),
        }
    }

    fn connection(&mut self) -> &mut Connection {
        &mut self.connection.as_mut().expect("a connection").1
    }

    fn datagrams(&mut self) -> u64 {
        self.connection().stats().udp_tx.datagrams
    }

    fn is_connected(&self) -> bool {
        matches!(&self.connection, Some((_, connection)) if !connection.is_handshaking())
    }

    /// The next datagram to be sent.
    fn next_datagram(&mut self, now: Instant) -> Option<Transmit> {
        self.endpoint
            .poll_transmit()
            .or_else(|| self.connection.as_mut()?.1.poll_transmit(now, 1))
    }

    /// Takes a datagram that came.
    fn take(&mut self, now: Instant, remote: SocketAddr, contents: &[u8]) {
        match self
            .endpoint
            .handle(now, remote, None, None, BytesMut::from(contents))
        {
            Some((_, DatagramEvent::ConnectionEvent(event))) => self.connection().handle_event(event),
            Some((handle, DatagramEvent::NewConnection(connection))) => {
                self.connection = Some((handle, connection));
            }
            None => {}
        }
    }

    /// Does what is due.
    fn run_timer(&mut self, now: Instant) {
        if let Some((_, connection)) = &mut self.connection {
            if matches!(connection.poll_timeout(), Some(due) if due <= now) {
                connection.handle_timeout(now);
            }
        }
    }

    /// Takes what is told, and tells the endpoint what is for it.
    fn poll_all(&mut self) {
        let (handle, connection) = match &mut self.connection {
            Some((handle, connection)) => (handle, connection),
            None => return,
        };
        while connection.poll().is_some() {}
        while let Some(event) = connection.poll_endpoint_events() {
            if let Some(answer) = self.endpoint.handle_event(*handle, event) {
                connection.handle_event(answer);
            }
        }
    }
}

/// What ends begin with.
struct Configs {
    endpoint: Arc<EndpointConfig>,
    client: ClientConfig,
    server: Arc<ServerConfig>,
}

impl Configs {
    fn new(streams: u32) -> Self {
        let transport = Arc::new(transport(streams));
        let mut client = ClientConfig::new(Arc::new(Plain));
        client.transport_config(transport.clone());
        let mut server = ServerConfig::new(Arc::new(Plain), Arc::new(Plain));
        server.transport_config(transport);
        Self {
            endpoint: Arc::new(EndpointConfig::new(Arc::new(Plain))),
            client,
            server: Arc::new(server),
        }
    }
}

/// Two ends, and the moment.
struct Pair {
    client: End,
    server: End,
    config: ClientConfig,
    now: Instant,
}

impl Pair {
    fn new(configs: &Configs) -> Self {
        let endpoint = &configs.endpoint;
        let server = Some(configs.server.clone());
        Self {
            client: End::new(Endpoint::new(endpoint.clone(), None), 1),
            server: End::new(Endpoint::new(endpoint.clone(), server), 2),
            config: configs.client.clone(),
            now: Instant::now(),
        }
    }

    /// Connects, as both ends have to know of.
    fn connect(&mut self) {
        self.client.connection = Some(
            self.client
                .endpoint
                .connect(self.config.clone(), self.server.address, "a.test")
                .expect("a connection"),
        );
        for _ in 0..100 {
            if self.client.is_connected() && self.server.is_connected() {
                return;
            }
            self.turn();
        }
        panic!("not connected");
    }

    /// A round in which nothing is written or read.
    fn turn(&mut self) {
        self.run_timers();
        hand_over(self.now, &mut self.client, &mut self.server);
        hand_over(self.now, &mut self.server, &mut self.client);
        self.end_round();
    }

    fn run_timers(&mut self) {
        self.client.run_timer(self.now);
        self.server.run_timer(self.now);
    }

    fn end_round(&mut self) {
        self.client.poll_all();
        self.server.poll_all();
        self.now += ROUND;
    }

    /// Opens so many streams. Answers the first.
    fn open_all(&mut self, streams: u32) -> StreamId {
        let mut client = self.client.connection().streams();
        let first = client.open(Dir::Bi).expect("a stream");
        for _ in 1..streams {
            client.open(Dir::Bi).expect("a stream");
        }
        first
    }

    /// Sends so many bytes, in as many rounds as that takes where a round brings a datagram. Answers how many were read.
    fn run(&mut self, id: StreamId, total: u64) -> u64 {
        let mut left = total;
        let mut read = 0;
        for _ in 0..total / 1_000 + 1_000 {
            if read >= total {
                break;
            }
            self.run_timers();
            left -= write(self.client.connection(), id, left);
            hand_over(self.now, &mut self.client, &mut self.server);
            read += read_all(self.server.connection(), id);
            hand_over(self.now, &mut self.server, &mut self.client);
            self.end_round();
        }
        read
    }
}

fn transport(streams: u32) -> TransportConfig {
    let mut congestion = NewRenoConfig::default();
    congestion.initial_window(WINDOW.into());
    let mut transport = TransportConfig::default();
    transport
        .stream_receive_window(VarInt::from_u32(WINDOW))
        .receive_window(VarInt::from_u32(WINDOW))
        .send_window(WINDOW.into())
        .max_concurrent_bidi_streams(VarInt::from_u32(streams))
        .max_concurrent_uni_streams(VarInt::from_u32(0))
        .max_idle_timeout(None)
        .initial_rtt(Duration::from_millis(1))
        .datagram_receive_buffer_size(None)
        .congestion_controller_factory(Arc::new(congestion));
    transport
}

/// Hands each datagram that one end has to send over to the other.
fn hand_over(now: Instant, from: &mut End, to: &mut End) {
    while let Some(datagram) = from.next_datagram(now) {
        to.take(now, from.address, &datagram.contents);
    }
}

/// Writes as far as the limits permit, at most so many bytes. Answers how many.
fn write(client: &mut Connection, id: StreamId, left: u64) -> u64 {
    let mut taken = 0;
    loop {
        let len = (left - taken).min(PIECE.len() as u64) as usize;
        match client.send_stream(id).write(&PIECE[..len]) {
            Ok(count) if count > 0 => taken += count as u64,
            _ => return taken,
        }
    }
}

/// Reads what waits. Answers how many bytes.
fn read_all(server: &mut Connection, id: StreamId) -> u64 {
    let mut stream = server.recv_stream(id);
    let mut chunks = match stream.read(true) {
        Ok(chunks) => chunks,
        Err(_) => return 0,
    };
    let mut read = 0;
    while let Ok(Some(chunk)) = chunks.next(usize::MAX) {
        read += chunk.bytes.len() as u64;
    }
    let _ = chunks.finalize();
    read
}
