//! A ring written by hand, to compare times with: the words of a channel as atomic words, and an end that makes the library's steps on them, one a word. There is no proof. It comes
//! in two orders of memory: each step sequentially consistent; and what one would write, relaxed words between an acquire and a release, with a full fence where an end stores a
//! word by which its peer decides, and then loads one by which it decides itself. No packet is kept but the last one; or, in the first order, each one that was sent or got.

use std::marker::PhantomData;
use std::sync::atomic::Ordering::{Acquire, Relaxed, Release, SeqCst};
use std::sync::atomic::{fence, AtomicBool, AtomicU64};
use std::sync::{Arc, OnceLock};
use std::thread::{self, Thread};

/// The order of an end's steps, which is sequentially consistent where nothing else is said, and whether it keeps its packets.
pub trait Order: Send + 'static {
    const KEEPS: bool = false;

    fn load_index(word: &AtomicU64) -> u64 {
        word.load(SeqCst)
    }
    fn store_index(word: &AtomicU64, value: u64) {
        word.store(value, SeqCst)
    }
    fn load_cell(word: &AtomicU64) -> u64 {
        word.load(SeqCst)
    }
    fn store_cell(word: &AtomicU64, value: u64) {
        word.store(value, SeqCst)
    }
    fn full_fence() {}
}

pub struct Ordered;

impl Order for Ordered {}

/// As `Ordered`, and each packet is kept.
pub struct Keeping;

impl Order for Keeping {
    const KEEPS: bool = true;
}

pub struct Fenced;

impl Order for Fenced {
    fn load_index(word: &AtomicU64) -> u64 {
        word.load(Acquire)
    }
    fn store_index(word: &AtomicU64, value: u64) {
        word.store(value, Release)
    }
    fn load_cell(word: &AtomicU64) -> u64 {
        word.load(Relaxed)
    }
    fn store_cell(word: &AtomicU64, value: u64) {
        word.store(value, Relaxed)
    }
    fn full_fence() {
        fence(SeqCst)
    }
}

/// One ring. Indices count bytes, as on the wire.
struct Ring {
    write: AtomicU64,
    read: AtomicU64,
    mask: AtomicU64,
    pending: AtomicU64,
    feature: AtomicU64,
    cells: Vec<AtomicU64>,
}

impl Ring {
    fn new(cells: usize) -> Ring {
        Ring {
            write: AtomicU64::new(0),
            read: AtomicU64::new(0),
            mask: AtomicU64::new(1),
            pending: AtomicU64::new(0),
            feature: AtomicU64::new(1),
            cells: (0..cells).map(|_| AtomicU64::new(0)).collect(),
        }
    }
}

/// What raises an end: a word, and the thread that waits for it.
#[derive(Default)]
struct Signal {
    up: AtomicU64,
    parked: AtomicBool,
    thread: OnceLock<Thread>,
}

impl Signal {
    fn raise(&self) {
        self.up.store(1, SeqCst);
        if self.parked.load(SeqCst) {
            self.thread.get().unwrap().unpark();
        }
    }

    fn park(&self) {
        self.thread.get_or_init(thread::current);
        self.parked.store(true, SeqCst);
        if self.up.load(SeqCst) == 0 {
            thread::park();
        }
        self.parked.store(false, SeqCst);
    }
}

/// The rings to the host and to the guest, and the signals of the guest and of the host.
struct Channel {
    rings: [Ring; 2],
    signals: [Signal; 2],
}

/// Packets: the words of all of them, and where each one ends.
#[derive(Default)]
struct Packets {
    words: Vec<u64>,
    ends: Vec<usize>,
}

impl Packets {
    /// Room for so many packets of so many words, in memory that was touched.
    fn reserve(&mut self, packets: usize, words: usize) {
        self.words.resize(packets * words, 1);
        self.words.clear();
        self.ends.resize(packets, 1);
        self.ends.clear();
    }

    fn push(&mut self, packet: &[u64]) {
        self.words.extend_from_slice(packet);
        self.ends.push(self.words.len());
    }
}

/// How a send went.
#[derive(Clone, Copy, PartialEq)]
pub enum Sent {
    Quiet,
    Raised,
    Full,
    Bad,
}

/// How a take went, with its commit.
#[derive(Clone, Copy, PartialEq)]
pub enum Took {
    Quiet,
    Raised,
    Empty,
    Bad,
}

/// One end: 0 the guest's, 1 the host's.
pub struct End<O> {
    channel: Arc<Channel>,
    side: usize,
    bytes: u64,
    write: u64,
    read: u64,
    packet: Vec<u64>,
    sent: Packets,
    got: Packets,
    order: PhantomData<O>,
}

/// Both ends of a new channel, whose rings have so many cells.
pub fn ends<O: Order>(cells: usize) -> (End<O>, End<O>) {
    let channel = Arc::new(Channel {
        rings: [Ring::new(cells), Ring::new(cells)],
        signals: [Signal::default(), Signal::default()],
    });
    let end = |side| End {
        channel: channel.clone(),
        side,
        bytes: 8 * cells as u64,
        write: 0,
        read: 0,
        packet: vec![0; cells],
        sent: Packets::default(),
        got: Packets::default(),
        order: PhantomData,
    };
    (end(0), end(1))
}

impl<O: Order> End<O> {
    fn is_bad(&self, index: u64) -> bool {
        index % 8 != 0 || index >= self.bytes
    }

    /// The words of the packet that was taken last.
    pub fn packet(&self) -> &[u64] {
        &self.packet
    }

    /// Makes room for so many packets of so many words, sent and got, where they are kept.
    pub fn reserve(&mut self, packets: usize, words: usize) {
        if O::KEEPS {
            self.sent.reserve(packets, words);
            self.got.reserve(packets, words);
        }
    }

    /// Sends a packet.
    pub fn send(&mut self, packet: &[u64]) -> Sent {
        let ring = &self.channel.rings[self.side];
        let read = O::load_index(&ring.read);
        if self.is_bad(read) {
            return Sent::Bad;
        }
        let used = (self.write + self.bytes - read) % self.bytes;
        let need = 8 * packet.len() as u64 + 8;
        if self.bytes - used <= need {
            return Sent::Full;
        }
        let before = self.write;
        let mut at = before as usize / 8;
        for word in packet {
            O::store_cell(&ring.cells[at], *word);
            at = if at + 1 == ring.cells.len() { 0 } else { at + 1 };
        }
        O::store_cell(&ring.cells[at], before << 32);
        at = if at + 1 == ring.cells.len() { 0 } else { at + 1 };
        self.write = 8 * at as u64;
        O::store_index(&ring.write, self.write);
        O::full_fence();
        if O::KEEPS {
            self.sent.push(packet);
        }
        if O::load_index(&ring.mask) == 0 && O::load_index(&ring.read) == before {
            self.channel.signals[1 - self.side].raise();
            return Sent::Raised;
        }
        Sent::Quiet
    }

    /// Takes a packet, and gives its room back.
    pub fn take(&mut self) -> Took {
        let ring = &self.channel.rings[1 - self.side];
        let write = O::load_index(&ring.write);
        if self.is_bad(write) {
            return Took::Bad;
        }
        let waiting = (write + self.bytes - self.read) % self.bytes;
        if waiting < 16 {
            return Took::Empty;
        }
        let mut at = self.read as usize / 8;
        let first = O::load_cell(&ring.cells[at]);
        let (offset, len) = ((first >> 16) as u16 as usize, (first >> 32) as u16 as usize);
        if len < 2 || 8 * len as u64 + 8 > waiting || offset < 2 || offset > len {
            return Took::Bad;
        }
        self.packet[0] = first;
        at = if at + 1 == ring.cells.len() { 0 } else { at + 1 };
        for word in &mut self.packet[1..len] {
            *word = O::load_cell(&ring.cells[at]);
            at = if at + 1 == ring.cells.len() { 0 } else { at + 1 };
        }
        at = if at + 1 == ring.cells.len() { 0 } else { at + 1 };
        if O::KEEPS {
            self.got.push(&self.packet[..len]);
        }
        let start = self.read;
        self.read = 8 * at as u64;
        O::store_index(&ring.read, self.read);
        O::full_fence();
        if O::load_index(&ring.feature) & 1 == 0 {
            return Took::Quiet;
        }
        let pending = O::load_index(&ring.pending);
        if pending == 0 {
            return Took::Quiet;
        }
        let write = O::load_index(&ring.write);
        let room = |read: u64| self.bytes - (write + self.bytes - read) % self.bytes;
        if room(start) <= pending && room(self.read) > pending {
            self.channel.signals[1 - self.side].raise();
            return Took::Raised;
        }
        Took::Quiet
    }

    /// Arms the signal, for packets, and for more room than so many bytes where that isn't 0: whether the end is asleep.
    pub fn arm(&mut self, want: u64) -> bool {
        let (out, into) = (&self.channel.rings[self.side], &self.channel.rings[1 - self.side]);
        if want != 0 {
            O::store_index(&out.pending, want);
        }
        O::store_index(&into.mask, 0);
        O::full_fence();
        let packets = O::load_index(&into.write) != self.read;
        let room = want != 0 && self.bytes - (self.write + self.bytes - O::load_index(&out.read)) % self.bytes > want;
        if packets || room {
            self.awake();
            return false;
        }
        true
    }

    /// Takes the signal of an end that is asleep: whether it is awake.
    pub fn poll(&mut self) -> bool {
        if self.channel.signals[self.side].up.swap(0, SeqCst) == 0 {
            return false;
        }
        self.awake();
        true
    }

    fn awake(&mut self) {
        O::store_index(&self.channel.rings[1 - self.side].mask, 1);
        O::store_index(&self.channel.rings[self.side].pending, 0);
    }

    /// Parks the thread while the signal is down.
    pub fn park(&self) {
        self.channel.signals[self.side].park();
    }

    /// Spoils the index by which the other end sees what this one sent.
    pub fn spoil(&self) {
        self.channel.rings[self.side].write.store(u64::MAX, SeqCst);
    }
}
