//! The channels of the plain loads, two rings on atomic words each, and the loops of both ends. Each request is a packet of a descriptor, a storage packet and the data.

use std::sync::atomic::{AtomicBool, AtomicU64, AtomicUsize, Ordering::SeqCst};
use std::sync::OnceLock;
use std::thread::{self, Thread};

pub const CHANNELS: usize = 4;
const WINDOW: usize = 4;
pub const BLOCK: usize = 512;
const CELLS: usize = 512;
const HEAD: usize = 10; // words of the descriptor and of the storage packet

/// One ring: cells, and the indices of its producer and its consumer, which count words.
struct Ring {
    cells: Vec<AtomicU64>,
    write: AtomicUsize,
    read: AtomicUsize,
}

impl Ring {
    fn new() -> Ring {
        Ring {
            cells: (0..CELLS).map(|_| AtomicU64::new(0)).collect(),
            write: AtomicUsize::new(0),
            read: AtomicUsize::new(0),
        }
    }

    fn used(write: usize, read: usize) -> usize {
        (write + CELLS - read) % CELLS
    }

    /// Sends a packet and its trailer, where there is room.
    fn send(&self, packet: &[u64]) -> bool {
        let (write, read) = (self.write.load(SeqCst), self.read.load(SeqCst));
        if Ring::used(write, read) + packet.len() + 1 >= CELLS {
            return false;
        }
        for (i, word) in packet.iter().enumerate() {
            self.cells[(write + i) % CELLS].store(*word, SeqCst);
        }
        self.cells[(write + packet.len()) % CELLS].store((write as u64) << 35, SeqCst);
        self.write.store((write + packet.len() + 1) % CELLS, SeqCst);
        true
    }

    /// Takes the next packet, where there is one.
    fn take(&self, packet: &mut Vec<u64>) -> bool {
        let (write, read) = (self.write.load(SeqCst), self.read.load(SeqCst));
        if write == read {
            return false;
        }
        packet.clear();
        let first = self.cells[read].load(SeqCst);
        let len = (first >> 32) as u16 as usize;
        packet.push(first);
        for i in 1..len {
            packet.push(self.cells[(read + i) % CELLS].load(SeqCst));
        }
        self.read.store((read + len + 1) % CELLS, SeqCst);
        true
    }
}

/// An end that may sleep, and the thread to wake then.
#[derive(Default)]
struct Sleeper {
    asleep: AtomicBool,
    thread: OnceLock<Thread>,
}

impl Sleeper {
    /// Sleeps, unless a second look finds something to do.
    fn sleep(&self, busy: impl Fn() -> bool) {
        self.thread.get_or_init(thread::current);
        self.asleep.store(true, SeqCst);
        if !busy() {
            thread::park();
        }
        self.asleep.store(false, SeqCst);
    }

    fn wake(&self) {
        if self.asleep.load(SeqCst) {
            self.thread.get().unwrap().unpark();
        }
    }
}

pub struct Channel {
    to_host: Ring,
    to_guest: Ring,
    guest: Sleeper,
    host: Sleeper,
    over: AtomicBool,
}

impl Channel {
    pub fn new() -> Channel {
        Channel {
            to_host: Ring::new(),
            to_guest: Ring::new(),
            guest: Sleeper::default(),
            host: Sleeper::default(),
            over: AtomicBool::new(false),
        }
    }
}

/// A packet of this kind and id, with a storage packet that names the block, and data.
pub fn packet(kind: u16, id: u64, block: u32, writes: bool, data: &[u8]) -> Vec<u64> {
    let len = HEAD + data.len() / 8;
    let mut words = vec![0; HEAD];
    words[0] = u64::from(kind) | 2 << 16 | (len as u64) << 32;
    words[1] = id;
    words[2] = 3 | 1 << 32;
    words[5] = u64::from(block) | u64::from(writes) << 32;
    words.extend(data.chunks_exact(8).map(|c| u64::from_le_bytes(c.try_into().unwrap())));
    words
}

pub fn data_of(words: &[u64]) -> Vec<u8> {
    words[HEAD..].iter().flat_map(|w| w.to_le_bytes()).collect()
}

/// The host's end: serves each request, whose packet `answer` makes the answer of, until the guest is done.
pub fn serve(channel: &Channel, mut answer: impl FnMut(&[u64]) -> Vec<u64>) {
    let mut words = Vec::new();
    let mut owed: Option<Vec<u64>> = None;
    loop {
        if let Some(answer) = owed.take() {
            if !channel.to_guest.send(&answer) {
                owed = Some(answer);
                channel.host.sleep(|| {
                    let ring = &channel.to_guest;
                    Ring::used(ring.write.load(SeqCst), ring.read.load(SeqCst)) + HEAD + BLOCK / 8 + 1 < CELLS
                });
                continue;
            }
            channel.guest.wake();
        }
        if channel.to_host.take(&mut words) {
            channel.guest.wake();
            owed = Some(answer(&words));
        } else if channel.over.load(SeqCst) {
            return;
        } else {
            let ring = &channel.to_host;
            channel.host.sleep(|| ring.write.load(SeqCst) != ring.read.load(SeqCst) || channel.over.load(SeqCst));
        }
    }
}

/// The guest's end: sends so many requests, of which at most a window are open at once, and settles each by its answer. `request` makes the packet of each.
pub fn ask(channel: &Channel, count: usize, request: impl Fn(usize) -> Vec<u64>, mut settle: impl FnMut(&[u64])) {
    let mut words = Vec::new();
    let (mut next, mut settled) = (0, 0);
    while settled < count {
        let mut moved = false;
        while next < count && next - settled < WINDOW {
            if !channel.to_host.send(&request(next)) {
                break;
            }
            channel.host.wake();
            next += 1;
            moved = true;
        }
        while channel.to_guest.take(&mut words) {
            channel.host.wake();
            settle(&words);
            settled += 1;
            moved = true;
        }
        if !moved {
            let ring = &channel.to_guest;
            channel.guest.sleep(|| ring.write.load(SeqCst) != ring.read.load(SeqCst));
        }
    }
    channel.over.store(true, SeqCst);
    channel.host.wake();
}

/// One phase: a channel for each of these lists of requests, with a host's and a guest's thread. What each guest gives, in order.
pub fn run_phase<A: Send, B: Send>(dealt: Vec<A>, host: impl Fn(&Channel, usize) + Sync, guest: impl Fn(&Channel, A) -> B + Sync) -> Vec<B> {
    let channels: Vec<Channel> = dealt.iter().map(|_| Channel::new()).collect();
    let (host, guest) = (&host, &guest);
    thread::scope(|scope| {
        for (seat, channel) in channels.iter().enumerate() {
            scope.spawn(move || host(channel, seat));
        }
        let guests: Vec<_> = channels.iter().zip(dealt).map(|(channel, asks)| scope.spawn(move || guest(channel, asks))).collect();
        guests.into_iter().map(|guest| guest.join().unwrap()).collect()
    })
}
