//! The same job as `load.rs`, by a plain program whose values are as large as the library's: a request, a reply, a line of the script and an outcome have room for
//! 4,096 bytes where they stand, and go by value from the script to a worker, to the history, and to the outcomes.

mod channel;

use channel::{ask, data_of, packet, run_phase, serve, Channel, BLOCK, CHANNELS};
use std::sync::Mutex;

/// At most 4,096 bytes, held in place.
#[derive(Clone, Copy)]
struct Chunk {
    len: usize,
    bytes: [u8; 4096],
}

impl Chunk {
    fn of(bytes: &[u8]) -> Chunk {
        let mut chunk = Chunk {
            len: bytes.len(),
            bytes: [0; 4096],
        };
        chunk.bytes[..bytes.len()].copy_from_slice(bytes);
        chunk
    }

    fn bytes(&self) -> &[u8] {
        &self.bytes[..self.len]
    }
}

/// A request: its block, and the bytes that it writes, if it writes.
#[derive(Clone, Copy)]
struct Ask {
    block: u32,
    out: Chunk,
}

/// A line of the script.
#[allow(dead_code)]
struct Line {
    number: u32,
    ask: Ask,
}

/// A served request with its reply.
#[allow(dead_code)]
struct Entry {
    seat: usize,
    ask: Ask,
    reply: Chunk,
}

/// The outcome of a line.
struct LineResult {
    reply: Chunk,
}

struct Disk {
    blocks: Vec<[u8; BLOCK]>,
    history: Vec<Entry>,
}

impl Disk {
    fn apply(&mut self, ask: &Ask) -> Chunk {
        let block = &mut self.blocks[ask.block as usize];
        if ask.out.len == 0 {
            return Chunk::of(block);
        }
        block.copy_from_slice(ask.out.bytes());
        Chunk::of(&[])
    }
}

/// The answer to a request: it is served under the disk's lock, which keeps it.
fn serve_request(disk: &Mutex<Disk>, seat: usize, words: &[u64]) -> Vec<u64> {
    let ask = Ask {
        block: words[5] as u32,
        out: Chunk::of(&data_of(words)),
    };
    let reply = {
        let mut disk = disk.lock().unwrap();
        let reply = disk.apply(&ask);
        disk.history.push(Entry { seat, ask, reply });
        reply
    };
    packet(11, words[1], ask.block, ask.out.len != 0, reply.bytes())
}

/// The replies to these requests.
fn ask_all(channel: &Channel, asks: Vec<Ask>) -> Vec<Chunk> {
    let mut back = Vec::with_capacity(asks.len());
    let request = |k: usize| packet(6, k as u64, asks[k].block, asks[k].out.len != 0, asks[k].out.bytes());
    ask(channel, asks.len(), request, |words| back.push(Chunk::of(&data_of(words))));
    back
}

/// One phase: the requests are dealt to the channels in turn, each channel has two threads, and the outcomes stand in the order of the lines.
fn phase(disk: &Mutex<Disk>, lines: &[Line], results: &mut Vec<LineResult>) {
    let dealt: Vec<Vec<Ask>> = (0..CHANNELS).map(|c| lines.iter().skip(c).step_by(CHANNELS).map(|line| line.ask).collect()).collect();
    disk.lock().unwrap().history.reserve(lines.len());
    let host = |channel: &Channel, seat| serve(channel, |words| serve_request(disk, seat, words));
    let back = run_phase(dealt, host, ask_all);
    let mut replies: Vec<_> = back.into_iter().map(Vec::into_iter).collect();
    for i in 0..lines.len() {
        results.push(LineResult {
            reply: replies[i % CHANNELS].next().unwrap(),
        });
    }
}

fn main() {
    let words: Vec<u64> = std::env::args().skip(1).map(|w| w.parse().expect("a number")).collect();
    let [seed, count] = words[..] else { panic!("load SEED COUNT") };
    let disk = Mutex::new(Disk {
        blocks: vec![[0; BLOCK]; 4096],
        history: Vec::new(),
    });
    let half = count / 2;
    let line = |k: u64, out: &[u8]| Line {
        number: k as u32,
        ask: Ask {
            block: (k % half) as u32,
            out: Chunk::of(out),
        },
    };
    let mut lines = Vec::with_capacity(count as usize);
    lines.extend((0..half).map(|k| line(k, &[(seed + 7 * k) as u8; BLOCK])));
    lines.extend((half..count).map(|k| line(k, &[])));
    let mut results = Vec::with_capacity(count as usize);
    phase(&disk, &lines[..half as usize], &mut results);
    phase(&disk, &lines[half as usize..], &mut results);
    let done = disk.lock().unwrap().history.len();
    let bytes: usize = results.iter().map(|result| result.reply.len).sum();
    let sum: u64 = results.iter().flat_map(|result| result.reply.bytes()).map(|b| u64::from(*b)).sum();
    println!("load requests {count} done {done} bytes {bytes} sum {sum}");
}
