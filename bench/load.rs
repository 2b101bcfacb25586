//! The job of `vmbus load SEED COUNT` as a plain program, without a proof, to compare times with: a disk behind a Mutex that keeps its history, four channels
//! of two rings on atomic words each, a guest's and a host's thread a channel, and at most four requests of a channel open at once. Each request is a packet
//! of a descriptor, a storage packet and the data. Channels are there from the beginning: no control message opens them, and no start-up is asked for.

mod channel;

use channel::{ask, data_of, packet, run_phase, serve, Channel, BLOCK, CHANNELS};
use std::sync::Mutex;

/// A request: its block, and what fills it where it writes.
#[derive(Clone, Copy)]
struct Ask {
    block: u32,
    fill: Option<u8>,
}

/// A served request with its reply: the bytes written, or those that were read.
#[allow(dead_code)]
struct Entry {
    seat: usize,
    ask: Ask,
    data: Vec<u8>,
}

struct Disk {
    blocks: Vec<[u8; BLOCK]>,
    history: Vec<Entry>,
}

/// The answer to a request: it is served under the disk's lock, which keeps it.
fn serve_request(disk: &Mutex<Disk>, seat: usize, words: &[u64]) -> Vec<u64> {
    let data = data_of(words);
    let ask = Ask {
        block: words[5] as u32,
        fill: data.first().copied(),
    };
    let mut disk = disk.lock().unwrap();
    let back = if data.is_empty() {
        disk.blocks[ask.block as usize].to_vec()
    } else {
        disk.blocks[ask.block as usize].copy_from_slice(&data);
        Vec::new()
    };
    let data = if data.is_empty() { back.clone() } else { data };
    disk.history.push(Entry { seat, ask, data });
    drop(disk);
    packet(11, words[1], ask.block, ask.fill.is_some(), &back)
}

/// What comes back of each of these requests.
fn ask_all(channel: &Channel, asks: Vec<Ask>) -> Vec<Vec<u8>> {
    let mut back = vec![Vec::new(); asks.len()];
    let request = |k: usize| {
        let data = asks[k].fill.map_or(Vec::new(), |fill| vec![fill; BLOCK]);
        packet(6, k as u64, asks[k].block, asks[k].fill.is_some(), &data)
    };
    ask(channel, asks.len(), request, |words| back[words[1] as usize] = data_of(words));
    back
}

/// One phase: the requests are dealt to the channels in turn, and each channel has two threads.
fn phase(disk: &Mutex<Disk>, asks: &[Ask]) -> Vec<Vec<u8>> {
    let dealt: Vec<Vec<Ask>> = (0..CHANNELS).map(|c| asks.iter().skip(c).step_by(CHANNELS).copied().collect()).collect();
    let host = |channel: &Channel, seat| serve(channel, |words| serve_request(disk, seat, words));
    run_phase(dealt, host, ask_all).into_iter().flatten().collect()
}

fn main() {
    let words: Vec<u64> = std::env::args().skip(1).map(|w| w.parse().expect("a number")).collect();
    let [seed, count] = words[..] else { panic!("load SEED COUNT") };
    let disk = Mutex::new(Disk {
        blocks: vec![[0; BLOCK]; 4096],
        history: Vec::new(),
    });
    let half = count / 2;
    let writes: Vec<Ask> = (0..half).map(|k| Ask { block: k as u32, fill: Some((seed + 7 * k) as u8) }).collect();
    let reads: Vec<Ask> = (0..half).map(|k| Ask { block: k as u32, fill: None }).collect();
    phase(&disk, &writes);
    let back = phase(&disk, &reads);
    let done = disk.lock().unwrap().history.len();
    let bytes: usize = back.iter().map(Vec::len).sum();
    let sum: u64 = back.iter().flatten().map(|b| u64::from(*b)).sum();
    println!("load requests {count} done {done} bytes {bytes} sum {sum}");
}
