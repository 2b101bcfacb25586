//! Times of the ring that was written by hand, with the same words as bench/ends.c: `turns`, `window`, `calls` or `bad`; `ordered`, `keeping` or `fenced`; of a window `spins`, `sleeps` or `parks`; then how many
//! packets or calls a round has, how many rounds, the bytes of a packet, the window. Its figures are picoseconds, and nanoseconds of single requests.

mod ring;

use ring::{ends, End, Fenced, Keeping, Order, Ordered, Sent, Took};
use std::env;
use std::hint;
use std::thread;
use std::time::Instant;

const CELLS: usize = 16 * 512;
const ANSWER: [u64; 3] = [0x3_0002_000b, 1, 2];

/// How an end that has nothing to do waits: it goes on looking at its ring; or it arms its signal, looks at that so often, and then parks its thread.
#[derive(Clone, Copy)]
enum Rest {
    Spins,
    Sleeps(u32),
}

#[derive(Clone, Copy)]
struct Load {
    count: u64,
    window: u64,
    how: Rest,
}

fn a_call(since: Instant, count: u64) -> u128 {
    1000 * since.elapsed().as_nanos() / u128::from(count)
}

fn turns<O: Order>(p: &[u64], count: u64) -> u128 {
    let (mut g, mut h) = ends::<O>(CELLS);
    g.reserve(count as usize, p.len());
    h.reserve(count as usize, p.len());
    let start = Instant::now();
    for _ in 0..count {
        assert!(g.send(p) == Sent::Quiet && h.take() == Took::Quiet);
        hint::black_box(h.packet());
    }
    a_call(start, count)
}

fn rest<O: Order>(e: &mut End<O>, how: Rest) {
    let Rest::Sleeps(looks) = how else {
        hint::spin_loop();
        return;
    };
    if !e.arm(0) {
        return;
    }
    for _ in 0..looks {
        if e.poll() {
            return;
        }
        hint::spin_loop();
    }
    while !e.poll() {
        e.park();
    }
}

/// The guest's part: at most a window of requests is open. Where the ring is full one is, so an end waits for packets alone. How often it raised its peer, and where one is open at most the
/// nanoseconds of each.
fn ask<O: Order>(mut e: End<O>, p: &[u64], load: Load) -> (u64, Vec<u64>) {
    let (mut sent, mut got, mut raised, mut full) = (0, 0, 0, false);
    let (mut times, mut since) = (Vec::new(), Instant::now());
    while got < load.count {
        if !full && sent < load.count && sent - got < load.window {
            match e.send(p) {
                Sent::Full => full = true,
                Sent::Bad => panic!("a bad index"),
                answer => {
                    sent += 1;
                    raised += u64::from(answer == Sent::Raised);
                }
            }
            continue;
        }
        full = false;
        match e.take() {
            Took::Empty => rest(&mut e, load.how),
            Took::Bad => panic!("a bad packet"),
            answer => {
                got += 1;
                raised += u64::from(answer == Took::Raised);
                if load.window == 1 {
                    times.push(since.elapsed().as_nanos() as u64);
                    since = Instant::now();
                }
            }
        }
    }
    (raised, times)
}

/// The host's part: it answers each request. How often it raised its peer.
fn serve<O: Order>(mut e: End<O>, load: Load) -> u64 {
    let (mut got, mut raised) = (0, 0);
    while got < load.count {
        match e.take() {
            Took::Empty => rest(&mut e, load.how),
            Took::Bad => panic!("a bad packet"),
            answer => {
                got += 1;
                raised += u64::from(answer == Took::Raised);
                loop {
                    match e.send(&ANSWER) {
                        Sent::Full => rest(&mut e, load.how),
                        Sent::Bad => panic!("a bad index"),
                        answer => {
                            raised += u64::from(answer == Sent::Raised);
                            break;
                        }
                    }
                }
            }
        }
    }
    raised
}

fn window<O: Order>(p: &[u64], load: Load) -> (u128, u64, [u64; 3]) {
    let (g, h) = ends::<O>(CELLS);
    let start = Instant::now();
    let (raised, mut times) = thread::scope(|scope| {
        let host = scope.spawn(move || serve(h, load));
        let (raised, times) = ask(g, p, load);
        (raised + host.join().unwrap(), times)
    });
    let time = a_call(start, load.count);
    times.sort_unstable();
    let within = |share: usize| times.get(times.len() * share / 100).copied().unwrap_or(0);
    (time, raised, [within(50), within(99), times.last().copied().unwrap_or(0)])
}

/// An empty take, a poll, a wake-up with its packet, a send into a full ring.
fn calls<O: Order>(count: u64) -> [u128; 4] {
    let (mut g, mut h) = ends::<O>(CELLS);
    let start = Instant::now();
    for _ in 0..count {
        assert!(h.take() == Took::Empty);
    }
    let empty = a_call(start, count);
    let start = Instant::now();
    for _ in 0..count {
        assert!(h.arm(0) && g.send(&ANSWER) == Sent::Raised && h.poll() && h.take() == Took::Quiet);
    }
    let woken = a_call(start, count);
    while g.send(&ANSWER) != Sent::Full {}
    let start = Instant::now();
    for _ in 0..count {
        assert!(g.send(&ANSWER) == Sent::Full);
    }
    let full = a_call(start, count);
    assert!(g.arm(0));
    let start = Instant::now();
    for _ in 0..count {
        assert!(!g.poll());
    }
    [empty, a_call(start, count), woken, full]
}

/// A stop at an index in no form.
fn bad<O: Order>(count: u64) -> u128 {
    let (g, mut h) = ends::<O>(CELLS);
    g.spoil();
    let start = Instant::now();
    for _ in 0..count {
        assert!(h.take() == Took::Bad);
    }
    a_call(start, count)
}

fn run<O: Order>(part: &str, how: Rest, numbers: &[u64]) {
    let number = |i: usize, or: u64| numbers.get(i).copied().unwrap_or(or);
    let (count, rounds, words, window_of) = (number(0, 100), number(1, 1), number(2, 24) / 8, number(3, 4));
    let mut p = vec![0x9e37_79b9_7f4a_7c15; words as usize];
    p[0] = words << 32 | 0x2_0006;
    let load = Load {
        count,
        window: window_of,
        how,
    };
    match part {
        "turns" => println!("turns {}", (0..rounds).map(|_| turns::<O>(&p, count)).min().unwrap()),
        "window" => {
            let (time, raised, [median, most, worst]) = window::<O>(&p, load);
            println!("window {time} {raised} {median} {most} {worst}");
        }
        "calls" => {
            let all: Vec<_> = (0..rounds).map(|_| calls::<O>(count)).collect();
            let least = |i: usize| all.iter().map(|it| it[i]).min().unwrap();
            println!("calls {} {} {} {}", least(0), least(1), least(2), least(3));
        }
        "bad" => println!("bad {}", (0..rounds).map(|_| bad::<O>(count)).min().unwrap()),
        _ => panic!("turns, window, calls or bad"),
    }
}

fn main() {
    let words: Vec<String> = env::args().skip(1).collect();
    let has = |name: &str| words.iter().any(|word| word == name);
    let numbers: Vec<u64> = words.iter().filter_map(|word| word.parse().ok()).collect();
    let how = if has("spins") {
        Rest::Spins
    } else if has("parks") {
        Rest::Sleeps(0)
    } else {
        Rest::Sleeps(256)
    };
    let part = words.first().expect("what is timed");
    if has("fenced") {
        run::<Fenced>(part, how, &numbers);
    } else if has("keeping") {
        run::<Keeping>(part, how, &numbers);
    } else {
        run::<Ordered>(part, how, &numbers);
    }
}
