//! What Rust's own channels cost: `mpsc`, and a deque behind a lock with two condition variables. The same four things are measured as by
//! `tools/bench handles`: tries on one thread and between two, blocking calls in a stream and in turns. With `--cfg ported` the
//! crates that are ported here stand beside them, and crossbeam's, in the versions that the system packages; so do their queues and events.
//!
//! usage: native_peers [WORD ..], of `parts`, `alone`, `queues`, `between`, `why`, `bytes` and `script`; all of them
//! where none is named.
mod native_parts;

#[cfg(ported)]
use native_parts::Lists;
use native_parts::measure_parts_of_ours;
use std::alloc::{GlobalAlloc, Layout, System};
use std::collections::{HashMap, VecDeque};
use std::fmt::Write;
use std::hint::black_box;
use std::sync::atomic::{AtomicBool, AtomicUsize, Ordering::Relaxed};
use std::sync::mpsc::{Receiver, Sender, SyncSender, channel, sync_channel};
use std::sync::{Condvar, Mutex};
use std::thread;
use std::time::Instant;

const ALONE: u64 = 100_000;
const BETWEEN: u64 = 50_000;
const TURNS: u64 = 5_000;
/// What other work adds to a round on one thread is small, so many of them find one that nothing disturbed.
const ROUNDS_ALONE: usize = 100;
const ROUNDS_BETWEEN: usize = 12;
/// How many messages, places or listeners bytes are counted of.
const MANY: usize = 1_000_000;

/// The system's memory, which counts the bytes that are held, and the most that were at a time, while it is told to.
struct Counting;

static COUNTS: AtomicBool = AtomicBool::new(false);
static HELD: AtomicUsize = AtomicUsize::new(0);
static MOST: AtomicUsize = AtomicUsize::new(0);

unsafe impl GlobalAlloc for Counting {
    unsafe fn alloc(&self, layout: Layout) -> *mut u8 {
        if COUNTS.load(Relaxed) {
            let held = HELD.fetch_add(layout.size(), Relaxed) + layout.size();
            MOST.fetch_max(held, Relaxed);
        }
        unsafe { System.alloc(layout) }
    }
    unsafe fn dealloc(&self, block: *mut u8, layout: Layout) {
        if COUNTS.load(Relaxed) {
            HELD.fetch_sub(layout.size(), Relaxed);
        }
        unsafe { System.dealloc(block, layout) }
    }
}

#[global_allocator]
static COUNTING: Counting = Counting;

trait Channel: Sync {
    fn put(&self, message: u64) -> bool;
    fn get(&self) -> Option<u64>;
    fn send(&self, message: u64);
    fn receive(&self) -> u64;
}

/// `mpsc`; its receiver is behind a lock that nobody else ever takes, since it may not be shared.
struct Mpsc {
    bounded: Option<SyncSender<u64>>,
    unbounded: Option<Sender<u64>>,
    from: Mutex<Receiver<u64>>,
}

impl Channel for Mpsc {
    fn put(&self, message: u64) -> bool {
        match (&self.bounded, &self.unbounded) {
            (Some(to), _) => to.try_send(message).is_ok(),
            (_, Some(to)) => to.send(message).is_ok(),
            _ => false,
        }
    }
    fn get(&self) -> Option<u64> {
        self.from.lock().unwrap().try_recv().ok()
    }
    fn send(&self, message: u64) {
        match (&self.bounded, &self.unbounded) {
            (Some(to), _) => to.send(message).unwrap(),
            (_, Some(to)) => to.send(message).unwrap(),
            _ => unreachable!(),
        }
    }
    fn receive(&self) -> u64 {
        self.from.lock().unwrap().recv().unwrap()
    }
}

/// A deque behind a lock.
struct Locked {
    most: usize,
    items: Mutex<VecDeque<u64>>,
    came: Condvar,
    left: Condvar,
}

impl Channel for Locked {
    fn put(&self, message: u64) -> bool {
        let mut items = self.items.lock().unwrap();
        if items.len() == self.most {
            return false;
        }
        items.push_back(message);
        self.came.notify_one();
        true
    }
    fn get(&self) -> Option<u64> {
        let got = self.items.lock().unwrap().pop_front();
        self.left.notify_one();
        got
    }
    fn send(&self, message: u64) {
        let items = self.items.lock().unwrap();
        let mut items = self.left.wait_while(items, |items| items.len() == self.most).unwrap();
        items.push_back(message);
        self.came.notify_one();
    }
    fn receive(&self) -> u64 {
        let items = self.items.lock().unwrap();
        let mut items = self.came.wait_while(items, |items| items.is_empty()).unwrap();
        let got = items.pop_front().unwrap();
        self.left.notify_one();
        got
    }
}

/// The channels of crates whose handles have the same calls under other names.
#[cfg(ported)]
macro_rules! packaged {
    ($name:ident, $from:ident, $send:ident, $receive:ident) => {
        struct $name {
            to: $from::Sender<u64>,
            from: $from::Receiver<u64>,
        }
        impl Channel for $name {
            fn put(&self, message: u64) -> bool {
                self.to.try_send(message).is_ok()
            }
            fn get(&self) -> Option<u64> {
                self.from.try_recv().ok()
            }
            fn send(&self, message: u64) {
                self.to.$send(message).unwrap()
            }
            fn receive(&self) -> u64 {
                self.from.$receive().unwrap()
            }
        }
        impl $name {
            fn open(capacity: usize) -> Self {
                let (to, from) = match capacity {
                    0 => $from::unbounded(),
                    _ => $from::bounded(capacity),
                };
                $name { to, from }
            }
        }
    };
}

#[cfg(ported)]
packaged!(Ported, async_channel, send_blocking, recv_blocking);
#[cfg(ported)]
packaged!(Crossbeam, crossbeam_channel, send, recv);

fn mpsc(capacity: usize) -> Mpsc {
    if capacity == 0 {
        let (to, from) = channel();
        Mpsc { bounded: None, unbounded: Some(to), from: Mutex::new(from) }
    } else {
        let (to, from) = sync_channel(capacity);
        Mpsc { bounded: Some(to), unbounded: None, from: Mutex::new(from) }
    }
}

fn locked(capacity: usize) -> Locked {
    let most = if capacity == 0 { usize::MAX } else { capacity };
    Locked { most, items: Mutex::new(VecDeque::new()), came: Condvar::new(), left: Condvar::new() }
}

fn alone(c: &impl Channel) -> u64 {
    (0..ALONE).filter(|message| c.put(*message)).map(|_| c.get().unwrap()).sum()
}

/// One thread puts and one gets, each again until it goes.
fn pass_on(put: impl Fn(u64) -> bool + Sync, get: impl Fn() -> Option<u64>) -> u64 {
    thread::scope(|scope| {
        scope.spawn(|| {
            for message in 0..BETWEEN {
                while !put(message) {
                    thread::yield_now();
                }
            }
        });
        (0..BETWEEN)
            .map(|_| loop {
                match get() {
                    Some(message) => break message,
                    None => thread::yield_now(),
                }
            })
            .sum()
    })
}

fn stream(c: &impl Channel) -> u64 {
    thread::scope(|scope| {
        scope.spawn(|| (0..BETWEEN).for_each(|message| c.send(message)));
        (0..BETWEEN).map(|_| c.receive()).sum()
    })
}

fn turns<C: Channel>(there: &C, back: &C) -> u64 {
    thread::scope(|scope| {
        scope.spawn(|| (0..TURNS).for_each(|_| back.send(there.receive())));
        (0..TURNS)
            .map(|message| {
                there.send(message);
                back.receive()
            })
            .sum()
    })
}

fn measure(name: &str, what: &str, rounds: usize, calls: u64, mut round: impl FnMut() -> u64) {
    let mut nanos: Vec<u128> = (0..rounds)
        .map(|_| {
            let start = Instant::now();
            black_box(round());
            start.elapsed().as_nanos()
        })
        .collect();
    nanos.sort_unstable();
    let each = |nanos: u128| nanos as f64 / calls as f64;
    println!("{name}, {what}: {:.2} ns at the least, {:.2} in the median", each(nanos[0]), each(nanos[rounds / 2]));
}

/// What one call of a kind takes on one thread.
fn measure_call(name: &str, what: &str, mut call: impl FnMut(u64) -> u64) {
    measure(name, what, ROUNDS_ALONE, ALONE, || (0..ALONE).map(|number| call(black_box(number))).fold(0, u64::wrapping_add));
}

/// The words that were given, and what they name.
struct Wanted(Vec<String>);

impl Wanted {
    fn has(&self, word: &str) -> bool {
        self.0.is_empty() || self.0.iter().any(|it| it == word)
    }
}

fn compare<C: Channel>(wanted: &Wanted, name: &str, capacity: usize, open: impl Fn(usize) -> C) {
    let (there, back) = (open(capacity), open(capacity));
    let name = format!("{name}, capacity {capacity}");
    if wanted.has("alone") {
        measure(&name, "a message by tries on one thread", ROUNDS_ALONE, ALONE, || alone(&there));
    }
    if wanted.has("between") {
        measure(&name, "a message by tries between two threads", ROUNDS_BETWEEN, BETWEEN, || pass_on(|message| there.put(message), || there.get()));
        measure(&name, "a message in a stream of blocking calls", ROUNDS_BETWEEN, BETWEEN, || stream(&there));
        measure(&name, "a message there and back", ROUNDS_BETWEEN, TURNS, || turns(&there, &back));
    }
}

/// A push and a pop of a shared queue, on one thread and between two.
#[cfg(ported)]
fn measure_queue(wanted: &Wanted, name: &str, capacity: usize, put: impl Fn(u64) -> bool + Sync, get: impl Fn() -> Option<u64>) {
    let what = format!("a push and a pop, capacity {capacity}");
    if wanted.has("parts") {
        measure_call(name, &what, |message| {
            put(message);
            get().unwrap_or(0)
        });
    }
    if wanted.has("queues") {
        measure(name, &format!("{what}, between two threads"), ROUNDS_BETWEEN, BETWEEN, || pass_on(&put, &get));
    }
}

#[cfg(ported)]
fn measure_queues(wanted: &Wanted, capacity: usize) {
    let queue = match capacity {
        0 => concurrent_queue::ConcurrentQueue::unbounded(),
        _ => concurrent_queue::ConcurrentQueue::bounded(capacity),
    };
    measure_queue(wanted, "concurrent-queue", capacity, |message| queue.push(message).is_ok(), || queue.pop().ok());
    if capacity == 0 {
        let queue = crossbeam_queue::SegQueue::new();
        measure_queue(wanted, "SegQueue", capacity, |message| queue.push(message) == (), || queue.pop());
    } else {
        let queue = crossbeam_queue::ArrayQueue::new(capacity);
        measure_queue(wanted, "ArrayQueue", capacity, |message| queue.push(message).is_ok(), || queue.pop());
    }
}

/// A stream of blocking calls with the sections of ours beside each message: two of the sender, and one of the receiver.
#[cfg(ported)]
fn measure_sections(what: &str, lists: Lists) {
    let channel = Ported::open(128);
    measure("parts", what, ROUNDS_BETWEEN, BETWEEN, || {
        thread::scope(|scope| {
            scope.spawn(|| {
                for message in 0..BETWEEN {
                    channel.send(message);
                    (lists.tell(0), lists.tell(1));
                }
            });
            (0..BETWEEN).map(|_| (channel.receive(), lists.tell(2)).0).sum()
        })
    });
}

/// Of what a stream between two threads takes its time: of ours, and of Rust's with more beside it.
fn measure_why() {
    measure_parts_of_ours();
    #[cfg(ported)]
    {
        measure_sections("async-channel, sections on lists apart", Lists::apart());
        measure_sections("async-channel, sections on lists that lie as ours", Lists::as_ours());
    }
}

/// A clone of a sender and its drop, and the calls of an event.
#[cfg(ported)]
fn measure_handles_and_events() {
    let (ported, crossbeam, lock) = (Ported::open(128), Crossbeam::open(128), Mutex::new(0));
    measure_call("async-channel", "a clone of a sender and its drop", |_| drop_of(ported.to.clone()));
    measure_call("crossbeam-channel", "a clone of a sender and its drop", |_| drop_of(crossbeam.to.clone()));
    let (new, event) = (event_listener::Event::new(), event_listener::Event::new());
    measure_call("event-listener", "a notice where nobody ever listened", |_| {
        new.notify_additional(1);
        0
    });
    measure_call("event-listener", "a listener and its drop", |_| drop_of(event.listen()));
    measure_call("event-listener", "a notice where nobody listens now", |_| {
        event.notify_additional(1);
        0
    });
    measure_call("std", "a lock taken and given back", |number| {
        *lock.lock().unwrap() += 1;
        number
    });
}

#[cfg(ported)]
fn drop_of<V>(value: V) -> u64 {
    drop(black_box(value));
    1
}

fn measure_parts() {
    let mut deque = VecDeque::from_iter(0..500);
    measure_call("std", "a push and a pop of a deque that holds 500", |message| {
        deque.push_back(message);
        deque.pop_front().unwrap_or(0)
    });
    #[cfg(ported)]
    measure_handles_and_events();
}

/// The bytes that each of many takes of what this makes, while they are held and at the most on the way there.
fn count_bytes<V>(name: &str, what: &str, make: impl FnOnce() -> V) {
    HELD.store(0, Relaxed);
    MOST.store(0, Relaxed);
    COUNTS.store(true, Relaxed);
    let made = black_box(make());
    COUNTS.store(false, Relaxed);
    let each = |bytes: usize| bytes as f64 / MANY as f64;
    println!("{name}, {what}: {:.1} bytes held, {:.1} at the most", each(HELD.load(Relaxed)), each(MOST.load(Relaxed)));
    drop(made);
}

fn count_bytes_of<C: Channel>(name: &str, open: impl Fn(usize) -> C) {
    count_bytes(name, "a message held without a bound", || {
        let channel = open(0);
        (0..MANY as u64).for_each(|message| channel.send(message));
        channel
    });
    count_bytes(name, "a place of a new one", || open(MANY));
}

fn count_all_bytes() {
    count_bytes_of("mpsc", mpsc);
    #[cfg(ported)]
    {
        count_bytes_of("async-channel", Ported::open);
        count_bytes_of("crossbeam-channel", Crossbeam::open);
        let event = event_listener::Event::new();
        let mut listeners = Vec::with_capacity(MANY);
        count_bytes("event-listener", "a listener", || (0..MANY).for_each(|_| listeners.push(event.listen())));
        println!("event-listener, a listener's handle: {} bytes", size_of::<event_listener::EventListener>());
    }
}

/// What a plain interpreter answers to a script of sends and receives: its names are found by hashes, its messages lie in a deque.
fn play(script: &str) -> String {
    let (mut most, mut items, mut answers) = (0, VecDeque::new(), String::new());
    let sides = HashMap::from([("s".to_string(), true), ("r".to_string(), false)]);
    for line in script.lines() {
        let mut words = line.split(' ');
        let (call, name) = (words.next().unwrap_or(""), words.next().unwrap_or(""));
        let message = words.next().and_then(|word| word.parse::<u64>().ok());
        let _ = match (call, sides.get(name), message) {
            ("bounded", None, None) => {
                most = name.parse().unwrap_or(0);
                writeln!(answers, "ok")
            }
            ("try_send", Some(true), Some(message)) if items.len() == most => writeln!(answers, "full {message}"),
            ("try_send", Some(true), Some(message)) => {
                items.push_back(message);
                writeln!(answers, "ok")
            }
            ("try_recv", Some(false), None) => match items.pop_front() {
                Some(message) => writeln!(answers, "ok {message}"),
                None => writeln!(answers, "empty"),
            },
            _ => return answers + "can't be read\n",
        };
    }
    answers
}

fn measure_script() {
    let mut script = "bounded 1000\n".to_string();
    (0..ALONE / 2).for_each(|message| write!(script, "try_send s {message}\ntry_recv r\n").unwrap());
    measure("a plain interpreter", "a line of a script", ROUNDS_ALONE, ALONE, || play(&script).len() as u64);
}

fn main() {
    let wanted = Wanted(std::env::args().skip(1).collect());
    if wanted.has("parts") {
        measure_parts();
    }
    for capacity in [1, 3, 128, 0] {
        #[cfg(ported)]
        measure_queues(&wanted, capacity);
        #[cfg(ported)]
        compare(&wanted, "async-channel", capacity, Ported::open);
        #[cfg(ported)]
        compare(&wanted, "crossbeam-channel", capacity, Crossbeam::open);
        compare(&wanted, "mpsc", capacity, mpsc);
        compare(&wanted, "a deque behind a lock", capacity, locked);
    }
    if wanted.has("why") {
        measure_why();
    }
    if wanted.has("bytes") {
        count_all_bytes();
    }
    if wanted.has("script") {
        measure_script();
    }
}
