//! What a message takes in a stream between two threads of what a channel of ours does with it: a ring whose slots have guards or
//! none, and three sections on lists on which nobody waits, which lie as ours do or apart. Steps and places of words are ours.
use super::{BETWEEN, ROUNDS_BETWEEN, measure, pass_on};
use std::cell::UnsafeCell;
use std::hint::black_box;
use std::sync::atomic::{AtomicU64, Ordering::{Relaxed, SeqCst}};

const PLACES: usize = 128;
/// Twice the least power of two above the places: how far a position moves in a round of the ring.
const LAP: u64 = 512;
/// The words of head and tail, one on the head's cache line and one on a line of its own, and of the first guard and the first stamp.
const HEAD: usize = 0;
const BESIDE_HEAD: usize = 1;
const APART: usize = 32;
const TAIL: usize = 16;
const GUARDS: usize = 48;
const STAMPS: usize = GUARDS + PLACES;

#[repr(align(128))]
struct Words<const N: usize>([AtomicU64; N]);

fn words<const N: usize>() -> Box<Words<N>> {
    Box::new(Words([(); N].map(|()| AtomicU64::new(0))))
}

/// A ring for one thread that pushes and one that pops. What it lacks of ours is what refuses, and that others may be quicker.
struct Ring<const GUARDED: bool> {
    /// The word that each call loads first, as a seat on a table of the kit's does.
    seat: Option<usize>,
    words: Box<Words<{ STAMPS + PLACES }>>,
    slots: Vec<UnsafeCell<Option<u64>>>,
}

unsafe impl<const GUARDED: bool> Sync for Ring<GUARDED> {}

impl<const GUARDED: bool> Ring<GUARDED> {
    fn new(seat: Option<usize>) -> Self {
        let words = words();
        (0..PLACES).for_each(|index| words.0[STAMPS + index].store(index as u64, SeqCst));
        Ring { seat, words, slots: (0..PLACES).map(|_| UnsafeCell::new(None)).collect() }
    }

    /// Changes what lies in a slot, between winning its guard and giving it back.
    fn exchange(&self, index: usize, value: Option<u64>) -> Option<u64> {
        let guard = &self.words.0[GUARDS + index];
        if GUARDED {
            while guard.compare_exchange(0, 1, SeqCst, SeqCst).is_err() {}
        }
        let was = std::mem::replace(unsafe { &mut *self.slots[index].get() }, value);
        if GUARDED {
            guard.store(0, SeqCst);
        }
        was
    }

    /// Moves the tail or the head on where the stamp of its place is so many above it, changes the slot and stores the stamp.
    fn step(&self, end: usize, above: u64, left: u64, value: Option<u64>) -> Option<Option<u64>> {
        let words = &self.words.0;
        if let Some(seat) = self.seat {
            black_box(words[seat].load(SeqCst));
        }
        let position = words[end].load(SeqCst);
        let index = position as usize & (LAP as usize - 1);
        let stamp = &words[STAMPS + index];
        if stamp.load(SeqCst) != position + above {
            return None;
        }
        let next = if index + 1 < PLACES { position + 1 } else { position - index as u64 + LAP };
        words[end].compare_exchange(position, next, SeqCst, SeqCst).ok()?;
        let was = self.exchange(index, value);
        stamp.store(position + left, SeqCst);
        Some(was)
    }

    fn push(&self, message: u64) -> bool {
        self.step(TAIL, 0, 1, Some(message)).is_some()
    }

    fn pop(&self) -> Option<u64> {
        self.step(HEAD, 1, LAP, None).flatten()
    }
}

/// Three lists by their first words: of those who receive and of streams, which a send tells, and of those who send. A list has 18
/// words, of which the first is its lock.
pub struct Lists {
    words: Box<Words<128>>,
    first: [usize; 3],
}

impl Lists {
    fn new(first: [usize; 3]) -> Lists {
        Lists { words: words(), first }
    }

    /// As a channel of ours has them, one behind another.
    pub fn as_ours() -> Lists {
        Lists::new([18, 36, 0])
    }

    /// So that what one thread writes shares no cache line with what the other reads.
    pub fn apart() -> Lists {
        Lists::new([32, 64, 96])
    }

    /// A section on a list: its visits are set to 0, and how many are listed is compared with how many of these are told.
    pub fn tell(&self, which: usize) {
        let list = &self.words.0[self.first[which]..][..18];
        while list[0].compare_exchange(0, 1, SeqCst, SeqCst).is_err() {}
        list[1].store(0, Relaxed);
        let (listed, told) = (list[5].load(SeqCst), list[16].load(SeqCst));
        assert_eq!(listed, told);
        list[0].compare_exchange(1, 0, SeqCst, SeqCst).unwrap();
    }
}

/// A stream over a ring, with three sections for each message where there are lists.
fn measure_ring<const GUARDED: bool>(what: &str, seat: Option<usize>, lists: Option<Lists>) {
    let ring = Ring::<GUARDED>::new(seat);
    let tell = |which: usize| lists.iter().for_each(|lists| lists.tell(which));
    let put = |message| ring.push(message).then(|| (tell(0), tell(1))).is_some();
    let get = || ring.pop().inspect(|_| tell(2));
    measure("parts", what, ROUNDS_BETWEEN, BETWEEN, || pass_on(put, get));
}

pub fn measure_parts_of_ours() {
    measure_ring::<false>("a ring", None, None);
    measure_ring::<true>("a ring with guards", None, None);
    measure_ring::<true>("a ring with guards and a seat", Some(BESIDE_HEAD), None);
    measure_ring::<true>("a ring with guards and a seat apart from its head", Some(APART), None);
    measure_ring::<true>("a ring with guards and a seat, sections on lists apart", Some(BESIDE_HEAD), Some(Lists::apart()));
    measure_ring::<true>("a ring with guards and a seat, sections on lists that lie as ours", Some(BESIDE_HEAD), Some(Lists::as_ours()));
    measure_ring::<true>("a ring with guards and a seat apart, sections on lists apart", Some(APART), Some(Lists::apart()));
}
