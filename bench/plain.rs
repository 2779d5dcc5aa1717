//! The same work as clr_speed and clr_walk_speed, in plain Rust: a base address and a vector of words, and over it
//! objects that are made one after the other in an allocation context.
use std::hint::black_box;
use std::time::Instant;

/// The method table word of type 0. That of each further type is 64 higher.
const FIRST_WORD: u64 = 0x7ff0_0000_0000;

/// How far the first object stands above the base.
const FIRST_OFFSET: u64 = 0x1000;

/// How many bytes an allocation context has where they are there.
const CONTEXT_SIZE: u64 = 8192;

struct Mem {
    base: u64,
    words: Vec<u64>,
}

impl Mem {
    fn new(base: u64, len: u64) -> Mem {
        Mem { base, words: vec![0; (len / 8) as usize] }
    }

    fn place(&self, a: u64) -> usize {
        ((a - self.base) / 8) as usize
    }

    fn word(&self, a: u64) -> u64 {
        self.words[self.place(a)]
    }

    fn set_word(&mut self, a: u64, v: u64) {
        let place = self.place(a);
        self.words[place] = v;
    }

    fn slide(&mut self, from: u64, to: u64, len: u64) {
        let start = self.place(from);
        let at = self.place(to);
        self.words.copy_within(start..start + (len / 8) as usize, at);
    }

    fn zero(&mut self, a: u64, len: u64) {
        let at = self.place(a);
        self.words[at..at + (len / 8) as usize].fill(0);
    }
}

fn add_to_words(mem: &mut Mem, base: u64, words: u64) -> u64 {
    let mut sum = 0u64;
    for i in 0..words {
        let a = base + 8 * i;
        let v = mem.word(a);
        sum = sum.wrapping_add(v);
        mem.set_word(a, v.wrapping_add(i));
    }
    sum
}

fn add_often(mem: &mut Mem, base: u64, words: u64, rounds: u64) -> u64 {
    let mut sum = 0u64;
    for _ in 0..rounds {
        sum = sum.wrapping_add(add_to_words(mem, base, words));
    }
    sum
}

fn add_scattered(mem: &mut Mem, base: u64, count: u64) -> u64 {
    let mut sum = 0u64;
    let mut state = 1u64;
    for _ in 0..count {
        state = state.wrapping_mul(6364136223846793005).wrapping_add(1442695040888963407);
        let a = base + 8 * (state / 1125899906842624);
        let v = mem.word(a);
        sum = sum.wrapping_add(v);
        mem.set_word(a, v.wrapping_add(state));
    }
    sum
}

fn measure_near(base: u64, size: u64, rounds: u64) {
    let mut mem = Mem::new(base, size);
    let start = Instant::now();
    let sum = add_often(&mut mem, base, size / 8, rounds);
    let spent = start.elapsed().as_nanos();
    println!("near {spent} {sum}");
    let start = Instant::now();
    let sum = add_scattered(&mut mem, base, rounds * 16384);
    let spent = start.elapsed().as_nanos();
    println!("scattered {spent} {sum}");
}

fn measure_far(base: u64, size: u64, by: u64, rounds: u64) {
    let start = Instant::now();
    let mut mem = Mem::new(base, size + by);
    let spent = start.elapsed().as_nanos();
    println!("new {spent} {}", 8 * mem.words.len());
    // Each page is touched once before the time is taken.
    mem.zero(base, size + by);
    let start = Instant::now();
    let sum = add_often(&mut mem, base, size / 8, rounds);
    let spent = start.elapsed().as_nanos();
    println!("far {spent} {sum}");
    let start = Instant::now();
    mem.slide(base + by, base, size);
    let spent = start.elapsed().as_nanos();
    println!("slide {spent} {}", add_to_words(&mut mem, base, size / 8));
    let start = Instant::now();
    mem.zero(base, size);
    let spent = start.elapsed().as_nanos();
    println!("zero {spent} {}", add_to_words(&mut mem, base, size / 8));
}

/// The bytes of an object without its elements, and of one element, 0 where there are none.
struct Type {
    base_size: u64,
    element_size: u64,
}

impl Type {
    fn has_length(&self) -> bool {
        self.element_size > 0
    }

    fn size(&self, len: u64) -> u64 {
        (self.base_size + self.element_size * len + 7) / 8 * 8
    }
}

struct Heap {
    mem: Mem,
    types: Vec<Type>,
    end: u64,
    limit: u64,
    /// What is left of the one allocation context.
    front: u64,
    back: u64,
    /// The places and sizes of the free items, by rising place.
    free: Vec<(u64, u64)>,
}

/// Whether a size fills so many bytes, or leaves at least 24 of them.
fn fits(size: u64, bytes: u64) -> bool {
    size == bytes || size + 24 <= bytes
}

impl Heap {
    fn new(base: u64, size: u64, types: Vec<Type>) -> Heap {
        let mem = Mem::new(base, size);
        let end = base + FIRST_OFFSET;
        Heap { mem, types, end, limit: base + size, front: 0, back: 0, free: Vec::new() }
    }

    fn write_free(&mut self, place: u64, size: u64) {
        self.mem.set_word(place - 8, 0);
        self.mem.set_word(place, FIRST_WORD);
        self.mem.set_word(place + 8, size - 24);
    }

    /// What is left of the context becomes a free item.
    fn give_up(&mut self) {
        if self.front < self.back {
            let (place, size) = (self.front, self.back - self.front);
            self.write_free(place, size);
            let at = self.free.partition_point(|item| item.0 < place);
            self.free.insert(at, (place, size));
        }
    }

    /// The context is the front of a free item, of which the rest stays free.
    fn open_in(&mut self, place: u64, size: u64, taken: u64) {
        let at = self.free.partition_point(|item| item.0 < place);
        if taken == size {
            self.free.remove(at);
        } else {
            self.write_free(place + taken, size - taken);
            self.free[at] = (place + taken, size - taken);
        }
        self.open(place, taken);
    }

    fn open(&mut self, place: u64, taken: u64) {
        self.mem.zero(place - 8, taken);
        self.front = place;
        self.back = place + taken;
    }

    /// A new context, from the first free item in which the size fits, else from behind the end.
    fn refill(&mut self, size: u64) -> bool {
        let found = self.free.iter().find(|item| fits(size, item.1)).copied();
        if found.is_none() && self.end + size > self.limit {
            return false;
        }
        let wanted = if size + 24 <= CONTEXT_SIZE { CONTEXT_SIZE } else { size };
        self.give_up();
        match found {
            Some((place, bytes)) => {
                self.open_in(place, bytes, if fits(wanted, bytes) { wanted } else { bytes });
            }
            None => {
                let taken = if self.end + wanted > self.limit { size } else { wanted };
                self.open(self.end, taken);
                self.end += taken;
            }
        }
        true
    }

    /// The place of a new object at the front of the context, or 0 where there is no room.
    fn make(&mut self, t: usize, len: u64) -> u64 {
        let size = self.types[t].size(len);
        if !fits(size, self.back - self.front) && !self.refill(size) {
            return 0;
        }
        let place = self.front;
        self.mem.set_word(place - 8, 0);
        self.mem.set_word(place, FIRST_WORD + 64 * t as u64);
        if self.types[t].has_length() {
            self.mem.set_word(place + 8, len);
        }
        self.front = place + size;
        place
    }

    /// The size of the object or free item at a place, marked or not.
    fn size_at(&self, place: u64) -> u64 {
        let word = self.mem.word(place) / 2 * 2;
        let found = &self.types[((word - FIRST_WORD) / 64) as usize];
        let len = if found.has_length() { self.mem.word(place + 8) } else { 0 };
        found.size(len)
    }
}

fn make_many(heap: &mut Heap, t: usize, count: u64) -> u64 {
    let mut sum = 0u64;
    for _ in 0..count {
        sum = sum.wrapping_add(heap.make(t, 0));
    }
    sum
}

fn walk_often(heap: &Heap, rounds: u64) -> u64 {
    let mut sum = 0u64;
    for _ in 0..rounds {
        let mut place = heap.mem.base + FIRST_OFFSET;
        while place < heap.end {
            if place == heap.front && heap.front < heap.back {
                place = heap.back;
                continue;
            }
            let size = heap.size_at(place);
            sum = sum.wrapping_add(size);
            place += size;
        }
    }
    sum
}

fn measure_objects(base: u64, size: u64, count: u64, rounds: u64) {
    // Unused space, which has the form of an array of bytes, and a class of one slot.
    let types = vec![
        Type { base_size: 24, element_size: 1 },
        Type { base_size: 24, element_size: 0 },
    ];
    let mut heap = Heap::new(base, size, black_box(types));
    // Each page is touched once before the time is taken.
    heap.mem.zero(base, size);
    let start = Instant::now();
    let sum = make_many(&mut heap, black_box(1), count);
    let spent = start.elapsed().as_nanos();
    println!("make {spent} {sum}");
    let start = Instant::now();
    let sum = walk_often(&heap, rounds);
    let spent = start.elapsed().as_nanos();
    println!("walk {spent} {sum}");
}

fn main() {
    let base = black_box(0x7ff0_0000_0000);
    for _ in 0..5 {
        measure_near(base, black_box(131072), 6104);
        measure_far(base, black_box(67108864), 65536, 12);
        measure_objects(black_box(0x1000_0000), black_box(67108864), black_box(1_000_000), 20);
    }
}
