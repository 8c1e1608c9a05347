//! memory INPUT..: the most heap bytes that the Rust's parse has at once beyond its input, and what its answer keeps.
use bench::input::Input;
use bench::rust;
use oracle::parsers::on_large_stack;
use std::alloc::{GlobalAlloc, Layout, System};
use std::sync::atomic::{AtomicUsize, Ordering::Relaxed};

static NOW: AtomicUsize = AtomicUsize::new(0);
static MOST: AtomicUsize = AtomicUsize::new(0);

/// The system's allocator, counting.
struct Counted;

fn more(n: usize) {
    MOST.fetch_max(NOW.fetch_add(n, Relaxed) + n, Relaxed);
}

unsafe impl GlobalAlloc for Counted {
    unsafe fn alloc(&self, l: Layout) -> *mut u8 {
        more(l.size());
        unsafe { System.alloc(l) }
    }
    unsafe fn dealloc(&self, p: *mut u8, l: Layout) {
        NOW.fetch_sub(l.size(), Relaxed);
        unsafe { System.dealloc(p, l) }
    }
    unsafe fn realloc(&self, p: *mut u8, l: Layout, n: usize) -> *mut u8 {
        // old and new stand beside each other if the block has to move
        more(n);
        NOW.fetch_sub(l.size(), Relaxed);
        unsafe { System.realloc(p, l, n) }
    }
}

#[global_allocator]
static COUNTED: Counted = Counted;

fn run() {
    for name in std::env::args().skip(1) {
        let input: Input = name.parse().expect("an input");
        rust::ready(&input);
        drop(rust::copy(&input)); // builds the lexer's tables, which are not part of a parse
        let before = NOW.load(Relaxed);
        MOST.store(before, Relaxed);
        let answer = rust::parse(&input);
        let (most, kept) = (MOST.load(Relaxed) - before, NOW.load(Relaxed) - before);
        println!("{name},{most},{kept}");
        drop(answer)
    }
}

fn main() {
    on_large_stack(run)
}
