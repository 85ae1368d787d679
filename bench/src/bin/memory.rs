//! `memory` prints, as a table in Markdown, what memory each book takes. The linker puts the functions below in the place of
//! `malloc` and its like (build.rs), so that they count what comes from all books, whichever language they are written in.
//! The stack is that of a thread of its own, on which it is seen how far it was written to. Every book runs alone, and the
//! lists that are lent to it are not counted.

use bench::books::{Book, BOOKS};
use bench::calls::{Answer, Call, Fill, DONE};
use bench::scenarios::{blocks, Scenario};
use bench::terms::MAX_ORDERS;
use bench::{fast, plain};
use std::ffi::c_void;
use std::sync::atomic::{AtomicUsize, Ordering::Relaxed};

static ASKED: AtomicUsize = AtomicUsize::new(0);
static IN_USE: AtomicUsize = AtomicUsize::new(0);
static MOST: AtomicUsize = AtomicUsize::new(0);

extern "C" {
    fn __real_malloc(bytes: usize) -> *mut c_void;
    fn __real_calloc(count: usize, bytes: usize) -> *mut c_void;
    fn __real_realloc(place: *mut c_void, bytes: usize) -> *mut c_void;
    fn __real_free(place: *mut c_void);
    fn malloc_usable_size(place: *mut c_void) -> usize;
}

/// Counts a place that was given.
unsafe fn given(place: *mut c_void) -> *mut c_void {
    ASKED.fetch_add(1, Relaxed);
    let bytes = unsafe { malloc_usable_size(place) };
    MOST.fetch_max(IN_USE.fetch_add(bytes, Relaxed) + bytes, Relaxed);
    place
}

/// Counts a place that goes back.
unsafe fn back(place: *mut c_void) {
    IN_USE.fetch_sub(unsafe { malloc_usable_size(place) }, Relaxed);
}

#[no_mangle]
unsafe extern "C" fn __wrap_malloc(bytes: usize) -> *mut c_void {
    unsafe { given(__real_malloc(bytes)) }
}

#[no_mangle]
unsafe extern "C" fn __wrap_calloc(count: usize, bytes: usize) -> *mut c_void {
    unsafe { given(__real_calloc(count, bytes)) }
}

#[no_mangle]
unsafe extern "C" fn __wrap_realloc(place: *mut c_void, bytes: usize) -> *mut c_void {
    unsafe {
        back(place);
        given(__real_realloc(place, bytes))
    }
}

#[no_mangle]
unsafe extern "C" fn __wrap_free(place: *mut c_void) {
    unsafe {
        back(place);
        __real_free(place);
    }
}

/// Large enough for the attributes of a thread.
type Attributes = [u64; 16];

extern "C" {
    fn pthread_attr_init(attributes: *mut Attributes) -> i32;
    fn pthread_attr_setstack(attributes: *mut Attributes, stack: *mut c_void, bytes: usize) -> i32;
    fn pthread_create(
        thread: *mut usize,
        attributes: *const Attributes,
        start: extern "C" fn(*mut c_void) -> *mut c_void,
        argument: *mut c_void,
    ) -> i32;
    fn pthread_join(thread: usize, result: *mut *mut c_void) -> i32;
}

const STACK: usize = 1 << 20;
const UNTOUCHED: u8 = 0xA5;

#[repr(align(4096))]
struct Stack([u8; STACK]);

extern "C" fn start(work: *mut c_void) -> *mut c_void {
    // SAFETY: it is the work of `stack_used`.
    unsafe { (*work.cast::<&mut dyn FnMut()>())() };
    std::ptr::null_mut()
}

/// How many bytes of the stack of a thread of its own are written to by the work, and by the thread itself.
fn stack_used(mut work: &mut dyn FnMut()) -> usize {
    let mut stack = Box::new(Stack([UNTOUCHED; STACK]));
    let (mut attributes, mut thread) = ([0; 16], 0);
    // SAFETY: stack and work outlive the thread.
    let failed = unsafe {
        pthread_attr_init(&mut attributes)
            | pthread_attr_setstack(&mut attributes, stack.0.as_mut_ptr().cast(), STACK)
            | pthread_create(&mut thread, &attributes, start, (&raw mut work).cast())
            | pthread_join(thread, std::ptr::null_mut())
    };
    assert_eq!(failed, 0);
    STACK - std::hint::black_box(&stack.0).iter().position(|byte| *byte != UNTOUCHED).unwrap_or(STACK)
}

fn main() {
    let orders = blocks(Scenario::Refused, 256, 7, 0).calls;
    let busy = blocks(Scenario::Retail(6), 256, 7, 1_000).calls;
    let names: Vec<&str> = BOOKS.iter().map(|book| book.name).collect();
    println!("| | {} |", names.join(" | "));
    println!("|---|{}", "--:|".repeat(BOOKS.len()));
    let lists: [(&str, &[Call]); 3] = [
        ("no calls", &[]),
        (&format!("{} calls, after which 256 orders rest", orders.len()), &orders),
        (&format!("{} calls, in a book of 256 orders", busy.len()), &busy),
    ];
    for (name, calls) in lists {
        let used: Vec<Used> = BOOKS.iter().map(|book| used(book, calls)).collect();
        row(&format!("a run of {name}: bytes of heap, the most at one time"), used.iter().map(|used| used.heap));
        row(&format!("a run of {name}: how often heap is asked for"), used.iter().map(|used| used.asked));
        row(&format!("a run of {name}: bytes of stack"), used.iter().map(|used| used.stack));
    }
    let (fast, plain) = (size_of::<fast::book::Book>(), size_of::<plain::book::Book>());
    println!("\nAs a value on the stack a fast book has {fast} bytes and a plain book {plain}.");
}

fn row(name: &str, numbers: impl Iterator<Item = usize>) {
    let cells: Vec<String> = numbers.map(|number| number.to_string()).collect();
    println!("| {name} | {} |", cells.join(" | "));
}

struct Used {
    heap: usize,
    asked: usize,
    stack: usize,
}

fn used(book: &Book, calls: &[Call]) -> Used {
    let mut answers = vec![Answer::default(); calls.len()];
    let mut fills = vec![Fill::default(); calls.len() + MAX_ORDERS];
    let (mut heap, mut asked) = (0, 0);
    let thread = stack_used(&mut || {});
    let stack = stack_used(&mut || {
        let (asked_before, before) = (ASKED.load(Relaxed), IN_USE.load(Relaxed));
        MOST.store(before, Relaxed);
        let run = (book.run)(calls, &mut answers, &mut fills);
        assert_eq!(run.end, DONE);
        asked = ASKED.load(Relaxed) - asked_before;
        heap = MOST.load(Relaxed) - before;
    });
    Used { heap, asked, stack: stack - thread }
}
