//! The fast book allocates nothing once it is made, at a Retail Order as at every other call, and a day only the room for
//! its answers.

use bench::calls::{Answer, Fill, DONE};
use bench::fast;
use bench::fast::book::{Book, Change, Entry, RetailOrder, Side};
use bench::generate::day_of;
use bench::scenarios::{blocks, Scenario};
use bench::terms::{ANSWERS_LINE, MAX_ORDERS};
use std::alloc::{GlobalAlloc, Layout, System};
use std::cell::Cell;

/// The system's allocator, which counts what this thread asks of it.
struct Counting;

thread_local! {
    static ASKED: Cell<u64> = const { Cell::new(0) };
}

unsafe impl GlobalAlloc for Counting {
    unsafe fn alloc(&self, layout: Layout) -> *mut u8 {
        ASKED.set(ASKED.get() + 1);
        unsafe { System.alloc(layout) }
    }

    unsafe fn dealloc(&self, place: *mut u8, layout: Layout) {
        unsafe { System.dealloc(place, layout) }
    }
}

#[global_allocator]
static COUNTING: Counting = Counting;

#[test]
fn no_call_of_the_fast_book_allocates() {
    let mut book = Book::new();
    let mut fills = [Fill::default(); MAX_ORDERS];
    let before = ASKED.get();
    book.approve(1).unwrap();
    book.move_phase(Change::Opening).unwrap();
    book.quotes.tell(0, Side::Buy, 10_000, 100).unwrap();
    let mut filled = 0;
    for round in 0..20 {
        for entry in 0..MAX_ORDERS as u32 {
            let offset = (entry % 3 > 0).then_some(1 + entry);
            let limit = 10_000 + (entry * 37 + round) % 100;
            let (side, rpi, displayed) = (Side::Buy, true, false);
            book.enter(&Entry { member: 1, side, rpi, displayed, limit, offset, shares: 10 }).unwrap();
        }
        for shares in [1, 25, 1_000_000] {
            let (side, type_1, routable) = (Side::Sell, true, true);
            let order = RetailOrder { member: 1, side, type_1, routable, limit: 1, shares };
            let taken = book.retail(&order, &mut fills).unwrap();
            filled += taken.filled;
            if taken.filled < shares {
                book.draw_and_return(taken.number, 0).unwrap();
            }
        }
        assert_eq!(book.interest(), 0);
        for number in 1..=book.last_number() {
            let _ = book.cancel(1, number);
        }
    }
    assert_eq!(ASKED.get(), before);
    assert!(filled > 40_000);
}

#[test]
fn no_list_on_the_fast_book_allocates() {
    for scenario in [Scenario::Cancel, Scenario::Retail(6), Scenario::Draw, Scenario::Declare] {
        let calls = blocks(scenario, 256, 1, 100).calls;
        let mut answers = vec![Answer::default(); calls.len()];
        let mut fills = vec![Fill::default(); calls.len() + MAX_ORDERS];
        let before = ASKED.get();
        let run = fast::list::run(&calls, &mut answers, &mut fills);
        assert_eq!(ASKED.get(), before);
        assert_eq!((run.end, run.calls), (DONE, calls.len()));
    }
}

#[test]
fn a_day_allocates_its_answers_once() {
    for seed in 0..320 {
        let day = day_of(seed);
        let before = ASKED.get();
        let answers = fast::answer_day(&day);
        let asked = ASKED.get() - before;
        // The one line of a file that has a fault itself has no room made for it beforehand.
        if !answers[ANSWERS_LINE.len()..].starts_with(b"1,") {
            assert_eq!(asked, 1, "seed {seed}");
        }
    }
}
