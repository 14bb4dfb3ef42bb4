//! What calls allocate: through the trait nothing, and else no more than the most frames take, however long the lists are.

use energy::{Energy, Figures, Frames, Linked, Refusal, LISTING_BYTES, MAX_FILE_BYTES, MAX_FRAMES};
use std::alloc::{GlobalAlloc, Layout, System};
use std::cell::Cell;

thread_local! {
    static ALLOCATED: Cell<usize> = const { Cell::new(0) };
}

/// The system's allocator, with the bytes that each thread asks of it counted.
struct Counting;

// SAFETY: every call is handed on to the system's allocator.
unsafe impl GlobalAlloc for Counting {
    unsafe fn alloc(&self, layout: Layout) -> *mut u8 {
        let _ = ALLOCATED.try_with(|bytes| bytes.set(bytes.get() + layout.size()));
        System.alloc(layout)
    }

    unsafe fn alloc_zeroed(&self, layout: Layout) -> *mut u8 {
        let _ = ALLOCATED.try_with(|bytes| bytes.set(bytes.get() + layout.size()));
        System.alloc_zeroed(layout)
    }

    unsafe fn dealloc(&self, pointer: *mut u8, layout: Layout) {
        System.dealloc(pointer, layout)
    }
}

#[global_allocator]
static COUNTING: Counting = Counting;

/// The bytes that a call allocates.
fn allocated(call: impl FnOnce()) -> usize {
    let before = ALLOCATED.with(Cell::get);
    call();
    ALLOCATED.with(Cell::get) - before
}

const DAY: Figures = Figures {
    capacity: 5,
    start: 2,
    end: 2,
};

/// Far more entries than any list may have.
const ABSURD: usize = 1 << 25;

#[test]
fn the_trait_allocates_nothing() {
    let frames = Frames::unbounded(&[6, 4, 0, 0, 5, 5]);
    let (mut budgets, mut charges, mut losses) = ([0; 6], [0; 6], [0; 6]);
    let (mut file, mut text) = ([0; MAX_FILE_BYTES], [0; LISTING_BYTES]);
    let [mut harvest, mut least, mut most] = [[0; 6]; 3];
    let bytes = allocated(|| {
        Linked.plan(DAY, frames, &mut budgets).unwrap();
        Linked.needed(DAY, frames).unwrap();
        Linked
            .trace(DAY, frames.harvest, &budgets, &mut charges, &mut losses)
            .unwrap();
        Linked.grade(&budgets).unwrap();
        let shift = Linked.shift_start(DAY, frames).unwrap();
        let shift = Linked.shift_record(shift, 1, 3).unwrap();
        Linked.shift_plan_rest(shift, frames, &mut budgets).unwrap();
        Linked.shift_rest_part(shift, &budgets).unwrap();
        let length = Linked.write(DAY, frames, &mut file).unwrap();
        Linked
            .read(&file[..length], &mut harvest, &mut least, &mut most)
            .unwrap();
        Linked.listing(&file[..length], &mut text);
        Linked.plan(DAY, Frames::default(), &mut budgets).unwrap_err();
    });
    assert_eq!(bytes, 0);
}

#[test]
fn absurd_lists_are_refused_and_not_copied() {
    let long = vec![0; ABSURD];
    let all = Frames {
        harvest: &long,
        least: &long,
        most: &long,
    };
    let many = Refusal::TooManyFrames;
    let bytes = allocated(|| {
        for frames in [all, Frames::unbounded(&long)] {
            assert_eq!(energy::plan(DAY, frames), Err(many));
            assert_eq!(energy::needed(DAY, frames), Err(many));
            assert_eq!(energy::start(DAY, frames), Err(many));
            assert_eq!(energy::write(DAY, frames), Err(many));
        }
        assert_eq!(energy::trace(DAY, &long, &long), Err(many));
        assert_eq!(energy::trace(DAY, &long, &[]), Err(many));
        assert_eq!(energy::trace(DAY, &[1], &long), Err(Refusal::WrongLength));
        assert_eq!(energy::trace(DAY, &[], &long), Err(Refusal::NoFrames));
        assert_eq!(energy::grade(&long), Err(many));
        let short = Frames { harvest: &[1], ..all };
        assert_eq!(energy::plan(DAY, short), Err(Refusal::WrongLength));
        let none = Frames { harvest: &[], ..all };
        assert_eq!(energy::plan(DAY, none), Err(Refusal::NoFrames));
    });
    assert!(bytes < 16 * (MAX_FILE_BYTES + LISTING_BYTES), "{bytes} bytes");
}

#[test]
fn absurd_files_are_refused_and_not_copied() {
    let long = vec![0; ABSURD];
    let bytes = allocated(|| {
        assert_eq!(energy::read(&long), Err(Refusal::TooManyFrames));
        assert_eq!(energy::listing(&long), "refused 2 0\n");
    });
    assert!(bytes < 2 * LISTING_BYTES, "{bytes} bytes");
}

#[test]
fn absurd_shifts_are_refused() {
    let long = vec![0; ABSURD];
    let week = [1; MAX_FRAMES];
    let mut shift = energy::start(DAY, Frames::unbounded(&week)).unwrap();
    let bytes = allocated(|| {
        let wrong = Frames {
            harvest: &long,
            ..Frames::unbounded(&week)
        };
        assert_eq!(energy::plan_rest(shift, wrong), Err(Refusal::WrongLength));
        shift.terms.frames = u32::MAX;
        for frames in [Frames::unbounded(&week), Frames::unbounded(&long)] {
            assert_eq!(energy::plan_rest(shift, frames), Err(Refusal::NotShift));
        }
        assert_eq!(
            energy::record(shift, 0, 0).map_err(Refusal::from),
            Err(Refusal::NotShift)
        );
    });
    assert!(bytes < 2 * LISTING_BYTES, "{bytes} bytes");
}
