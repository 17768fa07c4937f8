//! The guard pages that the other tests lean on do guard: a child that reads one byte too far dies by a signal.
use suite::guard::{Edge, Guarded};

extern "C" {
    fn fork() -> i32;
    fn waitpid(child: i32, status: *mut i32, options: i32) -> i32;
    fn setrlimit(resource: i32, limits: *const [u64; 2]) -> i32;
    fn _exit(status: i32) -> !;
}

const SIGSEGV: i32 = 11;
const SIGBUS: i32 = 7;
const RLIMIT_CORE: i32 = 4;

// The status of a child that does this and then leaves with 0.
fn status_of(deed: impl FnOnce()) -> i32 {
    // SAFETY: the child does nothing but the deed, which allocates nothing, and leaves.
    unsafe {
        let child = fork();
        assert!(child >= 0, "no child");
        if child == 0 {
            // Its death is wanted, and no file about it.
            setrlimit(RLIMIT_CORE, &[0, 0]);
            deed();
            _exit(0);
        }
        let mut status = 0;
        assert_eq!(waitpid(child, &mut status, 0), child);
        status
    }
}

fn died_by_its_reach(status: i32) -> bool {
    let signal = status & 0x7F;
    signal == SIGSEGV || signal == SIGBUS
}

fn read(place: *const u8) {
    // SAFETY: none; this is what the guard is for.
    let _ = unsafe { place.read_volatile() };
}

fn write(place: *mut u8) {
    // SAFETY: as above.
    unsafe { place.write_volatile(1) }
}

#[test]
fn every_byte_of_the_slice_may_be_touched() {
    for edge in [Edge::Start, Edge::End] {
        let mut guarded = Guarded::holding(edge, &[7u8; 4104]);
        let status = status_of(|| {
            for place in 0..guarded.len() {
                write(&mut guarded[place]);
                read(&guarded[place]);
            }
        });
        assert_eq!(status, 0, "{:?}", edge);
    }
}

#[test]
fn one_byte_past_the_end_kills() {
    let mut guarded = Guarded::holding(Edge::End, &[7u8; 4104]);
    let past = guarded.as_mut_ptr().wrapping_add(guarded.len());
    assert!(died_by_its_reach(status_of(|| read(past))));
    assert!(died_by_its_reach(status_of(|| write(past))));
}

#[test]
fn one_byte_before_the_start_kills() {
    let mut guarded = Guarded::holding(Edge::Start, &[7u8; 5]);
    let before = guarded.as_mut_ptr().wrapping_sub(1);
    assert!(died_by_its_reach(status_of(|| read(before))));
    assert!(died_by_its_reach(status_of(|| write(before))));
}

#[test]
fn an_empty_slice_has_no_byte_to_touch() {
    let empty: Guarded<u8> = Guarded::holding(Edge::End, &[]);
    let place = empty.as_ptr();
    assert!(died_by_its_reach(status_of(|| read(place))));
}
