//! Runs the ring in Rust of docs/FIRMWARE.md, which is included as it stands on the page, from the folder that LISTINGS names
//! when this is compiled: two threads, and no record may be lost, doubled or torn. The first thing that is not so ends the
//! program with a panic.

include!(concat!(env!("LISTINGS"), "/ring.rs"));

/// A record that shows if a part of it is another's.
fn made(number: u32) -> Record {
    let [a, b, c, d] = number.to_be_bytes();
    [a, b, c, d, a, b, c, d, a, b, c, d, !d, d]
}

/// Records that come in while another thread takes them out; a caller that finds no room comes again.
fn both_at_once(count: u32) {
    let mut ring = Ring::new();
    let (mut callers, mut flash) = ring.ends();
    std::thread::scope(|threads| {
        threads.spawn(move || {
            for number in 0..count {
                let write = |slot: &mut Record| {
                    *slot = made(number);
                    true
                };
                while callers.record(0, write).is_none() {
                    std::thread::yield_now();
                }
            }
        });
        for number in 0..count {
            while !flash.take(|record| {
                assert_eq!(*record, made(number), "a record was lost, doubled or torn");
                true
            }) {
                std::thread::yield_now();
            }
        }
        assert!(!flash.take(|_| true), "a record too many");
    });
}

/// What finds no room or is no record is not put in; what is not in flash stays.
fn edges() {
    let mut ring = Ring::new();
    *ring.put.get_mut() = u32::MAX - 3;
    *ring.taken.get_mut() = u32::MAX - 3;
    let (mut callers, mut flash) = ring.ends();
    assert!(!flash.take(|_| true), "a record in an empty ring");
    assert_eq!(callers.record(0, |_| false), Some(false));
    assert!(!flash.take(|_| true), "what is no record was put in");
    let mut put = 0;
    let mut fill = |spare| {
        while callers.record(spare, |slot| {
            *slot = made(put);
            put += 1;
            true
        }) == Some(true)
        {}
        put
    };
    assert_eq!(fill(16), SLOTS as u32 - 16, "the spare slots");
    assert_eq!(fill(0), SLOTS as u32, "all slots");
    assert!(!flash.take(|_| false), "what is not in flash has left");
    for number in 0..SLOTS as u32 {
        assert!(
            flash.take(|record| *record == made(number)),
            "record {number}"
        );
    }
    assert!(!flash.take(|_| true), "a record too many");
}

fn main() {
    edges();
    both_at_once(1_000_000);
}
