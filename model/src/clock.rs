//! True time and the 32-bit ticks that move it.

/// Highest value of true time and of a turn.
pub const TOP: u64 = i64::MAX as u64;

/// Ticks after which the counter begins again.
const WRAP: u64 = 1 << 32;

/// Forward differences from here on mean that the clock went back.
const BACK: u64 = 1 << 31;

/// The longest forward difference that is taken; a longer one is a leap.
pub const HOUR: u64 = 3_600_000;

/// Milliseconds from true time forward to the next moment that shows this tick.
pub fn forward(time: u64, tick: u32) -> u64 {
    (u64::from(tick) + WRAP - time % WRAP) % WRAP
}

pub fn gone_back(time: u64, tick: u32) -> bool {
    forward(time, tick) >= BACK
}

/// Whatever went back leaps too: each is judged on its own.
pub fn leaps(time: u64, tick: u32) -> bool {
    forward(time, tick) > HOUR
}

/// Wide arithmetic, because a damaged table may hold any time.
pub fn passes_top(time: u64, tick: u32) -> bool {
    u128::from(time) + u128::from(forward(time, tick)) > u128::from(TOP)
}

/// True time after an accepted tick.
pub fn moved(time: u64, tick: u32) -> u64 {
    time + forward(time, tick)
}

/// How often the counter has begun again by this time.
pub fn wraps(time: u64) -> u64 {
    time / WRAP
}

/// The last moment, from this time on, before the counter begins again.
pub fn last_before_wrap(time: u64) -> u64 {
    time - time % WRAP + WRAP - 1
}

/// The tick that the drive's counter shows this many milliseconds after `time`.
pub fn tick_after(time: u64, step: u64) -> u32 {
    (time.wrapping_add(step) % WRAP) as u32
}
