//! Processor time of calls, and a contest in which every contestant has its turn in each round and the best round counts.

use std::time::Duration;

#[repr(C)]
struct Timespec {
    seconds: i64,
    nanoseconds: i64,
}

extern "C" {
    fn clock_gettime(clock: i32, time: *mut Timespec) -> i32;
}

/// This thread's processor time so far, which other programs on the machine disturb less than the wall's.
fn processor_time() -> Duration {
    const CLOCK_THREAD_CPUTIME_ID: i32 = 3;
    let mut time = Timespec { seconds: 0, nanoseconds: 0 };
    // SAFETY: the pointer is to a timespec of Linux on 64-bit machines.
    let status = unsafe { clock_gettime(CLOCK_THREAD_CPUTIME_ID, &mut time) };
    assert_eq!(status, 0, "the clock can be read");
    Duration::new(time.seconds as u64, time.nanoseconds as u32)
}

/// One piece of work, to be done again and again.
pub struct Contestant<'a> {
    work: Box<dyn FnMut() + 'a>,
    calls: u32,
    best: f64,
}

impl<'a> Contestant<'a> {
    pub fn new(work: impl FnMut() + 'a) -> Contestant<'a> {
        Contestant { work: Box::new(work), calls: 1, best: f64::MAX }
    }

    fn turn(&mut self) -> Duration {
        let start = processor_time();
        for _ in 0..self.calls {
            (self.work)();
        }
        let time = processor_time() - start;
        self.best = self.best.min(time.as_nanos() as f64 / self.calls as f64);
        time
    }

    /// Finds how many calls make a turn of some milliseconds.
    fn warm_up(&mut self) {
        while self.turn() < Duration::from_millis(2) {
            self.calls *= 2;
        }
    }
}

/// The nanoseconds of one call of each contestant in its best turn.
pub fn contest(mut contestants: Vec<Contestant>, rounds: usize) -> Vec<f64> {
    contestants.iter_mut().for_each(Contestant::warm_up);
    for _ in 0..rounds {
        for contestant in &mut contestants {
            contestant.turn();
        }
    }
    contestants.iter().map(|contestant| contestant.best).collect()
}
