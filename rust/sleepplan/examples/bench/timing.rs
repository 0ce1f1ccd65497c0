//! Times of short pieces of work: the processor time of this thread, so that it does not count when others run.

/// A sample takes at least so long, so that reading the clock does not show.
const SAMPLE_SECONDS: f64 = 0.0002;
/// All samples of one piece of work take about so long together.
const TOTAL_SECONDS: f64 = 1.5;
const LEAST_SAMPLES: usize = 25;
const MOST_SAMPLES: usize = 2001;

#[repr(C)]
struct Timespec {
    seconds: i64,
    nanoseconds: i64,
}

/// Linux's clock for the processor time of the calling thread.
const CLOCK_THREAD_CPUTIME_ID: i32 = 3;

extern "C" {
    fn clock_gettime(clock: i32, time: *mut Timespec) -> i32;
}

/// The processor time of this thread so far, in seconds.
fn now() -> f64 {
    let mut time = Timespec { seconds: 0, nanoseconds: 0 };
    // SAFETY: the call writes one timespec, which on 64-bit Linux is two numbers of 64 bits.
    let status = unsafe { clock_gettime(CLOCK_THREAD_CPUTIME_ID, &mut time) };
    assert_eq!(status, 0, "no clock for a thread's processor time");
    time.seconds as f64 + time.nanoseconds as f64 * 1e-9
}

fn seconds(work: &mut dyn FnMut(), times: u32) -> f64 {
    let start = now();
    for _ in 0..times {
        work();
    }
    (now() - start) / f64::from(times)
}

/// The median time of each piece of work, in seconds. Their samples take turns, so that a change of the processor's speed
/// falls on all of them alike.
pub fn in_turns<const N: usize>(mut works: [&mut dyn FnMut(); N]) -> [f64; N] {
    let once = works.iter_mut().map(|work| seconds(work, 10)).fold(0.0, f64::max);
    let times = (SAMPLE_SECONDS / once).ceil().max(1.0) as u32;
    let samples = (TOTAL_SECONDS / (once * f64::from(times))) as usize;
    let mut all: [Vec<f64>; N] = std::array::from_fn(|_| Vec::new());
    for _ in 0..samples.clamp(LEAST_SAMPLES, MOST_SAMPLES) {
        for (work, times_of) in works.iter_mut().zip(&mut all) {
            times_of.push(seconds(work, times));
        }
    }
    all.map(|mut times| {
        times.sort_by(f64::total_cmp);
        times[times.len() / 2]
    })
}

/// A time in the unit that suits it.
pub fn shown(seconds: f64) -> String {
    match seconds {
        s if s < 1e-6 => format!("{:.0} ns", s * 1e9),
        s if s < 1e-3 => format!("{:.2} µs", s * 1e6),
        s => format!("{:.2} ms", s * 1e3),
    }
}
