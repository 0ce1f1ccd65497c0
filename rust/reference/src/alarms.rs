//! The four kinds of alarms, written from docs/alarms.md.

pub trait Alarm {
    /// Answers the wait.
    fn set(&mut self, n: u32) -> u32;
    fn clear(&mut self);
    /// Whether it rings.
    fn pass(&mut self) -> bool;
    /// None if it is unset.
    fn left(&self) -> Option<u32>;
}

/// Ticks left, of which none stand for an alarm that is unset.
#[derive(Clone, Copy, Default)]
struct Left(u32);

impl Left {
    #[inline]
    fn get(self) -> Option<u32> {
        (self.0 > 0).then_some(self.0)
    }

    /// Whether the last one went by.
    #[inline]
    fn pass(&mut self) -> bool {
        let last = self.0 == 1;
        self.0 = self.0.saturating_sub(1);
        last
    }
}

#[derive(Default)]
pub struct Counter(Left);

impl Alarm for Counter {
    #[inline]
    fn set(&mut self, n: u32) -> u32 {
        self.0 = Left(n.min(65_535));
        self.0 .0
    }

    #[inline]
    fn clear(&mut self) {
        self.0 = Left(0);
    }

    #[inline]
    fn pass(&mut self) -> bool {
        self.0.pass()
    }

    #[inline]
    fn left(&self) -> Option<u32> {
        self.0.get()
    }
}

/// It counts ticks here, and knows the boundaries by the ticks that went by since it was new.
#[derive(Default)]
pub struct Divider {
    left: Left,
    ticks: u64,
}

impl Alarm for Divider {
    #[inline]
    fn set(&mut self, n: u32) -> u32 {
        let to_first = 32 - (self.ticks % 32) as u32;
        let most = n.min(to_first + 32 * 254);
        self.left = Left(if most < to_first { 0 } else { most - (most - to_first) % 32 });
        self.left.0
    }

    #[inline]
    fn clear(&mut self) {
        self.left = Left(0);
    }

    #[inline]
    fn pass(&mut self) -> bool {
        self.ticks += 1;
        self.left.pass()
    }

    #[inline]
    fn left(&self) -> Option<u32> {
        self.left.get()
    }
}

pub struct Ramp<B> {
    below: B,
    warm: u32,
    left: Left,
}

impl<B: Alarm> Ramp<B> {
    /// None for a warm-up outside 1 to 1,000.
    pub fn new(mut below: B, warm: u32) -> Option<Ramp<B>> {
        if !(1..=1000).contains(&warm) {
            return None;
        }
        below.clear();
        Some(Ramp { below, warm, left: Left(0) })
    }
}

impl<B: Alarm> Alarm for Ramp<B> {
    #[inline]
    fn set(&mut self, n: u32) -> u32 {
        if n <= self.warm {
            self.clear();
            return 0;
        }
        let wait = self.below.set(n - self.warm);
        self.left = Left(if wait == 0 { 0 } else { wait + self.warm });
        self.left.0
    }

    #[inline]
    fn clear(&mut self) {
        self.below.clear();
        self.left = Left(0);
    }

    #[inline]
    fn pass(&mut self) -> bool {
        self.below.pass();
        self.left.pass()
    }

    #[inline]
    fn left(&self) -> Option<u32> {
        self.left.get()
    }
}

pub struct TopUp<B> {
    below: B,
    left: Left,
}

impl<B: Alarm> TopUp<B> {
    pub fn new(mut below: B) -> TopUp<B> {
        below.clear();
        TopUp { below, left: Left(0) }
    }
}

impl<B: Alarm> Alarm for TopUp<B> {
    #[inline]
    fn set(&mut self, n: u32) -> u32 {
        self.left = Left(n.min(1_000_000));
        self.below.set(self.left.0);
        self.left.0
    }

    #[inline]
    fn clear(&mut self) {
        self.below.clear();
        self.left = Left(0);
    }

    #[inline]
    fn pass(&mut self) -> bool {
        let below_rang = self.below.pass();
        let rang = self.left.pass();
        if below_rang && self.left.0 > 0 {
            self.below.set(self.left.0);
        }
        rang
    }

    #[inline]
    fn left(&self) -> Option<u32> {
        self.left.get()
    }
}
