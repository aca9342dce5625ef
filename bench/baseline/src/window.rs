//! The replay window of a state.

/// Bit k of `seen` stands for the number `top - k`.
#[derive(Clone, Copy)]
pub struct Window {
    pub size: u32,
    pub top: u64,
    seen: u64,
}

#[derive(Clone, Copy, Debug, PartialEq)]
pub enum Check {
    Fresh,
    Zero,
    Old,
    Seen,
}

impl Window {
    /// The numbers from 1 to `start` count as accepted. The size is at most 32.
    pub fn new(size: u32, start: u64) -> Self {
        let seen = if start < 64 {
            (1 << start) - 1
        } else {
            u64::MAX
        };
        Window {
            size,
            top: start,
            seen,
        }
    }

    pub fn check(&self, number: u64) -> Check {
        if self.size == 0 {
            Check::Fresh
        } else if number == 0 {
            Check::Zero
        } else if number > self.top {
            Check::Fresh
        } else if self.top - number >= u64::from(self.size) {
            Check::Old
        } else if self.seen >> (self.top - number) & 1 == 1 {
            Check::Seen
        } else {
            Check::Fresh
        }
    }

    pub fn accept(&mut self, number: u64) {
        if number > self.top {
            let step = number - self.top;
            self.seen = if step < 64 { self.seen << step } else { 0 };
            self.top = number;
        }
        if self.top - number < 64 {
            self.seen |= 1 << (self.top - number);
        }
    }
}

#[cfg(test)]
mod tests {
    use super::*;

    #[test]
    fn a_number_is_accepted_once() {
        let mut window = Window::new(32, 0);
        for (number, check) in [
            (0, Check::Zero),
            (1, Check::Fresh),
            (33, Check::Fresh),
            (2, Check::Fresh),
            (1, Check::Old),
            (33, Check::Seen),
            (2, Check::Seen),
        ] {
            assert_eq!(window.check(number), check, "{number}");
            if check == Check::Fresh {
                window.accept(number);
            }
        }
        assert_eq!(window.top, 33);
    }
}
