//! Commands of the bus area by chance.

use crate::parts::frames::frame::{self, Frame, FIELDS, LEFT, LENGTH};
use crate::rng::Rng;

/// What is known of the area, so that most starts are good ones.
#[derive(Default)]
pub struct Bus {
    length: usize,
    /// Where the last frames were put, so that most reads find one.
    starts: Vec<usize>,
}

/// Frames that are remembered.
const FRAMES: usize = 4;

/// The highest lengths that are usual; longer areas make much to read.
const USUAL: usize = 90;

impl Bus {
    pub fn area(&mut self, rng: &mut Rng) -> String {
        let length = match rng.below(100) {
            0..=84 => LENGTH + rng.below(USUAL - LENGTH),
            85..=97 => rng.pick(&[0, 1, 18, 19, 20, 37, 38, 255, 256, 257]),
            _ => rng.pick(&[2_047, 2_048]),
        };
        self.length = length;
        self.starts.clear();
        format!("area {length}")
    }

    /// The start of a write. It may be bad, as that is refused and no error.
    pub fn write_start(&mut self, rng: &mut Rng) -> u64 {
        match self.length.checked_sub(LENGTH) {
            Some(room) if rng.percent(90) => {
                let start = rng.below(room + 1);
                self.remember(start);
                start as u64
            }
            _ => self.any_start(rng),
        }
    }

    pub fn read(&mut self, rng: &mut Rng) -> String {
        let start = if self.starts.is_empty() || rng.percent(10) {
            self.any_start(rng)
        } else {
            rng.pick(&self.starts) as u64
        };
        format!("read {start}")
    }

    /// A byte in one of the last frames, or a whole frame. An empty area has no place for either.
    pub fn poke(&mut self, rng: &mut Rng) -> String {
        if self.length == 0 {
            return self.area(rng);
        }
        if self.length >= LENGTH && rng.percent(40) {
            let start = rng.below(self.length - LENGTH + 1);
            self.remember(start);
            return format!("poke {start} {}", digits(&any_frame(rng), rng));
        }
        let any = rng.below(256) as u8;
        let byte = rng.pick(&[0, 1, 2, 60, 107, 108, any]);
        format!("poke {} {}", self.byte_place(rng), digits(&[byte], rng))
    }

    fn byte_place(&self, rng: &mut Rng) -> usize {
        if self.starts.is_empty() || rng.percent(20) {
            return rng.below(self.length);
        }
        rng.pick(&self.starts) + rng.below(LENGTH)
    }

    fn remember(&mut self, start: usize) {
        self.starts.retain(|&other| other != start);
        self.starts.push(start);
        if self.starts.len() > FRAMES {
            self.starts.remove(0);
        }
    }

    fn any_start(&self, rng: &mut Rng) -> u64 {
        let (length, any) = (self.length as u64, rng.next());
        let places = [
            0,
            length.saturating_sub(18),
            length.saturating_sub(1),
            length,
            length + 1,
            1 << 32,
            1 << 63,
            u64::MAX - 18,
            u64::MAX,
            any,
        ];
        rng.pick(&places)
    }
}

/// Fields in range but for a few that stand one past it.
fn any_frame(rng: &mut Rng) -> Frame {
    let mut frame = LEFT;
    for field in FIELDS {
        let number = rng.between(i64::from(field.low), i64::from(field.high)) as u16;
        let past = rng.percent(2);
        frame = frame::with(frame, field, if past { field.past() } else { number });
    }
    frame
}

fn digits(bytes: &[u8], rng: &mut Rng) -> String {
    let digits = frame::hex(bytes);
    if rng.percent(30) {
        digits.to_uppercase()
    } else {
        digits
    }
}

#[cfg(test)]
mod tests {
    use super::*;

    /// The start and the number of bytes of a poke.
    fn place(line: &str) -> (usize, usize) {
        let words: Vec<&str> = line.split(' ').collect();
        (words[1].parse().unwrap(), words[2].len() / 2)
    }

    #[test]
    fn pokes_lie_inside_the_area() {
        let mut rng = Rng::of_list(1, 0);
        let mut bus = Bus::default();
        for _ in 0..20_000 {
            let line = match rng.below(4) {
                0 if rng.percent(10) => bus.area(&mut rng),
                1 => format!("write 0 {}", bus.write_start(&mut rng)),
                2 => bus.read(&mut rng),
                _ => bus.poke(&mut rng),
            };
            if line.starts_with("poke") {
                let (start, count) = place(&line);
                assert!(start + count <= bus.length, "{line} in {}", bus.length);
            }
        }
    }

    #[test]
    fn most_writes_and_reads_are_where_a_frame_has_room() {
        let mut rng = Rng::of_list(1, 0);
        let mut bus = Bus::default();
        let mut room = 0;
        for number in 0..10_000 {
            if number % 50 == 0 {
                bus.area(&mut rng);
            }
            let start = bus.write_start(&mut rng);
            let line = bus.read(&mut rng);
            let read: u64 = line.strip_prefix("read ").unwrap().parse().unwrap();
            let fits = |start: u64| start <= 2_048 && start as usize + LENGTH <= bus.length;
            room += usize::from(fits(start)) + usize::from(fits(read));
        }
        assert!((14_000..19_500).contains(&room), "{room}");
    }

    #[test]
    fn long_areas_are_rare() {
        let mut rng = Rng::of_list(1, 0);
        let mut bus = Bus::default();
        let lengths = (0..10_000).map(|_| {
            bus.area(&mut rng);
            bus.length
        });
        let sum: usize = lengths.sum();
        assert!(sum / 10_000 < 150, "{sum}");
    }
}
