//! What an answer to `bench` shows of the state that the parts ask for.

use std::str;

use super::words::Set;

/// The words ahead of the boxes: pilot flying and three flags, four counts, six readings and their
/// six whole values.
const AHEAD: usize = 1 + 3 + 4 + 6 + 6;

/// The words of a box: flight director, the four numbers of its set and seven references.
const BOX: usize = 1 + 4 + 7;

/// Arrays go by side.
#[derive(Clone, Copy, PartialEq, Eq, Debug)]
pub struct Shown {
    pub pf: u8,
    pub ap: bool,
    pub overspeed: bool,
    pub independent: bool,
    pub fd: [bool; 2],
    pub sets: [Set; 2],
    /// The flight director in the inbox.
    pub inbox: [bool; 2],
}

impl Shown {
    /// None if it is no answer to a `bench`.
    pub fn read(answer: &[u8]) -> Option<Shown> {
        let text = str::from_utf8(answer).ok()?.strip_prefix("bench ")?;
        let words: Vec<&str> = text.split_whitespace().collect();
        if words.len() != AHEAD + 4 * BOX {
            return None;
        }
        let boxes: Vec<&[&str]> = words[AHEAD..].chunks(BOX).collect();
        let fd = |index: usize| flag(boxes[index][0]);
        Some(Shown {
            pf: words[0].parse().ok()?,
            ap: flag(words[1])?,
            overspeed: flag(words[2])?,
            independent: flag(words[3])?,
            fd: [fd(0)?, fd(1)?],
            sets: [set(boxes[0])?, set(boxes[1])?],
            inbox: [fd(2)?, fd(3)?],
        })
    }
}

fn flag(word: &str) -> Option<bool> {
    match word {
        "0" => Some(false),
        "1" => Some(true),
        _ => None,
    }
}

fn set(words: &[&str]) -> Option<Set> {
    let number = |index: usize| words[index].parse().ok();
    Some(Set::new(number(1)?, number(2)?, number(3)?, number(4)?))
}

#[cfg(test)]
pub mod tests {
    use super::*;

    /// An answer that shows this, with references, counts and inboxes as at power-on.
    pub fn answer(shown: &Shown) -> String {
        let Shown { pf, fd, inbox, .. } = shown;
        let bit = u8::from;
        let flags = [shown.ap, shown.overspeed, shown.independent].map(bit);
        let [ap, overspeed, independent] = flags;
        let references = "0 0 0 0 120 0 0";
        let side = |index: usize| {
            let (fd, set) = (bit(fd[index]), shown.sets[index]);
            format!("{fd} {set} {references}")
        };
        let held = |index: usize| format!("{} {} {references}", bit(inbox[index]), Set::OFF);
        format!(
            "bench {pf} {ap} {overspeed} {independent} 0 0 0 0 a b c d e nan 0 120 0 0 0 0 \
             {} {} {} {}\n",
            side(0),
            side(1),
            held(0),
            held(1)
        )
    }

    pub const SOME: Shown = Shown {
        pf: 1,
        ap: false,
        overspeed: true,
        independent: false,
        fd: [true, false],
        sets: [Set::new(2, 0, 1, 0), Set::new(4, 1, 7, 0)],
        inbox: [false, true],
    };

    #[test]
    fn an_answer_is_read_at_its_places() {
        assert_eq!(Shown::read(answer(&SOME).as_bytes()), Some(SOME));
        let other = Shown {
            pf: 255,
            ap: true,
            overspeed: false,
            independent: true,
            fd: [false, true],
            sets: [Set::OFF, Set::new(5, 2, 8, 1)],
            inbox: [true, false],
        };
        assert_eq!(Shown::read(answer(&other).as_bytes()), Some(other));
    }

    #[test]
    fn other_answers_are_not_read() {
        let good = answer(&SOME);
        for bad in [
            "bench 1 0 1\n".to_string(),
            good.replacen("bench", "bunch", 1),
            good.replacen("bench 1 0 1 0", "bench 1 0 1", 1),
            good.replacen("bench 1 0 1 0", "bench 1 0 1 2", 1),
            good.replacen("bench 1", "bench 256", 1),
            good.replacen("nan 0 120 0 0 0 0", "nan", 1),
            good.replacen("2 0 1 0", "2 0 x 0", 1),
        ] {
            assert_ne!(bad, good);
            assert_eq!(Shown::read(bad.as_bytes()), None, "{bad}");
        }
        assert_eq!(Shown::read(b"bench \xff\n"), None);
    }
}
