//! The codes that stand for mode sets in a frame.

use std::sync::LazyLock;

use crate::sets::ModeSet;

/// Each coherent set at the index that is its code.
static SETS: LazyLock<Vec<ModeSet>> = LazyLock::new(coherent_sets);

/// Off and the coherent On sets in the order of their codes.
pub fn all() -> &'static [ModeSet] {
    &SETS
}

/// The code of a set; `None` if the set is not coherent.
pub fn code_of(set: ModeSet) -> Option<u8> {
    let code = SETS.iter().position(|&other| other == set)?;
    u8::try_from(code).ok()
}

/// The set of a code; `None` if no set has it.
pub fn set_of(code: u8) -> Option<ModeSet> {
    SETS.get(usize::from(code)).copied()
}

/// The four numbers of a set stand in the order of their weight, and those of
/// Off are the lowest.
fn coherent_sets() -> Vec<ModeSet> {
    let mut sets = every_set();
    sets.retain(|set| set.is_coherent());
    sets.sort_by_key(|set| set.numbers());
    sets
}

/// Off and every On set that four numbers can name, in no particular order.
fn every_set() -> Vec<ModeSet> {
    let mut sets = vec![ModeSet::OFF];
    for vappr_armed in [false, true] {
        for vertical in 1..=8 {
            for armed in 0..=2 {
                for lateral in 1..=5 {
                    sets.push(ModeSet::from_numbers(lateral, armed, vertical, vappr_armed));
                }
            }
        }
    }
    sets
}

#[cfg(test)]
mod tests {
    use super::*;

    /// Lateral law, vertical law and armed sum of a code.
    fn shown(code: u8) -> (u32, u32, u32) {
        let set = set_of(code).unwrap();
        (set.lateral_law(), set.vertical_law(), set.armed_sum())
    }

    #[test]
    fn off_has_code_0_and_the_107_on_sets_follow() {
        assert_eq!(SETS.len(), 108);
        assert_eq!(set_of(0), Some(ModeSet::OFF));
        assert!((1..=107).all(|code| !set_of(code).unwrap().is_off()));
        assert!((108..=255).all(|code| set_of(code).is_none()));
    }

    #[test]
    fn the_first_and_the_last_on_sets() {
        assert_eq!(set_of(1), Some(ModeSet::from_numbers(1, 0, 1, false)));
        assert_eq!(set_of(107), Some(ModeSet::from_numbers(5, 2, 8, true)));
        assert_eq!(shown(0), (0, 0, 0));
        assert_eq!(shown(1), (1, 1, 4));
        assert_eq!(shown(107), (5, 8, 14));
    }

    /// ROLL engaged: seven vertical laws without approach for none and for NAV
    /// armed, and with VAPPR armed beside an armed LAPPR.
    #[test]
    fn the_codes_of_roll_by_hand() {
        for (code, numbers) in [
            (1, [1, 0, 1, 0]),
            (2, [1, 0, 2, 0]),
            (6, [1, 0, 6, 0]),
            (7, [1, 0, 8, 0]),
            (8, [1, 1, 1, 0]),
            (14, [1, 1, 8, 0]),
            (15, [1, 2, 1, 1]),
            (21, [1, 2, 8, 1]),
            (22, [2, 0, 1, 0]),
        ] {
            assert_eq!(set_of(code).unwrap().numbers(), numbers, "{code}");
        }
    }

    /// LAPPR engaged: VAPPR is engaged, armed or cleared, and LAPPR no longer
    /// waits.
    #[test]
    fn the_codes_of_lateral_approach_by_hand() {
        for (code, numbers) in [
            (56, [3, 2, 8, 1]),
            (57, [4, 0, 1, 0]),
            (58, [4, 0, 1, 1]),
            (59, [4, 0, 2, 0]),
            (68, [4, 0, 6, 1]),
            (69, [4, 0, 7, 0]),
            (70, [4, 0, 8, 0]),
            (71, [4, 0, 8, 1]),
            (72, [4, 1, 1, 0]),
            (86, [4, 1, 8, 1]),
            (87, [5, 0, 1, 0]),
        ] {
            assert_eq!(set_of(code).unwrap().numbers(), numbers, "{code}");
        }
    }

    #[test]
    fn codes_rise_with_the_numbers_of_their_sets() {
        let numbers = |code| set_of(code).unwrap().numbers();
        assert!((1..=107).all(|code| numbers(code - 1) < numbers(code)));
    }

    #[test]
    fn every_coherent_set_has_one_code_and_others_have_none() {
        for code in 0..=107 {
            assert_eq!(code_of(set_of(code).unwrap()), Some(code));
        }
        let incoherent = every_set().into_iter().filter(|set| !set.is_coherent());
        assert_eq!(incoherent.map(code_of).collect::<Vec<_>>(), [None; 133]);
    }
}
