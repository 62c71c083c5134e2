//! The list as the papers' rules make it: of all sets that can be written, in the order of their
//! codes (document 02, 2026-02), the coherent ones.

use crate::parts::words::{self, Set};

/// The laws and armed numbers that the rules speak of, as document 01 numbers them.
const NAV: u8 = 3;
const LAPPR: u8 = 4;
const VAPPR: u8 = 7;
const NAV_ARMED: u8 = 1;
const LAPPR_ARMED: u8 = 2;

/// PITCH, VS, FLC and VGA: while one of them is engaged, ALTSEL is armed.
const ARMS_ALTSEL: [u8; 4] = [1, 2, 3, 8];

/// Off and the coherent On sets, each at its code.
pub fn sets() -> Vec<Set> {
    let on = words::on_sets().into_iter().filter(|&set| is_coherent(set));
    [Set::OFF].into_iter().chain(on).collect()
}

/// Of On sets. Those that can be written have at most one lateral mode armed, and ALTSEL armed as
/// its rule has it.
fn is_coherent(set: Set) -> bool {
    let vappr_armed = set.vappr == 1;
    let both = (set.lateral == NAV && set.armed == NAV_ARMED)
        || (set.lateral == LAPPR && set.armed == LAPPR_ARMED)
        || (set.vertical == VAPPR && vappr_armed);
    let lappr_cleared = set.lateral != LAPPR && set.armed != LAPPR_ARMED;
    let vappr_cleared = set.vertical != VAPPR && !vappr_armed;
    !both
        && (set.vertical != VAPPR || set.lateral == LAPPR)
        && (set.armed != LAPPR_ARMED || vappr_armed)
        && (!lappr_cleared || vappr_cleared)
}

/// An armed lateral mode has the same number in the sum as in a set.
pub fn armed_sum(set: Set) -> u32 {
    let altsel = ARMS_ALTSEL.contains(&set.vertical);
    u32::from(set.armed) + 4 * u32::from(altsel) + 8 * u32::from(set.vappr)
}

#[cfg(test)]
mod tests {
    use super::*;
    use crate::parts::poster::worked;

    fn number(set: Set) -> u32 {
        256 * u32::from(set.lateral) + 16 * u32::from(set.vertical) + armed_sum(set)
    }

    /// The answer to `codes`.
    fn line() -> String {
        let numbers = sets().into_iter().map(|set| format!(" {}", number(set)));
        format!("codes{}", numbers.collect::<String>())
    }

    #[test]
    fn the_rules_give_the_list_that_was_worked_out_by_hand() {
        assert_eq!(line(), worked::CODES);
    }

    #[test]
    fn the_lines_that_the_paper_gives() {
        let sets = sets();
        assert_eq!(sets.len(), 108);
        let shown = |code: usize| {
            let set = sets[code];
            (set.lateral, armed_sum(set), set.vertical)
        };
        assert_eq!(shown(0), (0, 0, 0));
        assert_eq!(shown(1), (1, 4, 1));
        assert_eq!(shown(107), (5, 14, 8));
    }

    #[test]
    fn numbers_differ() {
        let line = line();
        let mut numbers: Vec<&str> = line.split(' ').skip(1).collect();
        numbers.sort_unstable();
        numbers.dedup();
        assert_eq!(numbers.len(), 108);
    }
}
