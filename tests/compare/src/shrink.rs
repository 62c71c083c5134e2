//! The shortest script that shows a difference.

use crate::script;

#[derive(Debug, PartialEq)]
pub struct Shortest<'a> {
    pub text: &'a [u8],
    /// False if not even the whole script shows the difference a second time.
    pub shown_again: bool,
}

/// Cuts a script that shows a difference, by trying shorter ones. `line` is the script line, from
/// 0, of the first differing answer, or none if only the ends of the runs differ.
pub fn shortest<'a>(
    text: &'a [u8],
    line: Option<usize>,
    differs: &mut dyn FnMut(&[u8]) -> bool,
) -> Shortest<'a> {
    let ends = line_ends(text);
    let first = line.map_or(0, |line| line + 1);
    let Some(count) = shortest_count(&ends, first, &mut |end| differs(&text[..end])) else {
        let shown_again = false;
        return Shortest { text, shown_again };
    };
    let prefix = &text[..ends[count]];
    let text = late_starts(prefix)
        .into_iter()
        .map(|start| &prefix[start..])
        .find(|text| differs(text))
        .unwrap_or(prefix);
    let shown_again = true;
    Shortest { text, shown_again }
}

/// For each number of lines from 0, where they end.
fn line_ends(text: &[u8]) -> Vec<usize> {
    let mut ends = vec![0];
    let mut end = 0;
    for line in script::lines(text) {
        end += line.len();
        ends.push(end);
    }
    ends
}

/// The fewest lines that differ, at least `first` of them.
///
/// Almost always that is `first`. But a program that dies takes its last answers with it, and the
/// line that kills it comes after the first one that is missed. What kills it also does so in
/// every longer script, so the search may halve.
fn shortest_count(
    ends: &[usize],
    first: usize,
    differs: &mut dyn FnMut(usize) -> bool,
) -> Option<usize> {
    let (mut low, mut high) = (first, ends.len() - 1);
    if differs(ends[low]) {
        return Some(low);
    }
    if !differs(ends[high]) {
        return None;
    }
    while high - low > 1 {
        let middle = low + (high - low) / 2;
        if differs(ends[middle]) {
            high = middle;
        } else {
            low = middle;
        }
    }
    Some(high)
}

/// Where a shorter script might start, the latest first: at the last new bench ahead of the last
/// line, at the last new area, or, because a new bench leaves the watch as it is, where the watch
/// was last switched before it.
fn late_starts(prefix: &[u8]) -> Vec<usize> {
    let lines = script::lines(prefix);
    let ends = line_ends(prefix);
    let earlier = &lines[..lines.len().saturating_sub(1)];
    let bench = earlier.iter().rposition(|line| script::is_new_bench(line));
    let area = earlier.iter().rposition(|line| script::is_area(line));
    let switches = |line: &&[u8]| script::watch(line).is_some();
    let watch = bench.and_then(|end| earlier[..end].iter().rposition(switches));
    let starts = [bench, area, watch].into_iter().flatten();
    let mut starts: Vec<usize> = starts.filter(|&index| index > 0).collect();
    starts.sort_unstable_by(|one, other| other.cmp(one));
    starts.into_iter().map(|index| ends[index]).collect()
}

#[cfg(test)]
mod tests {
    use super::*;

    fn has(text: &[u8], part: &str) -> bool {
        String::from_utf8_lossy(text).contains(part)
    }

    fn cut(text: &str, line: Option<usize>, differs: impl Fn(&[u8]) -> bool) -> (String, bool) {
        let found = shortest(text.as_bytes(), line, &mut |text| differs(text));
        let text = String::from_utf8(found.text.to_vec()).unwrap();
        (text, found.shown_again)
    }

    #[test]
    fn the_prefix_ends_with_the_differing_line() {
        let found = cut("send 0\nbad\nsend 1\n", Some(1), |text| has(text, "bad"));
        assert_eq!(found, ("send 0\nbad\n".to_string(), true));
    }

    #[test]
    fn an_ordinary_difference_needs_no_search() {
        let mut text = "send 0\n".repeat(1_000) + "power-on\n";
        text += &"send 1\n".repeat(1_000);
        let mut tried = Vec::new();
        let found = shortest(text.as_bytes(), Some(1_500), &mut |text| {
            tried.push(script::lines(text).len());
            true
        });
        assert_eq!(script::lines(found.text).len(), 501);
        assert_eq!(tried, [1_501, 501]);
    }

    #[test]
    fn it_starts_at_the_last_power_on_if_that_still_differs() {
        let text = "a\npower-on\nb\npower-on # x\nbad\npower-on\nc\n";
        let found = cut(text, Some(4), |text| has(text, "bad"));
        assert_eq!(found.0, "power-on # x\nbad\n");
        let found = cut(text, Some(4), |text| has(text, "b\n") && has(text, "bad"));
        assert_eq!(found.0, "a\npower-on\nb\npower-on # x\nbad\n");
    }

    #[test]
    fn it_starts_at_the_last_start_too() {
        let text = "a\npower-on\nb\nstart 401\nbad\nstart 60\nc\n";
        let found = cut(text, Some(4), |text| has(text, "bad"));
        assert_eq!(found.0, "start 401\nbad\n");
    }

    #[test]
    fn it_starts_where_the_watch_was_switched_if_that_matters() {
        let text = "a\npower-on\nwatch off\nb\nwatch on\nc\npower-on\nbad\nd\n";
        let watched = |text: &[u8]| has(text, "watch on\n") && has(text, "bad");
        let found = cut(text, Some(7), watched);
        assert_eq!(found.0, "watch on\nc\npower-on\nbad\n");
        let found = cut(text, Some(7), |text| has(text, "bad"));
        assert_eq!(found.0, "power-on\nbad\n");
        let found = cut(text, Some(7), |text| has(text, "b\n") && has(text, "bad"));
        assert_eq!(found.0, text.strip_suffix("d\n").unwrap());
        let found = cut("watch on\npower-on\nbad\n", Some(2), watched);
        assert_eq!(found.0, "watch on\npower-on\nbad\n");
    }

    #[test]
    fn it_starts_at_the_last_area_if_that_matters() {
        let text = "a\narea 19\nb\narea 20\npower-on\nbad\n";
        let found = cut(text, Some(5), |text| has(text, "bad"));
        assert_eq!(found.0, "power-on\nbad\n");
        let found = cut(text, Some(5), |text| has(text, "area") && has(text, "bad"));
        assert_eq!(found.0, "area 20\npower-on\nbad\n");
        let text = "a\npower-on\nb\narea 20\nbad\n";
        let found = cut(text, Some(4), |text| has(text, "bad"));
        assert_eq!(found.0, "area 20\nbad\n");
        let found = cut(text, Some(4), |text| has(text, "b\n") && has(text, "bad"));
        assert_eq!(found.0, "power-on\nb\narea 20\nbad\n");
        let text = "a\nwatch on\narea 20\npower-on\nbad\n";
        let found = cut(text, Some(4), |text| has(text, "on\na") && has(text, "bad"));
        assert_eq!(found.0, "watch on\narea 20\npower-on\nbad\n");
    }

    #[test]
    fn a_power_on_that_differs_itself_is_not_where_it_starts() {
        let text = "power-on\na\npower-on\nb\npower-on\n";
        let found = cut(text, Some(4), |text| text.ends_with(b"b\npower-on\n"));
        assert_eq!(found.0, "power-on\nb\npower-on\n");
    }

    #[test]
    fn a_death_after_the_first_missing_answer_is_found() {
        let mut lines = vec!["send 0"; 1_000];
        lines[700] = "deadly";
        let text = lines.join("\n") + "\n";
        for line in [None, Some(0), Some(5), Some(699), Some(700)] {
            let (found, again) = cut(&text, line, |text| has(text, "deadly"));
            assert_eq!((found.lines().count(), again), (701, true), "{line:?}");
        }
    }

    #[test]
    fn a_program_that_always_fails_needs_no_line() {
        assert_eq!(cut("a\nb\n", None, |_| true), (String::new(), true));
    }

    #[test]
    fn a_difference_that_does_not_come_again_is_told() {
        let found = cut("a\nb\n", Some(0), |_| false);
        assert_eq!(found, ("a\nb\n".to_string(), false));
    }

    #[test]
    fn the_last_line_keeps_its_missing_newline() {
        let found = cut("a\nb", Some(1), |text| text.ends_with(b"b"));
        assert_eq!(found.0, "a\nb");
    }
}
