//! A float changed alone, behind which the whole value stays: the bench is refused unless that is
//! the new float's too, and mended by the new one's or by the old float again.

use super::{floats, Asked};
use crate::parts::readings;
use crate::parts::words::{self, pattern, Ranged, KINDS};

pub fn all() -> Asked {
    let mut asked = Asked::default();
    for kind in KINDS {
        let given = floats::accepted(kind);
        for &first in &given {
            for &second in &given {
                say_pair(&mut asked, kind, first, second);
            }
            for second in refused(kind) {
                say_pair(&mut asked, kind, first, second);
            }
        }
    }
    asked
}

/// Floats that 5 or 6 would turn away, which no whole value makes sound.
fn refused(kind: Ranged) -> [f64; 4] {
    let past = f64::from(kind.last) + 1.0;
    [f64::NAN, f64::NEG_INFINITY, past, 65_536.0]
}

fn say_pair(asked: &mut Asked, kind: Ranged, first: f64, second: f64) {
    let sound = kind.accepts(second);
    let same = sound && kind.whole(first) == kind.whole(second);
    let [float, whole] = words::stored(kind, &pattern(second));
    asked.lines(&["power-on".to_string()]);
    asked.answered(&format!("reading {} {}", kind.name, pattern(first)), 0);
    asked.lines(&[float]);
    asked.answered("event 0", i32::from(!same));
    if !same {
        asked.lines(&["bench".to_string(), whole]);
        asked.answered("event 0", i32::from(!sound));
    }
    if !sound {
        let [float, whole] = words::stored(kind, &pattern(first));
        asked.lines(&[float, whole]);
    }
    readings::say_entry(&mut asked.script, kind);
}

#[cfg(test)]
mod tests {
    use super::*;

    fn pair(kind: usize, first: f64, second: f64) -> (String, Vec<i32>) {
        let mut asked = Asked::default();
        say_pair(&mut asked, KINDS[kind], first, second);
        let text = String::from_utf8(asked.script.text().to_vec()).unwrap();
        (text, asked.known.iter().map(|row| row.2).collect())
    }

    #[test]
    fn a_float_with_the_same_whole_value_is_sound() {
        let (text, refusals) = pair(0, 0.0, 0.25);
        let expected = "power-on\nreading altitude 0x0000000000000000\n\
            damage reading altitude 0x3fd0000000000000\nevent 0\nevent 524288\ndisplay 0\n";
        assert_eq!((text.as_str(), refusals), (expected, vec![0, 0]));
        assert_eq!(pair(5, 360.5, -0.5).1, [0, 0]);
        assert_eq!(pair(3, 179.5, -180.0).1, [0, 0]);
    }

    #[test]
    fn another_float_is_mended_by_its_own_whole_value() {
        let (text, refusals) = pair(5, 359.0, 359.5);
        let expected = "power-on\nreading heading 0x4076700000000000\n\
            damage reading heading 0x4076780000000000\nevent 0\nbench\ndamage whole heading 0\n\
            event 0\nevent 64\ndisplay 0\n";
        assert_eq!((text.as_str(), refusals), (expected, vec![0, 1, 0]));
    }

    #[test]
    fn a_float_past_its_range_is_mended_by_the_old_one_only() {
        let (text, refusals) = pair(4, 1.5, 90.0);
        let end = "event 0\nbench\ndamage whole pitch 90\nevent 0\n\
            damage reading pitch 0x3ff8000000000000\ndamage whole pitch 2\nevent 64\ndisplay 0\n";
        assert!(text.ends_with(end), "{text}");
        assert_eq!(refusals, [0, 1, 1]);
    }
}
