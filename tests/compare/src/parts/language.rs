//! The script language: what is a command, what is an error, and that an error changes nothing.

mod clicks;
mod lines;
mod names;
mod numbers;
mod watch;

use crate::gate::{Gate, Stop};
use crate::rng::Rng;
use crate::script::{self, Script};

const MUTATIONS: usize = 20_000;

/// Keeps the numbers apart from those of other parts with the same seed.
const LIST: u64 = 6_000;

/// Lengths about the limit of a line and about the sizes that buffers often have.
const LENGTHS: [usize; 17] = [
    254, 255, 256, 257, 258, 300, 511, 512, 513, 1_024, 4_095, 4_096, 4_097, 8_192, 10_000, 65_536,
    100_000,
];

pub fn run(gate: &mut Gate) -> Result<(), Stop> {
    for script in whole_scripts() {
        gate.check(&script)?;
    }
    gate.check(&shown_after_each(numbers::lines()))?;
    gate.check(&shown_after_each(lines::fixed()))?;
    gate.check(&shown_after_each(lines::separated()))?;
    gate.check(&shown_after_each(names::everywhere()))?;
    gate.check(&shown_after_each(names::near_misses()))?;
    gate.check(&shown_after_each(with_every_byte()))?;
    gate.check(&shown_after_each(LENGTHS.into_iter().flat_map(of_length)))?;
    let mut rng = Rng::of_list(gate.seed, LIST);
    gate.check(&mutated(&mut rng))?;
    gate.check(&clicks::singles())?;
    gate.check(&clicks::chains(&mut rng))?;
    gate.check(&watch::about_each())?;
    gate.check(&watch::mixed(&mut rng))?;
    Ok(())
}

/// Each line, and then the bench, to see what the line has changed. The bench is not the one of
/// power-on, to which a wrong answer to an error might take it back. Where the line switches the
/// watch on, one more command is watched.
fn shown_after_each<T: AsRef<[u8]>>(lines: impl IntoIterator<Item = T>) -> Script {
    let mut script = Script::default();
    for line in lines {
        let watched = script::watch(line.as_ref()) == Some(true);
        script.line("power-on");
        script.line("event 16384");
        script.line(line);
        script.line("bench");
        if watched {
            script.line("send 0");
            script.line("watch off");
        }
    }
    script
}

// ---- Whole scripts ----

/// Scripts whose end matters: with no line at all, or with a last line that has no newline.
fn whole_scripts() -> Vec<Script> {
    let mut scripts: Vec<Script> = ENDS.iter().map(|text| as_script(text)).collect();
    for length in LENGTHS {
        scripts.extend(of_length(length).iter().map(|line| as_script(line)));
    }
    scripts
}

const ENDS: [&[u8]; 43] = [
    b"",
    b"\n",
    b"\n\n\n",
    b" ",
    b"#",
    b"# event 1",
    b"event 16384",
    b"event 16384 ",
    b"event 16384\r",
    b"event 16384\nbench",
    b"event 16384\n\nbench #",
    b"bench\n#",
    b"bench\n ",
    b"eve",
    b"\0",
    b"\xff",
    b"panel",
    b"event 1\npanel\n\npanel\nbench",
    b"\t",
    b"\r",
    b"\r\n",
    b"\r\n\t\n \r\n",
    b"event 16384\t",
    b"event\t16384\r\nbench\r\n",
    b"event 16384\r\r\nbench\r\r",
    b"help",
    b"help\nhelp\r\nbench",
    b"watch on",
    b"watch on\nevent 1",
    b"watch on\npanel\nhelp\nevent 1\npanel",
    b"watch on\npower-on\nx\n\nevent 1\nwatch off\nevent 1",
    b"send left\nwatch off\nsend 2",
    b"start 90",
    b"start 90\nbench",
    b"start 401\nbench",
    b"watch on\nstart 60\nstart 59\nstart\nbench",
    b"bytes",
    b"area 3\nbytes",
    b"area 19\nwrite 0 0\nread 0",
    b"area 2\npoke 1 fF",
    b"codes",
    b"press hdg\ncodes\nbench\ncodes",
    b"watch on\ncodes\ncodes 1\nsend 0\ncodes",
];

/// The lines of a text, the last one without a newline if the text has none there.
fn as_script(text: &[u8]) -> Script {
    let mut script = Script::default();
    let mut rest = text;
    while let Some(end) = rest.iter().position(|&byte| byte == b'\n') {
        script.line(&rest[..end]);
        rest = &rest[end + 1..];
    }
    if !rest.is_empty() {
        script.without_newline(rest);
    }
    script
}

// ---- Lines made by rule ----

/// Every byte but the newline, at the places where it could be taken for something else.
fn with_every_byte() -> Vec<Vec<u8>> {
    let mut lines = Vec::new();
    for byte in (0..=u8::MAX).filter(|&byte| byte != b'\n') {
        let forms: [(&[u8], &[u8]); 14] = [
            (b"", b""),
            (b"", b"event 64"),
            (b"event", b"64"),
            (b"event ", b" 64"),
            (b"event 64", b""),
            (b"event 64 ", b""),
            (b"event 64 # ", b" x"),
            (b"# ", b""),
            (b"reading roll 0x40240000000000", b"0"),
            (b"pre", b"ss fd-left"),
            (b"press fd", b"left"),
            (b"knob wheel ", b"7"),
            (b"start", b"90"),
            (b"start 9", b""),
        ];
        lines.extend(forms.map(|(before, after)| [before, &[byte], after].concat()));
    }
    lines
}

/// Lines of one length. In those that are too long a command stands at the end, where a reader
/// that cuts lines into pieces would find it.
fn of_length(length: usize) -> Vec<Vec<u8>> {
    let event = b"event 64".as_slice();
    let forms: [(&[u8], u8, &[u8]); 20] = [
        (b"", b' ', b""),
        (b"#", b'x', b""),
        (b"", b'x', b""),
        (b"", 0, b""),
        (b"", 0xff, b""),
        (b"", b' ', event),
        (event, b' ', b""),
        (event, b'#', event),
        (b"event", b' ', b"64"),
        (b"event ", b'0', b"64"),
        (b"reading roll ", b'0', b".5"),
        (b"", b'\t', b""),
        (b"", b'\r', b""),
        (b"#", b'\r', b"\t"),
        (b"event", b'\t', b"64"),
        (b"\tevent\r", b'\r', b"64\t"),
        (event, b' ', b"\r"),
        (b"knob 0 -", b'0', b"7"),
        (b"watch off", b'\r', b""),
        (b"start ", b'0', b"90"),
    ];
    let filled = |(start, filler, end): (&[u8], u8, &[u8])| {
        let middle = vec![filler; length - start.len() - end.len()];
        [start, &middle, end].concat()
    };
    forms.map(filled).to_vec()
}

// ---- Lines made by chance ----

/// Valid lines with some bytes or words changed. Some stay valid and act.
fn mutated(rng: &mut Rng) -> Script {
    let mut script = Script::default();
    for index in 0..MUTATIONS {
        let line = rng.pick(&lines::VALID).as_bytes().to_vec();
        script.line(mutate(line, rng));
        if index % 4 == 3 {
            script.line("bench");
        }
        // What stays valid may damage the bench, and all calls would be refused from there on; or
        // it may switch the watch on, which makes much to read.
        if index % 16 == 15 {
            script.line("power-on");
            script.line("watch off");
        }
    }
    script
}

fn mutate(mut line: Vec<u8>, rng: &mut Rng) -> Vec<u8> {
    for _ in 0..1 + rng.below(3) {
        let at = rng.below(line.len() + 1);
        match rng.below(6) {
            0 => line.insert(at, other_byte(rng)),
            1 if at < line.len() => line[at] = other_byte(rng),
            2 if at < line.len() => line[at] ^= 1 << rng.below(8),
            3 if at < line.len() => {
                line.remove(at);
            }
            4 => line.truncate(at),
            _ => line = with_word_changed(&line, rng),
        }
    }
    // A newline would make two lines of it.
    line.retain(|&byte| byte != b'\n');
    line
}

/// Mostly bytes of the language, so that the line stays close to one that is valid.
fn other_byte(rng: &mut Rng) -> u8 {
    if rng.percent(80) {
        rng.pick(b" \t\r0123456789-.#xabcdefnr")
    } else {
        rng.below(256) as u8
    }
}

/// A word doubled, dropped, or exchanged with another.
fn with_word_changed(line: &[u8], rng: &mut Rng) -> Vec<u8> {
    let mut words: Vec<&[u8]> = line.split(|&byte| byte == b' ').collect();
    let (at, other) = (rng.below(words.len()), rng.below(words.len()));
    match rng.below(3) {
        0 => words.insert(at, words[at]),
        1 => drop(words.remove(at)),
        _ => words.swap(at, other),
    }
    words.join(&b' ')
}

#[cfg(test)]
mod tests {
    use super::*;
    use std::collections::BTreeSet;

    #[test]
    fn lines_of_a_length_have_that_length() {
        for length in LENGTHS {
            for line in of_length(length) {
                assert_eq!(line.len(), length);
                let parts = |byte: &u8| script::SEPARATORS.contains(byte);
                let blank = line.iter().all(parts) || line[0] == b'#';
                assert_eq!(script::is_answered(&line), length > 255 || !blank);
            }
        }
        for length in [254, 255, 256, 257, 300, 10_000] {
            assert!(LENGTHS.contains(&length));
        }
    }

    #[test]
    fn every_byte_but_the_newline_stands_at_every_place() {
        let lines = with_every_byte();
        assert_eq!(lines.len(), 255 * 14);
        assert!(!lines.concat().contains(&b'\n'));
        for line in [
            b"event\t64".as_slice(),
            b"event 64\r",
            b"\0",
            b"# \x80",
            b"event 64 # \xff x",
            b"press fd-left",
            b"pre\tss fd-left",
            b"knob wheel +7",
        ] {
            assert!(lines.contains(&line.to_vec()), "{line:?}");
        }
    }

    #[test]
    fn whole_scripts_are_what_they_are_made_of() {
        for text in ENDS {
            assert_eq!(as_script(text).text(), text);
        }
        let scripts = whole_scripts();
        assert_eq!(scripts.len(), ENDS.len() + LENGTHS.len() * 20);
        assert!(scripts[0].text().is_empty());
        let open = scripts
            .iter()
            .filter(|script| !script.text().ends_with(b"\n"));
        let closed = ENDS.iter().filter(|text| text.ends_with(b"\n"));
        assert_eq!(open.count(), scripts.len() - closed.count());
    }

    #[test]
    fn the_bench_is_shown_after_each_line() {
        let script = shown_after_each(["event 1", "", "x"]);
        let start = "power-on\nevent 16384\n";
        let expected = format!("{start}event 1\nbench\n{start}\nbench\n{start}x\nbench\n");
        assert_eq!(script.text(), expected.as_bytes());
        assert_eq!(script.commands(), 3 * 4 - 1);
    }

    #[test]
    fn the_watch_does_not_stay_on() {
        let script = shown_after_each(["watch\ton", "watch off", "watch o"]);
        let start = "power-on\nevent 16384\n";
        let expected = format!(
            "{start}watch\ton\nbench\nsend 0\nwatch off\n\
             {start}watch off\nbench\n{start}watch o\nbench\n"
        );
        assert_eq!(script.text(), expected.as_bytes());
    }

    #[test]
    fn mutated_lines_are_many_and_different() {
        let script = mutated(&mut Rng::of_list(1, LIST));
        let lines = script::lines(script.text());
        assert_eq!(lines.len(), MUTATIONS + MUTATIONS / 4 + MUTATIONS / 8);
        let different: BTreeSet<&[u8]> = lines.iter().copied().collect();
        assert!(different.len() > MUTATIONS / 2, "{}", different.len());
        let answered = lines.iter().filter(|line| script::is_answered(line));
        assert_eq!(answered.count(), script.commands());
    }

    #[test]
    fn a_mutation_never_makes_two_lines() {
        let mut rng = Rng::of_list(2, LIST);
        for _ in 0..10_000 {
            let line = mutate(b"send 0".to_vec(), &mut rng);
            assert!(!line.contains(&b'\n'));
        }
    }
}
