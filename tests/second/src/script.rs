//! The script language: from a line to a command.
//!
//! Lines are bytes. Only words of the language are compared with them, so a
//! line that is no text is an error like any other, and a comment may hold
//! any bytes.

use crate::bench::{Kind, Reference};
use crate::float;
use crate::names::{self, Place};
use crate::sets::ModeSet;

#[derive(Clone, PartialEq, Eq, Debug)]
pub enum Command {
    Event(u32),
    Turn(u32, u8),
    /// A knob 0 to 3 and by how much its count goes on.
    Knob(u32, i8),
    Reading(Kind, u64),
    Send(u32),
    Refresh(u32),
    Display(u32),
    Pick(u32),
    PowerOn,
    /// With the speed that it names, in range or not.
    Start(i32),
    Bench,
    Panel,
    Watch(bool),
    Help,
    Damage(Damage),
    Bus(Bus),
    Codes,
}

impl Command {
    /// Whether it is a command that can change the bench, even if this one
    /// does not.
    pub fn is_watched(&self) -> bool {
        match self {
            Command::Event(_) | Command::Turn(..) | Command::Knob(..) => true,
            Command::Reading(..) | Command::Send(_) | Command::Refresh(_) => true,
            Command::PowerOn | Command::Start(_) | Command::Damage(_) => true,
            Command::Display(_) | Command::Pick(_) | Command::Bench => false,
            Command::Panel | Command::Watch(_) | Command::Help => false,
            Command::Bus(_) | Command::Codes => false,
        }
    }
}

/// What is done in the bus area. None of it can change the bench.
#[derive(Clone, PartialEq, Eq, Debug)]
pub enum Bus {
    Area(usize),
    Poke(u64, Vec<u8>),
    Write(u32, u64),
    Read(u64),
    Bytes,
}

#[derive(Clone, Copy, PartialEq, Eq, Debug)]
pub enum Damage {
    Pf(u8),
    Independent(bool),
    Set(Place, ModeSet),
    Reference(Place, Reference, i32),
    Reading(Kind, u64),
    Whole(Kind, i32),
}

/// What would be right where a line went wrong.
pub type Problem = &'static str;

const NAME: Problem = "a command is event, press, signal, turn, knob, reading, send, refresh, \
    display, pick, power-on, start, bench, panel, damage, watch, help, area, poke, write, read, \
    bytes or codes";
const ALONE: Problem = "this command is one word alone";
const EVENT: Problem = "event takes one number from 0 to 4294967295";
const PRESS: Problem = "press takes one switch: ap-disconnect, ap, go-around, transfer, fd-left, \
    fd-right, hdg, nav, appr, vs, flc, alt or independent";
const SIGNAL: Problem = "signal takes one signal: overspeed-begins, overspeed-ends, \
    source-changed, nav-captured, lappr-captured, vappr-captured, altsel-captured or \
    altsel-on-track";
const TURN: Problem = "turn takes a knob and a count";
const KNOB: Problem = "knob takes a knob and clicks";
const ANY_KNOB: Problem = "a knob is wheel, altitude, speed, heading or a number from 0 to \
    4294967295";
const ONE_OF_FOUR: Problem = "a knob is wheel, altitude, speed, heading or a number from 0 to 3";
const COUNT: Problem = "a count is a number from 0 to 255";
const CLICKS: Problem = "clicks are a number from -128 to 127";
const SIDE: Problem = "here goes one side: left, right or a number from 0 to 4294967295";
const READING: Problem = "a reading has a kind and a value";
const KIND: Problem = "a kind is altitude, airspeed, vertical-speed, roll, pitch or heading";
const VALUE: Problem = "a value is a decimal number with at most 15 significant digits and at \
    most 15 after the point, or 0x and 16 hexadecimal digits, or nan, inf or -inf";
const SPEED: Problem = "start takes one speed, a number from -2147483648 to 2147483647";
const WATCH: Problem = "watch takes on or off";
const DAMAGE: Problem = "damage takes pf, independent, reading, whole, left, right, left-inbox or \
    right-inbox first";
const PF: Problem = "damage pf takes one number from 0 to 255";
const INDEPENDENT: Problem = "damage independent takes 0 or 1";
const SET: Problem = "a set is lateral 1 to 5, armed 0 to 2, vertical 1 to 8 and vappr-armed 0 or \
    1, or 0 and three numbers for Off";
const TARGET: Problem = "here goes set and four numbers, or a reference and a number";
const REFERENCE: Problem = "a reference is heading, preselected, held, vertical-speed, ias, roll \
    or pitch";
const AMOUNT: Problem = "a reference takes a number from -2147483648 to 2147483647";
const WHOLE: Problem = "a whole value is one number from -2147483648 to 2147483647";

const AREA: Problem = "area takes one length from 0 to 2048";
const POKE: Problem = "poke takes a start and the bytes";
const WRITE: Problem = "write takes a side and a start";
const START: Problem = "here goes one start, a number from 0 to 18446744073709551615";
const BYTES: Problem = "bytes are pairs of hexadecimal digits without anything between";

/// The commands, for people who ask for help.
pub const FORMS: [&str; 28] = [
    "event WORD",
    "press SWITCH",
    "signal SIGNAL",
    "turn KNOB COUNT",
    "knob KNOB CLICKS",
    "reading KIND VALUE",
    "send SIDE",
    "refresh SIDE",
    "display SIDE",
    "pick SIDE",
    "power-on",
    "start SPEED",
    "bench",
    "panel",
    "damage pf N",
    "damage independent N",
    "damage BOX set LATERAL ARMED VERTICAL VAPPR-ARMED",
    "damage BOX REFERENCE N",
    "damage reading KIND VALUE",
    "damage whole KIND N",
    "watch on, watch off",
    "help",
    "area LENGTH",
    "poke START HEX",
    "write SIDE START",
    "read START",
    "bytes",
    "codes",
];

/// The longest bus area.
const MOST_BYTES: usize = 2_048;

/// More words than any command has, so that surplus ones are noticed.
const MOST_WORDS: usize = 8;

/// The command of a line without its end; `None` if the line is empty or
/// holds only a comment.
pub fn parse(line: &[u8]) -> Result<Option<Command>, Problem> {
    let mut storage = [&line[..0]; MOST_WORDS];
    let words = split(line, &mut storage);
    match words.split_first() {
        None => Ok(None),
        Some((name, arguments)) => command(name, arguments).map(Some),
    }
}

/// The words ahead of a comment, up to the number that fits.
fn split<'s, 'l>(line: &'l [u8], storage: &'s mut [&'l [u8]; MOST_WORDS]) -> &'s [&'l [u8]] {
    let text = line.split(|&byte| byte == b'#').next().unwrap_or(line);
    let words = text
        .split(|byte| b" \t\r".contains(byte))
        .filter(|word| !word.is_empty());
    let mut count = 0;
    for (slot, word) in storage.iter_mut().zip(words) {
        *slot = word;
        count += 1;
    }
    &storage[..count]
}

fn command(name: &[u8], arguments: &[&[u8]]) -> Result<Command, Problem> {
    match name {
        b"event" => one(arguments, number, EVENT).map(Command::Event),
        b"press" => one(arguments, names::switch, PRESS).map(alone_in_word),
        b"signal" => one(arguments, names::signal, SIGNAL).map(alone_in_word),
        b"turn" => turn(arguments),
        b"knob" => knob(arguments),
        b"reading" => reading(arguments).map(|(kind, bits)| Command::Reading(kind, bits)),
        b"send" => one(arguments, side, SIDE).map(Command::Send),
        b"refresh" => one(arguments, side, SIDE).map(Command::Refresh),
        b"display" => one(arguments, side, SIDE).map(Command::Display),
        b"pick" => one(arguments, side, SIDE).map(Command::Pick),
        b"power-on" => alone(arguments, Command::PowerOn),
        b"start" => one(arguments, signed, SPEED).map(Command::Start),
        b"bench" => alone(arguments, Command::Bench),
        b"panel" => alone(arguments, Command::Panel),
        b"watch" => one(arguments, names::on_or_off, WATCH).map(Command::Watch),
        b"help" => alone(arguments, Command::Help),
        b"damage" => damage(arguments).map(Command::Damage),
        b"area" => one(arguments, length, AREA).map(|length| Command::Bus(Bus::Area(length))),
        b"poke" => poke(arguments).map(Command::Bus),
        b"write" => write(arguments).map(Command::Bus),
        b"read" => one(arguments, start, START).map(|start| Command::Bus(Bus::Read(start))),
        b"bytes" => alone(arguments, Command::Bus(Bus::Bytes)),
        b"codes" => alone(arguments, Command::Codes),
        _ => Err(NAME),
    }
}

/// The word with the bit of one event.
fn alone_in_word(event: u32) -> Command {
    Command::Event(1 << event)
}

fn alone(arguments: &[&[u8]], command: Command) -> Result<Command, Problem> {
    match arguments {
        [] => Ok(command),
        _ => Err(ALONE),
    }
}

/// The only argument, as it is read at its place.
fn one<T>(
    arguments: &[&[u8]],
    read: fn(&[u8]) -> Option<T>,
    accepted: Problem,
) -> Result<T, Problem> {
    match arguments {
        [word] => read(word).ok_or(accepted),
        _ => Err(accepted),
    }
}

fn turn(arguments: &[&[u8]]) -> Result<Command, Problem> {
    let [knob, count] = arguments else {
        return Err(TURN);
    };
    let knob = any_knob(knob).ok_or(ANY_KNOB)?;
    Ok(Command::Turn(knob, byte(count).ok_or(COUNT)?))
}

fn knob(arguments: &[&[u8]]) -> Result<Command, Problem> {
    let [knob, clicks] = arguments else {
        return Err(KNOB);
    };
    let knob = any_knob(knob).filter(|&knob| knob <= 3);
    let knob = knob.ok_or(ONE_OF_FOUR)?;
    Ok(Command::Knob(knob, signed_byte(clicks).ok_or(CLICKS)?))
}

fn any_knob(word: &[u8]) -> Option<u32> {
    names::knob(word).or_else(|| number(word))
}

fn side(word: &[u8]) -> Option<u32> {
    names::side(word).or_else(|| number(word))
}

fn reading(arguments: &[&[u8]]) -> Result<(Kind, u64), Problem> {
    let [name, word] = arguments else {
        return Err(READING);
    };
    let kind = names::kind(name).ok_or(KIND)?;
    Ok((kind, value(word).ok_or(VALUE)?))
}

// ---- Damage ----

fn damage(arguments: &[&[u8]]) -> Result<Damage, Problem> {
    match arguments {
        [b"pf", rest @ ..] => one(rest, byte, PF).map(Damage::Pf),
        [b"independent", rest @ ..] => one(rest, flag, INDEPENDENT).map(Damage::Independent),
        [b"reading", rest @ ..] => reading(rest).map(|(kind, bits)| Damage::Reading(kind, bits)),
        [b"whole", rest @ ..] => whole(rest).map(|(kind, whole)| Damage::Whole(kind, whole)),
        [name, rest @ ..] => damage_in(names::place(name).ok_or(DAMAGE)?, rest),
        [] => Err(DAMAGE),
    }
}

/// The kind is judged ahead of all that stands behind it.
fn whole(words: &[&[u8]]) -> Result<(Kind, i32), Problem> {
    let (name, rest) = words.split_first().ok_or(KIND)?;
    let kind = names::kind(name).ok_or(KIND)?;
    Ok((kind, one(rest, signed, WHOLE)?))
}

fn damage_in(place: Place, words: &[&[u8]]) -> Result<Damage, Problem> {
    match words {
        [b"set", numbers @ ..] => Ok(Damage::Set(place, set(numbers).ok_or(SET)?)),
        [target, amount] => {
            let reference = names::reference(target).ok_or(REFERENCE)?;
            let amount = signed(amount).ok_or(AMOUNT)?;
            Ok(Damage::Reference(place, reference, amount))
        }
        _ => Err(TARGET),
    }
}

/// Lateral 0 is Off, and then the other three numbers say nothing.
fn set(words: &[&[u8]]) -> Option<ModeSet> {
    let [lateral, armed, vertical, vappr] = words else {
        return None;
    };
    let numbers = (
        number(lateral)?,
        number(armed)?,
        number(vertical)?,
        number(vappr)?,
    );
    match numbers {
        (0, _, _, _) => Some(ModeSet::OFF),
        (lateral @ 1..=5, armed @ 0..=2, vertical @ 1..=8, vappr @ 0..=1) => {
            Some(ModeSet::from_numbers(lateral, armed, vertical, vappr == 1))
        }
        _ => None,
    }
}

// ---- The bus area ----

fn poke(arguments: &[&[u8]]) -> Result<Bus, Problem> {
    let [place, bytes] = arguments else {
        return Err(POKE);
    };
    let start = start(place).ok_or(START)?;
    Ok(Bus::Poke(start, pairs(bytes).ok_or(BYTES)?))
}

fn write(arguments: &[&[u8]]) -> Result<Bus, Problem> {
    let [name, place] = arguments else {
        return Err(WRITE);
    };
    let side = side(name).ok_or(SIDE)?;
    Ok(Bus::Write(side, start(place).ok_or(START)?))
}

fn length(word: &[u8]) -> Option<usize> {
    let length = usize::try_from(digits(word)?).ok();
    length.filter(|&length| length <= MOST_BYTES)
}

fn start(word: &[u8]) -> Option<u64> {
    u64::try_from(digits(word)?).ok()
}

/// The bytes of pairs of hexadecimal digits. No word is empty, so there is one
/// pair at least.
fn pairs(word: &[u8]) -> Option<Vec<u8>> {
    let (pairs, rest) = word.as_chunks();
    if !rest.is_empty() {
        return None;
    }
    let byte = |&[high, low]: &[u8; 2]| Some(hex_digit(high)? << 4 | hex_digit(low)?);
    pairs.iter().map(byte).collect()
}

// ---- Whole numbers ----

/// At least one digit and nothing else, read as a number.
fn digits(word: &[u8]) -> Option<u128> {
    if word.is_empty() || !word.iter().all(u8::is_ascii_digit) {
        return None;
    }
    // Saturation keeps a number of any length out of range. The widest range is
    // all of 64 bits, so these are not enough here.
    Some(word.iter().fold(0_u128, |sum, &digit| {
        sum.saturating_mul(10)
            .saturating_add(u128::from(digit - b'0'))
    }))
}

fn number(word: &[u8]) -> Option<u32> {
    u32::try_from(digits(word)?).ok()
}

fn flag(word: &[u8]) -> Option<bool> {
    match number(word)? {
        0 => Some(false),
        1 => Some(true),
        _ => None,
    }
}

fn byte(word: &[u8]) -> Option<u8> {
    u8::try_from(digits(word)?).ok()
}

fn signed(word: &[u8]) -> Option<i32> {
    let (negative, rest) = sign(word);
    let magnitude = i64::try_from(digits(rest)?).ok()?;
    let value = if negative { -magnitude } else { magnitude };
    i32::try_from(value).ok()
}

fn signed_byte(word: &[u8]) -> Option<i8> {
    i8::try_from(signed(word)?).ok()
}

fn sign(word: &[u8]) -> (bool, &[u8]) {
    match word.strip_prefix(b"-") {
        Some(rest) => (true, rest),
        None => (false, word),
    }
}

// ---- Values of readings ----

/// The bit pattern of a reading's value.
fn value(word: &[u8]) -> Option<u64> {
    match word {
        b"nan" => Some(float::NAN),
        b"inf" => Some(f64::INFINITY.to_bits()),
        b"-inf" => Some(f64::NEG_INFINITY.to_bits()),
        [b'0', b'x', pattern @ ..] => hexadecimal(pattern),
        _ => decimal(word),
    }
}

fn hexadecimal(pattern: &[u8]) -> Option<u64> {
    if pattern.len() != 16 {
        return None;
    }
    let bits = pattern.iter().try_fold(0, |sum, &digit| {
        Some(sum << 4 | u64::from(hex_digit(digit)?))
    })?;
    Some(if float::is_nan(bits) {
        float::NAN
    } else {
        bits
    })
}

/// Of either letter case.
fn hex_digit(digit: u8) -> Option<u8> {
    let value = char::from(digit).to_digit(16)?;
    u8::try_from(value).ok()
}

const MOST_DIGITS: usize = 15;

/// The float nearest to a decimal number, if that is short enough.
fn decimal(word: &[u8]) -> Option<u64> {
    let (_, magnitude) = sign(word);
    let point = magnitude.iter().position(|&byte| byte == b'.');
    let (units, fraction) = match point {
        None => (magnitude, None),
        Some(at) => (&magnitude[..at], Some(&magnitude[at + 1..])),
    };
    digits(units)?;
    fraction.map_or(Some(0), digits)?;
    if !is_short(units, fraction.unwrap_or(b"")) {
        return None;
    }
    let text = std::str::from_utf8(word).ok()?;
    text.parse::<f64>().ok().map(f64::to_bits)
}

/// Zeros ahead of the first other digit are not significant.
fn is_short(units: &[u8], fraction: &[u8]) -> bool {
    let all = units.iter().chain(fraction);
    let significant = all.skip_while(|&&digit| digit == b'0').count();
    significant <= MOST_DIGITS && fraction.len() <= MOST_DIGITS
}

#[cfg(test)]
mod tests {
    use super::*;

    use crate::names::tests::{SIGNALS, SWITCHES};

    fn value_of(word: &str) -> Option<u64> {
        value(word.as_bytes())
    }

    #[test]
    fn values_of_every_form() {
        let same = [
            ("-12.5", -12.5),
            ("0", 0.0),
            ("007", 7.0),
            ("0.1", 0.1),
            ("123456789012345", 123456789012345.0),
            ("0.000000000000001", 1e-15),
            ("00000000000000000000.5", 0.5),
            ("0x4059000000000000", 100.0),
            ("0x7FEfffffffffffff", f64::MAX),
            ("inf", f64::INFINITY),
            ("-inf", f64::NEG_INFINITY),
        ];
        for (word, expected) in same {
            assert_eq!(value_of(word), Some(expected.to_bits()), "{word}");
        }
        assert_eq!(value_of("-0"), Some((-0.0_f64).to_bits()));
        for word in ["nan", "0x7ff0000000000001", "0xffffffffffffffff"] {
            assert_eq!(value_of(word), Some(float::NAN), "{word}");
        }
    }

    #[test]
    fn values_of_no_form() {
        let wrong = [
            "",
            "-",
            ".",
            "-.5",
            ".5",
            "5.",
            "+5",
            "1e5",
            "1.2.3",
            "--1",
            "1,5",
            "NaN",
            "-nan",
            "+inf",
            "infinity",
            "0x",
            "0x123",
            "0X4059000000000000",
            "0x40590000000000000",
            "0x405900000000000g",
            "0x+059000000000000",
            "-0x4059000000000000",
            "1234567890123456",
            "1.234567890123456",
            "0.0000000000000000",
            "1000000000000000",
        ];
        for word in wrong {
            assert_eq!(value_of(word), None, "{word}");
        }
    }

    #[test]
    fn numbers_at_the_ends_of_their_ranges() {
        assert_eq!(number(b"4294967295"), Some(u32::MAX));
        assert_eq!(number(b"0000000000004294967295"), Some(u32::MAX));
        assert_eq!(number(b"4294967296"), None);
        assert_eq!(number(&[b'9'; 200]), None);
        assert_eq!(number(b"-1"), None);
        assert_eq!(number(b"+1"), None);
        assert_eq!(byte(b"255"), Some(255));
        assert_eq!(byte(b"256"), None);
        assert_eq!(signed(b"-2147483648"), Some(i32::MIN));
        assert_eq!(signed(b"2147483647"), Some(i32::MAX));
        assert_eq!(signed(b"2147483648"), None);
        assert_eq!(signed(b"-2147483649"), None);
        assert_eq!(signed(&[b'9'; 200]), None);
        assert_eq!(start(b"18446744073709551615"), Some(u64::MAX));
        assert_eq!(start(b"18446744073709551616"), None);
        assert_eq!(start(b"340282366920938463463374607431768211456"), None);
        assert_eq!(start(&[b'9'; 200]), None);
        assert_eq!(length(b"2048"), Some(2_048));
        assert_eq!(length(b"2049"), None);
        assert_eq!(length(b"18446744073709551616"), None);
        assert_eq!(signed_byte(b"-128"), Some(-128));
        assert_eq!(signed_byte(b"127"), Some(127));
        for word in ["-129", "128", "255", "-256", "+1", "--1", "-", "4294967295"] {
            assert_eq!(signed_byte(word.as_bytes()), None, "{word}");
        }
    }

    #[test]
    fn comments_and_spaces() {
        for line in [
            "",
            "   ",
            "\t",
            "\r",
            " \t\r ",
            "# event 1",
            "  # \u{e9}",
            "\t#\r",
        ] {
            assert_eq!(parse(line.as_bytes()), Ok(None), "{line:?}");
        }
        let event = Ok(Some(Command::Event(16)));
        for line in [
            "event 16",
            "  event   16  ",
            "event 16#x",
            "event 16 # x # y",
            "event\t16",
            "event\r16",
            "event 16\r",
            "\t\revent \t\r 16\t",
            "event 16\t#\r",
        ] {
            assert_eq!(parse(line.as_bytes()), event, "{line:?}");
        }
        assert_eq!(parse(b"# \xff\xfe\x00"), Ok(None));
        // Other white space parts nothing.
        for line in ["event\u{b}16", "event\u{c}16", "event 16\u{a0}", "\u{85}"] {
            assert!(parse(line.as_bytes()).is_err(), "{line:?}");
        }
    }

    /// Lines that all mean the same.
    fn assert_same(lines: &[&str], expected: Command) {
        for line in lines {
            assert_eq!(parse(line.as_bytes()), Ok(Some(expected.clone())), "{line}");
        }
    }

    #[test]
    fn switches_and_signals_are_events() {
        for (name, event) in SWITCHES {
            assert_same(&[&format!("press {name}")], Command::Event(1 << event));
            assert!(parse(format!("signal {name}").as_bytes()).is_err());
        }
        for (name, event) in SIGNALS {
            assert_same(&[&format!("signal {name}")], Command::Event(1 << event));
            assert!(parse(format!("press {name}").as_bytes()).is_err());
        }
    }

    #[test]
    fn sides_have_names_wherever_one_is_taken() {
        assert_same(&["send left", "send 0", "send 00"], Command::Send(0));
        assert_same(&["send right", "send 1"], Command::Send(1));
        assert_same(&["refresh left", "refresh 0"], Command::Refresh(0));
        assert_same(&["refresh right"], Command::Refresh(1));
        assert_same(&["display left"], Command::Display(0));
        assert_same(&["display right", "display 01"], Command::Display(1));
        assert_same(&["display 4294967295"], Command::Display(u32::MAX));
        assert_same(&["pick left"], Command::Pick(0));
        assert_same(&["pick right"], Command::Pick(1));
    }

    #[test]
    fn knobs_have_names_wherever_one_is_taken() {
        for (name, knob) in [("wheel", 0), ("altitude", 1), ("speed", 2), ("heading", 3)] {
            let turns = [format!("turn {name} 7"), format!("turn {knob} 7")];
            assert_same(
                &turns.each_ref().map(String::as_str),
                Command::Turn(knob, 7),
            );
            let clicks = [
                format!("knob {name} -9"),
                format!("knob {knob} -9"),
                format!("knob 00{knob} -009"),
            ];
            assert_same(
                &clicks.each_ref().map(String::as_str),
                Command::Knob(knob, -9),
            );
        }
        assert_same(&["turn 4294967295 255"], Command::Turn(u32::MAX, 255));
        assert_same(&["knob speed -128"], Command::Knob(2, -128));
        assert_same(&["knob speed 127", "knob 2 0127"], Command::Knob(2, 127));
        assert_same(
            &["knob 0 0", "knob 0 -0", "knob 0 -00"],
            Command::Knob(0, 0),
        );
    }

    #[test]
    fn watch_and_help() {
        assert_same(&["watch on", "\twatch\ton\r"], Command::Watch(true));
        assert_same(&["watch off", "watch off # on"], Command::Watch(false));
        assert_same(&["help", " help #"], Command::Help);
    }

    fn bus(bus: Bus) -> Command {
        Command::Bus(bus)
    }

    #[test]
    fn the_bus_area() {
        assert_same(&["area 0", "area 000"], bus(Bus::Area(0)));
        assert_same(&["area 2048", "area 02048"], bus(Bus::Area(2_048)));
        assert_same(
            &["poke 7 0aFf", "poke 7 0AFF", "poke 007 0aff#00"],
            bus(Bus::Poke(7, vec![0x0a, 0xff])),
        );
        assert_same(
            &["poke 18446744073709551615 5b"],
            bus(Bus::Poke(u64::MAX, vec![0x5b])),
        );
        assert_same(&["write left 3", "write 0 3"], bus(Bus::Write(0, 3)));
        assert_same(&["write right 00", "write 01 0"], bus(Bus::Write(1, 0)));
        assert_same(
            &["write 4294967295 18446744073709551615"],
            bus(Bus::Write(u32::MAX, u64::MAX)),
        );
        assert_same(&["read 0", "read 00"], bus(Bus::Read(0)));
        assert_same(
            &["read 18446744073709551615", "read 000018446744073709551615"],
            bus(Bus::Read(u64::MAX)),
        );
        assert_same(&["bytes", "\tbytes\r# 0"], bus(Bus::Bytes));
    }

    #[test]
    fn a_line_has_room_for_124_pairs() {
        let line = format!("poke 0 {}", "c3".repeat(124));
        assert_eq!(line.len(), 255);
        assert_same(&[&line], bus(Bus::Poke(0, vec![0xc3; 124])));
    }

    #[test]
    fn help_has_a_form_of_every_command() {
        for form in FORMS {
            let name = form.split(' ').next().unwrap();
            assert_ne!(command(name.as_bytes(), &[]), Err(NAME), "{form}");
        }
        let listed = |name: &str| {
            FORMS
                .iter()
                .any(|form| form.split(' ').next() == Some(name))
        };
        let names = NAME.strip_prefix("a command is ").unwrap();
        for name in names.replace(" or ", ", ").split(", ") {
            assert!(listed(name), "{name}");
        }
    }

    #[test]
    fn what_is_watched_can_change_the_bench() {
        let watched = |line: &str| parse(line.as_bytes()).unwrap().unwrap().is_watched();
        for line in [
            "event 0",
            "press hdg",
            "signal nav-captured",
            "turn 9 1",
            "knob 0 0",
            "reading roll nan",
            "send 2",
            "refresh left",
            "power-on",
            "start 60",
            "start 401",
            "damage pf 0",
            "damage independent 0",
            "damage whole roll 0",
            "damage left set 0 0 0 0",
        ] {
            assert!(watched(line), "{line}");
        }
        for line in [
            "display 0",
            "pick right",
            "bench",
            "panel",
            "watch on",
            "help",
            "area 19",
            "poke 0 00",
            "write left 0",
            "read 0",
            "bytes",
            "codes",
        ] {
            assert!(!watched(line), "{line}");
        }
    }

    #[test]
    fn lines_that_are_no_command() {
        let wrong = [
            "events 1",
            "Event 1",
            "event",
            "event 1 2",
            "event x",
            "event hdg",
            "event left",
            "ev\tent 1",
            "press",
            "press 14",
            "press 20",
            "press Independent",
            "press independent 1",
            "press hdg nav",
            "press Hdg",
            "press left",
            "press heading",
            "signal",
            "signal 9",
            "signal independent",
            "signal nav",
            "signal nav_captured",
            "signal nav captured",
            "turn 0",
            "turn 0 256",
            "turn 0 -1",
            "turn 0 1 2",
            "turn left 1",
            "turn wheel wheel",
            "turn 4294967296 1",
            "knob",
            "knob wheel",
            "knob wheel 1 2",
            "knob 4 1",
            "knob 4294967295 1",
            "knob -0 1",
            "knob left 1",
            "knob airspeed 1",
            "knob wheel 128",
            "knob wheel -129",
            "knob wheel +1",
            "knob wheel 1.0",
            "knob wheel up",
            "knob 1 wheel",
            "reading speed 1",
            "reading wheel 1",
            "reading roll",
            "reading roll 1 2",
            "power-on 1",
            "bench 0",
            "panel 0",
            "panel left",
            "send",
            "send both",
            "send left right",
            "send left-inbox",
            "refresh -1",
            "display Left",
            "display wheel",
            "pick 4294967296",
            "watch",
            "watch 1",
            "watch On",
            "watch on off",
            "help help",
            "help event",
            "Help",
            "damage",
            "damage pf",
            "damage pf 256",
            "damage pf left",
            "damage independent",
            "damage independent 2",
            "damage independent -1",
            "damage independent on",
            "damage independent 1 1",
            "damage independents 1",
            "damage left independent 1 1",
            "damage 0 ias 100",
            "damage left",
            "damage left set 0 0 0",
            "damage left set 6 0 1 0",
            "damage left set 1 3 1 0",
            "damage left set 1 0 0 0",
            "damage left set 1 0 9 0",
            "damage left set 1 0 1 2",
            "damage left set 1 0 1 0 0",
            "damage middle set 1 0 1 0",
            "damage left ias",
            "damage left speed 1",
            "damage reading ias 1",
            "damage left ias 1.5",
        ];
        for line in wrong {
            assert!(parse(line.as_bytes()).is_err(), "{line}");
        }
        assert!(parse(b"event \xff").is_err());
        assert!(parse(b"\xff\xfe").is_err());
        assert!(parse(b"event 1\0").is_err());
    }

    #[test]
    fn lines_that_are_no_command_of_the_area() {
        for line in [
            "area",
            "area 2049",
            "area -1",
            "area left",
            "area 1 2",
            "area 18446744073709551616",
            "Area 1",
            "poke",
            "poke 0",
            "poke 0 0",
            "poke 0 000",
            "poke 0 0g",
            "poke 0 g0",
            "poke 0 0x00",
            "poke 0 +0",
            "poke 0 00 00",
            "poke 00,00",
            "poke -1 00",
            "poke left 00",
            "poke 18446744073709551616 00",
            "poke # 0 00",
            "poke 0 0#0",
            "write",
            "write 0",
            "write left",
            "write 0 0 0",
            "write both 0",
            "write 0 left",
            "write 0 -1",
            "write -1 0",
            "write 4294967296 0",
            "write 0 18446744073709551616",
            "write left-inbox 0",
            "read",
            "read left",
            "read 0 0",
            "read 0x0",
            "read 18446744073709551616",
            "bytes 0",
            "byte",
            "bytes bytes",
        ] {
            assert!(parse(line.as_bytes()).is_err(), "{line}");
        }
    }

    #[test]
    fn codes_is_one_word_alone() {
        assert_same(&["codes", "\tcodes\r# 1", "codes#1"], Command::Codes);
        for line in [
            "codes 1",
            "codes 0",
            "codes 107",
            "codes left",
            "codes codes",
            "codes 1 2 3 4 5 6 7 8 9",
            "codes\t1",
            "code",
            "codess",
            "Codes",
            "CODES",
            "codes1",
            "codes,",
            "poster",
        ] {
            assert!(parse(line.as_bytes()).is_err(), "{line}");
        }
    }

    #[test]
    fn a_start_names_any_signed_number() {
        for (words, speed) in [
            ("60", 60),
            ("060", 60),
            ("00000000000000000000000000000000400", 400),
            ("59", 59),
            ("0", 0),
            ("-0", 0),
            ("-060", -60),
            ("2147483647", i32::MAX),
            ("-2147483648", i32::MIN),
        ] {
            let line = format!("start {words}");
            let spaced = format!("\tstart\r {words}#61");
            assert_same(&[&line, &spaced], Command::Start(speed));
        }
    }

    #[test]
    fn lines_that_are_no_start() {
        for line in [
            "start",
            "starts 60",
            "Start 60",
            "START 60",
            "start60",
            "start-60",
            "start 60 61",
            "start 60 x",
            "start 60 60",
            "start +60",
            "start --60",
            "start -",
            "start 60.0",
            "start 60.",
            "start 6e1",
            "start 0x78",
            "start 0x405e000000000000",
            "start nan",
            "start inf",
            "start x",
            "start speed 60",
            "start 60 speed",
            "start left",
            "start default",
            "start power-on",
            "start 2147483648",
            "start -2147483649",
            "start 4294967416",
            "start 18446744073709551736",
            "start # 60",
            "power-on 60",
            "power-on start 60",
        ] {
            assert!(parse(line.as_bytes()).is_err(), "{line}");
        }
    }

    #[test]
    fn a_wrong_start_is_told_which_numbers_are_accepted() {
        for line in ["start", "start x", "start 60 61", "start 2147483648"] {
            let problem = parse(line.as_bytes()).unwrap_err();
            assert!(problem.contains("one speed"), "{line}: {problem}");
            assert!(problem.contains("-2147483648 to 2147483647"), "{line}");
        }
        assert_eq!(parse(b"star 60"), Err(NAME));
        assert!(NAME.contains("start"));
    }

    #[test]
    fn lines_that_are_no_whole_value() {
        for line in [
            "whole roll 1",
            "damage wholes roll 1",
            "damage Whole roll 1",
            "damage whole",
            "damage whole roll",
            "damage whole 1",
            "damage whole 1 roll",
            "damage whole 3 1",
            "damage whole Roll 1",
            "damage whole speed 1",
            "damage whole ias 1",
            "damage whole held 1",
            "damage whole left 1",
            "damage whole vertical speed 1",
            "damage whole reading roll 1",
            "damage whole whole roll 1",
            "damage left whole 1",
            "damage left whole roll 1",
            "damage reading whole 1",
            "damage whole roll 1 2",
            "damage whole roll 1 x",
            "damage whole roll +1",
            "damage whole roll --1",
            "damage whole roll -",
            "damage whole roll 1.0",
            "damage whole roll 1e1",
            "damage whole roll x",
            "damage whole roll nan",
            "damage whole roll 0x0000000000000000",
            "damage whole roll 2147483648",
            "damage whole roll -2147483649",
            "damage whole roll 4294967296",
            "damage whole set 1 0 1 0",
            "damage # whole roll 1",
            "damage whole roll # 1",
        ] {
            assert!(parse(line.as_bytes()).is_err(), "{line}");
        }
    }

    #[test]
    fn a_problem_says_what_is_accepted_where_the_line_went_wrong() {
        for (line, accepted) in [
            ("even 1", "knob"),
            ("event hdg", "4294967295"),
            ("press nav-captured", "ap-disconnect"),
            ("press both", "alt or independent"),
            ("signal hdg", "nav-captured"),
            ("turn left 7", "wheel"),
            ("turn wheel 256", "255"),
            ("knob 4 1", "heading"),
            ("knob heading 128", "-128 to 127"),
            ("send both", "left"),
            ("reading speed 1", "airspeed"),
            ("reading roll 1e5", "hexadecimal"),
            ("watch up", "on or off"),
            ("damage pf 256", "255"),
            ("damage dependent 1", "independent"),
            ("damage independent 2", "0 or 1"),
            ("damage middle ias 1", "left-inbox"),
            ("damage left speed 1", "ias"),
            ("damage left ias x", "-2147483648"),
            ("damage left set 6 0 1 0", "1 to 5"),
            ("damage hole roll 1", "whole"),
            ("damage whole", "airspeed"),
            ("damage whole speed", "airspeed"),
            ("damage whole speed x 1", "airspeed"),
            ("damage whole roll", "2147483647"),
            ("damage whole roll x", "-2147483648"),
            ("damage whole roll 1 2", "one number"),
            ("are 1", "area"),
            ("area 2049", "2048"),
            ("poke 0", "start"),
            ("poke x 00", "18446744073709551615"),
            ("poke 0 0", "hexadecimal"),
            ("write 0", "side"),
            ("write both 0", "left"),
            ("write 0 x", "18446744073709551615"),
            ("read x", "18446744073709551615"),
            ("code", "codes"),
            ("codes 1", "alone"),
        ] {
            let problem = parse(line.as_bytes()).unwrap_err();
            assert!(problem.contains(accepted), "{line}: {problem}");
            assert!(problem.bytes().all(|byte| (b' '..=b'~').contains(&byte)));
        }
    }

    #[test]
    fn damage_of_every_form() {
        let pairs = [
            ("pf 255", Damage::Pf(255)),
            ("independent 0", Damage::Independent(false)),
            ("independent 1", Damage::Independent(true)),
            ("independent 001", Damage::Independent(true)),
            (
                "left set 0 0 0 0",
                Damage::Set(Place::Side(0), ModeSet::OFF),
            ),
            (
                "right-inbox set 3 1 7 1",
                Damage::Set(Place::Inbox(1), ModeSet::from_numbers(3, 1, 7, true)),
            ),
            (
                "left-inbox held -7",
                Damage::Reference(Place::Inbox(0), Reference::Held, -7),
            ),
            (
                "reading pitch nan",
                Damage::Reading(Kind::Pitch, float::NAN),
            ),
            ("whole altitude -7", Damage::Whole(Kind::Altitude, -7)),
            ("whole airspeed 091", Damage::Whole(Kind::Airspeed, 91)),
            ("whole roll -0", Damage::Whole(Kind::Roll, 0)),
            ("whole pitch 0", Damage::Whole(Kind::Pitch, 0)),
            ("whole heading 360", Damage::Whole(Kind::Heading, 360)),
            (
                "whole vertical-speed -2147483648",
                Damage::Whole(Kind::VerticalSpeed, i32::MIN),
            ),
            (
                "whole heading 2147483647",
                Damage::Whole(Kind::Heading, i32::MAX),
            ),
        ];
        for (words, expected) in pairs {
            let line = format!("damage {words}");
            assert_eq!(parse(line.as_bytes()), Ok(Some(Command::Damage(expected))));
        }
    }
}
