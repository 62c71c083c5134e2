//! Carries out a script from the default bench, and writes its answers.

use std::io::{self, BufRead, Read, Write};

use crate::bench::{Bench, Channel, Refusal};
use crate::calls::{self, Display, NO_EVENT};
use crate::float;
use crate::frames::{self, Frame};
use crate::names::Place;
use crate::poster;
use crate::script::{self, Bus, Command, Damage, Problem};

/// The most bytes of a line, its end not counted.
const LINE_LIMIT: usize = 255;

/// Why a poke that is written well can still be an error.
const OUTSIDE: Problem = "the bytes have to lie inside the area, whose length area sets";

struct State {
    bench: Bench,
    /// The bus area, which outlives a power-on and a start.
    area: Vec<u8>,
    /// Whether a drawing follows what can change the bench.
    watch: bool,
}

/// Carries out the whole script from the default bench.
pub fn run(input: &mut impl BufRead, output: &mut impl Write) -> io::Result<()> {
    let mut state = State {
        bench: Bench::power_on(),
        area: Vec::new(),
        watch: false,
    };
    let mut line = Vec::with_capacity(LINE_LIMIT + 1);
    let mut number = 0_u64;
    while let Some(fits) = next_line(input, &mut line)? {
        number += 1;
        match parse(&line, fits).and_then(|command| admit(&state, command)) {
            Ok(None) => {}
            Ok(Some(command)) => {
                let watched = command.is_watched();
                carry_out(&mut state, command, output)?;
                if state.watch && watched {
                    write_panel(output)?;
                }
            }
            Err(problem) => writeln!(output, "error {number}: {problem}")?,
        }
    }
    Ok(())
}

/// Reads a line without its end and tells whether all of it fits; `None` at
/// the end of the input. The rest of a longer line is passed over unstored.
fn next_line(input: &mut impl BufRead, line: &mut Vec<u8>) -> io::Result<Option<bool>> {
    line.clear();
    let room = LINE_LIMIT as u64 + 1;
    if input.take(room).read_until(b'\n', line)? == 0 {
        return Ok(None);
    }
    if line.last() == Some(&b'\n') {
        line.pop();
        return Ok(Some(true));
    }
    let fits = line.len() <= LINE_LIMIT;
    if !fits {
        input.skip_until(b'\n')?;
    }
    Ok(Some(fits))
}

fn parse(line: &[u8], fits: bool) -> Result<Option<Command>, Problem> {
    if fits {
        script::parse(line)
    } else {
        Err("a line has at most 255 bytes")
    }
}

/// Passes a command on unless it is an error in this state.
fn admit(state: &State, command: Option<Command>) -> Result<Option<Command>, Problem> {
    match &command {
        Some(Command::Bus(Bus::Poke(start, bytes))) => {
            let place = frames::place(&state.area, *start, bytes.len());
            place.map(|_| command).ok_or(OUTSIDE)
        }
        _ => Ok(command),
    }
}

fn carry_out(state: &mut State, command: Command, output: &mut impl Write) -> io::Result<()> {
    let bench = &mut state.bench;
    match command {
        Command::Event(word) => write_event(calls::event(bench, word), output),
        Command::Turn(knob, count) => {
            write_refusal("turn", calls::turn(bench, knob, count), output)
        }
        Command::Knob(knob, clicks) => {
            let count = bench.counts[knob as usize].wrapping_add_signed(clicks);
            write_refusal("turn", calls::turn(bench, knob, count), output)
        }
        Command::Reading(kind, bits) => {
            write_refusal("reading", calls::reading(bench, kind, bits), output)
        }
        Command::Send(side) => write_refusal("send", calls::send(bench, side), output),
        Command::Refresh(side) => write_refusal("refresh", calls::refresh(bench, side), output),
        Command::Display(side) => write_display(calls::display(bench, side), output),
        Command::Pick(side) => write_pick(calls::pick(bench, side), output),
        Command::PowerOn => {
            *bench = Bench::power_on();
            writeln!(output, "power-on 0")
        }
        Command::Start(speed) => write_refusal("start", start(bench, speed), output),
        Command::Bench => write_bench(bench, output),
        Command::Panel => write_panel(output),
        Command::Watch(on) => {
            state.watch = on;
            writeln!(output, "watch 0")
        }
        Command::Help => write_help(output),
        Command::Codes => write_codes(output),
        Command::Bus(bus) => carry_out_bus(state, bus, output),
        Command::Damage(damage) => {
            carry_out_damage(bench, damage);
            writeln!(output, "damage 0")
        }
    }
}

/// The old bench goes, whatever it was and whether the start is refused or not.
fn start(bench: &mut Bench, speed: i32) -> Result<(), Refusal> {
    let (started, result) = Bench::start(speed);
    *bench = started;
    result
}

/// The refusal number, 0 for accepted, and the answer of a call.
fn parted<T>(result: Result<T, Refusal>, refused: T) -> (u32, T) {
    match result {
        Ok(answer) => (0, answer),
        Err(refusal) => (refusal as u32, refused),
    }
}

fn carry_out_damage(bench: &mut Bench, damage: Damage) {
    match damage {
        Damage::Pf(side) => bench.pf = side,
        Damage::Independent(on) => bench.independent = on,
        Damage::Set(place, set) => channel(bench, place).modes = set,
        Damage::Reference(place, reference, value) => {
            channel(bench, place).references.put(reference, value);
        }
        // Each alone: the other of the two stays what it was.
        Damage::Reading(kind, bits) => bench.readings[kind as usize] = bits,
        Damage::Whole(kind, whole) => bench.wholes[kind as usize] = whole,
    }
}

fn channel(bench: &mut Bench, place: Place) -> &mut Channel {
    match place {
        Place::Side(side) => &mut bench.sides[side],
        Place::Inbox(side) => &mut bench.inboxes[side],
    }
}

fn carry_out_bus(state: &mut State, bus: Bus, output: &mut impl Write) -> io::Result<()> {
    let State { bench, area, .. } = state;
    match bus {
        Bus::Area(length) => {
            *area = vec![0; length];
            writeln!(output, "area 0")
        }
        Bus::Poke(start, bytes) => {
            if let Some(place) = frames::place(area, start, bytes.len()) {
                area[place].copy_from_slice(&bytes);
            }
            writeln!(output, "poke 0")
        }
        Bus::Write(side, start) => {
            write_refusal("write", frames::write(bench, side, area, start), output)
        }
        Bus::Read(start) => write_frame(frames::read(area, start), output),
        Bus::Bytes => write_bytes(area, output),
    }
}

fn write_frame(result: Result<Frame, Refusal>, output: &mut impl Write) -> io::Result<()> {
    let (refusal, numbers) = parted(result.map(frame_numbers), vec![0; 13]);
    write!(output, "read {refusal}")?;
    write_numbers(&numbers, output)?;
    writeln!(output)
}

/// Side, FD, the four numbers of the set and the references.
fn frame_numbers(frame: Frame) -> Vec<i32> {
    let Frame { side, channel } = frame;
    let mut numbers = vec![i32::from(side), i32::from(channel.fd)];
    numbers.extend(channel.modes.numbers().map(|number| number as i32));
    numbers.extend(channel.references.all());
    numbers
}

fn write_bytes(area: &[u8], output: &mut impl Write) -> io::Result<()> {
    // An empty area leaves no space after the word.
    let space = if area.is_empty() { "" } else { " " };
    write!(output, "bytes{space}")?;
    for byte in area {
        write!(output, "{byte:02x}")?;
    }
    writeln!(output)
}

/// The answer line of a call that answers nothing else.
fn write_refusal(
    name: &str,
    result: Result<(), Refusal>,
    output: &mut impl Write,
) -> io::Result<()> {
    let (refusal, ()) = parted(result, ());
    writeln!(output, "{name} {refusal}")
}

fn write_event(result: Result<u32, Refusal>, output: &mut impl Write) -> io::Result<()> {
    let (refusal, answer) = parted(result, NO_EVENT);
    writeln!(output, "event {refusal} {answer}")
}

fn write_pick(result: Result<(u32, u32), Refusal>, output: &mut impl Write) -> io::Result<()> {
    let (refusal, laws) = parted(result, (0, 0));
    writeln!(output, "pick {refusal} {} {}", laws.0, laws.1)
}

fn write_display(result: Result<Display, Refusal>, output: &mut impl Write) -> io::Result<()> {
    let (refusal, shown) = parted(result, Display::default());
    let (fd, lateral, vertical) = (u32::from(shown.fd), shown.lateral, shown.vertical);
    write!(
        output,
        "display {refusal} {fd} {lateral} {vertical} {}",
        shown.armed
    )?;
    write_numbers(&shown.references, output)?;
    writeln!(output, " {}", shown.lamps)
}

/// A drawing is free between its first and its last line; here it is empty.
fn write_panel(output: &mut impl Write) -> io::Result<()> {
    writeln!(output, "panel\nend")
}

fn write_help(output: &mut impl Write) -> io::Result<()> {
    writeln!(output, "help")?;
    for form in script::FORMS {
        writeln!(output, "{form}")?;
    }
    writeln!(output, "end")
}

/// The list is the same whatever the bench is.
fn write_codes(output: &mut impl Write) -> io::Result<()> {
    write!(output, "codes")?;
    write_numbers(&poster::numbers(), output)?;
    writeln!(output)
}

fn write_bench(bench: &Bench, output: &mut impl Write) -> io::Result<()> {
    write!(output, "bench {}", bench.pf)?;
    let flags = [bench.ap, bench.overspeed, bench.independent];
    write_numbers(&flags.map(i32::from), output)?;
    write_numbers(&bench.counts.map(i32::from), output)?;
    for bits in bench.readings {
        write_reading(bits, output)?;
    }
    write_numbers(&bench.wholes, output)?;
    for channel in bench.sides.iter().chain(&bench.inboxes) {
        write_channel(channel, output)?;
    }
    writeln!(output)
}

fn write_reading(bits: u64, output: &mut impl Write) -> io::Result<()> {
    if float::is_nan(bits) {
        write!(output, " nan")
    } else {
        write!(output, " 0x{bits:016x}")
    }
}

fn write_channel(channel: &Channel, output: &mut impl Write) -> io::Result<()> {
    let [lateral, armed, vertical, vappr] = channel.modes.numbers();
    let fd = u32::from(channel.fd);
    write!(output, " {fd} {lateral} {armed} {vertical} {vappr}")?;
    write_numbers(&channel.references.all(), output)
}

fn write_numbers(numbers: &[i32], output: &mut impl Write) -> io::Result<()> {
    for number in numbers {
        write!(output, " {number}")?;
    }
    Ok(())
}
