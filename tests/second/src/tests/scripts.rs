//! Whole scripts and their answer lines.

use crate::console;

pub fn answers(script: &[u8]) -> String {
    let mut output = Vec::new();
    let mut input = script;
    console::run(&mut input, &mut output).unwrap();
    String::from_utf8(output).unwrap()
}

#[test]
fn one_answer_line_for_each_command() {
    let script = b"# a comment\n\nevent 16384\nturn 3 9 # heading\nreading roll -12.5\n\
        reading roll inf\nreading heading 361\nreading heading 360\nsend 0\nrefresh 1\ndisplay 1\n\
        display 2\npick 0\npick 7\nevent 2097152\nevent 0\nturn 4 1\npanel\npower-on\npick 0\n";
    let expected = "event 0 14\nturn 0\nreading 0\nreading 5\nreading 6\nreading 0\nsend 0\n\
        refresh 0\ndisplay 0 0 2 1 4 9 0 0 0 120 0 0 129\ndisplay 2 0 0 0 0 0 0 0 0 0 0 0 0\n\
        pick 0 2 1\npick 2 0 0\nevent 4 32\nevent 0 32\nturn 3\npanel\nend\npower-on 0\n\
        pick 0 0 0\n";
    assert_eq!(answers(script), expected);
}

#[test]
fn the_bench_at_power_on() {
    let zero = "0x0000000000000000";
    let channel = "0 0 0 0 0 0 0 0 0 120 0 0";
    let expected = format!(
        "bench 0 0 0 0 0 0 0 0 {zero} 0x405e000000000000 {zero} {zero} {zero} {zero} \
         0 120 0 0 0 0 {channel} {channel} {channel} {channel}\n"
    );
    assert_eq!(answers(b"bench\n"), expected);
}

#[test]
fn a_damaged_bench_is_written_as_it_is_and_refused() {
    let script = b"damage pf 200\ndamage left set 3 1 7 1\ndamage right ias -5\n\
        damage left-inbox set 4 2 6 0\ndamage right-inbox pitch 2147483647\n\
        damage reading pitch 0xffffffffffffffff\ndamage reading roll -inf\n\
        damage whole roll -2147483648\ndamage whole heading 360\nbench\n\
        event 1\nreading roll nan\ndisplay 2\n";
    let zero = "0x0000000000000000";
    let expected = format!(
        "{}bench 200 0 0 0 0 0 0 0 {zero} 0x405e000000000000 {zero} 0xfff0000000000000 nan {zero} \
         0 120 0 -2147483648 0 360 0 3 1 7 1 0 0 0 0 120 0 0 0 0 0 0 0 0 0 0 0 -5 0 0 \
         0 4 2 6 0 0 0 0 0 120 0 0 0 0 0 0 0 0 0 0 0 120 0 2147483647\n\
         event 1 32\nreading 1\ndisplay 1 0 0 0 0 0 0 0 0 0 0 0 0\n",
        "damage 0\n".repeat(9)
    );
    assert_eq!(answers(script), expected);
}

/// The four numbers of `bench` ahead of the counts: pilot flying and flags.
fn shared_after(script: &str) -> String {
    let output = answers(format!("{script}\nbench\n").as_bytes());
    let last = output.lines().last().unwrap();
    last.split(' ')
        .skip(1)
        .take(4)
        .collect::<Vec<_>>()
        .join(" ")
}

#[test]
fn independent_operation_stands_after_the_overspeed_flag() {
    let approach = "press appr\nsignal lappr-captured\nsignal vappr-captured\nsend left\n\
        refresh right";
    assert_eq!(shared_after(approach), "0 0 0 0");
    let on = format!("{approach}\npress independent");
    assert_eq!(shared_after(&on), "0 0 0 1");
    assert_eq!(shared_after(&format!("{on}\npress ap")), "0 1 0 1");
    assert_eq!(
        shared_after(&format!("{on}\nsignal overspeed-begins")),
        "0 0 1 0"
    );
    assert_eq!(shared_after(&format!("{on}\npress transfer")), "1 0 0 0");
    assert_eq!(shared_after(&format!("{on}\npower-on")), "0 0 0 0");
    let named = answers(format!("{on}\nbench\n").as_bytes());
    let numbered = answers(format!("{approach}\nevent 1048576\nbench\n").as_bytes());
    assert_eq!(named, numbered);
}

#[test]
fn independent_operation_is_damaged_on_and_off() {
    assert_eq!(shared_after("damage independent 1"), "0 0 0 1");
    let script = "damage independent 1\nevent 0\ndamage independent 0\nevent 0\n\
        damage left set 4 0 7 0\ndamage right set 4 1 7 0\ndamage independent 1\nevent 0\n";
    let expected = format!(
        "damage 0\nevent 1 32\ndamage 0\nevent 0 32\n{}event 0 32\n",
        "damage 0\n".repeat(3)
    );
    assert_eq!(answers(script.as_bytes()), expected);
    let wrong = "damage independent 1\ndamage independent 2";
    assert_eq!(shared_after(wrong), "0 0 0 1");
    assert!(is_error(
        answers(wrong.as_bytes()).lines().last().unwrap(),
        2
    ));
}

/// The six whole values that `bench` shows after a script.
fn wholes_after(script: &str) -> String {
    let output = answers(format!("{script}\nbench\n").as_bytes());
    let last = output.lines().last().unwrap();
    last.split(' ')
        .skip(1 + 4 + 4 + 6)
        .take(6)
        .collect::<Vec<_>>()
        .join(" ")
}

#[test]
fn whole_values_stand_after_the_readings_in_their_order() {
    assert_eq!(wholes_after(""), "0 120 0 0 0 0");
    let script = "reading altitude -7.5\nreading airspeed 251.5\nreading vertical-speed 33.5\n\
        reading roll 179.75\nreading pitch -0.5\nreading heading 359.5";
    assert_eq!(wholes_after(script), "-8 252 34 -180 0 0");
    let refused = "reading altitude 56001\nreading airspeed nan\nreading roll 180.75\n\
        reading heading -1\nreading pitch inf";
    assert_eq!(
        wholes_after(&format!("{script}\n{refused}")),
        "-8 252 34 -180 0 0"
    );
    assert_eq!(
        wholes_after(&format!("{script}\npower-on")),
        "0 120 0 0 0 0"
    );
}

#[test]
fn whole_values_are_damaged_each_alone() {
    for (kind, expected) in [
        ("altitude", "-7 120 0 0 0 0"),
        ("airspeed", "0 -7 0 0 0 0"),
        ("vertical-speed", "0 120 -7 0 0 0"),
        ("roll", "0 120 0 -7 0 0"),
        ("pitch", "0 120 0 0 -7 0"),
        ("heading", "0 120 0 0 0 -7"),
    ] {
        let damage = format!("damage whole {kind} -7");
        assert_eq!(wholes_after(&damage), expected);
        let reading = format!("damage reading {kind} -7");
        assert_eq!(wholes_after(&reading), "0 120 0 0 0 0");
        // The float stays, and so does all else.
        let mended = format!(
            "{damage}\ndamage whole {kind} {}",
            if kind == "airspeed" { 120 } else { 0 }
        );
        let last = |script: &str| {
            answers(script.as_bytes())
                .lines()
                .last()
                .unwrap()
                .to_string()
        };
        assert_eq!(last(&format!("{mended}\nbench\n")), last("bench\n"));
    }
    let ends = "damage whole roll 2147483647\ndamage whole pitch -2147483648";
    assert_eq!(wholes_after(ends), "0 120 0 2147483647 -2147483648 0");
}

#[test]
fn a_damaged_whole_value_is_refused_until_it_is_mended() {
    let calls = "event 4294967295\nturn 4 1\nreading roll nan\nreading airspeed 100\nsend 2\n\
        refresh 0\ndisplay 0\npick 1\nwrite 0 0\nwrite 2 99\nbytes\n";
    let refused = format!(
        "event 1 32\nturn 1\nreading 1\nreading 1\nsend 1\nrefresh 1\ndisplay 1{}\n\
         pick 1 0 0\nwrite 1\nwrite 1\nbytes {}\n",
        " 0".repeat(12),
        "00".repeat(19)
    );
    let script = format!(
        "area 19\nreading airspeed 250.5\ndamage whole airspeed 251\n{calls}\
         damage whole airspeed 250\npress flc\ndisplay 0\n\
         damage reading airspeed 251\n{calls}damage whole airspeed 251\nevent 0\n"
    );
    let expected = format!(
        "area 0\nreading 0\ndamage 0\n{refused}damage 0\nevent 0 18\n\
         display 0 1 1 3 4 0 0 0 0 250 0 0 144\ndamage 0\n{refused}damage 0\nevent 0 32\n"
    );
    assert_eq!(answers(script.as_bytes()), expected);
}

#[test]
fn a_float_damaged_within_its_whole_value_is_accepted() {
    for (kind, values) in [
        ("altitude", ["0.25", "-0.5", "0.5", "0x0000000000000001"]),
        ("airspeed", ["120.25", "119.5", "120.5", "120"]),
        ("heading", ["359.5", "360", "360.5", "-0"]),
    ] {
        for value in values {
            let script = format!("damage reading {kind} {value}\nevent 0\n");
            assert_eq!(answers(script.as_bytes()), "damage 0\nevent 0 32\n");
        }
    }
}

#[test]
fn a_wrong_line_damages_no_whole_value() {
    for line in [
        "damage whole",
        "damage whole roll",
        "damage whole roll 2147483648",
        "damage whole roll 1 2",
        "damage whole speed 1",
        "damage hole roll 1",
    ] {
        assert_eq!(wholes_after(line), "0 120 0 0 0 0", "{line}");
        assert!(is_error(&answers(line.as_bytes()), 1), "{line}");
    }
}

/// Whether an answer line is the error of that line number.
pub fn is_error(answer: &str, number: u32) -> bool {
    answer.starts_with(&format!("error {number}: "))
}

/// Asserts that each of the wrong lines, right after `before`, is answered by an
/// error with its number and leaves the bench as it was.
pub fn assert_errors(before: &str, wrong: &[&str]) {
    let commands: Vec<&str> = before.split('\n').collect();
    // One answer line each, so that the error stands right after theirs.
    for count in 1..=commands.len() {
        let output = answers(commands[..count].join("\n").as_bytes());
        assert_eq!(output.lines().count(), count, "{before}");
    }
    let kept = answers(format!("{before}\nbench\n").as_bytes());
    for line in wrong {
        let output = answers(format!("{before}\n{line}\nbench\n").as_bytes());
        let mut lines: Vec<&str> = output.lines().collect();
        let error = lines.remove(commands.len());
        assert!(is_error(error, commands.len() as u32 + 1), "{line}");
        assert_eq!(lines, kept.lines().collect::<Vec<_>>(), "{line}");
    }
}

#[test]
fn a_bad_line_is_answered_and_the_script_goes_on() {
    let output = answers(b"event 1\n\nevent x\n\xff\xfe\n# \xff\nevent 0\nturn 0 256\n");
    let lines: Vec<&str> = output.lines().collect();
    assert_eq!(lines.len(), 5);
    assert_eq!((lines[0], lines[3]), ("event 0 0", "event 0 32"));
    assert!(is_error(lines[1], 3));
    assert!(is_error(lines[2], 4));
    assert!(is_error(lines[4], 7));
}

#[test]
fn a_line_has_at_most_255_bytes() {
    for (length, fits) in [(254, true), (255, true), (256, false), (100_000, false)] {
        let mut script = b"event 0 #".to_vec();
        script.resize(length, b'x');
        let whole = answers(&script);
        script.extend(b"\npick 0\n");
        let output = answers(&script);
        let lines: Vec<&str> = output.lines().collect();
        assert_eq!(lines.len(), 2);
        assert_eq!(lines[0] == "event 0 32", fits);
        assert_eq!(is_error(lines[0], 1), !fits);
        assert_eq!(lines[1], "pick 0 0 0");
        assert_eq!(whole.lines().collect::<Vec<_>>(), lines[..1]);
    }
}

#[test]
fn input_may_end_in_the_middle_of_a_line() {
    assert_eq!(answers(b""), "");
    assert_eq!(answers(b"event 16"), "event 0 4\n");
    assert_eq!(answers(b"event 16\n   "), "event 0 4\n");
    assert!(is_error(&answers(b"eve"), 1));
}

#[test]
fn words_for_people_are_answered_as_what_they_stand_for() {
    let names = b"press appr\nsignal lappr-captured\nturn heading 9\nsend left\nrefresh right\n\
        display right\npick left\nknob speed 9\nbench\n";
    let numbers = b"event 65536\nevent 1024\nturn 3 9\nsend 0\nrefresh 1\n\
        display 1\npick 0\nturn 2 9\nbench\n";
    let output = answers(names);
    assert_eq!(output, answers(numbers));
    assert!(output.starts_with("event 0 16\nevent 0 10\nturn 0\nsend 0\nrefresh 0\ndisplay 0 "));
}

/// The four counts that `bench` shows after a script.
fn counts_after(script: &str) -> Vec<u8> {
    let output = answers(format!("{script}\nbench\n").as_bytes());
    let last = output.lines().last().unwrap();
    let counts = last.split(' ').skip(5).take(4);
    counts.map(|count| count.parse().unwrap()).collect()
}

#[test]
fn clicks_go_on_from_the_last_count_in_a_circle() {
    for (script, expected) in [
        ("knob wheel 127", [127, 0, 0, 0]),
        ("knob wheel -128", [128, 0, 0, 0]),
        ("knob altitude -1", [0, 255, 0, 0]),
        ("turn speed 250\nknob speed 9", [0, 0, 3, 0]),
        ("turn speed 3\nknob speed -9", [0, 0, 250, 0]),
        ("knob 3 127\nknob 3 127\nknob 3 127", [0, 0, 0, 125]),
        ("knob 3 -128\nknob 3 -128", [0, 0, 0, 0]),
        ("knob 3 5\nknob 3 -0", [0, 0, 0, 5]),
        ("knob 3 5\nknob 3 128\nknob 4 1", [0, 0, 0, 5]),
        ("knob wheel 7\npower-on\nknob wheel 1", [1, 0, 0, 0]),
    ] {
        assert_eq!(counts_after(script), expected, "{script}");
    }
}

#[test]
fn clicks_turn_as_far_as_they_say() {
    // The rotation of half a circle is to the left.
    let script = b"press hdg\nturn 3 200\nknob heading 127\ndisplay left\nknob heading -128\n\
        display left\nturn 1 100\nturn 1 200\nknob altitude 100\ndisplay left\n";
    let output = answers(script);
    let headings: Vec<&str> = output
        .lines()
        .filter(|line| line.starts_with("display"))
        .map(|line| line.split(' ').nth(6).unwrap())
        .collect();
    assert_eq!(headings, ["71", "303", "303"]);
    assert!(output.contains("display 0 1 2 1 4 303 30000 0 0 120 0 0 129\n"));
}

#[test]
fn clicks_on_a_damaged_bench_are_refused_and_leave_the_count() {
    let script = "turn heading 250\ndamage pf 2\nknob heading 9\nknob 0 0";
    assert_eq!(counts_after(script), [0, 0, 0, 250]);
    assert!(answers(script.as_bytes()).ends_with("damage 0\nturn 1\nturn 1\n"));
    // What was refused does not count for the next clicks.
    let mended = format!("{script}\ndamage pf 0\nknob heading 9");
    assert_eq!(counts_after(&mended), [0, 0, 0, 3]);
}

#[test]
fn a_drawing_follows_what_is_watched() {
    let drawing = "panel\nend\n";
    for (line, answer) in [
        ("event 0", "event 0 32"),
        ("event 1048576", "event 0 20"),
        ("event 2097152", "event 4 32"),
        ("press independent", "event 0 20"),
        ("press hdg", "event 0 14"),
        ("signal nav-captured", "event 0 9"),
        ("turn 0 1", "turn 0"),
        ("turn 4 1", "turn 3"),
        ("knob wheel 1", "turn 0"),
        ("reading roll 1", "reading 0"),
        ("reading roll nan", "reading 5"),
        ("reading roll 180", "reading 0"),
        ("reading roll 181", "reading 6"),
        ("send left", "send 0"),
        ("send 2", "send 2"),
        ("refresh right", "refresh 0"),
        ("refresh 2", "refresh 2"),
        ("power-on", "power-on 0"),
        ("start 60", "start 0"),
        ("start 401", "start 10"),
        ("damage pf 1", "damage 0"),
        ("damage pf 2", "damage 0"),
        ("damage independent 1", "damage 0"),
        ("damage whole roll 1", "damage 0"),
    ] {
        let script = format!("watch on\n{line}\nwatch off\n{line}\n");
        let expected = format!("watch 0\n{answer}\n{drawing}watch 0\n{answer}\n");
        assert_eq!(answers(script.as_bytes()), expected, "{line}");
    }
}

#[test]
fn no_drawing_follows_what_is_not_watched() {
    for line in [
        "display 0",
        "pick 0",
        "bench",
        "panel",
        "watch on",
        "help",
        "x",
        "area 20",
        "area 2049",
        "poke 0 00",
        "write 0 0",
        "read 0",
        "bytes",
        "codes",
        "codes 1",
    ] {
        let alone = answers(format!("\n{line}\n").as_bytes());
        let watched = answers(format!("watch on\n{line}\n").as_bytes());
        assert_eq!(watched, format!("watch 0\n{alone}"), "{line}");
    }
}

#[test]
fn the_watch_is_off_at_first_and_no_part_of_the_bench() {
    let script = b"power-on\nwatch on\nwatch on\npower-on\nwatch\n\n# x\nsend 0\ndamage pf 2\n\
        send 0\nwatch off\nwatch off\nsend 0\npower-on\n";
    let output = answers(script);
    let error = output.lines().find(|line| is_error(line, 5)).unwrap();
    let drawing = "panel\nend\n";
    let expected = format!(
        "power-on 0\nwatch 0\nwatch 0\npower-on 0\n{drawing}{error}\nsend 0\n{drawing}\
         damage 0\n{drawing}send 1\n{drawing}watch 0\nwatch 0\nsend 1\npower-on 0\n"
    );
    assert_eq!(output, expected);
}

#[test]
fn help_is_a_block() {
    let output = answers(b"help\nsend 0\n");
    let lines: Vec<&str> = output.lines().collect();
    assert_eq!(lines.first(), Some(&"help"));
    assert_eq!(lines[lines.len() - 2..], ["end", "send 0"]);
    for form in [
        "event WORD",
        "start SPEED",
        "damage independent N",
        "damage whole KIND N",
        "area LENGTH",
        "poke START HEX",
        "write SIDE START",
        "read START",
        "bytes",
        "codes",
    ] {
        assert!(lines.contains(&form), "{form}");
    }
}

#[test]
fn tabs_and_carriage_returns_count_as_bytes_of_a_line() {
    for (length, fits) in [(255, true), (256, false)] {
        for filler in [b'\t', b'\r'] {
            let mut script = b"event\t0\r".to_vec();
            script.resize(length, filler);
            script.extend(b"\n");
            let output = answers(&script);
            assert_eq!(output == "event 0 32\n", fits);
            assert_eq!(is_error(&output, 1), !fits);
            let blank = vec![filler; length];
            assert_eq!(answers(&blank).is_empty(), fits);
        }
    }
}

/// The frame of left at power-on.
const LEFT: &str = "46474200010000000000321b1400781f401f40";

#[test]
fn a_frame_is_written_and_read_in_the_area() {
    let script = b"bytes\narea 21\nbytes\npoke 0 Ab\npoke 20 cD\nwrite left 1\nbytes\nread 1\n\
        read 2\nread 3\nread 0\npoke 6 02\nread 1\nwrite 2 1\nwrite right 3\nbytes\n";
    let zeros = " 0".repeat(13);
    let expected = format!(
        "bytes\narea 0\nbytes {}\npoke 0\npoke 0\nwrite 0\nbytes ab{LEFT}cd\n\
         read 0 0 0 0 0 0 0 0 0 0 0 120 0 0\nread 8{zeros}\nread 7{zeros}\nread 8{zeros}\n\
         poke 0\nread 9{zeros}\nwrite 2\nwrite 7\nbytes ab{}cd\n",
        "00".repeat(21),
        LEFT.replacen("000100", "000102", 1),
    );
    assert_eq!(answers(script), expected);
}

#[test]
fn references_of_a_frame_come_in_the_order_of_all_answers() {
    let script =
        b"damage right set 5 2 8 1\ndamage right heading 258\ndamage right preselected 4660\n\
        damage right held -7000\ndamage right vertical-speed -3\ndamage right ias 300\n\
        damage right roll 5\ndamage right pitch -7\npress fd-right\narea 19\nwrite 1 0\nbytes\n\
        read 0\n";
    let end = "write 0\nbytes 464742000101016b01022f200d012c317403e8\n\
        read 0 1 1 5 2 8 1 258 4660 -7000 -3 300 5 -7\n";
    assert!(answers(script).ends_with(end));
}

#[test]
fn the_area_is_no_part_of_the_bench() {
    let script = b"area 19\nwrite 0 0\npower-on\nbytes\ndamage pf 2\nwrite 0 0\nread 0\nbench x\n\
        area 2049\nbytes\narea 19\nbytes\narea 0\nread 0\nbytes\n";
    let output = answers(script);
    let lines: Vec<&str> = output.lines().collect();
    let written = format!("bytes {LEFT}");
    assert_eq!(lines[3], written);
    assert_eq!(lines[5], "write 1");
    assert_eq!(lines[6], "read 0 0 0 0 0 0 0 0 0 0 0 120 0 0");
    assert!(is_error(lines[7], 8) && is_error(lines[8], 9));
    assert_eq!(lines[9], written);
    assert_eq!(lines[11], format!("bytes {}", "00".repeat(19)));
    assert_eq!(lines[13], format!("read 7{}", " 0".repeat(13)));
    assert_eq!(lines[14], "bytes");
}

#[test]
fn frames_change_no_bench() {
    let commands = b"press appr\narea 40\nsend right\nbench\n";
    let with_frames = b"press appr\narea 40\nwrite left 0\nwrite right 19\nread 0\nsend right\n\
        write 1 3\nread 19\npoke 0 ff\nread 3\nbench\n";
    let last = |script| answers(script).lines().last().unwrap().to_string();
    assert_eq!(last(commands), last(with_frames));
}

#[test]
fn a_poke_lies_inside_the_area_or_is_an_error() {
    for (line, inside) in [
        ("poke 0 11223344", true),
        ("poke 3 11", true),
        ("poke 2 1122", true),
        ("poke 3 1122", false),
        ("poke 4 11", false),
        ("poke 5 11", false),
        ("poke 0 1122334455", false),
        ("poke 18446744073709551615 11", false),
        ("poke 18446744073709551615 1122", false),
        ("poke 18446744073709551612 1122334455667788", false),
    ] {
        let output = answers(format!("area 4\n{line}\nbytes\n").as_bytes());
        let lines: Vec<&str> = output.lines().collect();
        assert_eq!(lines[1] == "poke 0", inside, "{line}");
        assert_eq!(is_error(lines[1], 2), !inside, "{line}");
        assert_eq!(lines[2] == "bytes 00000000", !inside, "{line}");
    }
    assert!(is_error(&answers(b"poke 0 00\n"), 1));
}
