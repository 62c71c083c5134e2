//! The lists: that the answers are the library's, and that a list goes everywhere.
use baseline::list::{run, run_seen, List};
use baseline::{ON_SETS, SHOWN};
use std::fs;
use std::path::Path;

#[test]
fn the_stored_output_of_the_library() {
    let folder = Path::new(env!("CARGO_MANIFEST_DIR")).join("../../crates/speed");
    let stored = |name: &str| fs::read_to_string(folder.join(name)).unwrap();
    let words = stored("args");
    let numbers: Vec<u64> = words.lines().map(|word| word.parse().unwrap()).collect();
    let &[seed, calls, chosen, live] = &numbers[..] else {
        panic!("{} words", numbers.len());
    };
    let sum = run(List {
        seed,
        calls,
        chosen,
        live: live == 1,
    });
    assert_eq!(format!("{sum}\n"), stored("stdout"));
}

fn list(seed: u64, calls: u64, chosen: u64) -> List {
    List {
        seed,
        calls,
        chosen,
        live: true,
    }
}

/// What the program of the crate `speed` writes for 20,000 calls of each list.
#[test]
fn sums_that_the_library_gave() {
    let sums: [u64; 7] = [
        16635031893902055175,
        10036838697405991435,
        12306168285222763876,
        1561596812847203311,
        5170330154267186453,
        7770735340821818568,
        11293444638157044201,
    ];
    for (chosen, sum) in sums.into_iter().enumerate() {
        assert_eq!(run(list(2026, 20_000, chosen as u64)), sum, "list {chosen}");
    }
}

/// Makes the calls of a list and counts those that find independent operation on, and how often one
/// ends it.
fn independent_calls(list: List) -> (u64, u64) {
    let (mut found, mut ended, mut on) = (0, 0, false);
    run_seen(list, |b| {
        found += u64::from(on);
        ended += u64::from(on && !b.independent);
        on = b.independent;
    });
    (found, ended)
}

/// One call of some 40,000 finds it on, and most short lists never do. This one's sum speaks of it, and
/// so does that of its beginning, at whose end it is on.
#[test]
fn a_list_with_independent_operation() {
    let all = list(28561, 20_000, 6);
    assert_eq!(independent_calls(all), (68, 3));
    assert_eq!(run(all), 16531653395552230215);
    assert_eq!(run(list(28561, 11_795, 6)), 8084110407854559345);
}

/// No call leads to LAPPR beside VGA with VAPPR cleared, NAV armed or not: go-around, which engages
/// VGA, clears LAPPR, and LAPPR captured later comes with VAPPR armed. Those are 2 of the 107. With most
/// seeds the list does not meet LAPPR beside ALTSEL on track with VAPPR cleared either.
#[test]
fn a_mixed_list_meets_all_sets_on_both_sides_but_two() {
    let mut seen = [[false; 256]; 2];
    run_seen(list(22, 4_000_000, 6), |b| {
        for (side, met) in seen.iter_mut().enumerate() {
            met[b.sets[side] as usize] = true;
        }
    });
    for met in seen {
        let on = (1..=ON_SETS).filter(|&set| met[set as usize]).count();
        assert_eq!((met[0], on), (true, 105));
    }
}

#[test]
fn sets_that_differ_are_shown_differently() {
    for a in 1..=ON_SETS {
        for b in 1..a {
            let (one, other) = (SHOWN[a as usize], SHOWN[b as usize]);
            let told = |s: baseline::Shown| (s.lateral, s.vertical, s.armed);
            assert_ne!(told(one), told(other));
        }
    }
}
