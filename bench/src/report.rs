//! The figures as tables in Markdown, for docs/BENCH-ALL.md; and the most that a call takes.

use crate::measure::{fastest, Count, Measured};
use crate::scenarios::{Scenario, Start};
use crate::sides::Call;

/// Aims of the check at each filling: against reading all cells once, in instructions, those of change request 6/13; against
/// plain Rust, in nanoseconds.
const AIMS: [[Option<f64>; 2]; 5] =
    [[Some(1.4), Some(0.6)], [Some(1.8), Some(0.65)], [Some(4.0), None], [Some(7.0), Some(0.2)], [None, None]];

/// Checks in a row that are timed together: the clock has steps of some nanoseconds.
const CHECKS_TIMED: u32 = 16;

/// 31239 as 31,239.
fn grouped(number: u64) -> String {
    let digits = number.to_string().into_bytes();
    let groups = digits.rchunks(3).rev().map(String::from_utf8_lossy);
    groups.collect::<Vec<_>>().join(",")
}

fn ns(time: f64) -> String {
    grouped(time.round() as u64)
}

fn ratio(library: f64, other: f64) -> String {
    format!("{:.2}", library / other)
}

fn aim(aim: Option<f64>) -> String {
    aim.map_or("none".to_string(), |aim| aim.to_string())
}

fn print_row<T: AsRef<str>>(cells: &[T]) {
    println!("| {} |", cells.iter().map(AsRef::as_ref).collect::<Vec<_>>().join(" | "));
}

fn print_head(titles: &str) {
    println!("| {titles} |\n|{}", "---|".repeat(titles.split('|').count()));
}

/// Two counts and their ratio; nothing where there is none.
fn compared(counts: [Option<u64>; 2]) -> [String; 3] {
    let [Some(library), Some(plain)] = counts else { return ["", "", ""].map(String::from) };
    [grouped(library), grouped(plain), ratio(library as f64, plain as f64)]
}

/// The most instructions of a check, of a call but the last two, of a snapshot and of a restore: four lines of a name and a
/// number.
pub fn print_worst(calls: &[Measured], counts: &[Count]) {
    assert_eq!(counts.len(), calls.len(), "a count for each call");
    let most = |figures: &mut dyn Iterator<Item = u64>| figures.max().expect("a count");
    let whole = |wanted: &dyn Fn(&Call) -> bool| {
        let wanted = calls.iter().zip(counts).filter(|(m, _)| wanted(m.call));
        most(&mut wanted.map(|(_, count)| count.whole))
    };
    println!("check {}", most(&mut counts.iter().filter_map(|count| count.check)));
    println!("call {}", whole(&|call| !matches!(call, Call::Snapshot | Call::Restore(..))));
    println!("snapshot {}", whole(&|call| matches!(call, Call::Snapshot)));
    println!("restore {}", whole(&|call| matches!(call, Call::Restore(..))));
}

/// Each filling's counts are: reading all cells, the library's check, the plain check.
pub fn print_checks(fillings: &[Start], counts: &[Count]) {
    print_head("Tables | Check | Reading all cells | Ratio | Aim | Plain check | Check / plain");
    for ((start, counts), aims) in fillings.iter().zip(counts.chunks(3)).zip(AIMS) {
        let [all, library, plain] = [0, 1, 2].map(|k| Some(counts[k].whole));
        let [check, reading, to_reading] = compared([library, all]);
        let [_, plain, to_plain] = compared([library, plain]);
        print_row(&[start.name, &check, &reading, &to_reading, &aim(aims[0]), &plain, &to_plain]);
    }
    println!();
    print_head("Tables | Check, ns | Plain check, ns | Ratio | Aim");
    for (start, aims) in fillings.iter().zip(AIMS) {
        let [library, plain] = fastest(&start.tables, &Call::Valid, CHECKS_TIMED);
        print_row(&[start.name, &ns(library), &ns(plain), &ratio(library, plain), &aim(aims[1])]);
    }
}

/// Each scenario's counts are the library's and the plain version's.
pub fn print_scenarios(scenarios: &[Scenario], counts: &[Count]) {
    println!();
    let figures = ["Check", "Operation", "Whole", "ns"].map(|figure| format!("{figure} | plain | ratio"));
    print_head(&format!("Call | Tables | What | {}", figures.join(" | ")));
    for (scenario, counts) in scenarios.iter().zip(counts.chunks(2)) {
        print_scenario(scenario, [counts[0], counts[1]]);
    }
}

fn print_scenario(scenario: &Scenario, counts: [Count; 2]) {
    let Scenario { start, call, what, .. } = scenario;
    let checks = !matches!(call, Call::Init);
    // A restore judges what it made, not what it was lent, and not every archive does so by the check.
    let restores = matches!(call, Call::Restore(..));
    assert!(
        restores || counts.iter().all(|count| count.check.is_some() == checks),
        "{}: a check of its own",
        call.name()
    );
    let [library, plain] = fastest(&start.tables, call, 1);
    let mut row = [call.name(), start.name, what].map(String::from).to_vec();
    row.extend(compared(counts.map(|count| count.check)));
    row.extend(compared(counts.map(|count| Some(count.whole - count.check.unwrap_or(0)))));
    row.extend(compared(counts.map(|count| Some(count.whole))));
    row.extend([ns(library), ns(plain), ratio(library, plain)]);
    print_row(&row);
}
