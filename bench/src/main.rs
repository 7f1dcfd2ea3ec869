//! Each call of the library beside a plain Rust version of it, on the same tables with the same arguments
//! (docs/BENCH.md). bench/run runs it twice: `bench count` under callgrind, then `bench report FILE`, with the file
//! that callgrind wrote. bench/worst does so with `bench count-library` and `bench worst FILE`. tests/run runs
//! `bench compare`, which measures nothing.

/// The library's functions, as the Rust host declares them.
#[allow(dead_code)]
#[path = "../../hosts/rust/src/ffi.rs"]
mod ffi;
mod measure;
mod plain;
mod report;
mod results;
mod scenarios;
mod sides;
mod tables;

use measure::Measured;
use scenarios::{Scenario, Start};
use sides::{perform, text_of, Call, Lent, LIBRARY, PLAIN};

/// Fails if the sides differ in the outcome or in any cell lent, or if the scenario is not what it says.
fn compare(scenario: &Scenario) {
    let Scenario { start, call, what, expected } = scenario;
    let name = format!("{} ({}, {what})", call.name(), start.name);
    let [library, plain] = [&LIBRARY, &PLAIN].map(|side| {
        let mut lent = Lent::new(&start.tables, call);
        assert_eq!(perform(side, &Call::Valid, &mut lent)[0], 1, "{name}: valid tables");
        (perform(side, call, &mut lent), lent)
    });
    assert_eq!(library.0, *expected, "{name}: the library's outcome");
    assert_eq!(plain.0, *expected, "{name}: the plain version's outcome");
    assert!(library.1 == plain.1, "{name}: the cells left");
    if let Call::Restore(text) = call {
        assert!(text_of(library.1.tables()) == *text, "{name}: the text again");
    }
}

/// What is counted, in the order in which report.rs takes the counts.
fn plan<'a>(fillings: &'a [Start], scenarios: &'a [Scenario]) -> Vec<Measured<'a>> {
    let mut plan = Vec::new();
    for Start { tables, .. } in fillings {
        for (side, call) in [(&LIBRARY, &Call::ReadAll), (&LIBRARY, &Call::Valid), (&PLAIN, &Call::Valid)] {
            plan.push(Measured { side, call, tables });
        }
    }
    for Scenario { start, call, .. } in scenarios {
        for side in [&LIBRARY, &PLAIN] {
            plan.push(Measured { side, call, tables: &start.tables });
        }
    }
    plan
}

/// The library's calls alone: enough for the most that one takes.
fn library_plan<'a>(fillings: &'a [Start], scenarios: &'a [Scenario]) -> Vec<Measured<'a>> {
    let checks = fillings.iter().map(|start| (&Call::Valid, start));
    let calls = scenarios.iter().map(|scenario| (&scenario.call, &scenario.start));
    checks.chain(calls).map(|(call, Start { tables, .. })| Measured { side: &LIBRARY, call, tables }).collect()
}

fn main() {
    let fillings = scenarios::fillings();
    let scenarios = scenarios::scenarios();
    scenarios.iter().for_each(compare);
    let arguments: Vec<String> = std::env::args().skip(1).collect();
    match arguments.iter().map(String::as_str).collect::<Vec<_>>()[..] {
        ["compare"] => println!("bench: passed, {} scenarios alike on both sides", scenarios.len()),
        ["count-library"] => measure::count_all(&library_plan(&fillings, &scenarios)),
        ["worst", file] => report::print_worst(&library_plan(&fillings, &scenarios), &measure::read_counts(file)),
        _ if !cfg!(feature = "check") => panic!("the feature check is needed for bench count and bench report"),
        ["count"] => measure::count_all(&plan(&fillings, &scenarios)),
        ["report", file] => {
            let counts = measure::read_counts(file);
            assert_eq!(counts.len(), plan(&fillings, &scenarios).len(), "a count for each call");
            let (checks, calls) = counts.split_at(3 * fillings.len());
            report::print_checks(&fillings, checks);
            report::print_scenarios(&scenarios, calls);
        }
        _ => panic!("bench compare, count, count-library, report FILE, or worst FILE"),
    }
}
