//! Tests of libntsync.a through its C interface.
//! runner [--vectors] [--directed] [--tampered] [--crashes] [--random] [--fenced] [--damaged] [--pictures] [--boards]
//!     [--slips] [--seed N] [--calls N] [--seconds N]
//! No mode named: all of them. runner --script FILE plays the histories of a file in the notation of the vectors;
//! runner --shrink FILE makes the failing history of such a file smaller; runner --corpus FOLDER writes pictures there.

mod boards;
mod calls;
mod coverage;
mod crash;
mod damaged;
mod digits;
mod directed;
mod fenced;
mod generate;
mod history;
mod layout;
mod lent;
mod library;
mod lines;
mod mutate;
mod pictures;
mod play;
mod random;
mod reading;
mod saved;
mod script;
mod shrink;
mod slips;
mod states;
mod tampered;
mod texts;
mod variants;
mod vectors;

use std::process::ExitCode;
use std::time::{Duration, Instant};

/// Calls and seconds are for the random histories, of each seed.
#[derive(Clone, Copy)]
pub struct Limits {
    pub seed: Option<u64>,
    pub calls: Option<u64>,
    pub seconds: Option<u64>,
}

impl Limits {
    /// When to stop, if a time was given. Without one the work is fixed, so that a slow machine fails nothing.
    pub fn end(&self) -> Option<Instant> {
        self.seconds.map(|seconds| Instant::now() + Duration::from_secs(seconds))
    }
}

type Run = fn(Limits) -> Result<String, String>;

const MODES: [(&str, Run); 10] = [
    ("vectors", |_| vectors::run()),
    ("directed", |_| directed::run()),
    ("tampered", |_| tampered::run()),
    ("crashes", |_| crash::run()),
    ("random", history::run),
    ("fenced", fenced::run),
    ("damaged", damaged::run),
    ("pictures", pictures::run),
    ("boards", boards::run),
    ("slips", slips::run),
];

fn main() -> ExitCode {
    let given = match arguments() {
        Ok(given) => given,
        Err(what) => {
            eprintln!("{what}");
            return ExitCode::from(2);
        }
    };
    crash::watch();
    let mut passed = true;
    if let Some((name, run)) = given.alone {
        passed = report(name, run);
    }
    for (name, run) in MODES {
        if given.modes.contains(&name) {
            passed &= report(name, || run(given.limits));
        }
    }
    if passed {
        ExitCode::SUCCESS
    } else {
        ExitCode::FAILURE
    }
}

fn report(name: &str, run: impl FnOnce() -> Result<String, String>) -> bool {
    let start = Instant::now();
    let result = run();
    let seconds = start.elapsed().as_secs_f64();
    match &result {
        Ok(counts) => println!("{name}: passed, {counts}, {seconds:.1} s"),
        Err(what) => println!("{name}: FAILED, {seconds:.1} s\n{what}"),
    }
    result.is_ok()
}

type Alone = Box<dyn FnOnce() -> Result<String, String>>;

fn with_file(file: Option<String>, run: fn(&str) -> Result<String, String>) -> Result<Alone, String> {
    let file = file.ok_or("--script and --shrink take a file, --corpus a folder")?;
    Ok(Box::new(move || run(&file)))
}

struct Given {
    modes: Vec<&'static str>,
    limits: Limits,
    /// What is no mode, and is done instead of all modes.
    alone: Option<(&'static str, Alone)>,
}

fn arguments() -> Result<Given, String> {
    let limits = Limits { seed: None, calls: None, seconds: None };
    let mut given = Given { modes: Vec::new(), limits, alone: None };
    let mut words = std::env::args().skip(1);
    while let Some(word) = words.next() {
        let mut number = || {
            let value = words.next().and_then(|value| value.parse::<u64>().ok());
            value.ok_or(format!("{word} takes a number")).map(Some)
        };
        match word.trim_start_matches("--") {
            "seed" => given.limits.seed = number()?,
            "calls" => given.limits.calls = number()?,
            "seconds" => given.limits.seconds = number()?,
            "script" => given.alone = Some(("script", with_file(words.next(), vectors::run_script)?)),
            "corpus" => given.alone = Some(("corpus", with_file(words.next(), pictures::run_corpus)?)),
            "shrink" => given.alone = Some(("shrink", with_file(words.next(), crash::run_shrink)?)),
            "ending" => given.alone = Some(("ending", Box::new(crash::run_ending))),
            mode => {
                let known = MODES.iter().find(|(name, _)| *name == mode);
                given.modes.push(known.ok_or(format!("unknown argument {word}"))?.0);
            }
        }
    }
    if given.modes.is_empty() && given.alone.is_none() {
        given.modes = MODES.iter().map(|(name, _)| *name).collect();
    }
    Ok(given)
}
