//! Holds the C entry points of libbulgefs.a against the reference.
//!
//! Usage: differential [--rounds N] [--suite NAME] [--round K] [--trace]
//!                     [--lister PROGRAM] [--scripts PROGRAM]
//!        differential --survival N [--blocks N] [--times N] [--round K]
//!
//! --rounds N         random rounds of each suite (default 500)
//! --suite NAME       only this suite
//! --round K          only this round, to see one failure again
//! --trace            say which round begins, to find one that never ends
//! --lister PROGRAM   also hold this lister against the reference's listing
//! --scripts PROGRAM  also hold this program, which runs a script, against the
//!                    reference's replay
//! --survival N       damage N volumes of 900 boxes by each kind, salvage each, and
//!                    print how many files are kept
//! --blocks N         of so many blocks (4,096)
//! --times N          so many times by each kind (1)

mod arguments;
mod boxes;
mod damage;
mod ffi;
mod images;
mod journals;
mod lent;
mod library;
mod models;
mod plain;
mod report;
mod rng;
mod suites;
mod survival;
mod tester;
mod tree;

use plain::Plain;
use report::Report;
use rng::Rng;
use std::process::ExitCode;
use std::time::Instant;
use suites::{Suite, LISTER, SCRIPTS, SUITES};
use survival::Extent;
use tester::Tester;

struct Options {
    rounds: u64,
    suite: Option<String>,
    round: Option<u64>,
    trace: bool,
    lister: Option<String>,
    scripts: Option<String>,
    survival: Option<Extent>,
}

fn main() -> ExitCode {
    let options = match options(std::env::args().skip(1)) {
        Ok(options) => options,
        Err(message) => {
            eprintln!("error: {message}");
            return ExitCode::from(2);
        }
    };
    let mut tester = Tester::new(Report::new(), options.lister.clone(), options.scripts.clone());
    if let Some(extent) = &options.survival {
        return survived(extent, options.round.unwrap_or(0), &mut tester);
    }
    for suite in SUITES {
        let wanted = options.suite.as_deref().unwrap_or(suite.name) == suite.name;
        let possible = match suite.name {
            LISTER => options.lister.is_some(),
            SCRIPTS => options.scripts.is_some(),
            _ => true,
        };
        match (wanted, possible) {
            (true, true) => run_suite(suite, &options, &mut tester),
            (true, false) => println!("{:<8} not run: no program was given", suite.name),
            (false, _) => {}
        }
    }
    let Tester { plain, report, .. } = &mut tester;
    wait(plain, report);
    let whole = options.suite.is_none() && options.round.is_none();
    println!();
    report.table(whole);
    plain.counts(report);
    println!();
    let (passed, failed) = tester.report.counts();
    println!("{passed} passed, {failed} failed");
    if failed == 0 {
        ExitCode::SUCCESS
    } else {
        ExitCode::FAILURE
    }
}

fn run_suite(suite: &Suite, options: &Options, tester: &mut Tester) {
    let begin = Instant::now();
    let before = tester.report.counts();
    let rounds = (suite.rounds)(options.rounds);
    for round in 0..rounds {
        if options.round.is_some_and(|only| only != round) {
            continue;
        }
        if options.trace {
            println!("suite {} round {round}", suite.name);
        }
        let seed = seed_of(suite.name, round);
        tester.report.begin(suite.name, round, seed);
        (suite.run)(&mut Rng::new(seed), round, tester);
    }
    line(suite.name, rounds, "rounds", before, &tester.report, begin);
}

/// Prints what salvages keep.
fn survived(extent: &Extent, round: u64, tester: &mut Tester) -> ExitCode {
    let seed = seed_of("survival", round);
    tester.report.begin("survival", round, seed);
    let counts = suites::kept(&mut Rng::new(seed), tester, extent);
    survival::print(extent, &counts);
    let (passed, failed) = tester.report.counts();
    println!("\n{passed} passed, {failed} failed");
    if failed == 0 {
        ExitCode::SUCCESS
    } else {
        ExitCode::FAILURE
    }
}

/// Waits for the plain checks that take long.
fn wait(plain: &mut Plain, report: &mut Report) {
    let (begin, before) = (Instant::now(), report.counts());
    let count = plain.finish(report);
    line("plain", count as u64, "images", before, report, begin);
}

fn line(name: &str, count: u64, of: &str, before: (u64, u64), report: &Report, begin: Instant) {
    let after = report.counts();
    println!(
        "{name:<8} {count:>6} {of} {:>8} passed {:>6} failed {:>7.1} s",
        after.0 - before.0,
        after.1 - before.1,
        begin.elapsed().as_secs_f64()
    );
}

/// A seed that depends on the suite's name and the round alone.
fn seed_of(suite: &str, round: u64) -> u64 {
    let name = suite.bytes().fold(7u64, |sum, b| sum.wrapping_mul(257).wrapping_add(u64::from(b)));
    Rng::new(name ^ (round << 20)).next()
}

fn options(mut arguments: impl Iterator<Item = String>) -> Result<Options, String> {
    let mut options = Options {
        rounds: 500,
        suite: None,
        round: None,
        trace: false,
        lister: None,
        scripts: None,
        survival: None,
    };
    let mut extent = Extent { volumes: 0, blocks: 4096, times: 1 };
    while let Some(argument) = arguments.next() {
        let mut value = || arguments.next().ok_or(format!("{argument} needs a value"));
        match argument.as_str() {
            "--rounds" => options.rounds = whole_number(&value()?)?,
            "--round" => options.round = Some(whole_number(&value()?)?),
            "--suite" => options.suite = Some(known_suite(value()?)?),
            "--trace" => options.trace = true,
            "--lister" => options.lister = Some(value()?),
            "--scripts" => options.scripts = Some(value()?),
            "--survival" => extent.volumes = whole_number(&value()?)? as usize,
            "--blocks" => extent.blocks = whole_number(&value()?)? as usize,
            "--times" => extent.times = whole_number(&value()?)? as usize,
            other => return Err(format!("unknown option {other}")),
        }
    }
    options.survival = (extent.volumes > 0).then_some(extent);
    Ok(options)
}

fn whole_number(text: &str) -> Result<u64, String> {
    text.parse().map_err(|_| format!("not a whole number: {text}"))
}

fn known_suite(name: String) -> Result<String, String> {
    if SUITES.iter().any(|suite| suite.name == name) {
        return Ok(name);
    }
    let names: Vec<_> = SUITES.iter().map(|suite| suite.name).collect();
    Err(format!("unknown suite {name}; there are {}", names.join(", ")))
}
