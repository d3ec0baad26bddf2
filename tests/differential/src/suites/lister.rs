//! The lister program: what it writes for images on its standard input.

use crate::images;
use crate::report::Report;
use crate::rng::Rng;
use crate::tester::Tester;
use crate::{damage, lent::difference};
use reference::listing::MAX_INPUT;
use std::io::Write;
use std::process::{Command, Stdio};

pub fn run(rng: &mut Rng, _: u64, t: &mut Tester) {
    let program = t.lister.clone().expect("a lister was given");
    let input = any_input(rng);
    t.report.about(format!("input of {} bytes", input.len()));
    t.check_damaged(&input);
    compare(&mut t.report, &program, &input);
}

/// Sound and damaged images, and other bytes, around the greatest length.
fn any_input(rng: &mut Rng) -> Vec<u8> {
    let n = match rng.below(6) {
        0 => rng.pick(&[127, 128, 129]),
        1 => rng.between(3, 128),
        _ => rng.between(3, 40),
    };
    let mut image = images::of(rng, n);
    match rng.below(8) {
        0 => {
            damage::any(rng, &mut image);
        }
        1 => {
            let len =
                rng.pick(&[0, 1, 512, 1536, MAX_INPUT - 1, MAX_INPUT, MAX_INPUT + 1, 200_000]);
            image = rng.bytes(len);
        }
        2 => image.resize(rng.pick(&[MAX_INPUT, MAX_INPUT + 1]), 0),
        3 => {
            // Too long and damaged: the length comes first.
            let n = rng.between(129, 200);
            image = images::of(rng, n);
            damage::any(rng, &mut image);
        }
        _ => {}
    }
    image
}

fn compare(report: &mut Report, program: &str, input: &[u8]) {
    let expected = reference::list(input);
    match output_of(program, input) {
        Err(error) => report.agree("lister", error.to_string(), String::new()),
        Ok(got) if got.len() != expected.len() => {
            let text = |bytes: &[u8]| String::from_utf8_lossy(bytes).into_owned();
            report.agree("lister", text(&got), text(&expected));
        }
        Ok(got) => report.agree("lister", difference("listing", &got, &expected), None),
    }
}

pub fn output_of(program: &str, input: &[u8]) -> std::io::Result<Vec<u8>> {
    let mut child = Command::new(program).stdin(Stdio::piped()).stdout(Stdio::piped()).spawn()?;
    // The lister need not read all of an input that is too long.
    let _ = child.stdin.take().expect("stdin is piped").write_all(input);
    Ok(child.wait_with_output()?.stdout)
}
