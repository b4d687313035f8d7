//! The station against the crate on accepted sheets, and against document 01 on all others.

use oracle::judge::Judge;
use oracle::options::Options;
use oracle::rng::Rng;
use oracle::yard::Yard;
use oracle::{
    comparisons, cuts, document, joins, lookups, misreads, reads, refusals, sweeps, trap,
};
use std::process::ExitCode;

fn main() -> ExitCode {
    let options = Options::read("differential [--quick] [--seed N] [--sheets N]");
    let quick = options.has("--quick");
    let seed = options.number("--seed").unwrap_or(1);
    let sheets = match options.number("--sheets") {
        Some(sheets) => sheets as usize,
        None if quick => 3_000,
        None => 40_000,
    };
    println!("seed {seed}, {sheets} random sheets (--seed {seed} --sheets {sheets} runs the same)");
    trap::watch();
    let (mut judge, mut rng) = (Judge::new(Yard::fenced()), Rng::new(seed));

    document::hold(&mut judge);
    let misread = misreads::hold(&mut judge);
    println!("document 01's own cases run; {misread} misreadings of the crate shown");
    sweeps::kinds(&mut judge, &mut rng, !quick);
    sweeps::lengths(&mut judge, &mut rng);
    sweeps::slices(&mut judge, &mut rng);
    sweeps::halves(&mut judge);
    sweeps::tables(&mut judge, &mut rng, sheets);
    sweeps::full(&mut judge, &mut rng);
    sweeps::ceiling(&mut judge, &mut rng);
    refusals::lists(&mut judge);
    refusals::rows(&mut judge, &mut rng);
    refusals::long_values(&mut judge);
    refusals::sheets(&mut judge, &mut rng);
    refusals::required(&mut judge, &mut rng);
    refusals::unfolded(&mut judge, &mut rng);
    refusals::rooms(&mut judge, &mut rng);
    refusals::empty(&mut judge);
    refusals::damaged(&mut judge, &mut rng, sheets);
    reads::lists(&mut judge);
    reads::descriptions(&mut judge, &mut rng);
    reads::damaged(&mut judge, &mut rng, sheets);
    lookups::found(&mut judge, &mut rng, sheets);
    lookups::refused(&mut judge, &mut rng);
    lookups::damaged(&mut judge, &mut rng, sheets);
    comparisons::compared(&mut judge, &mut rng, sheets);
    comparisons::refused(&mut judge, &mut rng);
    comparisons::damaged(&mut judge, &mut rng, sheets);
    cuts::streams(&mut judge, &mut rng, sheets / 10);
    cuts::faults(&mut judge, &mut rng, sheets, !quick);
    cuts::states(&mut judge, &mut rng);
    cuts::starts(&mut judge);
    cuts::rooms(&mut judge);
    cuts::ceilings(&mut judge, &mut rng);
    cuts::damaged(&mut judge, &mut rng, sheets);
    joins::joined(&mut judge, &mut rng, sheets / 10);
    joins::refused(&mut judge, &mut rng);
    joins::damaged(&mut judge, &mut rng, sheets);

    // Every answer of the entries must have come up.
    judge.finish((0..25).chain(26..30).chain(31..34))
}
