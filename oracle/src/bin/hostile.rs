//! Calls of every C entry with anything in them, each slice fenced: no byte may change but those
//! that document 01 lets change, and those as it says.

use oracle::hostile;
use oracle::judge::Judge;
use oracle::options::Options;
use oracle::rng::Rng;
use oracle::trap;
use oracle::yard::Yard;
use std::process::ExitCode;

fn main() -> ExitCode {
    let options = Options::read("hostile [--seed N] [--calls N] [--heap]");
    let seed = options.number("--seed").unwrap_or(1);
    let calls = options.number("--calls").unwrap_or(1_000_000) as usize;
    println!("seed {seed}, {calls} calls (--seed {seed} --calls {calls} runs the same)");
    // On the heap each slice is a block of its own, which valgrind watches; a fence it would not see.
    let yard = match options.has("--heap") {
        true => Yard::on_heap(),
        false => Yard::fenced(),
    };
    trap::watch();
    let (mut judge, mut rng) = (Judge::new(yard), Rng::new(seed));
    for i in 0..calls {
        judge.progress("calls", i, calls);
        judge.call(hostile::call(&mut rng));
    }
    judge.finish(0..1)
}
