//! Compares the kernel with the rules on random inputs, then times it against plain Rust. Status 1 if anything differs.
//! Arguments: how many thousand inputs (1,100 if none is given), and the seed.

mod compare;
mod kernel;
mod plain;
mod random;
mod rules;
mod timing;

use compare::Tally;
use random::Random;
use std::process::ExitCode;

fn number(at: usize, otherwise: u64) -> u64 {
    std::env::args().nth(at).and_then(|word| word.parse().ok()).unwrap_or(otherwise)
}

fn compared(random: &mut Random, thousands: u64) -> Vec<Tally> {
    // of 1,100 inputs: the dear ones less often
    let share = |parts: u64| thousands * 1000 * parts / 1100;
    vec![
        compare::points(random, share(200)),
        compare::lefts(random, share(200)),
        compare::rights(random, share(200)),
        compare::raises(random, share(150)),
        compare::turns(random, share(100)),
        compare::flattenings(random, share(50)),
        compare::openings(random, share(200)),
    ]
}

fn list(tallies: &[Tally]) {
    println!("call       inputs  accepted  differences  refused, by number");
    for t in tallies {
        let refused = t.by_refusal.iter().enumerate().skip(1).filter(|(_, n)| **n > 0);
        let refused: Vec<String> = refused.map(|(number, n)| format!("{number}: {n}")).collect();
        println!("{:8} {:8}  {:8}  {:11}  {}", t.call, t.inputs(), t.by_refusal[0], t.differences, refused.join(", "));
    }
}

fn main() -> ExitCode {
    let mut random = Random(number(2, 1));
    let tallies = compared(&mut random, number(1, 1100));
    list(&tallies);
    let differences: u64 = tallies.iter().map(|t| t.differences).sum();
    let inputs: u64 = tallies.iter().map(|t| t.inputs()).sum();
    println!("{inputs} inputs, {differences} differences");
    for time in [timing::cubic_point(&mut random), timing::left_at_degree_16(&mut random), timing::flattened_cubic(&mut random)] {
        println!("{:31} ours {:7.1} ns  plain Rust {:7.1} ns  ratio {:.2}", time.what, time.ours, time.plain, time.ours / time.plain);
    }
    if differences == 0 { ExitCode::SUCCESS } else { ExitCode::FAILURE }
}
