//! compare [WHAT [ROUNDS [SEED]]]: this repository's code, the Rust's, and the plain code, on the same inputs. WHAT is `reads`, `strict`, `limits`, `tables`, `plans` or `all`. Prints
//! the seed, counts, each difference that is not one of those listed, shrunk where it is a list's, and ends with exit status 1 where there is one.
mod limits;
mod plans;
mod reads;
mod rules;
mod strict;
mod tables;
mod tally;

use bench::inputs::Dice;
use bench::theirs::{hear_panics, heard};
use tally::Tally;

fn main() {
    hear_panics();
    let words: Vec<String> = std::env::args().skip(1).collect();
    let number = |at: usize, or: u64| words.get(at).map_or(or, |word| word.parse().expect("a number"));
    let (what, rounds, seed) = (words.first().map_or("all", |word| word), number(1, 1) as usize, number(2, 2024));
    assert!(["all", "reads", "strict", "limits", "tables", "plans"].contains(&what), "reads, strict, limits, tables, plans or all");
    println!("seed {seed}");
    let mut tally = Tally::default();
    let wanted = |kind: &str| ["all", kind].contains(&what);
    let compared = heard(|| {
        if wanted("reads") {
            reads::all(&mut tally, &mut Dice(seed), rounds);
        }
        if wanted("strict") {
            strict::all(&mut tally, &mut Dice(seed), rounds);
        }
        if wanted("limits") {
            limits::all(&mut tally, &mut Dice(seed), rounds);
        }
        if wanted("tables") {
            tables::all(&mut tally, &mut Dice(seed), rounds);
        }
        if wanted("plans") {
            plans::all(&mut tally, &mut Dice(seed), rounds);
        }
    });
    if let Err(said) = compared {
        tally.wrong("and nothing more was compared", said); // lent memory or cells are not as a contract has them
    }
    let mut all = 0;
    for ((what, how), count) in &tally.counts {
        println!("{what}: {how}: {count}");
        all += count;
    }
    for ((what, how), count) in &tally.inputs {
        println!("{what}: {how}: {count}");
    }
    let Tally { asked, two, no_rule, listed, two_alone, limits, limits_asked, limits_listed, strict, tables, plans, wrong, .. } = tally;
    let (loaded, checked): (u64, u64) = (limits.values().sum(), strict.numbers.values().sum());
    let first = all - two - no_rule - listed - loaded - checked;
    println!("{tables} tables written or refused, {plans} plans");
    println!("strict check, answers by number: {:?}", strict.numbers);
    println!("{checked} answers of the strict check, all with the plain one");
    let beyond: u64 = strict.beyond.values().sum();
    println!("{beyond} of them are 31 where the bound of the parent is kept; by how many entries up the nearest stands whose bound is broken: {:?}", strict.beyond);
    let strict::Strict { accepted, both, two_alone: hidden, high, near, .. } = strict;
    println!("{accepted} tables accepted, which the Rust's walk lists alike: {both} names that they list found under both rules, {hidden} under rule two alone, behind a link of 255, {high} are 2");
    println!("{near} names near these found under rule two where they are listed, else 22");
    println!("limits loader, answers by number: {limits:?}");
    println!("{loaded} answers of the limits loader, all with the plain one, {limits_asked} with the Rust's parts, {limits_listed} of entries that the Rust lists");
    println!("{listed} entries that the Rust lists in its tables found under rule two, {two_alone} of them 22 under rule one, the others the same under both");
    println!("{two} answers under rule two, {no_rule} under numbers that are no rule, all with the plain reader alone");
    let alone = first - asked;
    println!("{first} answers under rule one or of what has no rule, {asked} of them with the Rust, {alone} with the plain code alone");
    println!("{all} answers compared, {wrong} differ");
    std::process::exit((wrong > 0) as i32);
}
