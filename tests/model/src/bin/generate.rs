//! generate SEED COUNT KIND DIRECTORY
//!
//! Writes COUNT texts, each to its own file. KIND is `rounds` (accepted texts),
//! `damaged` (the catalogue of cases in its order, over and over), `mixed`, or `numbers`
//! (mixed texts whose groups have numbers).

use std::{env, fs, path::Path, process::exit};

use hub::generate::damage::{Case, Class};
use hub::generate::draft::round;
use hub::generate::rng::Rng;
use hub::generate::world::Numbers;
use hub::generate::{damage, numbers};

fn main() {
    let arguments: Vec<String> = env::args().skip(1).collect();
    let [seed, count, kind, directory] = arguments.as_slice() else { usage() };
    let (Ok(seed), Ok(count)) = (seed.parse::<u64>(), count.parse::<usize>()) else { usage() };
    let (plain, numbered) = (damage::catalogue(), numbers::catalogue());
    fs::create_dir_all(directory).expect("the directory");
    for index in 0..count {
        let mut rng = Rng::for_case(seed, index as u64);
        let (name, text) = match kind.as_str() {
            "rounds" => ("round".to_string(), round(&mut rng, Numbers::Ones)),
            "damaged" => made(&plain[index % plain.len()], &mut rng),
            "mixed" => mixed(&plain, index, &mut rng),
            "numbers" => with_numbers(&numbered, &mut rng),
            _ => usage(),
        };
        let file = Path::new(directory).join(format!("{kind}-{seed}-{index:04}-{name}.txt"));
        fs::write(file, text).expect("a file");
    }
}

fn usage() -> ! {
    eprintln!("generate SEED COUNT rounds|damaged|mixed|numbers DIRECTORY");
    exit(2)
}

fn made(case: &Case, rng: &mut Rng) -> (String, Vec<u8>) {
    (case.name.clone(), (case.make)(rng))
}

/// One text in twenty is too long; half of the rest are rounds.
fn mixed(cases: &[Case], index: usize, rng: &mut Rng) -> (String, Vec<u8>) {
    if index % 20 != 19 && rng.chance(50) {
        return ("round".to_string(), round(rng, Numbers::Ones));
    }
    let class = match rng.below(20) {
        _ if index % 20 == 19 => Class::Long,
        0..=8 => Class::Form,
        9..=12 => Class::Twice,
        13..=16 => Class::Breaks,
        17 => Class::Inside,
        _ => Class::Random,
    };
    made_of(cases, class, rng)
}

fn made_of(cases: &[Case], class: Class, rng: &mut Rng) -> (String, Vec<u8>) {
    let of_class: Vec<&Case> = cases.iter().filter(|case| case.class == class).collect();
    made(of_class[rng.below(of_class.len())], rng)
}

/// Half of the texts are rounds.
fn with_numbers(cases: &[Case], rng: &mut Rng) -> (String, Vec<u8>) {
    if rng.chance(50) {
        return ("round".to_string(), round(rng, Numbers::Near));
    }
    let class = match rng.below(10) {
        0..=3 => Class::Form,
        4..=6 => Class::Breaks,
        7..=8 => Class::Inside,
        _ => Class::Twice,
    };
    made_of(cases, class, rng)
}
