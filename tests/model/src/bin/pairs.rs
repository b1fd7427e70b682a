//! pairs SEED COUNT DIRECTORY
//!
//! Writes the COUNT random pairs that `tworuns SEED COUNT` checks, each as NNNN.a.script,
//! NNNN.b.script and NNNN.watch.

use std::{env, fs, path::Path, process::exit};

use hub::generate::rng::Rng;
use hub::tworuns::{random_pair, scripts};

fn main() {
    let arguments: Vec<String> = env::args().skip(1).collect();
    let [seed, count, directory] = arguments.as_slice() else { usage() };
    let (Ok(seed), Ok(count)) = (seed.parse::<u64>(), count.parse::<u64>()) else { usage() };
    fs::create_dir_all(directory).expect("the directory");
    for index in 0..count {
        let (a, b, watch) = scripts(&random_pair(&mut Rng::for_case(seed, index)));
        for (kind, text) in [("a.script", a), ("b.script", b), ("watch", watch)] {
            let file = Path::new(directory).join(format!("{index:04}.{kind}"));
            fs::write(file, text).expect("a file");
        }
    }
}

fn usage() -> ! {
    eprintln!("pairs SEED COUNT DIRECTORY");
    exit(2)
}
