//! Writes the bundled files into the folder named as the argument, each as NAME.bin: the books into its folder
//! books, M8's book and calls into its folder M8. `cargo run -p sample-books -- ../data`.

use std::path::PathBuf;
use std::{env, fs, process};

fn main() {
    let Some(folder) = env::args_os().nth(1).map(PathBuf::from) else {
        eprintln!("usage: sample-books FOLDER");
        process::exit(2);
    };
    for (inner, samples) in [("books", sample_books::samples()), ("M8", sample_books::m8_run())] {
        for sample in samples {
            let file = folder.join(inner).join(sample.name).with_extension("bin");
            if let Err(error) = fs::write(&file, &sample.bytes) {
                eprintln!("{}: {error}", file.display());
                process::exit(1);
            }
        }
    }
}
