//! Replays call scripts from files through the exported session and through the plain engine, in turn in one run:
//! `cargo run --release -p bench -- replay FOLDER NAME..`. An instance is three files: NAME.book, NAME.calls, and
//! NAME.exp with what is expected: two words a call, then the last masks. Both contenders must write just that.

use std::fs;
use std::time::Instant;

use nested_gcc::{session_into, Verdict};

use crate::{engine, in_place};

const PASSES: usize = 21;

struct Instance {
    book: Vec<u8>,
    calls: Vec<u8>,
    expected: Vec<u8>,
}

impl Instance {
    fn read(folder: &str, name: &str) -> Instance {
        let part = |end: &str| {
            let path = format!("{folder}/{name}.{end}");
            fs::read(&path).unwrap_or_else(|error| panic!("{path}: {error}"))
        };
        Instance { book: part("book"), calls: part("calls"), expected: part("exp") }
    }

    /// How many assigns and removes the script has, and how many backs.
    fn counts(&self) -> (usize, usize) {
        let of = |kinds: &[u8]| self.calls.chunks_exact(4).filter(|call| kinds.contains(&call[0])).count();
        (of(&[1, 2]), of(&[4]))
    }
}

type Contender = fn(&[u8], &[u8], &mut [u8], &mut [u8]);

const PROVED: Contender = |book, calls, answers, masks| {
    assert_eq!(session_into(book, calls, answers, masks), Ok(Verdict::Live));
};

const PLAIN: Contender = |book, calls, answers, masks| {
    assert_eq!(engine::session_into(in_place::close, book, calls, answers, masks), 0);
};

fn median(mut times: Vec<f64>) -> f64 {
    times.sort_by(f64::total_cmp);
    times[times.len() / 2]
}

/// What a contender takes for an opening, and for a decision with all that is called between decisions, in
/// nanoseconds. The script's time is the whole less an opening.
fn medians(name: &str, instance: &Instance) -> [[f64; 2]; 2] {
    let mut out = vec![0; instance.expected.len()];
    let (answers, masks) = out.split_at_mut(2 * instance.calls.len());
    let mut times = [[Vec::new(), Vec::new()], [Vec::new(), Vec::new()]];
    for _ in 0..PASSES {
        for (contender, times) in [PROVED, PLAIN].iter().zip(&mut times) {
            for (calls, times) in [&[][..], &instance.calls].iter().zip(times) {
                let begin = Instant::now();
                contender(&instance.book, calls, answers, masks);
                times.push(begin.elapsed().as_secs_f64() * 1e9);
            }
            let (words, last) = instance.expected.split_at(2 * instance.calls.len());
            assert!(&*answers == words && &*masks == last, "{name}: other answers than expected");
        }
    }
    let decisions = instance.counts().0.max(1) as f64;
    times.map(|[opening, whole]| {
        let opening = median(opening);
        [opening, (median(whole) - opening) / decisions]
    })
}

pub fn run(folder: &str, names: &[String]) {
    println!(
        "{:14} {:>9} {:>6} {:>26} {:>34}",
        "", "decisions", "backs", "opening, us", "all-in, ns per decision"
    );
    println!(
        "{:14} {:>9} {:>6} {:>9} {:>8} {:>7} {:>17} {:>8} {:>7}",
        "instance", "", "", "proved", "engine", "ratio", "proved", "engine", "ratio"
    );
    let mut logs = [0.0; 2];
    for name in names {
        let instance = Instance::read(folder, name);
        let (decisions, backs) = instance.counts();
        let [[opening, decision], [plain_opening, plain_decision]] = medians(name, &instance);
        let ratios = [opening / plain_opening, decision / plain_decision];
        logs.iter_mut().zip(ratios).for_each(|(log, ratio)| *log += ratio.ln() / names.len() as f64);
        println!(
            "{name:14} {decisions:>9} {backs:>6} {:>9.1} {:>8.1} {:>7.2} {decision:>17.0} {plain_decision:>8.0} {:>7.2}",
            opening / 1e3,
            plain_opening / 1e3,
            ratios[0],
            ratios[1],
        );
    }
    println!("{:14} {:>43.2} {:>34.2}", "geometric mean", logs[0].exp(), logs[1].exp());
}
