//! compare [COUNT] [SEED] [--bare] [--self-test]: what programs link, held against the model of the scope and the crate's own source.
//! --bare lends memory without guards, for a checker of memory. --self-test spoils one answer of each class and demands that it is seen.
mod calls;
mod cases;
#[allow(dead_code)]
mod crate_side;
mod frames;
mod messages;
mod model;
mod run;
mod small;
mod streams;
use run::Run;

struct Class {
    name: &'static str,
    /// how many of the count, as a divisor; 0 for a class that has its own number
    share: u64,
    run: fn(&mut Run, u64),
    /// the parts of an answer that a self-test spoils
    parts: &'static [&'static str],
}
const CLASSES: &[Class] = &[
    Class { name: "messages written", share: 1, run: messages::written, parts: &["number", "value", "byte", "before", "after", "crate"] },
    Class { name: "lent text and entries of any kind", share: 10, run: messages::loose, parts: &["number", "value", "byte", "before", "after"] },
    Class { name: "numbers that are no message", share: 10, run: messages::malformed, parts: &["number", "value", "byte", "before", "after"] },
    Class {
        name: "frames read",
        share: 1,
        run: frames::read,
        parts: &[
            "number", "refused", "count", "from", "len", "places", "field", "behind", "data", "data behind", "entry", "entry behind", "before",
            "after", "refused data", "refused entries", "refused answer",
        ],
    },
    Class { name: "kinds that are none", share: 10, run: frames::no_kind, parts: &["number", "refused data", "refused entries", "refused answer"] },
    Class { name: "answers that are short", share: 10, run: frames::no_room, parts: &["number", "refused data", "refused entries", "refused answer"] },
    Class { name: "streams walked", share: 10, run: streams::walked, parts: &["number", "value", "offset", "length", "behind", "before", "after", "refused"] },
    Class { name: "streams for kinds that are none", share: 100, run: streams::no_kind, parts: &["number", "value", "refused"] },
    Class { name: "identities", share: 1, run: small::identities, parts: &["number", "field", "behind", "before", "refused", "crate"] },
    Class { name: "identities with short answers", share: 10, run: small::short_identities, parts: &["number", "refused"] },
    Class { name: "rates split", share: 1, run: small::splits, parts: &["number", "whole", "fraction", "crate"] },
    Class { name: "rates joined", share: 1, run: small::joins, parts: &["bits"] },
    Class { name: "cents", share: 1, run: small::cents_of, parts: &["fraction", "crate"] },
    Class { name: "channel sets", share: 0, run: small::channel_sets, parts: &["count", "lowest"] },
];

fn commas(n: u64) -> String {
    let s = n.to_string();
    let mut o = String::new();
    for (i, c) in s.chars().enumerate() {
        if i > 0 && (s.len() - i) % 3 == 0 {
            o.push(',');
        }
        o.push(c);
    }
    o
}
fn compare_all(count: u64, seed: u64, bare: bool) -> bool {
    let (mut compared, mut different) = (0, 0);
    for c in CLASSES {
        let mut r = Run::new(c.name, seed, bare, None);
        (c.run)(&mut r, count / c.share.max(1));
        let with_crate = if r.with_crate > 0 { format!(", {} with the crate too", commas(r.with_crate)) } else { String::new() };
        println!("{}: {} compared{with_crate}, {} different", c.name, commas(r.compared), commas(r.different));
        compared += r.compared;
        different += r.different;
    }
    println!("boundary: {} compared, {} different", commas(compared), commas(different));
    different == 0
}
fn self_test(seed: u64) -> bool {
    let (mut spoiled, mut missed) = (0, 0);
    for c in CLASSES {
        for part in c.parts {
            let mut r = Run::new(c.name, seed, false, Some(part));
            (c.run)(&mut r, 720);
            spoiled += 1;
            if r.unspoiled() || r.different != 1 {
                missed += 1;
                println!("  {}: {part} spoiled, {} reported as different", c.name, r.different);
            }
        }
    }
    println!("self-test: {spoiled} answers spoiled, {missed} not reported");
    missed == 0
}
fn main() {
    std::panic::set_hook(Box::new(|i| {
        // the crate panics on file data above 111 bytes, and that is caught
        if !i.to_string().contains("len < 128") {
            eprintln!("{i}")
        }
    }));
    let words: Vec<String> = std::env::args().skip(1).collect();
    let mut numbers = words.iter().filter(|w| !w.starts_with("--")).map(|w| w.parse::<u64>().expect("a number"));
    let count = numbers.next().unwrap_or(1_000_000);
    let seed = numbers.next().unwrap_or(1);
    let said = |w: &str| words.iter().any(|x| x == w);
    let good = if said("--self-test") { self_test(seed) } else { compare_all(count, seed, said("--bare")) };
    std::process::exit(!good as i32);
}
