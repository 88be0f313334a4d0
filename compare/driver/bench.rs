//! The benchmark: the library, the Rust crate over it and the given Rust on the same inputs, in one program.
//!
//! `bench times` measures the sides in turn; `bench calls [NUMBER]` makes each call, or the first ones, once between two
//! marks, for a counter of instructions outside; `bench counts` reads what it counted and prints the table; `bench captures` and
//! `bench capture NUMBER` are the inputs for `dump`.

mod c_face;
mod captures;
mod crate_cases;

use c_face::*;
use captures::{block_name, capture, endpoint_name, text};
use captures::{ASCII, BLOCK_INFO, CAPTURES, GREEK, JAPANESE, MOST, SYMBOLS};
use oracle::timed as rust;
use std::io::{Read, Write};
use std::time::Instant;

/// As in the comparison's driver: for an emulator that dies in this call.
#[cfg(emulated)]
#[no_mangle]
pub extern "C" fn pthread_getattr_np(_: usize, _: *mut u8) -> i32 {
    38
}

/// A value that the compiler knows nothing of; `std::hint::black_box` is not in an older rustc.
#[inline(always)]
fn keep<T: Copy>(value: T) -> T {
    unsafe { std::ptr::read_volatile(&value) }
}

type Call = Box<dyn FnMut() -> u32>;

/// The same work on each side; each call's number must be the same.
struct Case {
    name: String,
    /// The most that the ratio to the Rust is wanted to be.
    wanted: Option<f64>,
    /// Words that are walked, where the cost of one is told.
    words: Option<usize>,
    /// The library's C call; then the given Rust, where it has the like; then the Rust crate, in rows of its own.
    calls: Vec<Call>,
}

/// The sum of all that a record says. Fields are loaded one by one, as a caller takes them: in one vector they would wait for
/// the library's stores.
fn sum(record: &Record) -> u32 {
    let field = |number: &u32| unsafe { std::ptr::read_volatile(number) };
    record.number.iter().map(field).fold(record.status + record.packets as u32, |sum, number| sum + number)
}

fn read_by_c(words: &[u32]) -> u32 {
    let a = unsafe { frayedbin_read(words.as_ptr(), words.len()) };
    if a.refusal == 0 {
        sum(&a.record)
    } else {
        0
    }
}

fn read(name: &str, words: Vec<u32>, wanted: Option<f64>) -> Case {
    let again = words.clone();
    Case {
        name: name.to_string(),
        wanted,
        words: None,
        calls: vec![
            Box::new(move || keep(read_by_c(keep(&words[..])))),
            Box::new(move || keep(rust::read(keep(&again[..])).unwrap_or(0))),
        ],
    }
}

fn stepped(words: &[u32]) -> u32 {
    let (mut sum, mut packet, mut byte) = (0, 0, 0);
    loop {
        let next = unsafe { frayedbin_next_byte(words.as_ptr(), words.len(), packet, byte) };
        if next.byte == 0 {
            return sum;
        }
        sum += next.byte;
        packet = next.packet;
        byte = next.byte_number;
    }
}

fn step(name: &str, words: Vec<u32>) -> Case {
    let again = words.clone();
    Case {
        name: name.to_string(),
        wanted: None,
        words: None,
        calls: vec![
            Box::new(move || keep(stepped(keep(&words[..])))),
            Box::new(move || keep(rust::sum_of_text(keep(&again[..])))),
        ],
    }
}

/// A fresh endpoint name.
const FRESH: [u32; 4] = [0xF003_0000, 0, 0, 0];

/// Sets an endpoint name over a fresh one, or over itself; the library reads the message that it sets, and the text.
fn set(name: &str, packets: usize, of: &str, fresh: bool, wanted: Option<f64>) -> Case {
    let text = text(of, packets * 14);
    let copy = text.clone();
    let (mut words, mut again) = (endpoint_name(packets, of), endpoint_name(packets, of));
    Case {
        name: format!("set an endpoint name, {}, over {}", name, if fresh { "a fresh one" } else { "itself" }),
        wanted,
        words: None,
        calls: vec![
            Box::new(move || {
                if fresh {
                    words[..4].copy_from_slice(&FRESH);
                }
                let (at, length, text) = (words.as_mut_ptr(), words.len(), keep(&text[..]));
                let a = unsafe { frayedbin_endpoint_name_set_name(at, length, text.as_ptr(), text.len()) };
                keep(if a.refusal == 0 { words[0] ^ words[length - 1] } else { 0 })
            }),
            Box::new(move || {
                if fresh {
                    again[..4].copy_from_slice(&FRESH);
                }
                let is_done = rust::set_endpoint_name(&mut again, keep(&copy[..]));
                keep(if is_done { again[0] ^ again[again.len() - 1] } else { 0 })
            }),
        ],
    }
}

fn set_number(name: &str, words: Vec<u32>) -> Case {
    let (mut words, mut again) = (words.clone(), words);
    Case {
        name: name.to_string(),
        wanted: None,
        words: None,
        calls: vec![
            Box::new(move || {
                let (at, length) = (words.as_mut_ptr(), words.len());
                let a = unsafe { frayedbin_function_block_name_set_function_block(at, length, keep(7)) };
                keep((a.refusal == 0) as u32)
            }),
            Box::new(move || {
                rust::set_function_block(&mut again, keep(7));
                1
            }),
        ],
    }
}

fn walked(words: &[u32]) -> u32 {
    let (mut at, mut answers) = (0, 0);
    loop {
        let a = unsafe { frayedbin_walk(words.as_ptr(), words.len(), at) };
        if a.found == 0 {
            return answers;
        }
        answers += 1;
        at = a.next;
    }
}

fn walk(of: &str, length: usize) -> Case {
    let words = capture(of, length);
    Case {
        name: format!("walk {} words: {}", length, of),
        wanted: None,
        words: Some(length),
        calls: vec![Box::new(move || keep(walked(keep(&words[..]))))],
    }
}

const LENGTHS: [usize; 4] = [1000, 2000, 4000, MOST];

/// A text of each script, its name, and the most that its ratio is wanted to be: nothing is wanted of the last two.
fn scripts(plain: f64, japanese: f64) -> [(&'static str, &'static str, Option<f64>); 4] {
    [
        (ASCII, "ASCII", Some(plain)),
        (JAPANESE, "Japanese", Some(japanese)),
        (GREEK, "Greek", None),
        (SYMBOLS, "four-byte", None),
    ]
}

/// Every case, in the order of the table; the first does nothing.
fn cases() -> Vec<Case> {
    let nothing = || -> Call { Box::new(|| keep(keep(1))) };
    let mut all = vec![Case {
        name: "nothing: the cost of measuring".to_string(),
        wanted: None,
        words: None,
        calls: vec![nothing(), nothing()],
    }];
    for (packets, plain) in [(1, 0.5), (4, 0.2), (64, 0.2)] {
        for (of, script, wanted) in scripts(plain, 0.7) {
            let name = format!("read an endpoint name, {} {}", packets, script);
            all.push(read(&name, endpoint_name(packets, of), wanted));
        }
    }
    all.push(read("read a block name, 64 ASCII", block_name(64, ASCII), Some(0.2)));
    all.push(read("read a block name, 64 Japanese", block_name(64, JAPANESE), Some(0.7)));
    all.push(read("read a block info", BLOCK_INFO.to_vec(), None));
    all.push(step("step through text, 64 ASCII", endpoint_name(64, ASCII)));
    all.push(step("step through text, 64 Japanese", endpoint_name(64, JAPANESE)));
    for fresh in [true, false] {
        for packets in [1, 4, 64] {
            for (of, script, wanted) in scripts(0.4, 0.4) {
                all.push(set(&format!("{} {}", packets, script), packets, of, fresh, wanted));
            }
        }
    }
    all.push(set_number("set the block number, 64 ASCII", block_name(64, ASCII)));
    for length in LENGTHS {
        all.push(walk("mixed", length));
    }
    for of in ["others of one word", "block infos", "names of 64 packets", "Japanese names of 64 packets"] {
        all.push(walk(of, MOST));
    }
    all.extend(crate_cases::all());
    all
}

/// What each call of each case costs.
type Costs = Vec<Vec<f64>>;

/// A ratio as the tables have it, and beside it the most that is wanted.
fn ratio(of: f64, to: f64, wanted: Option<f64>) -> String {
    let wanted =
        wanted.map_or("".to_string(), |most| format!("{}{}", most, if of / to > most { ", missed" } else { "" }));
    format!("{:.2} | {}", of / to, wanted)
}

fn print_table(cases: &[Case], costs: &[Vec<f64>], unit: &str) {
    let places = (unit == "ns") as usize;
    println!("| a call | ours, {} | the Rust | ratio | wanted |", unit);
    println!("|---|---|---|---|---|");
    for (case, costs) in cases.iter().zip(costs) {
        match costs[..] {
            [ours] => println!("| {} | {:.*} | | | |", case.name, places, ours),
            [ours, rust] => {
                let ratio = ratio(ours, rust, case.wanted);
                println!("| {} | {:.*} | {:.*} | {} |", case.name, places, ours, places, rust, ratio);
            }
            _ => (),
        }
    }
}

/// The rows of the Rust crate; `idle` is what measuring adds to each of these costs.
fn print_crate_table(cases: &[Case], costs: &[Vec<f64>], idle: f64, unit: &str) {
    let places = (unit == "ns") as usize;
    println!(
        "| the Rust crate | its call, {} | the C call | the Rust | to the C call | wanted | to the Rust | wanted |",
        unit
    );
    println!("|---|---|---|---|---|---|---|---|");
    for (case, costs) in cases.iter().zip(costs) {
        if let [c, rust, own] = costs[..] {
            let (c, rust, own) = (c - idle, rust - idle, own - idle);
            // A row is held to the C call or, where that makes no String, to the Rust.
            let most_to_c = if case.wanted.is_none() { Some(crate_cases::MOST_TO_C) } else { None };
            let ratios = (ratio(own, c, most_to_c), ratio(own, rust, case.wanted));
            print!("| {} | {:.*} | {:.*} | {:.*} |", case.name, places, own, places, c, places, rust);
            println!(" {} | {} |", ratios.0, ratios.1);
        }
    }
}

fn print_walks(cases: &[Case], costs: &[Vec<f64>], unit: &str) {
    println!("| a walk | {} a word |\n|---|---|", unit);
    let mut a_word = Vec::new();
    for (case, costs) in cases.iter().zip(costs) {
        if let Some(words) = case.words {
            let cost = costs[0] / words as f64;
            println!("| {} | {:.2} |", case.name, cost);
            a_word.push(cost);
        }
    }
    let mixed = &a_word[..LENGTHS.len()];
    let (least, most) = mixed.iter().fold((f64::MAX, 0f64), |(a, b), &c| (a.min(c), b.max(c)));
    let missed = if most / least > 1.1 { ", missed" } else { "" };
    println!(
        "\nmixed, from {} to {} words: the most a word is {:.3} of the least (wanted 1.1{})",
        LENGTHS[0],
        MOST,
        most / least,
        missed
    );
}

fn print_tables(cases: &[Case], costs: &[Vec<f64>], idle: f64, unit: &str) {
    print_table(cases, costs, unit);
    println!();
    print_walks(cases, costs, unit);
    println!();
    print_crate_table(cases, costs, idle, unit);
}

/// Calls of a batch: enough for a hundred microseconds.
fn batch(call: &mut Call) -> usize {
    let mut calls = 1;
    loop {
        let start = Instant::now();
        for _ in 0..calls {
            call();
        }
        if start.elapsed().as_micros() >= 100 {
            return calls;
        }
        calls *= 2;
    }
}

fn nanoseconds(call: &mut Call, calls: usize) -> f64 {
    let start = Instant::now();
    for _ in 0..calls {
        call();
    }
    start.elapsed().as_nanos() as f64 / calls as f64
}

/// The sides of each case in turn, round after round; the least of all rounds.
fn times(cases: &mut [Case]) -> Costs {
    const ROUNDS: usize = 500;
    let batches: Vec<Vec<usize>> = cases.iter_mut().map(|case| case.calls.iter_mut().map(batch).collect()).collect();
    let mut least: Costs = batches.iter().map(|calls| vec![f64::MAX; calls.len()]).collect();
    for _ in 0..ROUNDS {
        for (at, case) in cases.iter_mut().enumerate() {
            for (side, call) in case.calls.iter_mut().enumerate() {
                least[at][side] = least[at][side].min(nanoseconds(call, batches[at][side]));
            }
        }
    }
    least
}

/// A counter of instructions counts from here ..
#[no_mangle]
#[inline(never)]
pub extern "C" fn bench_call(call: &mut Call) -> u32 {
    keep(call())
}

/// .. to here.
#[no_mangle]
#[inline(never)]
pub extern "C" fn bench_rest() -> u32 {
    keep(0)
}

/// The first calls, each once between the marks, and how many there are; `agree` has warmed them up.
fn calls(cases: &mut [Case], most: usize) {
    let mut all = 0;
    for (at, call) in cases.iter_mut().flat_map(|case| &mut case.calls).enumerate() {
        if at < most {
            bench_call(call);
            bench_rest();
        }
        all = at + 1;
    }
    println!("{}", all);
}

/// The counts of `calls` in its order, a number a line, less what the first case counts.
fn counts(cases: &[Case]) -> Costs {
    let mut all = String::new();
    std::io::stdin().read_to_string(&mut all).expect("counts");
    let mut numbers = all.split_whitespace().map(|word| word.parse::<f64>().expect("a count"));
    let mut next = || numbers.next().expect("a count for each call");
    let found: Costs = cases.iter().map(|case| case.calls.iter().map(|_| next()).collect()).collect();
    let idle = found[0][0];
    found.into_iter().map(|case| case.into_iter().map(|count| count - idle).collect()).collect()
}

/// That all sides give the same answer, and none refuses.
fn agree(cases: &mut [Case]) {
    for case in cases.iter_mut() {
        let answers: Vec<u32> = case.calls.iter_mut().map(|call| call()).collect();
        assert!(answers.iter().all(|answer| *answer == answers[0] && *answer != 0), "{}: {:X?}", case.name, answers);
    }
}

fn print_capture(number: usize) {
    let words = capture(CAPTURES[number], MOST);
    let bytes: Vec<u8> = words.iter().flat_map(|word| word.to_be_bytes()).collect();
    std::io::stdout().write_all(&bytes).expect("standard output");
}

fn main() {
    let words: Vec<String> = std::env::args().skip(1).collect();
    let mut cases = cases();
    match words.first().map(String::as_str) {
        Some("times") => {
            agree(&mut cases);
            let costs = times(&mut cases);
            print_tables(&cases, &costs, costs[0][0], "ns");
        }
        Some("calls") => {
            agree(&mut cases);
            calls(&mut cases, words.get(1).map_or(usize::MAX, |word| word.parse().expect("a number")));
        }
        Some("counts") => print_tables(&cases[1..], &counts(&cases)[1..], 0.0, "instructions"),
        Some("captures") => CAPTURES.iter().for_each(|name| println!("{}", name)),
        Some("capture") => print_capture(words[1].parse().expect("a number")),
        _ => {
            eprintln!("use: bench times | calls [NUMBER] | counts | captures | capture NUMBER");
            std::process::exit(2);
        }
    }
}
