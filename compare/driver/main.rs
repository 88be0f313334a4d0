//! Compares the library with the given Rust, question by question.

#[cfg(ours)]
mod c_face;
mod classes;
mod gen;
#[cfg(ours)]
mod ours;
mod plain;
mod replay;
mod rust_side;
mod side;
mod tally;
mod vectors;

use plain::Plain;
use rust_side::RustSide;
use side::{ask, Outcome, Question, Side, Verdict};
use tally::{show_outcome, show_question, Tally};

const USE: &str = "use: driver compare COUNT SEED | digest COUNT SEED | sample COUNT SEED | \
    replay COUNT SEED FOLDER | vectors FOLDER | read WORDS";

/// Some x86-64 emulators die where glibc reads /proc/self/maps for this call, which std makes at its start;
/// std takes an error for a stack of unknown bounds. Only its guard page is lost by it.
#[cfg(emulated)]
#[no_mangle]
pub extern "C" fn pthread_getattr_np(_: usize, _: *mut u8) -> i32 {
    38
}

#[cfg(ours)]
fn library() -> Option<Box<dyn Side>> {
    Some(Box::new(ours::Ours))
}

#[cfg(not(ours))]
fn library() -> Option<Box<dyn Side>> {
    None
}

/// The library against the plain reading of 01 in every number, place and word; and against the Rust, by classes.
/// Without the library the plain reading stands in for it.
struct Comparison<'a> {
    first: &'a dyn Side,
    ours: Outcome,
    rust: Outcome,
    plain: Outcome,
    tally: Tally,
    others: Tally,
    unlike: u64,
    rooms: u64,
}

impl Comparison<'_> {
    fn take(&mut self, question: &Question) {
        ask(self.first, question, &mut self.ours);
        ask(&RustSide, question, &mut self.rust);
        ask(&Plain, question, &mut self.plain);
        if self.ours.verdict == Verdict::Unasked {
            self.others.take(question, &self.plain, &self.rust);
            return;
        }
        self.tally.take(question, &self.ours, &self.rust);
        if !self.ours.equals(&self.plain) {
            self.tell_unlike(question);
        }
    }

    fn tell_unlike(&mut self, question: &Question) {
        self.unlike += 1;
        if self.unlike <= 20 {
            println!(
                "not by 01: {}\n    here {}\n    01 {}",
                show_question(question),
                show_outcome(&self.ours),
                show_outcome(&self.plain)
            );
        }
    }

    /// What was read, once more as a whole text: in a room one byte too small, in the one that is needed, and in one larger.
    fn take_rooms(&mut self, words: &[u32]) {
        let length = self.plain.text.len();
        for room in [length.saturating_sub(1), length, length + 1] {
            self.take(&Question::WholeText(words, room));
            self.rooms += 1;
        }
    }
}

fn compare(seed: u64, count: u64) -> bool {
    let library = library();
    let first: &dyn Side = library.as_deref().unwrap_or(&Plain);
    let outcome = Outcome::default;
    let (ours, rust, plain) = (outcome(), outcome(), outcome());
    let (tally, others) = (Tally::default(), Tally::default());
    let mut all = Comparison { first, ours, rust, plain, tally, others, unlike: 0, rooms: 0 };
    gen::run(seed, count, &mut |question: &Question| {
        all.take(question);
        if let Question::Read(words) = question {
            all.take_rooms(words);
        }
    });
    match library {
        Some(_) => println!("the library and the Rust; {} answers of the library are not by 01", all.unlike),
        None => println!("no library: a plain reading of 01 and the Rust"),
    }
    println!("{} times what was read was asked for as a whole text in a room about its length", all.rooms);
    all.tally.print();
    if all.others.answers > 0 {
        println!("for what the library has no call, the plain reading of 01 and the Rust");
        all.others.print();
    }
    all.unlike == 0 && all.tally.unlisted_count == 0 && all.others.unlisted_count == 0
}

/// One number for all of the Rust's answers, to hold one build of it against another.
fn digest(seed: u64, count: u64) -> bool {
    let mut out = Outcome::default();
    let mut hash = 0xCBF2_9CE4_8422_2325u64;
    let mut add = |byte: u8| hash = (hash ^ byte as u64).wrapping_mul(0x100_0000_01B3);
    let mut answers = 0u64;
    gen::run(seed, count, &mut |question: &Question| {
        ask(&RustSide, question, &mut out);
        answers += 1;
        match out.verdict {
            Verdict::Done => add(0),
            Verdict::Refused(_, _, why) => why.bytes().for_each(&mut add),
            Verdict::Panicked => add(1),
            Verdict::Unasked => add(2),
        }
        out.numbers.iter().chain(&out.words).for_each(|n| n.to_be_bytes().into_iter().for_each(&mut add));
        out.text.iter().copied().for_each(&mut add);
    });
    println!("{} answers of the Rust, digest {:016X}", answers, hash);
    true
}

/// About so many questions with the Rust's answers, as many of each sort, for a list that can be replayed without the
/// Rust. A line starts with `=` where document 01 gives the same answer, else with `/`.
fn sample(seed: u64, count: u64) -> bool {
    // Whole texts are not among them: the Rust is not asked for any.
    const SORTS: u64 = 12;
    let room = (count / SORTS) as usize + 1;
    let mut kept: Vec<(usize, Vec<String>)> = (0..SORTS).map(|_| (0, Vec::new())).collect();
    let (mut rust, mut plain) = (Outcome::default(), Outcome::default());
    let mut random = gen::Random::new(!seed);
    gen::run(seed, 4_000_000, &mut |question: &Question| {
        let (seen, lines) = &mut kept[question.sort()];
        *seen += 1;
        let at = if lines.len() < room { lines.len() } else { random.below(*seen) };
        if at >= room {
            return;
        }
        ask(&RustSide, question, &mut rust);
        ask(&Plain, question, &mut plain);
        let sign = if plain.agrees(&rust) { "=" } else { "/" };
        let line = format!("{} {} = {}", sign, show_question(question), show_outcome(&rust));
        if at == lines.len() {
            lines.push(line);
        } else {
            lines[at] = line;
        }
    });
    kept.iter().flat_map(|(_, lines)| lines).for_each(|line| println!("{}", line));
    true
}

fn held(folder: &str, side: &dyn Side, tell: vectors::Tell) {
    let file = |name: &str| std::fs::read_to_string(format!("{}/{}", folder, name)).expect(name);
    vectors::reading(&file("read.txt"), side, tell);
    vectors::steps(&file("step.txt"), side, tell);
    vectors::settings(&file("settings.txt"), side, tell);
}

/// The stored vectors against the plain reading, the library and the Rust.
fn against_vectors(folder: &str) -> bool {
    let mut good = true;
    let library = library();
    let sides = [("01 read plainly", Some(&Plain as &dyn Side)), ("the library", library.as_deref())];
    for (name, side) in sides {
        let side = match side {
            Some(side) => side,
            None => continue,
        };
        let (mut all, mut unlike) = (0, 0);
        held(folder, side, &mut |line, _, expected, got| {
            all += 1;
            if !expected.equals(got) {
                unlike += 1;
                println!("{}\n    {}", line, show_outcome(got));
            }
        });
        println!("{}: {} of {} vectors unlike", name, unlike, all);
        good &= unlike == 0;
    }
    let mut tally = Tally::default();
    let mut lines = Vec::new();
    held(folder, &RustSide, &mut |line, question, expected, got| {
        let before = tally.unlisted_count;
        tally.take(question, expected, got);
        if tally.unlisted_count > before {
            lines.push(format!("{}\n    Rust {}", line, show_outcome(got)));
        }
    });
    println!("the Rust:");
    tally.print();
    lines.iter().for_each(|line| println!("line: {}", line));
    good
}

/// What each side says of the words.
fn read(words: &[String]) -> bool {
    let words = vectors::words(&words.join(" "));
    let library = library();
    let sides = [("Rust", Some(&RustSide as &dyn Side)), ("01", Some(&Plain)), ("here", library.as_deref())];
    for (name, side) in sides {
        if let Some(side) = side {
            for question in
                [Question::Read(&words), Question::First(&words), Question::Size(&words), Question::Text(&words)]
            {
                let mut out = Outcome::default();
                ask(side, &question, &mut out);
                println!("{}: {} = {}", name, show_question(&question), show_outcome(&out));
            }
        }
    }
    true
}

fn main() {
    oracle::oracle::quiet();
    let words: Vec<String> = std::env::args().skip(1).collect();
    let number = |at: usize| words.get(at).and_then(|word| word.parse::<u64>().ok());
    let good = match (words.first().map(String::as_str), number(1), number(2)) {
        (Some("compare"), Some(count), Some(seed)) => compare(seed, count),
        (Some("digest"), Some(count), Some(seed)) => digest(seed, count),
        (Some("sample"), Some(count), Some(seed)) => sample(seed, count),
        (Some("replay"), Some(count), Some(seed)) if words.len() == 4 => {
            replay::replay(seed, count as usize, &words[3])
        }
        (Some("read"), _, _) => read(&words[1..]),
        (Some("vectors"), _, _) if words.len() == 2 => against_vectors(&words[1]),
        _ => {
            eprintln!("{}", USE);
            std::process::exit(2);
        }
    };
    std::process::exit(if good { 0 } else { 1 });
}
