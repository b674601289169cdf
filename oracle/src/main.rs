//! The comparison of the proved library with the original program. `oracle/run`, `oracle/awake` and `oracle/record` start
//! it; README.md says what is compared.
mod calls;
mod cells;
mod codec;
mod draw;
mod fixed;
mod judge;
mod library;
mod paper;
mod record;
mod rng;
mod shrink;
mod table;

use std::{
    collections::BTreeMap,
    io::BufRead,
    process::ExitCode,
    time::{Duration, Instant},
};

use calls::{Call, Said};
use draw::Draw;
use judge::{Judge, Judged};
use library::{Library, Side};
use paper::{Paper, SLIPS};
use table::{grouped, shown, Table};

/// The two sides don't agree: what one side says, and what it should have said or why that isn't known.
struct Disagreement {
    ours: Said,
    right: Result<Said, String>,
}

fn compare(side: &mut dyn Side, judge: &mut Judge, call: &Call) -> Result<Judged, Disagreement> {
    let ours = side.say(call);
    match judge.judge(call) {
        Ok(judged) if judged.said == ours => Ok(judged),
        Ok(judged) => Err(Disagreement { ours, right: Ok(judged.said) }),
        Err(why) => Err(Disagreement { ours, right: Err(why) }),
    }
}

struct Options {
    seed: u64,
    calls: Option<u64>,
    replay: Option<String>,
    paper: bool,
    random: bool,
    rest: Vec<String>,
}

fn options(words: impl Iterator<Item = String>) -> Result<Options, String> {
    let mut options = Options { seed: 1, calls: None, replay: None, paper: false, random: false, rest: vec![] };
    let mut words = words.peekable();
    while let Some(word) = words.next() {
        let mut value = || words.next().ok_or(format!("{word} wants a value"));
        match word.as_str() {
            "--seed" => options.seed = number(&value()?)?,
            "--calls" => options.calls = Some(number(&value()?)?),
            "--replay" => options.replay = Some(value()?),
            "--paper" => options.paper = true,
            "--random" => options.random = true,
            _ if word.starts_with("--") => return Err(format!("{word} is no option")),
            _ => options.rest.push(word),
        }
    }
    Ok(options)
}

fn number(text: &str) -> Result<u64, String> {
    text.replace(['_', ','], "").parse().map_err(|_| format!("`{text}` is no number"))
}

struct Progress {
    start: Instant,
    last: Instant,
}

impl Progress {
    fn new() -> Self {
        Progress { start: Instant::now(), last: Instant::now() }
    }

    fn tell(&mut self, calls: u64, of: u64) {
        if calls % 256 == 0 && self.last.elapsed() > Duration::from_secs(5) {
            self.last = Instant::now();
            let rate = calls as f64 / self.start.elapsed().as_secs_f64();
            eprintln!("{} of {} calls, {} a second", grouped(calls), grouped(of), grouped(rate as u64));
        }
    }
}

/// All calls of a run: the fixed ones, then as many at random as are wanted. `each` answers the state that a trace goes on
/// from, or nothing to stop.
fn feed(options: &Options, most: u64, mut each: impl FnMut(&Call) -> Option<Said>) {
    let mut left = most;
    let mut ask = |call: &Call| {
        if left == 0 {
            return None;
        }
        left -= 1;
        each(call)
    };
    if !options.random {
        for call in fixed::calls() {
            if ask(&call).is_none() {
                return;
            }
        }
        for (start, steps) in fixed::traces() {
            let mut state = Box::new(start);
            for step in steps {
                let Some(said) = ask(&Call::Track { state: state.clone(), step }) else { return };
                state = said.state.unwrap_or(state);
            }
        }
    }
    let mut draw = Draw::new(options.seed);
    loop {
        let call = draw.call();
        let Some(said) = ask(&call) else { return };
        draw.learn(&said);
    }
}

fn tell_disagreement(side: &mut dyn Side, judge: &mut Judge, call: &Call) {
    let least = shrink::shrink(call, |call| compare(side, judge, call).is_err());
    let Err(disagreement) = compare(side, judge, &least) else { return };
    println!("DISAGREEMENT in {}, the smallest input found:", least.operation());
    let mut text = format!("{least:?}");
    if text.len() > 4000 {
        text.truncate(4000);
        text += " ..";
    }
    println!("  call   {text}");
    println!("  ours   {}", shown(&least, &disagreement.ours));
    match &disagreement.right {
        Ok(said) => println!("  right  {}", shown(&least, said)),
        Err(why) => println!("  right  {why}"),
    }
    let mut bytes = Vec::new();
    least.parts().write(&mut bytes);
    println!("  again  oracle/run --replay {}", codec::to_hex(&bytes));
}

fn side(options: &Options) -> Box<dyn Side> {
    if options.paper {
        Box::new(Paper::plain())
    } else {
        Box::new(Library::new())
    }
}

fn run(options: &Options) -> Result<bool, String> {
    let mut side = side(options);
    let mut judge = Judge::new();
    if let Some(text) = &options.replay {
        return replay(&mut *side, &mut judge, text);
    }
    let wanted = options.calls.unwrap_or(1_000_000);
    let fixed = if options.random { 0 } else { fixed::count() };
    println!("seed {}, {} calls, of them {} fixed", options.seed, grouped(wanted), grouped(fixed.min(wanted)));
    let mut table = Table::default();
    let mut progress = Progress::new();
    let mut wrong = None;
    feed(options, wanted, |call| match compare(&mut *side, &mut judge, call) {
        Ok(judged) => {
            table.count(call, &judged);
            progress.tell(table.calls, wanted);
            Some(judged.said)
        }
        Err(_) => {
            wrong = Some(call.clone());
            None
        }
    });
    if let Some(call) = &wrong {
        println!("call number {} of the run:", grouped(table.calls + 1));
        tell_disagreement(&mut *side, &mut judge, call);
    }
    let seconds = progress.start.elapsed().as_secs_f64();
    table.print();
    if wrong.is_none() {
        table.holes().iter().for_each(|hole| println!("never met: {hole}"));
    }
    println!("{:.1} s, {} calls a second", seconds, grouped((table.calls as f64 / seconds) as u64));
    if options.paper {
        println!("compared: document 01 written out as a program (paper.rs) in the library's place");
    }
    println!("{}", if wrong.is_none() { "0 disagreements" } else { "1 disagreement, at which the run stopped" });
    Ok(wrong.is_none())
}

fn replay(side: &mut dyn Side, judge: &mut Judge, text: &str) -> Result<bool, String> {
    let bytes = codec::from_hex(text).ok_or("--replay wants hex digits")?;
    let call = codec::Parts::read(&bytes).and_then(|parts| parts.call()).ok_or("--replay: these bytes are no call")?;
    println!("call   {call:?}");
    let (right, agree) = match compare(side, judge, &call) {
        Ok(judged) => {
            println!("ours   {}", shown(&call, &judged.said));
            (judged.parting.unwrap_or("as the original").to_string(), true)
        }
        Err(disagreement) => {
            println!("ours   {}", shown(&call, &disagreement.ours));
            (disagreement.right.map_or_else(|why| why, |said| shown(&call, &said)), false)
        }
    };
    println!("right  {right}");
    Ok(agree)
}

/// How telling it is what the original does where the library refuses: that it goes on more than that it panics, and that
/// more than a refusal of its own.
fn telling(did: &str) -> u32 {
    match did {
        "was not asked" => 0,
        "Ok(None)" | "Ok(0)" | "Err(Rotate)" => 1,
        _ if did.starts_with("Err(Said") => 1,
        _ if did.starts_with("Err(") => 2,
        _ => MOST_TELLING,
    }
}

const MOST_TELLING: u32 = 3;

/// How many bytes a call is lent. Where the original goes on, it mostly read an entry, and that can't be made smaller byte
/// by byte, since its checksum has to stay right: there the search begins with the smallest that was met.
fn lent_bytes(call: &Call) -> usize {
    call.parts().blobs.iter().map(calls::Region::len).sum()
}

/// Finds the smallest telling input of each parting, asks the original and the library, and tells what each does.
fn differences(options: &Options) -> Result<bool, String> {
    let mut judge = Judge::new();
    let mut least: BTreeMap<&'static str, (u32, usize, Call)> = BTreeMap::new();
    feed(options, options.calls.unwrap_or(500_000), |call| {
        let judged = judge.judge(call).ok()?;
        if let Some(name) = judged.parting {
            let bytes = lent_bytes(call);
            let known = least.get(name).map(|(rank, bytes, _)| (*rank, *bytes));
            if known.is_none_or(|(rank, least)| rank < MOST_TELLING || bytes < least) {
                let rank = telling(&judge::explained(&mut judge, call));
                if known.is_none_or(|(known, _)| known < rank || rank == MOST_TELLING) {
                    least.insert(name, (rank, bytes, call.clone()));
                }
            }
        }
        Some(judged.said)
    });
    let mut library = Library::new();
    for (name, (rank, _, call)) in &least {
        let smallest = shrink::shrink(call, |call| {
            let same = judge.judge(call).is_ok_and(|judged| judged.parting == Some(name));
            same && (*rank == 0 || telling(&judge::explained(&mut judge, call)) == *rank)
        });
        // All of a too large region is asked about once for each judge, so a fresh one is asked here.
        let did = judge::explained(&mut Judge::new(), &smallest);
        println!("{name}");
        println!("  call          {}", brief(&smallest));
        println!("  the original  {did}");
        println!("  here          {}", shown(&smallest, &library.say(&smallest)));
    }
    Ok(true)
}

/// A call in few words: a tracker's idle slots and empty queues, and bytes that are all alike, aren't shown one by one.
fn brief(call: &Call) -> String {
    let alike = |bytes: &[u8]| match bytes {
        [] => "no bytes".to_string(),
        [first, ..] if bytes.iter().all(|byte| byte == first) => format!("{} bytes {first:02x}", bytes.len()),
        _ => codec::to_hex(bytes),
    };
    let parts = call.parts();
    let blobs: Vec<String> = parts
        .blobs
        .iter()
        .map(|blob| match blob {
            calls::Region::Dense(bytes) => format!("[{}]", alike(bytes)),
            calls::Region::Sparse { length, at, bytes } => format!("[{length} zeros, at {at} {}]", alike(bytes)),
        })
        .collect();
    let step = match call {
        Call::Track { step, .. } => format!("{step:?}"),
        Call::StartFile { ordinals, .. } => format!("{} ordinals", ordinals.len()),
        _ => format!("{} numbers {:?}", call.operation(), parts.numbers),
    };
    let state = parts.state.map_or(String::new(), |state| {
        let said = Said { state: Some(state), ..Default::default() };
        format!(" on a tracker with{}", shown(call, &said).split_once(", values []").map_or("", |(_, rest)| rest))
    });
    format!("{step} {}{state}", blobs.join(" "))
}

/// Plants each slip in document 01 written out, and tells how soon the comparison sees it.
fn awake(options: &Options) -> bool {
    let most = options.calls.unwrap_or(300_000);
    let options = Options { random: true, rest: vec![], replay: None, calls: None, ..*options };
    let seen_after = |slip: &'static str| {
        let (mut side, mut judge) = (Paper::with(slip), Judge::new());
        let (mut asked, mut seen) = (0u64, None);
        feed(&options, most, |call| {
            asked += 1;
            match compare(&mut side, &mut judge, call) {
                Ok(judged) => Some(judged.said),
                Err(_) => {
                    seen = Some((asked, call.operation()));
                    None
                }
            }
        });
        seen
    };
    println!("seed {}, at most {} calls for each slip", options.seed, grouped(most));
    println!("{:<26} {:>10}  {:<18} the slip", "slip", "seen after", "in");
    let mut all = true;
    for (slip, words) in SLIPS {
        match seen_after(slip) {
            Some((calls, operation)) => println!("{slip:<26} {:>10}  {operation:<18} {words}", grouped(calls)),
            None => {
                all = false;
                println!("{slip:<26} {:>10}  {:<18} {words}", "NOT SEEN", "");
            }
        }
    }
    match seen_after("") {
        None => println!("{:<26} {:>10}  {:<18} the same program without a slip", "none", "never", ""),
        Some((calls, operation)) => {
            all = false;
            println!(
                "{:<26} {:>10}  {operation:<18} the same program without a slip DISAGREES",
                "none",
                grouped(calls)
            );
        }
    }
    println!("{} slips, {}", SLIPS.len(), if all { "all seen" } else { "NOT all as they should be" });
    all
}

/// Holds the checksum's stand-in to sums from elsewhere: lines of hex bytes (`-` for none) and a sum.
fn checksums() -> Result<bool, String> {
    let mut count = 0u64;
    for line in std::io::stdin().lock().lines() {
        let line = line.map_err(|why| why.to_string())?;
        let (hex, sum) = line.split_once(' ').ok_or("a line wants bytes and a sum")?;
        let bytes = codec::from_hex(hex.trim_matches('-')).ok_or("bytes in hex digits")?;
        if crc16_ibm3740_fast::hash(&bytes) != number(sum)? {
            println!("checksum of {hex}: {} here, {sum} there", crc16_ibm3740_fast::hash(&bytes));
            return Ok(false);
        }
        count += 1;
    }
    println!("checksum stand-in: {} sums as Python's binascii.crc_hqx gives them", grouped(count));
    Ok(count > 0)
}

fn main() -> ExitCode {
    original::show_other_panics();
    let mut words = std::env::args().skip(1);
    let task = words.next().unwrap_or_default();
    let done = options(words).and_then(|options| match task.as_str() {
        "run" => run(&options),
        "awake" => Ok(awake(&options)),
        "differences" => differences(&options),
        "checksums" => checksums(),
        "record" => {
            let path = options.rest.first().ok_or("record wants a file's name")?;
            record::record(path, options.seed).map(|()| true).map_err(|why| why.to_string())
        }
        "replay" => {
            let path = options.rest.first().ok_or("replay wants a file's name")?;
            let same = record::replay(path, &mut *side(&options))?;
            println!(
                "{path}: {}",
                if same { "every recorded answer is given" } else { "NOT every recorded answer is given" }
            );
            Ok(same)
        }
        _ => Err("tasks: run, awake, record, replay, differences, checksums".to_string()),
    });
    match done {
        Ok(true) => ExitCode::SUCCESS,
        Ok(false) => ExitCode::FAILURE,
        Err(why) => {
            eprintln!("oracle: {why}");
            ExitCode::from(2)
        }
    }
}
