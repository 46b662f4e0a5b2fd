//! Times desk programs on a stream of posts, in turn, in one run on one machine, once it has
//! seen that they print the same; then on the same posts with an X, whose weights are worked
//! anew in each, with two dropped quotes, with an adjustment, for which each works a second
//! curve, and with what of them the smaller markets take; then on look-ups after one post, those of each of three years apart, since the rates of
//! a late year take more steps. The first desk's time is the denominator of the ratios.
//!
//!     bench POSTS NAME=DESK NAME=DESK..

use std::fs::File;
use std::path::PathBuf;
use std::process::{Command, ExitCode, Stdio};
use std::time::{Duration, Instant};

use reference::market::Market;
use reference::streams::{accepted_posts, look_ups, Measured};

/// Each desk is run this often; the fastest run counts, as the least disturbed one.
const RUNS: usize = 5;
const SEED: u64 = 7;

/// The years whose look-ups are timed.
const YEARS: [u8; 3] = [1, 20, 150];

/// Look-ups in the stream on which the desks are compared, and by whose time each desk's own
/// number of look-ups is chosen.
const TRIED_LOOK_UPS: usize = 2_000;

/// How long a run of look-ups should take: long against the start of a program.
const RUN: Duration = Duration::from_millis(250);

/// A stream of look-ups is not made longer than this many.
const MOST_LOOK_UPS: usize = 2_000_000;

/// A desk program and what to call it.
struct Desk {
    name: String,
    program: String,
}

fn main() -> ExitCode {
    let mut arguments = std::env::args().skip(1);
    let posts: usize = arguments.next().and_then(|n| n.parse().ok()).unwrap_or(0);
    let desks: Vec<Desk> = arguments.map_while(|word| desk(&word)).collect();
    if posts == 0 || desks.is_empty() || desks.len() + 2 != std::env::args().len() {
        eprintln!("usage: bench POSTS NAME=DESK NAME=DESK..");
        return ExitCode::FAILURE;
    }
    match bench(posts, &desks) {
        Ok(()) => ExitCode::SUCCESS,
        Err(text) => {
            eprintln!("bench: {text}");
            ExitCode::FAILURE
        }
    }
}

/// What is timed: a stream, and how many of its calls are accepted with a line of that start.
struct Load {
    name: &'static str,
    stream: Vec<u8>,
    calls: usize,
    unit: &'static str,
    line: &'static [u8],
}

fn posts_of(name: &'static str, posts: usize, measured: Measured) -> Load {
    Load {
        name,
        stream: accepted_posts(SEED, posts, measured),
        calls: posts,
        unit: "posts",
        line: b"P ",
    }
}

fn look_ups_of(year: u8, calls: usize) -> Load {
    Load {
        name: "after one post",
        stream: look_ups(year, calls),
        calls,
        unit: "look-ups",
        line: b"L ",
    }
}

fn bench(posts: usize, desks: &[Desk]) -> Result<(), String> {
    let without = run(&posts_of("without X", posts, Measured::Plain), desks)?;
    for (name, measured) in [
        ("with X", Measured::PhaseIn),
        ("with two dropped quotes", Measured::TwoDropped),
        ("with an adjustment", Measured::Adjusted),
        ("of profile 2", Measured::Smaller(Market::TO_10)),
        ("of profile 3", Measured::Smaller(Market::TO_15)),
    ] {
        let with = run(&posts_of(name, posts, measured), desks)?;
        for ((desk, with), without) in desks.iter().zip(with).zip(&without) {
            let cost = with.as_secs_f64() / without.as_secs_f64();
            println!("{}: {name} {cost:.2} times as long as without", desk.name);
        }
    }
    let post_times: Vec<f64> = without.iter().map(|&time| micros(time, posts)).collect();
    for year in YEARS {
        let times = look_up_times(year, desks)?;
        report_look_ups(year, desks, &times, &post_times);
    }
    Ok(())
}

fn run(load: &Load, desks: &[Desk]) -> Result<Vec<Duration>, String> {
    let best = compared_and_timed(load, desks)?;
    report(load, desks, &best);
    Ok(best)
}

fn compared_and_timed(load: &Load, desks: &[Desk]) -> Result<Vec<Duration>, String> {
    let input = StreamFile::new(&load.stream, 0)?;
    compare(load, desks, &input)?;
    let same: Vec<_> = desks.iter().map(|desk| (desk, &input)).collect();
    timed(&same)
}

/// A stream as a file, for as long as the value lives.
struct StreamFile(PathBuf);

impl StreamFile {
    /// `number` tells apart the files that live at one time.
    fn new(stream: &[u8], number: usize) -> Result<Self, String> {
        // Runs beside each other keep to their own streams.
        let name = format!("desk-bench-{}-{number}", std::process::id());
        let file = StreamFile(std::env::temp_dir().join(name));
        match std::fs::write(&file.0, stream) {
            Ok(()) => Ok(file),
            Err(error) => Err(file.fault(error)),
        }
    }

    fn fault(&self, error: std::io::Error) -> String {
        format!("{}: {error}", self.0.display())
    }
}

impl Drop for StreamFile {
    fn drop(&mut self) {
        _ = std::fs::remove_file(&self.0);
    }
}

/// The microseconds of one of `calls` calls.
fn micros(time: Duration, calls: usize) -> f64 {
    1e6 * time.as_secs_f64() / calls as f64
}

/// The microseconds of a look-up of `year` at each desk. A slow desk gets fewer of them.
fn look_up_times(year: u8, desks: &[Desk]) -> Result<Vec<f64>, String> {
    let tried = compared_and_timed(&look_ups_of(year, TRIED_LOOK_UPS), desks)?;
    let counts: Vec<usize> = tried.into_iter().map(look_ups_in_a_run).collect();
    let mut inputs = Vec::new();
    for (number, (desk, &count)) in desks.iter().zip(&counts).enumerate() {
        let load = look_ups_of(year, count);
        let input = StreamFile::new(&load.stream, number)?;
        accepted(&load, desk, &input)?;
        inputs.push(input);
    }
    let best = timed(&desks.iter().zip(&inputs).collect::<Vec<_>>())?;
    let times = best.into_iter().zip(counts);
    Ok(times.map(|(time, count)| micros(time, count)).collect())
}

/// How many look-ups take about as long as a run should, where those tried took `tried`.
fn look_ups_in_a_run(tried: Duration) -> usize {
    let count = TRIED_LOOK_UPS as f64 * RUN.as_secs_f64() / tried.as_secs_f64();
    (count as usize).clamp(TRIED_LOOK_UPS, MOST_LOOK_UPS)
}

fn report_look_ups(year: u8, desks: &[Desk], times: &[f64], post_times: &[f64]) {
    for ((desk, time), post) in desks.iter().zip(times).zip(post_times) {
        println!(
            "{}, year {year}: {time:.2} µs a look-up, ratio to {} {:.2}; a post without X takes \
             {post:.1} µs, a look-up {:.3} of that",
            desk.name,
            desks[0].name,
            time / times[0],
            time / post
        );
    }
}

fn desk(word: &str) -> Option<Desk> {
    let (name, program) = word.split_once('=')?;
    Some(Desk {
        name: name.to_string(),
        program: program.to_string(),
    })
}

fn report(load: &Load, desks: &[Desk], best: &[Duration]) {
    for (desk, time) in desks.iter().zip(best) {
        let seconds = time.as_secs_f64();
        println!(
            "{}, {}: {seconds:.3} s, {:.0} {} a second, ratio to {} {:.2}",
            desk.name,
            load.name,
            load.calls as f64 / seconds,
            load.unit,
            desks[0].name,
            seconds / best[0].as_secs_f64()
        );
    }
}

/// All desks print the first one's lines, and these accept every call that is counted.
fn compare(load: &Load, desks: &[Desk], input: &StreamFile) -> Result<(), String> {
    let lines = accepted(load, &desks[0], input)?;
    for desk in &desks[1..] {
        if output(desk, input)? != lines {
            let (first, other) = (&desks[0].name, &desk.name);
            return Err(format!("{first} and {other} print different lines"));
        }
    }
    Ok(())
}

/// The desk's lines, which accept every call that is counted: a desk that stops early would
/// look fast.
fn accepted(load: &Load, desk: &Desk, input: &StreamFile) -> Result<Vec<u8>, String> {
    let lines = output(desk, input)?;
    let accepted = lines
        .split(|&byte| byte == b'\n')
        .filter(|line| line.starts_with(load.line));
    if accepted.count() != load.calls {
        let (name, unit) = (&desk.name, load.unit);
        return Err(format!("{name} does not accept all {unit}"));
    }
    Ok(lines)
}

fn on(desk: &Desk, input: &StreamFile) -> Result<Command, String> {
    let file = File::open(&input.0).map_err(|error| input.fault(error))?;
    let mut command = Command::new(&desk.program);
    command.stdin(file);
    Ok(command)
}

fn output(desk: &Desk, input: &StreamFile) -> Result<Vec<u8>, String> {
    let output = on(desk, input)?
        .output()
        .map_err(|e| format!("{}: {e}", desk.program))?;
    if !output.status.success() {
        return Err(format!("{} failed", desk.program));
    }
    Ok(output.stdout)
}

/// The best time of each desk on its input, over runs that alternate between them.
fn timed(desks: &[(&Desk, &StreamFile)]) -> Result<Vec<Duration>, String> {
    let mut best = vec![Duration::MAX; desks.len()];
    for _ in 0..RUNS {
        for ((desk, input), time) in desks.iter().zip(best.iter_mut()) {
            let mut command = on(desk, input)?;
            command.stdout(Stdio::null());
            let start = Instant::now();
            let status = command
                .status()
                .map_err(|e| format!("{}: {e}", desk.program))?;
            *time = (*time).min(start.elapsed());
            if !status.success() {
                return Err(format!("{} failed", desk.program));
            }
        }
    }
    Ok(best)
}
