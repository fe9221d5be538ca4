//! The differential test: this package's implementation against the library (feature `library`), or against itself
//! without it. Two workers share the parts; at the end a table of all commands and codes is printed, and it is tested
//! that every code that the rules allow a command was reached.
//!
//! The first difference ends the run with its report, whether or not panics unwind in the linked binary (a static
//! library made by a compiler of the same kind may bring its own way to panic).
//!
//! `SECOND_SEED` sets another seed, `SECOND_SCALE` multiplies the work; an argument runs only the parts whose names
//! hold it (the table is then not tested).

mod parts;

use parts::tally::Tally;
use parts::{configs, histories, lookups, merges, messages, states, store_files, trays, unsound, Share, WORKERS};
use std::process::ExitCode;
use std::sync::Mutex;
use std::time::{Duration, Instant};

type Part = (&'static str, fn(Share) -> Tally);

const PARTS: &[Part] = &[
    ("wrapped identifiers", histories::wrap),
    ("random histories", histories::random),
    ("sound states", states::sound),
    ("broken states", unsound::broken),
    ("damaged states", unsound::damaged),
    ("lent lengths", unsound::lengths),
    ("every length", messages::every_length),
    ("every subcommand", messages::every_subcommand),
    ("every bit", messages::every_bit),
    ("every edge", messages::every_edge),
    ("merges", merges::merges),
    ("saved stores", store_files::saved),
    ("valid store files", store_files::valid),
    ("store file limits", store_files::limits),
    ("store file faults", store_files::faults),
    ("two faults", store_files::two_faults),
    ("cut store files", store_files::cut),
    ("store file bytes", store_files::every_byte),
    ("damaged files", store_files::damaged),
    ("mask lookups", lookups::every_mask),
    ("made lookups", lookups::made),
    ("alike lookups", lookups::alike),
    ("refused lookups", lookups::refused),
    ("random lookups", lookups::random),
    ("state lookups", lookups::states),
    ("history lookups", lookups::histories),
    ("config files", configs::files),
    ("config bytes", configs::every_byte),
    ("config nesting", configs::nesting),
    ("config offences", configs::offences),
    ("config two offences", configs::two_offences),
    ("config three entries", configs::three_entries),
    ("random configs", configs::random),
    ("config rubbish", configs::rubbish),
    ("config limits", configs::limits),
    ("config lengths", configs::lengths),
    ("tray buffers", trays::buffers),
    ("tray stops", trays::stops),
    ("tray cuts", trays::cuts),
    ("trays too long", trays::many),
    ("tray messages", trays::every_message),
    ("tray rubbish", trays::rubbish),
    ("tray sweeps", trays::sweeps),
    ("tray updates", trays::updates),
    ("broken trays", trays::broken),
    ("damaged trays", trays::damaged),
    ("tray lent lengths", trays::lengths),
    ("random trays", trays::random),
    ("trays in two", trays::in_two),
    ("trays gone on with", trays::going_on),
];

/// The result of one worker's share of a part.
type Done = (&'static str, Tally, Duration);

fn main() -> ExitCode {
    let filter = std::env::args().skip(1).find(|argument| !argument.starts_with('-'));
    let seed = number_from("SECOND_SEED", 0x5EC0_17D1);
    let scale = number_from("SECOND_SCALE", 1);
    let other = if cfg!(feature = "library") {
        "the library"
    } else {
        "itself"
    };
    println!("comparing the second implementation with {other}, seed {seed}, scale {scale}");
    let wanted = |name: &str| filter.as_ref().is_none_or(|filter| name.contains(filter.as_str()));
    let parts: Vec<Part> = PARTS.iter().copied().filter(|(name, _)| wanted(name)).collect();
    end_at_first_panic();
    let begin = Instant::now();
    let done = run_all(&parts, seed, scale);
    report(&parts, &done, begin.elapsed(), filter.is_none())
}

fn end_at_first_panic() {
    std::panic::set_hook(Box::new(|panic| {
        eprintln!("{panic}\ndifferential: FAILED");
        std::process::exit(1);
    }));
}

fn number_from(variable: &str, otherwise: u64) -> u64 {
    match std::env::var(variable) {
        Ok(text) => text.parse().unwrap_or_else(|_| panic!("{variable} must be a number")),
        Err(_) => otherwise,
    }
}

/// Two threads take the shares of all parts from one queue.
fn run_all(parts: &[Part], seed: u64, scale: u64) -> Vec<Done> {
    let shares = parts.iter().flat_map(|part| (0..WORKERS).map(|worker| (*part, worker)));
    let queue = Mutex::new(shares);
    let done = Mutex::new(Vec::new());
    std::thread::scope(|scope| {
        for _ in 0..WORKERS {
            scope.spawn(|| loop {
                let next = queue.lock().expect("the queue").next();
                let Some(((name, part), worker)) = next else { break };
                let begin = Instant::now();
                let tally = part(Share { worker, seed, scale });
                done.lock().expect("the results").push((name, tally, begin.elapsed()));
            });
        }
    });
    done.into_inner().expect("the results")
}

fn report(parts: &[Part], done: &[Done], elapsed: Duration, whole: bool) -> ExitCode {
    let mut all = Tally::new();
    for (part, _) in parts {
        let mut tally = Tally::new();
        let mut seconds = 0.0;
        for (_, share, time) in done.iter().filter(|(name, _, _)| name == part) {
            tally.add(share);
            seconds += time.as_secs_f64();
        }
        println!(
            "{part:<20} ok {:>8} states {:>9} requests {seconds:>7.1} s of one core",
            tally.states, tally.requests
        );
        all.add(&tally);
    }
    all.print();
    println!(
        "in all {} states, {} requests, {:.1} s",
        all.states,
        all.requests,
        elapsed.as_secs_f64()
    );
    let gaps = if whole { all.gaps() } else { Vec::new() };
    gaps.iter().for_each(|gap| println!("GAP: {gap}"));
    if gaps.is_empty() {
        println!("differential: ok");
        ExitCode::SUCCESS
    } else {
        println!("differential: FAILED");
        ExitCode::FAILURE
    }
}
