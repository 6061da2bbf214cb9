//! The twin checked against itself: the figures of the documentation, and brute force against the search on small drafts.

use crate::brute;
use crate::costing::{Costing, Total, Worst, WorstThenTotal};
use crate::draft::Draft;
use crate::measure::{Measure, MEASURES};
use crate::pool;
use crate::random::Random;
use crate::ratio::Ratio;
use crate::search;
use crate::session::{Manner, Method};
use crate::settling::{Outcome, Posed};
use crate::talk::transcript;

const SIMPLE: [(u64, u64); 20] = [
    (1, 1),
    (2, 1),
    (3, 2),
    (4, 3),
    (5, 4),
    (6, 5),
    (5, 3),
    (8, 5),
    (9, 8),
    (10, 9),
    (16, 15),
    (81, 80),
    (81, 64),
    (45, 32),
    (7, 4),
    (7, 5),
    (11, 8),
    (13, 8),
    (1, 2),
    (40, 27),
];

/// The session of docs/session.md with its answers.
const EXAMPLE: &str =
    "level 600600\ntone 0.000\ntone 400.000\ntone 700.000\ntry 0 1/1\ntry 1 5/4\ntry 1 81/64\ntry 2 3/2\n\
                       try 2 40/27\nsettle 100\ntry 1 17/16\nsettle 6\nlevel 302301\nsettle 5\n";
const EXAMPLE_ANSWERS: &str = "ok\nok\nok\nok\nok\nok\nok\nok\nok\nscale 664664 7\n1/1 +0.00\n5/4 -13.68\n3/2 +1.95\n\
                               no ratio 8 7\nno search 25 1\nok\nno search 26 1\n";

/// Which outcomes the drafts had, so that one sees that all are met.
#[derive(Default, Debug)]
pub struct Tally {
    pub scales: u64,
    pub none: u64,
    pub spent: u64,
    /// Scales whose cost another choice within bounds has too.
    pub ties: u64,
}

/// Checks the documented figures and then so many random small drafts, each by every measure and every costing.
pub fn run(drafts: u64, seed: u64) -> Result<Tally, String> {
    documented_figures()?;
    let mut tally = Tally::default();
    for item in 0..drafts {
        let mut random = Random::for_item(seed, item);
        for (_, measure) in MEASURES {
            let draft = small_draft(&mut random, measure);
            let posed = Posed::new(&draft, measure);
            let told = |fault: String| format!("draft {item} of seed {seed}, {measure:?}: {fault}");
            both_agree::<Total>(&posed, &mut random, &mut tally).map_err(told)?;
            both_agree::<Worst>(&posed, &mut random, &mut tally).map_err(told)?;
            both_agree::<WorstThenTotal>(&posed, &mut random, &mut tally).map_err(told)?;
        }
    }
    Ok(tally)
}

// ---- small drafts ----

/// A draft of at most 5 tones with at most 4 candidates each, and bounds that are distances in it or one less.
pub fn small_draft(random: &mut Random, measure: Measure) -> Draft {
    let mut draft = Draft::new();
    let tones = 1 + random.place(5);
    let kinds = *random.pick(&[2, 5, 20]);
    for tone in 0..tones {
        draft.add_tone(random.from_to(0, 12) * 100_000);
        let count = if random.per_mille(20) { 0 } else { 1 + random.place(4) };
        for _ in 0..count {
            draft.tones[tone].candidates.push(candidate(random, kinds));
        }
    }
    if random.per_mille(700) {
        let bound = bound(random, &draft, measure);
        draft.set_level(bound);
    }
    for _ in 0..random.place(4) {
        let (one, other) = (random.place(tones), random.place(tones));
        if one != other {
            let bound = bound(random, &draft, measure);
            draft.set_bound(one, other, bound);
        }
    }
    draft
}

fn candidate(random: &mut Random, kinds: usize) -> Ratio {
    let (numerator, denominator) = SIMPLE[random.place(kinds)];
    let simple = Ratio { numerator, denominator };
    if random.per_mille(800) {
        return simple;
    }
    pool::near(random, simple.pitch(), 50_000).unwrap_or(simple)
}

/// A distance between two candidates of the draft, or one less.
fn bound(random: &mut Random, draft: &Draft, measure: Measure) -> u64 {
    let all: Vec<Ratio> = draft.tones.iter().flat_map(|tone| tone.candidates.clone()).collect();
    if all.is_empty() {
        return 0;
    }
    let (x, y) = (random.pick(&all).exponents(), random.pick(&all).exponents());
    measure.distance(&x, &y).saturating_sub(random.below(2))
}

// ---- brute force and search ----

fn both_agree<C: Costing>(posed: &Posed, random: &mut Random, tally: &mut Tally) -> Result<(), String> {
    let whole = agreed::<C>(posed, u64::MAX)?;
    let trials = match whole {
        Outcome::Scale { trials, .. } => {
            tally.scales += 1;
            tally.ties += u64::from(has_tie::<C>(posed, &whole));
            trials
        }
        Outcome::NoScale { trials } => {
            tally.none += 1;
            trials
        }
        Outcome::Spent => return Err("spent without a limit".to_string()),
    };
    let exact = agreed::<C>(posed, trials)?;
    if exact != whole {
        return Err(format!("{trials} trials are not enough for {whole:?}"));
    }
    if trials > 0 {
        for allowance in [0, random.below(trials), trials - 1] {
            tally.spent += 1;
            if agreed::<C>(posed, allowance)? != Outcome::Spent {
                return Err(format!("{allowance} are enough, but there are {trials} trials"));
            }
        }
    }
    Ok(())
}

fn agreed<C: Costing>(posed: &Posed, allowance: u64) -> Result<Outcome<C::Value>, String> {
    let searched = search::settle::<C>(posed, allowance);
    match brute::settle::<C>(posed, allowance) {
        Some(listed) if listed == searched => Ok(searched),
        listed => Err(format!("search gives {searched:?}, brute force {listed:?}")),
    }
}

/// Whether another choice within bounds costs as much as the best.
fn has_tie<C: Costing>(posed: &Posed, outcome: &Outcome<C::Value>) -> bool {
    match outcome {
        Outcome::Scale { cost, .. } => brute::costs::<C>(posed).iter().filter(|other| *other == cost).count() > 1,
        _ => false,
    }
}

// ---- documented figures ----

fn documented_figures() -> Result<(), String> {
    for method in [Method::Search, Method::Brute] {
        let manner = Manner { method, ..Manner::documented() };
        same("example", &transcript(EXAMPLE.as_bytes(), manner), EXAMPLE_ANSWERS)?;
        settlings(Manner { extras: true, ..manner })?;
    }
    distances()?;
    entries()?;
    offsets()
}

fn same(what: &str, found: &[u8], documented: &str) -> Result<(), String> {
    if found == documented.as_bytes() {
        Ok(())
    } else {
        Err(format!("{what}: {} is not {documented}", String::from_utf8_lossy(found)))
    }
}

/// The settlings of docs/settling.md, numbers 6 to 12.
fn settlings(manner: Manner) -> Result<(), String> {
    let triad = "tone 0.000\ntone 400.000\ntone 700.000\ntry 0 1/1\ntry 1 5/4\ntry 1 81/64\ntry 2 3/2\ntry 2 40/27\n";
    let one = "tone 0.000\ntry 0 81/80\ntry 0 1/1\nsettle 2\n".to_string();
    let figures = [
        (format!("{triad}level 600600\nsettle 7\n"), "scale 664664 7"),
        (format!("{triad}level 600600\ncosting worst\nsettle 5\n"), "scale 302302 5"),
        (format!("{triad}level 600600\ncosting worst-then-total\nsettle 5\n"), "scale 302302,664664 5"),
        (format!("{triad}level 302302\nsettle 5\n"), "scale 664664 5"),
        (format!("{triad}level 302301\nsettle 5\n"), "no search 26 1"),
        (format!("{triad}level 302301\nsettle 4\n"), "no search 25 1"),
        (one, "scale 0 2\n81/80 +21.50"),
        ("tone 0.000\nsettle 0\n".to_string(), "no search 26 1"),
    ];
    for (input, documented) in figures {
        let answers = transcript(input.as_bytes(), manner);
        let answers = String::from_utf8_lossy(&answers).into_owned();
        let last = answers.trim_start_matches("ok\n");
        if !last.starts_with(&format!("{documented}\n")) {
            return Err(format!("settling: {last} is not {documented}"));
        }
    }
    Ok(())
}

fn distances() -> Result<(), String> {
    let figures = [
        ((1, 1), (3, 2), Measure::Barlow, 110_110),
        ((3, 2), (5, 4), Measure::Barlow, 302_302),
        ((1, 1), (45, 32), Measure::Euler, 13),
        ((1, 1), (2, 1), Measure::BlindBarlow, 0),
        ((1, 1), (45, 32), Measure::Pitch, 590_224),
    ];
    for (x, y, measure, documented) in figures {
        let exponents = |(n, d)| Ratio { numerator: n, denominator: d }.exponents();
        let found = measure.distance(&exponents(x), &exponents(y));
        if found != documented {
            return Err(format!("distance from {x:?} to {y:?} by {measure:?}: {found} is not {documented}"));
        }
    }
    Ok(())
}

fn entries() -> Result<(), String> {
    let large = 4_294_967_295;
    let figures = [
        ((34, 17), Ok((2, 1))),
        ((17, 16), Err(8)),
        ((large + 1, large + 1), Err(7)),
        ((large, 1), Err(8)),
        ((0, large + 1), Err(6)),
        ((large, large), Ok((1, 1))),
    ];
    for ((n, d), documented) in figures {
        let found = Ratio::enter(n, d).map(|ratio| (ratio.numerator, ratio.denominator));
        if found != documented {
            return Err(format!("entry of {n}/{d}: {found:?} is not {documented:?}"));
        }
    }
    Ok(())
}

/// Tones 1.955, -13.686 and -0.009 cents from their ratios.
fn offsets() -> Result<(), String> {
    let input = "tone 700.000\ntone 400.000\ntone 0.009\ntry 0 3/2\ntry 1 5/4\ntry 2 1/1\nsettle 9\n";
    let documented = "ok\nok\nok\nok\nok\nok\nscale 664664 3\n3/2 +1.95\n5/4 -13.68\n1/1 +0.00\n";
    same("offsets", &transcript(input.as_bytes(), Manner::documented()), documented)
}
