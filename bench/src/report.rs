//! The tables that are printed, and the targets held against them.

use crate::{
    case::Line,
    meter::{Cost, Unit},
};

/// The calls in the order of the page.
const CALLS: [&str; 8] = [
    "table test",
    "table test, both sides",
    "add_block",
    "try_commit",
    "try_commit, nothing new",
    "handle_commit",
    "linked",
    "get_blocks_by_round",
];

/// A share of the whole below which a difference of times is lost in noise.
const NOISE: f64 = 0.1;

pub fn print(unit: Unit, lines: &[Line]) {
    let name = if unit == Unit::Nanoseconds { "microseconds" } else { "thousands of instructions" };
    for call in CALLS {
        println!("\n### {call}, {name} a call\n");
        if call.starts_with("table test") {
            println!("| authorities | DAG | blocks | plain pass | ours | ours / plain pass |");
            println!("|---|---|---|---|---|---|");
        } else {
            println!("| authorities | DAG | blocks | original | ours | ours / original | table test | beyond it / original |");
            println!("|---|---|---|---|---|---|---|---|");
        }
        let mut of_call: Vec<&Line> = lines.iter().filter(|line| line.call == call).collect();
        of_call.sort_by_key(|line| (line.shape.size, !line.shape.full, line.shape.blocks));
        for line in of_call {
            println!("{}", row(unit, line));
        }
    }
    println!("\n### Targets, by {name}\n");
    println!("| target | limit | worst | met |");
    println!("|---|---|---|---|");
    let at = |size: usize| move |line: &&Line| line.call == "table test" && line.shape.size == size;
    let tests = |size| lines.iter().filter(at(size)).map(|line| Some(ratio(unit, line))).collect::<Vec<_>>();
    target("table test / plain pass, 100 authorities", 4.0, &tests(100));
    target("table test / plain pass, 4 authorities", 8.0, &tests(4));
    for (call, limit) in [("try_commit", 0.4), ("handle_commit", 0.4), ("add_block", 1.0)] {
        let of_call = lines.iter().filter(|line| line.call == call);
        let rests: Vec<_> = of_call.map(|line| beyond(unit, line)).collect();
        target(&format!("{call} beyond the table test / original"), limit, &rests);
    }
}

/// One target: met only if no line is over the limit and none is lost in noise.
fn target(name: &str, limit: f64, ratios: &[Option<f64>]) {
    let worst = ratios.iter().flatten().copied().fold(0.0, f64::max);
    let lost = ratios.iter().filter(|ratio| ratio.is_none()).count();
    let met = if limit < worst {
        format!("no, {:.1} times the limit", worst / limit)
    } else if lost == 0 {
        "yes".to_string()
    } else {
        format!("not shown: {lost} of {} lines are lost in noise", ratios.len())
    };
    println!("| {name} | {limit} | {worst:.2} | {met} |");
}

fn row(unit: Unit, line: &Line) -> String {
    let kind = if line.shape.full { "full" } else { "gappy" };
    let amount = |cost: Cost| format!("{:.1}", cost.of(unit) / 1000.0);
    let both = format!(
        "| {} | {kind} | {} | {} | {} | {:.2} |",
        line.shape.size,
        line.shape.blocks,
        amount(line.original),
        amount(line.ours),
        ratio(unit, line),
    );
    let Some(test) = line.test else { return both };
    let rest = beyond(unit, line).map_or("".to_string(), |x| format!("{x:.2}"));
    format!("{both} {} | {rest} |", amount(test))
}

fn ratio(unit: Unit, line: &Line) -> f64 {
    line.ours.of(unit) / line.original.of(unit)
}

/// What our call costs beyond the table test, against the original; nothing where it is lost in noise.
fn beyond(unit: Unit, line: &Line) -> Option<f64> {
    let (ours, test) = (line.ours.of(unit), line.test?.of(unit));
    let noise = if unit == Unit::Nanoseconds { NOISE * ours } else { 0.0 };
    let rest = ours - test;
    (noise <= rest).then(|| rest / line.original.of(unit))
}
