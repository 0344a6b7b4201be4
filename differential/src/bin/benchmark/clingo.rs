//! The same questions put to clingo, a solver for such programs, where it is installed.

use crate::inputs::{weights, Input, Inputs};
use crate::program::{model, question};
use crate::searches::search;
use crate::solver::{ground, runs, version, Runs, CLASP, CLINGO};
use crate::tables::time;
use crate::timing::typical;
use differential::calls::{asked_of, ending_of, ASK, DENY};
use differential::gate;

/// One program, what it has to answer, and the gate's call for the same.
struct Row {
    name: String,
    program: String,
    /// The whole model, or the credentials asked for.
    wanted: Option<u64>,
    /// The atoms that are compared.
    atoms: u64,
    gate: Box<dyn Fn() -> u64>,
}

fn model_row(input: &Input) -> Option<Row> {
    let policy = input.policy.clone();
    Some(Row {
        name: format!("model, {}", input.name),
        program: model(&policy)?,
        wanted: Some(gate::model(&policy, 0).1),
        atoms: u64::MAX,
        gate: Box::new(move || gate::model(&policy, 0).1),
    })
}

/// The first round, nothing shown; one that grants is no question.
fn question_row(what: &str, input: &Input) -> Option<Row> {
    let policy = input.policy.clone();
    let mut fresh = [0; 10];
    fresh[..2].copy_from_slice(&input.request.to_le_bytes());
    let mut session = fresh;
    let wanted = match ending_of(gate::round(&policy, &mut session, 0)) {
        ASK => Some(asked_of(session).into()),
        DENY => None,
        _ => return None,
    };
    Some(Row {
        name: format!("{what}, {}, request {}", input.name, input.request),
        program: question(&policy, input.request, None)?,
        wanted,
        atoms: 0xffff,
        gate: Box::new(move || gate::round(&policy, &mut fresh.clone(), 0).into()),
    })
}

/// The preferred set by sixteen weights, without a limit.
fn weighted_row(input: &Input) -> Option<Row> {
    let policy = input.policy.clone();
    let search = search(input, 65_535);
    let reply = gate::search(&policy, &search);
    Some(Row {
        name: format!("sixteen weights, {}, request {}", input.name, input.request),
        program: question(&policy, input.request, Some(weights()))?,
        wanted: (reply & 0xff == 0).then_some(reply >> 32),
        atoms: 0xffff,
        gate: Box::new(move || gate::search(&policy, &search)),
    })
}

fn rows(inputs: &Inputs) -> Vec<Row> {
    let large = || inputs.full.iter().chain(&inputs.chains);
    let models = inputs.short.iter().chain(large());
    let mut rows: Vec<Row> = models.filter_map(model_row).collect();
    let first = inputs.short.iter().chain(&inputs.asking);
    rows.extend(first.filter_map(|input| question_row("first round", input)));
    rows.extend(large().filter_map(|input| question_row("worst round", input)));
    let first = inputs.short_weighed.iter().chain(&inputs.asking_weighed);
    rows.extend(first.filter_map(|input| question_row("first round", input)));
    let worst = inputs.fewer_weighed.iter();
    rows.extend(worst.filter_map(|input| question_row("worst round", input)));
    rows.extend(inputs.full.iter().filter_map(weighted_row));
    rows.extend(inputs.asking.iter().filter_map(weighted_row));
    rows
}

/// Runs a row's program; every answer must be the gate's.
fn answered(row: &Row, solver: &[&str], program: &str, empty: &str) -> Result<Runs, String> {
    let runs = runs(solver, program, empty).map_err(|e| format!("{}: {e}", row.name))?;
    for set in &runs.sets {
        let set = set.map(|set| set & row.atoms);
        if set != row.wanted {
            let wanted = row.wanted;
            return Err(format!(
                "{}: {solver:?} {set:x?}, gate {wanted:x?}",
                row.name
            ));
        }
    }
    Ok(runs)
}

/// A time that is given in whole milliseconds.
fn coarse(seconds: f64) -> String {
    match seconds < 0.001 {
        true => "below 1 ms".to_string(),
        false => format!("{:.0} ms", seconds * 1e3),
    }
}

fn print_row(row: &Row) -> Result<(), String> {
    eprintln!("clingo: {}", row.name);
    let whole = answered(row, &CLINGO, &row.program, "")?;
    let alone = answered(row, &CLASP, &ground(&row.program)?, &ground("")?)?;
    let cells = [
        time(typical(&*row.gate)),
        time(whole.process),
        time(whole.beyond.max(0.0)),
        coarse(whole.total),
        coarse(whole.solving),
        time(alone.beyond.max(0.0)),
    ];
    println!("| {} | {} |", row.name, cells.join(" | "));
    Ok(())
}

/// The table, or a line that says why there is none.
pub fn print(inputs: &Inputs, word: &str) -> Result<(), String> {
    let (Some(clingo), Some(clasp)) = (version("clingo"), version("clasp")) else {
        println!("\nclingo and clasp are not installed: their rows are left out.");
        return Ok(());
    };
    println!("\n{clingo}, {clasp}:\n");
    println!("| | gate | clingo, whole process | less an empty program | its own time | of it solving | clasp on the ground program, less an empty one |");
    println!("|---|---:|---:|---:|---:|---:|---:|");
    let chosen = |row: &Row| row.name.contains(word);
    for row in rows(inputs).into_iter().filter(chosen) {
        print_row(&row)?;
    }
    Ok(())
}
