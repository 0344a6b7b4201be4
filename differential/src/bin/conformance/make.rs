//! The pack's files: text for the runner, and the same cases in bytes for the program under the proofs' gate, with what it has to
//! print.

use crate::stored::store;
use differential::calls::Version;
use differential::conformance::boards::{self, Flaw};
use differential::conformance::case::Case;
use differential::conformance::pack::{bench_parts, station_parts, Part};
use differential::conformance::text::{compact, text};
use differential::plain::interface::Plain;
use differential::tuned::Tuned;
use std::path::Path;

/// Which program a case is for, in bytes.
const BENCH: u8 = 1;
const STATION: u8 = 2;

/// The files of one set.
fn store_parts(folder: &Path, parts: &[Part], logged: bool, check: bool) -> Result<bool, String> {
    let mut same = true;
    for part in parts {
        let path = folder.join(format!("{}.txt", part.name));
        let made = text(&part.cases, logged);
        println!(
            "{:>6} cases {:>8} bytes  {}",
            part.cases.len(),
            made.len(),
            path.display()
        );
        same &= store(&path, made.as_bytes(), check)?;
    }
    let total = format!("{}\n", all(parts).len());
    same &= store(&folder.join("total"), total.as_bytes(), check)?;
    Ok(same)
}

fn all(parts: &[Part]) -> Vec<&Case> {
    parts.iter().flat_map(|part| &part.cases).collect()
}

/// Names are folders' names, each of one case.
fn named_apart(cases: &[&Case]) -> Result<(), String> {
    let mut names: Vec<&str> = cases.iter().map(|case| case.name.as_str()).collect();
    let allowed = |c: char| c.is_ascii_lowercase() || c.is_ascii_digit() || c == '-';
    if let Some(name) = names.iter().find(|name| !name.chars().all(allowed)) {
        return Err(format!("not a name: {name}"));
    }
    names.sort_unstable();
    match names.windows(2).find(|two| two[0] == two[1]) {
        Some(two) => Err(format!("two cases of the name {}", two[0])),
        None => Ok(()),
    }
}

/// Whether the plain version and two others, each over the interface of calls, print what the case says.
fn agreed(case: &Case, program: impl Fn(&mut dyn Version) -> String) -> Result<(), String> {
    let versions: [(&str, &mut dyn Version); 2] = [("plain", &mut Plain), ("tuned", &mut Tuned)];
    for (name, version) in versions {
        let printed = program(version);
        if printed != case.prints {
            return Err(format!(
                "{}: the {name} version prints\n{printed}",
                case.name
            ));
        }
    }
    Ok(())
}

/// What is given by hand, and all else, has to be what other versions print too.
fn agree(bench: &[&Case], station: &[&Case]) -> Result<(), String> {
    for case in bench {
        agreed(case, |version| {
            boards::bench(version, Flaw::None, &case.run)
        })?;
    }
    for case in station {
        agreed(case, |version| boards::station(version, &case.run))?;
    }
    Ok(())
}

/// Whether the pack's page has a row with the number of cases of each file.
fn counted(page: &Path, set: &str, parts: &[Part]) -> Result<bool, String> {
    let text =
        std::fs::read_to_string(page).map_err(|error| format!("{}: {error}", page.display()))?;
    let row = |part: &Part| format!("| `{set}/{}.txt` | {} |", part.name, part.cases.len());
    let missing: Vec<String> = parts
        .iter()
        .map(row)
        .filter(|row| !text.contains(row))
        .collect();
    for row in &missing {
        println!("{} has no row {row}", page.display());
    }
    Ok(missing.is_empty())
}

/// Whether all files are, or now are, what is made.
pub fn make(root: &Path, check: bool) -> Result<bool, String> {
    let (bench, station) = (bench_parts(), station_parts());
    let cases = [all(&bench), all(&station)].concat();
    named_apart(&cases)?;
    agree(&all(&bench), &all(&station))?;
    let pack = root.join("conformance");
    let mut same = store_parts(&pack.join("bench"), &bench, true, check)?;
    same &= store_parts(&pack.join("station"), &station, false, check)?;
    let given = [
        compact(BENCH, &all(&bench)),
        compact(STATION, &all(&station)),
    ]
    .concat();
    let numbered = cases.iter().zip(1..);
    let printed: String = numbered
        .map(|(case, n)| format!("case {n}\n{}", case.prints))
        .collect();
    let program = root.join("crates/conformance");
    same &= store(&program.join("stdin"), &given, check)?;
    same &= store(&program.join("stdout"), printed.as_bytes(), check)?;
    let page = pack.join("README.md");
    same &= counted(&page, "bench", &bench)?;
    same &= counted(&page, "station", &station)?;
    println!("{:>6} cases", cases.len());
    Ok(same)
}
