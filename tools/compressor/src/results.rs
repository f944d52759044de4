//! The table of a lossy link: a row for each share of losses and of damaged bits, in U mode and in O mode.

use std::fmt::Write;

use crate::fault::Fault;
use crate::lossy::{run, Counts, Path, Plan};
use crate::pcap::Packet;

const CLEAN: Path = Path { loss: 0.0, errors: 0.0, late: 0.0, twice: 0.0 };
const LOSSES: [(&str, f64); 5] = [("0", 0.0), ("0.1%", 0.001), ("1%", 0.01), ("3%", 0.03), ("10%", 0.1)];
const ERRORS: [(&str, f64); 3] = [("0", 0.0), ("1e-5", 1e-5), ("1e-4", 1e-4)];

/// The rows, each with what stands before its numbers.
fn paths() -> Vec<(String, Path)> {
    let mut all = Vec::new();
    for (lost, loss) in LOSSES {
        for (wrong, errors) in ERRORS {
            all.push((format!("{lost:>5} {wrong:>7}"), Path { loss, errors, ..CLEAN }));
        }
    }
    all.push((format!("{:>5} {:>7}", "late", "1%"), Path { late: 0.01, ..CLEAN }));
    all.push((format!("{:>5} {:>7}", "twice", "1%"), Path { twice: 0.01, ..CLEAN }));
    all
}

fn numbers(counts: &Counts) -> String {
    let Counts { right, wrong, payload, none, .. } = counts;
    format!(" {right:>8} {wrong:>6} {payload:>8} {none:>6} {:>7.2}", counts.mean_header())
}

/// The table, and below it what became of damaged headers. A row is shown as soon as it is there.
pub fn table(
    plans: &[Plan; 2],
    packets: &[Packet],
    mut show: impl FnMut(&str) -> Result<(), Fault>,
) -> Result<(), Fault> {
    let names = [" right", "wrong", "payload", "none", "header"];
    let columns = format!(" {:>8} {:>6} {:>8} {:>6} {:>7}", names[0], names[1], names[2], names[3], names[4]);
    show(&format!("{:>32} {:>39}", "U mode", "O mode"))?;
    show(&format!("{:>5} {:>7}{columns}{columns}", "loss", "errors"))?;
    let (mut damaged, mut passed, mut wrong) = (0, 0, 0);
    for (before, path) in paths() {
        let mut row = before;
        for plan in plans {
            let counts = run(plan, path, packets)?;
            let _ = write!(row, "{}", numbers(&counts));
            damaged += counts.damaged;
            passed += counts.passed;
            wrong += counts.wrong;
        }
        show(&row)?;
    }
    show(&format!("damaged headers: {damaged}, for which another was delivered: {passed}; wrong in all: {wrong}"))
}
