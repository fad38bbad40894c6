//! What the command prints.

use super::measure::Figures;
use super::{Cell, BOUND, GROUPS, TOLERANCES};
use crate::compare::FAMILIES;

fn orders((first, last): (usize, usize)) -> String {
    match first == last {
        true => format!("{first}"),
        false => format!("{first}-{last}"),
    }
}

/// In nine places.
fn figure(x: f64) -> String {
    match x {
        0.0 => format!("{:>9}", "0"),
        x if x < 1000.0 => format!("{x:>9.2}"),
        x => format!("{x:>9.1e}"),
    }
}

pub fn figures(rows: &[Vec<Cell>], lapack: bool) {
    println!("The largest figures of each family by orders: n is the order, eps 2^-52, |A| Frobenius's norm.");
    println!(
        "Tolerance 2^-52. nalgebra: on the matrices that we accept. dgees: on all that it answers."
    );
    if !lapack {
        println!(
            "LAPACK is not installed (Debian's package liblapack3): there are no lines of dgees."
        );
    }
    let head = GROUPS.map(|group| format!("{:>9}", orders(group))).concat();
    let [residual, loss] = ["|A - Q T Q'| / (n eps |A|)", "|Q'Q - I| / (n eps)"];
    println!("{:18} {:8} |{residual:>54} |{loss:>54}", "", "");
    println!("{:18} {:8} |{head} |{head}", "family", "of");
    for (family, row) in FAMILIES.iter().zip(rows) {
        let ours = |cell: &Cell| (cell.accepted > 0).then_some(cell.ours);
        let crates = |cell: &Cell| (cell.accepted > 0).then_some(cell.crates);
        side(family.name, "ours", row, ours);
        side("", "nalgebra", row, crates);
        if lapack {
            let answered = |cell: &Cell| cell.matrices > cell.failed[0] + cell.failed[1];
            side("", "dgees", row, |cell| {
                answered(cell).then_some(cell.lapack)
            });
        }
    }
}

/// Of a cell without answers there is no figure.
fn side(family: &str, side: &str, row: &[Cell], of: impl Fn(&Cell) -> Option<Figures>) {
    let words = |which: fn(Figures) -> f64| -> String {
        let word = |cell| of(cell).map_or(format!("{:>9}", "-"), |seen| figure(which(seen)));
        row.iter().map(word).collect()
    };
    let (residual, loss) = (words(|seen| seen.residual), words(|seen| seen.loss));
    println!("{family:18} {side:8} |{residual} |{loss}");
}

/// Where LAPACK is not installed nothing is said of it.
pub fn counts(rows: &[Vec<Cell>], lapack: bool) {
    println!("\nHow many were accepted, refused with 7, 8 or 9, and have a figure above {BOUND}. Of dgees: how many");
    println!("came back with info not 0, or with numbers that are not finite, and have a figure above {BOUND}.");
    println!(
        "{:18} {:>9} {:>9} {:>7} {:>7} {:>7} {:>7} | {:>7} {:>10} {:>7} | {:>11}",
        "family",
        "matrices",
        "accepted",
        "7",
        "8",
        "9",
        "above",
        "info",
        "not finite",
        "above",
        "differences"
    );
    for (family, row) in FAMILIES.iter().zip(rows) {
        let cell = row
            .iter()
            .cloned()
            .reduce(Cell::and)
            .expect("there are groups");
        let ([seven, eight, nine], [above, its]) = (cell.refused, cell.above);
        let [info, infinite, its] =
            [cell.failed[0], cell.failed[1], its].map(|count| match lapack {
                true => count.to_string(),
                false => "-".to_string(),
            });
        println!(
            "{:18} {:>9} {:>9} {seven:>7} {eight:>7} {nine:>7} {above:>7} | {info:>7} {infinite:>10} {its:>7} | {:>11}",
            family.name, cell.matrices, cell.accepted, cell.differences
        );
    }
}

/// Of each family the largest above the bound at order 2, which takes another way, and of the least orders above.
pub fn worst(rows: &[Vec<Cell>]) {
    println!("\nThe largest above {BOUND}, as lines of witnesses.txt: at order 2, and of the least orders above.");
    for (family, row) in FAMILIES.iter().zip(rows) {
        let larger = row[1..].iter().find_map(|cell| cell.worst.as_ref());
        for (figures, case) in row[0].worst.as_ref().into_iter().chain(larger) {
            let (residual, loss) = (figure(figures.residual), figure(figures.loss));
            let (residual, loss) = (residual.trim(), loss.trim());
            println!(
                "# {}, order {}: residual {residual}, loss {loss}",
                family.name, case.order
            );
            println!("{}", case.line());
        }
    }
}

/// The residual over the norm alone, to be read beside the tolerance.
pub fn tolerances(rows: &[Vec<Cell>]) {
    println!("\nFamily `normal` at other tolerances: the largest |A - Q T Q'| / |A|, and how many are refused, with 7 and with 9.");
    let head = GROUPS
        .map(|group| format!("{:>20}", orders(group)))
        .concat();
    println!("{:>9} {head}", "tolerance");
    for (tolerance, row) in TOLERANCES.iter().zip(rows) {
        let word = |cell: &Cell| {
            let [seven, _, nine] = cell.refused;
            match cell.accepted {
                0 => format!("{:>10} {seven:>5} {nine:>3}", "-"),
                _ => format!("{:>10.1e} {seven:>5} {nine:>3}", cell.relative),
            }
        };
        println!(
            "{tolerance:>9.1e} {}",
            row.iter().map(word).collect::<String>()
        );
    }
}

#[cfg(test)]
mod tests {
    use super::figure;

    #[test]
    fn figures_take_nine_places() {
        for (x, text) in [
            (0.0, "0"),
            (0.123, "0.12"),
            (999.0, "999.00"),
            (1e15, "1.0e15"),
            (f64::INFINITY, "inf"),
        ] {
            assert_eq!(figure(x), format!("{text:>9}"));
        }
    }
}
