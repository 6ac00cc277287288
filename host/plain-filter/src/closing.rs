//! The plain closing: the rules of `docs/SPECIFICATION.md`, section 3, applied entry by entry, again and again,
//! until none of them changes anything.

use crate::Book;

/// For each type v and each end t from 0 to n, `lower[v][t]` and `upper[v][t]`.
#[derive(Clone, Debug, PartialEq, Eq)]
pub struct Table {
    pub lower: Vec<Vec<i64>>,
    pub upper: Vec<Vec<i64>>,
}

/// What came of closing a book. A round is each type's line, until nothing changes on it, and then once
/// across the types.
#[derive(Clone, Debug, PartialEq, Eq)]
pub struct Closing {
    /// The loosest closed table within the starting table; `None` if the book is dead.
    pub table: Option<Table>,
    /// The last round that changed an entry, or the one that crossed an entry; 0: the starting table itself
    /// is closed, or crossed.
    pub rounds: usize,
}

/// Lower is at most upper for every type and end.
fn uncrossed(table: &Table) -> bool {
    table.lower.iter().flatten().zip(table.upper.iter().flatten()).all(|(lower, upper)| lower <= upper)
}

/// The starting table: of the rows of a type and end the greatest lower, else 0; the least of the end and of
/// those rows' uppers.
pub fn start(book: &Book) -> Table {
    let mut table = Table { lower: Vec::new(), upper: Vec::new() };
    for _ in 0..book.k {
        table.lower.push(vec![0; book.n + 1]);
        table.upper.push((0..=book.n as i64).collect());
    }
    for row in &book.rows {
        let lower = &mut table.lower[row.board_type][row.end];
        *lower = i64::max(*lower, row.lower as i64);
        if let Some(bound) = row.upper {
            let upper = &mut table.upper[row.board_type][row.end];
            *upper = i64::min(*upper, bound as i64);
        }
    }
    table
}

/// Closes the book: rounds until one changes nothing. The book is dead as soon as an entry is crossed.
pub fn close(book: &Book) -> Closing {
    let mut table = start(book);
    let mut rounds = 0;
    if !uncrossed(&table) {
        return Closing { table: None, rounds };
    }
    loop {
        match round(&mut table) {
            Err(Crossed) => return Closing { table: None, rounds: rounds + 1 },
            Ok(true) => rounds += 1,
            Ok(false) => return Closing { table: Some(table), rounds },
        }
    }
}

/// A lower is above its upper.
struct Crossed;

/// Whether an entry changed; an error if the change crossed it.
type Changed = Result<bool, Crossed>;

fn round(table: &mut Table) -> Changed {
    let mut changed = false;
    while along(table)? {
        changed = true;
    }
    Ok(across(table)? || changed)
}

/// At each entry in turn, the two rules with its neighbours on the type's line.
fn along(table: &mut Table) -> Changed {
    let mut changed = false;
    for v in 0..table.lower.len() {
        let n = table.lower[v].len() - 1;
        for t in 0..=n {
            if t > 0 {
                changed |= raise(table, v, t, table.lower[v][t - 1])?;
                changed |= cut(table, v, t, table.upper[v][t - 1] + 1)?;
            }
            if t < n {
                changed |= raise(table, v, t, table.lower[v][t + 1] - 1)?;
                changed |= cut(table, v, t, table.upper[v][t + 1])?;
            }
        }
    }
    Ok(changed)
}

/// At each entry in turn, the two rules with the sums of the other types at that end: lowers first.
fn across(table: &mut Table) -> Changed {
    let mut changed = false;
    let k = table.lower.len();
    for t in 0..table.lower[0].len() {
        for v in 0..k {
            let others: i64 = (0..k).filter(|&j| j != v).map(|j| table.upper[j][t]).sum();
            changed |= raise(table, v, t, t as i64 - others)?;
        }
        for v in 0..k {
            let others: i64 = (0..k).filter(|&j| j != v).map(|j| table.lower[j][t]).sum();
            changed |= cut(table, v, t, t as i64 - others)?;
        }
    }
    Ok(changed)
}

/// Makes lower(v, t) at least `least`.
fn raise(table: &mut Table, v: usize, t: usize, least: i64) -> Changed {
    let changed = table.lower[v][t] < least;
    if changed {
        table.lower[v][t] = least;
    }
    unless_crossed(table, v, t, changed)
}

/// Makes upper(v, t) at most `most`.
fn cut(table: &mut Table, v: usize, t: usize, most: i64) -> Changed {
    let changed = table.upper[v][t] > most;
    if changed {
        table.upper[v][t] = most;
    }
    unless_crossed(table, v, t, changed)
}

fn unless_crossed(table: &Table, v: usize, t: usize, changed: bool) -> Changed {
    if table.lower[v][t] <= table.upper[v][t] {
        Ok(changed)
    } else {
        Err(Crossed)
    }
}
