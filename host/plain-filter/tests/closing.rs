//! The plain closing is that of `docs/SPECIFICATION.md`, section 3: on small books its table is the loosest of
//! all the closed tables within the start, found by listing every closed table there is.

use plain_filter::{close, start, Book, Row, Table};
use random_books::{count, every_type, near_plan, plan, Random};

/// The rules along one type's line, and that it is not crossed.
fn line_closed(lower: &[i64], upper: &[i64]) -> bool {
    let n = lower.len() - 1;
    (0..=n).all(|t| {
        (t == 0 || (lower[t] >= lower[t - 1] && upper[t] <= upper[t - 1] + 1))
            && (t == n || (lower[t] >= lower[t + 1] - 1 && upper[t] <= upper[t + 1]))
            && lower[t] <= upper[t]
    })
}

/// The rules across the types.
fn closed_across(table: &Table) -> bool {
    let k = table.lower.len();
    let others = |bounds: &[Vec<i64>], v: usize, t: usize| -> i64 {
        (0..k).filter(|&j| j != v).map(|j| bounds[j][t]).sum()
    };
    (0..k).all(|v| {
        (0..table.lower[v].len()).all(|t| {
            table.lower[v][t] >= t as i64 - others(&table.upper, v, t)
                && table.upper[v][t] <= t as i64 - others(&table.lower, v, t)
        })
    })
}

/// Every line, as lowers and uppers, that keeps the rules along it and lies within a starting table. There a
/// lower is at least 0 and an upper at most t, so each entry has 0 <= lower <= upper <= t.
fn closed_lines(n: i64) -> Vec<(Vec<i64>, Vec<i64>)> {
    let mut lines = vec![(Vec::new(), Vec::new())];
    for t in 0..=n {
        let mut longer = Vec::new();
        for (lowers, uppers) in &lines {
            for upper in 0..=t {
                for lower in 0..=upper {
                    longer.push(([&lowers[..], &[lower]].concat(), [&uppers[..], &[upper]].concat()));
                }
            }
        }
        lines = longer;
    }
    lines.retain(|(lower, upper)| line_closed(lower, upper));
    lines
}

/// Every closed table of n slots and k types that lies within a starting table.
fn closed_tables(n: usize, k: usize) -> Vec<Table> {
    let lines = closed_lines(n as i64);
    let mut found = Vec::new();
    for mut number in 0..lines.len().pow(k as u32) {
        let mut table = Table { lower: Vec::new(), upper: Vec::new() };
        for _ in 0..k {
            let (lower, upper) = &lines[number % lines.len()];
            table.lower.push(lower.clone());
            table.upper.push(upper.clone());
            number /= lines.len();
        }
        if closed_across(&table) {
            found.push(table);
        }
    }
    found
}

/// Lowers no smaller, uppers no larger.
fn within(inner: &Table, outer: &Table) -> bool {
    inner.lower.iter().flatten().zip(outer.lower.iter().flatten()).all(|(inner, outer)| inner >= outer)
        && inner.upper.iter().flatten().zip(outer.upper.iter().flatten()).all(|(inner, outer)| inner <= outer)
}

/// The closed table within the start that has every other one within it; `None` if there is no closed table.
fn loosest<'a>(closed_tables: &'a [Table], start: &Table) -> Option<&'a Table> {
    let inside: Vec<&Table> = closed_tables.iter().filter(|table| within(table, start)).collect();
    if inside.is_empty() {
        return None;
    }
    let loosest = inside.iter().find(|loosest| inside.iter().all(|table| within(table, loosest)));
    Some(loosest.expect("if there are closed tables, one is the loosest"))
}

/// How many books were live, and how many dead, by the rounds that the plain closing took.
#[derive(Debug, Default)]
struct Met {
    live: [usize; 4],
    dead: [usize; 4],
}

/// Compares the plain closing with the definition.
fn compare(n: usize, k: usize, books: impl Iterator<Item = Vec<Row>>) -> Met {
    let closed_tables = closed_tables(n, k);
    let mut met = Met::default();
    for rows in books {
        let book = Book { n, k, idle: None, masks: vec![every_type(k); n], rows };
        let closing = close(&book);
        assert_eq!(closing.table.as_ref(), loosest(&closed_tables, &start(&book)), "{book:?}");
        let count = if closing.table.is_some() { &mut met.live } else { &mut met.dead };
        count[closing.rounds] += 1;
    }
    println!("n = {n}, k = {k}, {} closed tables, {met:?}", closed_tables.len());
    met
}

/// Every row there can be for a type and an end, bounds past n left out: lower 0 to n, upper 0 to n - 1 or
/// none.
fn rows_at(n: usize, board_type: usize, end: usize) -> Vec<Row> {
    let uppers: Vec<_> = (0..n).map(Some).chain([None]).collect();
    let row = |lower| uppers.iter().map(move |&upper| Row { board_type, end, lower, upper });
    (0..=n).flat_map(row).collect()
}

/// A row for each type and end, in every combination.
fn every_start(n: usize, k: usize) -> impl Iterator<Item = Vec<Row>> {
    let places: Vec<Vec<Row>> = (0..k).flat_map(|v| (1..=n).map(move |t| rows_at(n, v, t))).collect();
    let count: usize = places.iter().map(Vec::len).product();
    (0..count).map(move |mut number| {
        let mut rows = Vec::new();
        for place in &places {
            rows.push(place[number % place.len()]);
            number /= place.len();
        }
        rows
    })
}

/// Every three rows.
fn every_three_rows(n: usize, k: usize) -> impl Iterator<Item = Vec<Row>> {
    let rows: Vec<Row> = (0..k).flat_map(|v| (1..=n).flat_map(move |t| rows_at(n, v, t))).collect();
    let count = rows.len();
    (0..count.pow(3)).map(move |i| vec![rows[i % count], rows[i / count % count], rows[i / count / count]])
}

#[test]
fn every_start_of_1_slot() {
    for k in 1..=4 {
        let met = compare(1, k, every_start(1, k));
        assert!(met.live[1] > 0 && met.dead[0] > 0, "k = {k}: {met:?}");
    }
}

#[test]
fn every_start_of_2_slots() {
    for k in 1..=2 {
        let met = compare(2, k, every_start(2, k));
        assert!(met.live[1] > 0 && met.dead[1] > 0, "k = {k}: {met:?}");
    }
}

#[test]
fn three_rows_of_2_slots_and_3_types() {
    let met = compare(2, 3, every_three_rows(2, 3));
    assert!(met.live[2] > 100 && met.dead[1] > 1000, "{met:?}");
}

#[test]
fn three_rows_of_3_slots_and_2_types() {
    let met = compare(3, 2, every_three_rows(3, 2));
    assert!(met.live[1] > 1000 && met.dead[1] > 1000, "{met:?}");
}

/// Rows near the counts of a plan and one row just past them: every such book that takes two rounds, and each
/// twentieth of the others.
#[test]
fn random_rows_of_4_slots_and_3_types() {
    let (n, k) = (4, 3);
    let mut random = Random::new(0x7a31_0c5e_19d2_64b7);
    let books = (0..10_000).filter_map(|turn| {
        let plan = plan(&mut random, n, k, 2);
        let mut book = near_plan(&mut random, &plan, k, 5, 1);
        let (board_type, end) = (random.below(k), random.between(1, n));
        let count = count(&plan, board_type, end);
        book.rows.push(match random.below(2) {
            0 => Row { board_type, end, lower: count + 1, upper: None },
            _ => Row { board_type, end, lower: 0, upper: Some(count.saturating_sub(1)) },
        });
        (close(&book).rounds >= 2 || turn % 20 == 0).then_some(book.rows)
    });
    let met = compare(n, k, books);
    assert!(met.live[2] > 500 && met.dead[1] > 50 && met.dead[2] > 5, "{met:?}");
}
