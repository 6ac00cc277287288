//! README's C programs and what they print: the search is examples/first_plan.c, which `./test` compiles and runs, in at
//! most 40 lines; of examples/import_csv.c README has `main`, the orders that it takes and what it prints.

const README: &str = include_str!("../../../README.md");
const FIRST_PLAN: &str = include_str!("../../../examples/first_plan.c");
const IMPORT_CSV: &str = include_str!("../../../examples/import_csv.c");
const IMPORT_CSV_EXPECTED: &str = include_str!("../../../examples/import_csv.expected");
const ORDERS: &str = include_str!("../../../data/orders.csv");

#[test]
fn the_search_is_the_example() {
    assert!(README.contains(&format!("\n```c\n{FIRST_PLAN}```\n")), "examples/first_plan.c is not in README");
    assert!(FIRST_PLAN.lines().count() <= 40);
}

#[test]
fn the_import_is_the_example() {
    let main = &IMPORT_CSV[IMPORT_CSV.find("int main(").expect("a main")..];
    assert!(
        README.contains(&format!("\n```c\n{main}```\n")),
        "main of examples/import_csv.c is not in README"
    );
    // README has line feeds alone.
    for (name, text) in
        [("orders.csv", ORDERS.replace("\r\n", "\n")), ("import_csv.expected", IMPORT_CSV_EXPECTED.into())]
    {
        assert!(README.contains(&format!("\n```text\n{text}```\n")), "{name} is not in README");
    }
}
