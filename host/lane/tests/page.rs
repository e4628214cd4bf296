//! docs/EMBEDDING.md quotes host/examples/embed.c, which is compiled: what it quotes must be there, to the letter.
//! (Its Rust code is run as examples of this crate.) Its numbers and its table of refusals are this crate's.

use lane::refusal::{Row, TABLE};
use lane::{layout, Refusal};

const PAGE: &str = include_str!("../../../docs/EMBEDDING.md");
const HEADER: &str = include_str!("../../../include/lane.h");

#[test]
fn the_page_quotes_the_c_example() {
    let code = include_str!("../../examples/embed.c");
    let mut blocks = 0;
    for block in PAGE.split("```c\n").skip(1) {
        let block = block.split("```").next().expect("a block ends");
        assert!(code.contains(block), "not in host/examples/embed.c:\n{block}");
        blocks += 1;
    }
    assert_eq!(blocks, 3);
}

/// A row for each refusal, in the table's words and order, and no other row that begins with a number.
#[test]
fn the_page_has_the_table_of_refusals() {
    let told: Vec<String> = TABLE
        .iter()
        .map(|Row { refusal, name, means, next }| format!("| {} | {name} | {means} | {next} |", refusal.number()))
        .collect();
    let numbered = |line: &&str| line.strip_prefix("| ").is_some_and(|rest| rest.starts_with(char::is_numeric));
    let page: Vec<&str> = PAGE.lines().filter(numbered).collect();
    assert_eq!(page, told, "the table of docs/EMBEDDING.md, and what it is to be");
}

#[test]
fn the_page_has_the_words_of_a_record() {
    let told = format!("a record of {} words", layout::RECORD_WORDS);
    assert!(PAGE.contains(&told), "not in docs/EMBEDDING.md: {told}");
}

/// include/lane.h and the Rust crate give the same numbers the same names, and neither has a refusal more.
#[test]
fn the_header_has_the_numbers() {
    for refusal in Refusal::ALL {
        let line = format!("LANE_{} = {}", refusal.name(), refusal.number());
        assert!(HEADER.contains(&line), "not in include/lane.h: {line}");
    }
    let answers = HEADER.split("enum lane_answer {").nth(1).and_then(|rest| rest.split('}').next());
    assert_eq!(answers.expect("an enum of answers").matches("LANE_").count(), 1 + Refusal::ALL.len(), "OK and these");
    for (name, number) in [
        ("RECORD_WORDS", layout::RECORD_WORDS),
        ("CELL_WORDS", layout::CELL_WORDS),
        ("MAX_CELLS", lane::MAX_CELLS),
        ("PLACES", lane::PLACES as usize),
        ("KEYS", lane::KEYS as usize),
        ("CALL_BYTES", lane::CALL_BYTES),
        ("ANSWER_BYTES", lane::ANSWER_BYTES),
    ] {
        assert!(HEADER.contains(&format!("LANE_{name} = {number}")), "{name}");
    }
}
