//! The file of continued runs, word for word.

use second::carry::vectors::{parse, print, result};

fn text() -> String {
    let path = concat!(env!("CARGO_MANIFEST_DIR"), "/../vectors/carry_on.txt");
    std::fs::read_to_string(path).expect("the file of continued runs")
}

#[test]
fn all_continued_runs_agree() {
    let cases = parse(&text()).expect("the file reads");
    assert_eq!(cases.len(), 233);
    for (case, expected) in &cases {
        assert_eq!(&result(case), expected, "{}", case.name);
    }
}

#[test]
fn a_printed_case_reads_to_itself() {
    for (case, expected) in parse(&text()).expect("the file reads") {
        let printed = print(&case, &expected);
        let again = parse(&printed).expect("the print reads");
        assert_eq!(again, [(case, expected)], "{printed}");
    }
}
