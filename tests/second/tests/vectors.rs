//! The file of runs, word for word.

use second::vectors::{parse, print, result};

fn text() -> String {
    let path = concat!(env!("CARGO_MANIFEST_DIR"), "/../vectors/runs.txt");
    std::fs::read_to_string(path).expect("the file of runs")
}

#[test]
fn all_runs_agree() {
    let cases = parse(&text()).expect("the file reads");
    assert_eq!(cases.len(), 290);
    for (case, expected) in &cases {
        assert_eq!(&result(case), expected, "{}", case.name);
    }
}

#[test]
fn printing_gives_the_file_back() {
    let text = text();
    let cases = parse(&text).expect("the file reads");
    let printed = cases.iter().map(|(case, expected)| print(case, expected));
    let printed = printed.collect::<Vec<_>>().join("\n");
    let body = text.split_once("\n\n").expect("a heading").1;
    assert_eq!(printed.trim_end(), body.trim_end());
}
