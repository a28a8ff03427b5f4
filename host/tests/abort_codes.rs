//! The crate's table of abort codes against the project's other lists of them, and the page that is made from it.
use coe_desk::AbortCode;
use lists::{File, CASES, PAGE, PROVED, PUBLISHED};

#[path = "common/abort_lists.rs"]
mod lists;
#[path = "common/abort_page.rs"]
mod page;

fn numbers() -> Vec<u32> {
    AbortCode::LISTED.map(u32::from).to_vec()
}

/// The crate's rows, as those of the other lists are read.
fn rows() -> Vec<String> {
    AbortCode::LISTED.map(|code| lists::row(code.into(), &format!("{code:?}"))).to_vec()
}

/// Holds the rows that are found in a file's lines against the crate's, one by one.
fn hold(file: &File, found: fn(&str) -> Option<String>, here: Vec<String>) {
    let there: Vec<String> = file.text.lines().filter_map(found).collect();
    for (place, (there, here)) in (1..).zip(there.iter().zip(&here)) {
        assert!(
            there == here,
            "row {place} of {} is `{there}`, and that of host/src/abort.rs is `{here}`: hold both against ETG.1000.6, Table 41, \
             and correct the wrong one; oracle/published stays as it was published",
            file.path
        );
    }
    assert!(
        there.len() == here.len(),
        "{} rows were found in {}, and there must be {}: add what is missing, or teach tests/common/abort_lists.rs the new form",
        there.len(),
        file.path,
        here.len()
    );
}

#[test]
fn the_proved_list_has_the_same_rows() {
    hold(&PROVED, lists::proved, rows());
}

#[test]
fn the_published_rust_has_the_same_rows() {
    hold(&PUBLISHED, lists::published, rows());
}

#[test]
fn the_list_of_the_stored_cases_has_the_same_rows() {
    hold(&CASES, lists::in_cases, rows());
}

#[test]
fn the_published_rust_prints_the_same_texts() {
    let unknown = ("Unknown(_)".to_string(), AbortCode::Unknown(0));
    let all = AbortCode::LISTED.map(|code| (format!("{code:?}"), code)).into_iter().chain([unknown]);
    hold(&PUBLISHED, lists::printed, all.map(|(name, code)| format!("{name}: {}", code.text())).collect());
}

#[test]
fn the_numbers_ascend() {
    for pair in numbers().windows(2) {
        let (before, behind) = (pair[0], pair[1]);
        assert!(before < behind, "{before:#010x} stands before {behind:#010x} in host/src/abort.rs: the list must ascend");
    }
}

#[test]
fn a_listed_number_gives_its_code_and_the_code_its_number() {
    for (code, number) in AbortCode::LISTED.into_iter().zip(numbers()) {
        assert_eq!(AbortCode::from(number), code, "{number:#010x} is listed, and the search must find its row");
        assert_eq!(code.to_string(), format!("{number:#010x}: {}", code.text()));
    }
}

#[test]
fn any_other_number_is_kept() {
    let listed = numbers();
    let beside = listed.iter().flat_map(|number| [number - 1, number + 1]).filter(|number| !listed.contains(number));
    for number in beside.chain([0, 1, 0x7fff_ffff, 0x8000_0000, u32::MAX]) {
        assert_eq!(AbortCode::from(number), AbortCode::Unknown(number), "{number:#010x} is not listed, and must be kept");
        assert_eq!(u32::from(AbortCode::from(number)), number);
    }
    assert_eq!(AbortCode::Unknown(0xff).to_string(), "0x000000ff: Unknown code");
}

#[test]
fn the_page_is_current() {
    for (line, (there, here)) in (1..).zip(PAGE.text.lines().zip(page::page().lines())) {
        assert!(there == here, "line {line} of {} is `{there}`, and should be `{here}`: run `make abort-codes`", PAGE.path);
    }
    assert!(PAGE.text == page::page(), "{} is longer or shorter than it should be: run `make abort-codes`", PAGE.path);
}

#[test]
fn the_page_shows_a_text_as_it_is() {
    assert_eq!(page::escaped("a|b, <c> [d] `e` *f* g_h"), r"a\|b, \<c> \[d] \`e\` \*f\* g\_h");
}
