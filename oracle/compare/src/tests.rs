use crate::case::{Case, Setting};
use crate::differences::{all, explain, Listed};
use crate::generate;
use crate::ran::End;
use crate::transfer::Transfer;

const LIST: &str = concat!(env!("CARGO_MANIFEST_DIR"), "/../../docs/DIFFERENCES.md");

fn list() -> String {
    std::fs::read_to_string(LIST).unwrap()
}

fn setting(text: &str) -> Setting {
    ethercrab::play::keep_panics_quiet();
    Setting { listed: Listed::parse(text).unwrap(), order_program: Vec::new() }
}

#[test]
fn without_its_row_a_differences_input_fails() {
    for difference in all() {
        let row = format!("| {} |", difference.id);
        let without: Vec<String> = list().lines().filter(|line| !line.starts_with(&row)).map(String::from).collect();
        let case = Case::parse(difference.smallest).unwrap();
        assert!(case.compare(&setting(&list())).unwrap().contains(&difference.id));
        assert!(case.compare(&setting(&without.join("\n"))).is_err(), "{} is not needed", difference.id);
    }
}

#[test]
fn segment_data_at_the_rusts_own_place_are_not_taken_for_ours() {
    let segment = "read 1008 00 - 2\n0a000000001300304108100002000000\n0a000000001300306b61626364656667";
    let transfer = Transfer::parse(segment).unwrap();
    let explained = |stored: &[u8]| explain(&transfer, &setting(&list()).listed, |ran| ran.stored == stored);
    assert_eq!(explained(b"ab").unwrap(), ["D21"]);
    assert!(explained(b"de").is_err());
}

#[test]
fn a_segment_that_both_read_alike_meets_no_difference() {
    let empty = "read 1008 00 - 2\n0a000000001300304108100002000000\n030000000013003061000000";
    assert!(Case::parse(empty).unwrap().compare(&setting(&list())).unwrap().is_empty());
}

/// What explains that a read of 0x1018:01 which gets this reply ends so here, or that nothing does.
fn ending(reply: &str, end: &End) -> Option<Vec<&'static str>> {
    let transfer = Transfer::parse(&format!("read 1018 01 - 4\n{reply}")).unwrap();
    explain(&transfer, &setting(&list()).listed, |ran| ran.end == *end).ok()
}

#[test]
fn an_emergency_is_read_where_the_standard_has_it_and_nowhere_else() {
    let reply = "0a0000000013001030811101020304050607080910";
    let told = |code, register, data| End::Emergency { code, register, data };
    assert_eq!(ending(reply, &told(0x8130, 0x11, [1, 2, 3, 4, 5])), Some(vec!["D8"]));
    for wrong in [
        told(0x0302, 0x11, [1, 2, 3, 4, 5]),
        told(0x8130, 0x04, [1, 2, 3, 4, 5]),
        told(0x8130, 0x11, [5, 6, 7, 8, 9]),
        told(0x8130, 0x11, [0; 5]),
        told(0x0302, 0x04, [5, 6, 7, 8, 9]),
        End::over(0x20),
    ] {
        assert_eq!(ending(reply, &wrong), None, "{wrong:?}");
    }
}

#[test]
fn byte_8_of_an_emergency_is_not_judged_though_the_rust_judges_it() {
    let hot = "0a000000001300101042080102030405";
    let told = End::Emergency { code: 0x4210, register: 8, data: [1, 2, 3, 4, 5] };
    assert_eq!(ending(hot, &told), Some(vec!["D13", "D8"]));
    assert_eq!(ending(hot, &End::over(0x20)), None, "the Rust's own answer");
    assert_eq!(ending("0a000000001600101042080102030405", &told), None, "an unlisted type");
}

#[test]
fn short_emergencies_and_those_of_an_unlisted_type_are_20_on_both_sides() {
    let undecodable = End::over(0x20);
    let unlisted_type = ["0a000000001600101042080102030405", "0a000000001600103081110102030405"];
    let under_12_bytes = ["0a0000000013001010", "0a00000000130010308111"];
    let byte_8_unlisted_in_the_rust = ["0a0000000013001010420801", "0a0000000013001010420801020304"];
    for reply in unlisted_type.iter().chain(&under_12_bytes).chain(&byte_8_unlisted_in_the_rust) {
        assert_eq!(ending(reply, &undecodable), Some(vec![]), "{reply}");
    }
    assert_eq!(ending("0a0000000013001030811101020304", &undecodable), Some(vec!["D9"]));
}

#[test]
fn a_row_twice_or_of_an_unknown_difference_is_seen() {
    assert!(Listed::parse("| D1 | x |\n| D1 | y |").is_err());
    assert_eq!(Listed::parse("| D1 | x |\n| N1 | y |\n| D999 | z |").unwrap().unknown(), ["D999"]);
    assert!(setting(&list()).listed.unknown().is_empty());
}

#[test]
fn a_cases_text_is_the_case() {
    let random = generate::ALL.iter().filter(|generator| generator.name != "long").chain([&generate::ORDERS]);
    for generator in random {
        for number in 0..100 {
            let text = generator.case(3, number).to_string();
            assert_eq!(Case::parse(&text).unwrap().to_string(), text);
        }
    }
}

#[test]
fn a_case_is_made_again_from_its_number_and_other_seeds_make_others() {
    for generator in generate::ALL {
        assert_eq!(generator.case(1, 0).to_string(), generator.case(1, 0).to_string());
        assert_ne!(generator.case(1, 0).to_string(), generator.case(2, 0).to_string());
    }
}
