use super::answer::answer_line;
use super::list;
use crate::answer::{lines, NOT_IN_FORM};

fn answered(line: &str) -> String {
    answer_line(line.as_bytes())
}

#[test]
fn bytes_past_the_size_stay() {
    // NOP
    assert_eq!(answered("4\t0\t81"), "2\t=>\t4E\t71\tA2\tA3");
    assert_eq!(answered("2\t0\t81"), "2\t=>\t4E\t71");
    assert_eq!(answered("1\t0\t81"), "refused\t4\t0\t0\t=>\tA0");
    assert_eq!(answered("0\t0\t81"), "refused\t4\t0\t0\t=>");
}

#[test]
fn other_refusals_come_before_4() {
    // MOVEQ to A0, MOVEQ to D8
    assert_eq!(answered("1\t0\t11\t5\t0\t0").split('\t').nth(1), Some("3"));
    assert_eq!(answered("1\t0\t11\t5\t1\t8"), "refused\t2\t14\t8\t=>\tA0");
}

#[test]
fn a_call_lends_at_most_32_bytes() {
    assert_eq!(answered("33\t0\t81"), NOT_IN_FORM);
    assert_eq!(answered("32\t0\t81").split('\t').count(), 34);
}

#[test]
fn the_list_has_every_size_and_every_refusal() {
    let mut list = Vec::new();
    list::write(68020, &mut list).expect("written to memory");
    let answers: Vec<String> = lines(&list).iter().map(|line| answer_line(line)).collect();
    for size in 1..=11 {
        let begin = format!("{}\t=>", 2 * size);
        assert!(
            answers.iter().any(|answer| answer.starts_with(&begin)),
            "{begin}"
        );
    }
    for number in [1, 2, 3, 4, 7] {
        let begin = format!("refused\t{number}\t");
        assert!(
            answers.iter().any(|answer| answer.starts_with(&begin)),
            "{begin}"
        );
    }
}
