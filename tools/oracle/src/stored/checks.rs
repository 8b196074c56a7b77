//! What every stored list has to do, for the tests.

use std::fmt::Debug;

use super::{answer_list, Asked, LONGEST, NOT_IN_FORM};

fn printed<C: Asked>(list: &[u8]) -> String {
    let mut output = Vec::new();
    answer_list::<C>(list, &mut output).expect("a vector takes all");
    String::from_utf8(output).expect("answers are text")
}

/// Lists that are not in the form end there, alone and after a list that is.
pub fn end_outside<C: Asked>(outside: Vec<Vec<u8>>, whole: &str, answers: &str) {
    for outside in outside {
        let shown = outside.escape_ascii();
        assert_eq!(printed::<C>(&outside), NOT_IN_FORM, "{shown}");
        let list = [whole.as_bytes(), &outside].concat();
        assert_eq!(printed::<C>(&list), format!("{answers}{NOT_IN_FORM}"));
    }
    assert_eq!(printed::<C>(b""), "");
    assert_eq!(printed::<C>(whole.as_bytes()), answers);
}

/// The longest list is answered, and one of a byte more is not.
pub fn longest_is_answered<C: Asked>(of_bytes: impl Fn(usize) -> Vec<u8>, answers: &str) {
    let list = of_bytes(LONGEST);
    assert_eq!(list.len(), LONGEST);
    assert_eq!(printed::<C>(&list), answers);
    assert_eq!(printed::<C>(&of_bytes(LONGEST + 1)), NOT_IN_FORM);
}

/// A written list has these cases, all in the form, and ends outside it.
pub fn reads_back<C: Asked + Debug>(list: &[u8], cases: &[C]) {
    assert!(list.len() <= LONGEST, "{}", list.len());
    let mut rest = list;
    for case in cases {
        let (found, after) = C::first(rest).expect("in the form");
        assert_eq!(&found, case);
        assert!(case.answer().is_some());
        rest = after;
    }
    assert_eq!(printed::<C>(rest), NOT_IN_FORM);
}
