//! What the writer expects, against the model's answer.

use model::Refusal;
use writer::layout::Blame;
use writer::objects::Expect;

/// The number and the byte.
pub fn assert_answer(answer: Option<Refusal>, expect: Expect, what: &str) {
    let expected = match expect {
        Expect::Open => return,
        Expect::Accepted => None,
        Expect::Refused(number, Blame::Byte(byte)) => Some(Refusal::at(number, byte)),
        Expect::Refused(_, blame) => panic!("{what}: no byte for {blame:?}"),
    };
    assert_eq!(answer, expected, "{what}");
}
