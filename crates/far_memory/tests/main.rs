//! Which words ask to be told something.

use crate::help::{Question, parts, question_of};
use std::test::Fail;

#[test]
fn words_that_ask_for_help(rt: HostRuntime) -> Result<(), Fail> {
    let cases = [
        ("--help", Some(Question::Help)),
        ("-h", Some(Question::Help)),
        ("-h plan", Some(Question::Help)),
        ("--version", Some(Question::Version)),
        ("plan --help", Some(Question::Plan)),
        ("audit -h", Some(Question::Audit)),
        ("replay --help 1", Some(Question::Replay)),
        ("plan", None),
        ("plan 3 2 1 5", None),
        ("plan 3 --help", None),
        ("serve --help", None),
        ("plan --version", None),
        ("help", None),
    ];
    for (text, want) in cases {
        let mut words = Vec::new(rt.alloc());
        for word in text.split(' ') {
            words.push(String::from_str(rt.alloc(), word)?)?;
        }
        assert_eq!(rt; question_of(words.as_slice()), want);
    }
    let none: Vec<String> = Vec::new(rt.alloc());
    assert_eq!(rt; question_of(none.as_slice()), None);
    Ok(())
}

#[test]
fn help_names_each_status(rt: HostRuntime) -> Result<(), Fail> {
    for question in [
        Question::Help,
        Question::Plan,
        Question::Audit,
        Question::Replay,
    ] {
        let mut text = String::new(rt.alloc());
        for part in parts(question) {
            text.push_str(part)?;
        }
        for status in [
            "\n    0 ", "\n    2 ", "\n    3 ", "\n    4 ", "\n    5 ", "\n    6 ", "\n    7 ",
            "\n    9 ",
        ] {
            assert!(rt; text.contains(status));
        }
        assert!(rt; text.contains("far_memory "));
    }
    Ok(())
}
