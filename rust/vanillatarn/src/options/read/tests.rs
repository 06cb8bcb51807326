use super::*;

fn asked(words: &str) -> Result<Asked, Stop> {
    let words: Vec<OsString> = words.split_whitespace().map(OsString::from).collect();
    read(&words)
}

fn question(words: &str) -> Question {
    match asked(words) {
        Ok(Asked::Command(question)) => question,
        _ => panic!("{words}"),
    }
}

fn fault(words: &str) -> Stop {
    asked(words).err().expect("a fault")
}

#[test]
fn options_in_both_forms() {
    for words in [
        "verdict --spread 3 a b",
        "verdict a --spread=3 b",
        "verdict a b --spread 003",
    ] {
        let read = question(words);
        assert_eq!(read.number("--spread"), Some(3));
        assert_eq!(read.files, ["a", "b"]);
        assert_eq!(read.form(), Form::Words);
    }
    assert!(question("verdict -q a").has("--quiet"));
    assert_eq!(
        question("run a b --offsets=1,2").numbers("--offsets"),
        Some(&[1, 2][..])
    );
    assert_eq!(question("verdict -- --json -").files, ["--json", "-"]);
    assert_eq!(
        question("translate -o x a").text("-o"),
        Some(OsStr::new("x"))
    );
    assert!(matches!(asked("-V"), Ok(Asked::Version)));
    assert!(matches!(asked("run --help"), Ok(Asked::Help(_))));
}

#[test]
fn faults() {
    for (words, message) in [
        ("", "a command is missing (see: vanillatarn --help)"),
        (
            "shedule",
            "unknown command 'shedule': did you mean 'schedule'? (see: vanillatarn --help)",
        ),
        ("why a 0", "TICK is missing (see: vanillatarn why --help)"),
        (
            "text a b",
            "one word too many: b (see: vanillatarn text --help)",
        ),
        (
            "verdict a --sprad 1",
            "unknown option --sprad: did you mean '--spread'? (see: vanillatarn verdict --help)",
        ),
        (
            "spread --spread 1 a",
            "'spread' has no option --spread (see: vanillatarn spread --help)",
        ),
        (
            "verdict --json=1 a",
            "--json takes no word (see: vanillatarn verdict --help)",
        ),
        (
            "choices --early --late a",
            "--early and --late exclude each other (see: vanillatarn choices --help)",
        ),
        (
            "translate a -o",
            "-o lacks its file (see: vanillatarn translate --help)",
        ),
        (
            "why a 0 -1",
            "unknown option -1 (see: vanillatarn why --help)",
        ),
    ] {
        assert_eq!(fault(words), Stop::wrong(message), "{words}");
    }
}
