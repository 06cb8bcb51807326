//! Each rule of the grammar that is read, and what is refused.

use xta::{read, Condition, Relation, Sum, System};

/// A text that has everything that is read, in one spelling.
const WHOLE: &str = "chan a, b; chan c;
process First() {
  clock x, y;
  int[-3,7] n;
  int m;
  state S { x <= 5 && y < 3 }, T { n <= 7 }, U;
  init S;
  trans
    S -> T { guard x >= 1 && n + 1 <= 7; sync a!; assign n := n + 1, x := 0; },
      -> U { guard !(n == 3) and m != 4; },
    T -> S { sync b?; },
    U -> U { };
}
process Second() {
  clock x;
  state Only;
  init Only;
  trans Only -> Only { sync a?; };
}
process Idle() { state Here; init Here; }
system Second, First, Idle;
";

fn whole() -> System {
    read(WHOLE.as_bytes()).unwrap()
}

#[test]
fn everything_that_is_read() {
    let system = whole();
    assert_eq!(system.channels, ["a", "b", "c"]);
    let names: Vec<&str> = system.processes.iter().map(|own| &*own.name).collect();
    assert_eq!(names, ["Second", "First", "Idle"]);
    let first = &system.processes[1];
    assert_eq!(first.clocks, ["x", "y"]);
    let ranges = first.variables.iter().map(|own| (own.least, own.greatest));
    assert_eq!(ranges.collect::<Vec<_>>(), [(-3, 7), (-32768, 32767)]);
    let locations: Vec<&str> = first.locations.iter().map(|own| &*own.name).collect();
    assert_eq!((locations, first.initial), (vec!["S", "T", "U"], 0));
    let ways: Vec<_> = first
        .transitions
        .iter()
        .map(|own| (own.source, own.target))
        .collect();
    assert_eq!(ways, [(0, 1), (0, 2), (1, 0), (2, 2)]);
    let sync = |at: usize| {
        first.transitions[at]
            .sync
            .map(|own| (own.channel, own.sends))
    };
    assert_eq!(
        [sync(0), sync(1), sync(2)],
        [Some((0, true)), None, Some((1, false))]
    );
    assert_eq!(first.transitions[0].assignments.len(), 2);
    assert_eq!(first.locations[2].invariant, Condition::Always(true));
    assert!(system.processes[2].transitions.is_empty());
}

/// Blanks, line ends and comments anywhere between two words, or none at all.
#[test]
fn blanks_and_comments() {
    let spread = WHOLE.replace(' ', " /* ; } */ \t\r\n// system X;\n");
    assert_eq!(read(spread.as_bytes()), Ok(whole()));
    let signs = [
        ";", ",", "{", "}", "(", ")", ":=", "<=", ">=", "&&", "->", "!", "?", "+",
    ];
    let mut close = WHOLE.replace('\n', " ");
    for _ in 0..8 {
        close = close.replace("  ", " ");
        for sign in signs {
            close = close.replace(&format!(" {sign}"), sign);
            close = close.replace(&format!("{sign} "), sign);
        }
    }
    assert!(close.len() < WHOLE.len() - 100);
    assert_eq!(read(close.as_bytes()), Ok(whole()));
    assert_eq!(
        read((WHOLE.to_string() + "// the end").as_bytes()),
        Ok(whole())
    );
    assert_eq!(
        read((WHOLE.to_string() + "/* the end */").as_bytes()),
        Ok(whole())
    );
}

/// Other words for the same signs.
#[test]
fn spellings() {
    for (word, other) in [
        (" and ", " && "),
        ("!(", "not ("),
        (" := ", " = "),
        ("x >= 1", "1 <= x"),
        ("x <= 5", "5 >= x"),
        ("y < 3", "3 > y"),
        ("n + 1 <= 7", "(n) + 1 <= (7)"),
        ("int m;", "int[-32768,32767] m;"),
        ("int[-3,7]", "int[-(1 + 2), 3 * 2 + 9 / 8 % 2]"),
    ] {
        assert!(WHOLE.contains(word), "{word}");
        let text = WHOLE.replace(word, other);
        assert_eq!(read(text.as_bytes()), Ok(whole()), "{other}");
    }
}

/// The condition of the one guard of a small text, over clock x and variables v and w.
fn guard(written: &str) -> Result<Condition, String> {
    let text = format!(
        "chan c; process P() {{ clock x, y; int v, w; state L; init L; \
         trans L -> L {{ guard {written}; }}; }} system P;"
    );
    let system = read(text.as_bytes()).map_err(|fault| fault.what)?;
    Ok(system.processes[0].transitions[0].guard.clone())
}

/// What binds more strongly than what.
#[test]
fn precedence() {
    for (written, meant) in [
        ("v + w * 2 - 1 == 0", "((v + (w * 2)) - 1) == 0"),
        ("v - w - 1 < 0", "((v - w) - 1) < 0"),
        ("v / w % 2 < 0", "((v / w) % 2) < 0"),
        ("-v + w < - 1", "((-v) + w) < (-1)"),
        ("v < 1 && w < 1 || v > 2", "((v < 1) && (w < 1)) || (v > 2)"),
        ("v < 1 || w < 1 && v > 2", "(v < 1) || ((w < 1) && (v > 2))"),
        ("v < 1 and w < 1 or v > 2", "(v < 1 and w < 1) or v > 2"),
        ("v < 1 or w < 1 and v > 2", "v < 1 or (w < 1 and v > 2)"),
        ("not v < 1 && w < 1", "not ((v < 1) && (w < 1))"),
        ("not v < 1 and w < 1", "(not (v < 1)) and w < 1"),
        ("!(v < 1) && w < 1", "(!(v < 1)) && (w < 1)"),
        ("v < 1 imply w < 1", "(not (v < 1)) or w < 1"),
        ("!!(v < 1)", "!(!(v < 1))"),
    ] {
        assert_eq!(guard(written), guard(meant), "{written}");
        assert!(guard(written).is_ok(), "{written}: {:?}", guard(written));
    }
    let less = Condition::Clock(1, Relation::Less, Sum::Number(4));
    assert_eq!(guard("4 > y"), Ok(less));
}

/// What no guard may be, though the grammar has it.
#[test]
fn kinds() {
    for (written, what) in [
        ("x < 1 || v < 1", "clocks in an or or a not"),
        ("v < 1 or x < 1", "clocks in an or or a not"),
        ("v < 1 imply x < 1", "clocks in an or or a not"),
        ("!(x < 1)", "clocks in an or or a not"),
        ("x != 1", "a clock compared with !="),
        ("x < y", "no number"),
        ("x + 1 < 2", "no number"),
        ("v", "no condition"),
        ("1", "no condition"),
        ("v + w", "no condition"),
        ("v := 1", "no condition"),
        ("true < 1", "no number"),
        ("(v < 1) < 1", "no number"),
        ("c == 1", "no number"),
        ("L == 1", "no number"),
        ("z < 1", "z is not declared"),
        ("P < 1", "no number"),
    ] {
        assert_eq!(guard(written), Err(what.to_string()), "{written}");
    }
    assert_eq!(guard("true && false").map(|_| ()), Ok(()));
}

/// The fault of a text that is wrong in one place: what, and at which line and column.
fn fault(old: &str, new: &str) -> (String, usize, usize) {
    assert!(WHOLE.contains(old), "{old}");
    let fault = read(WHOLE.replacen(old, new, 1).as_bytes()).unwrap_err();
    (fault.what, fault.line, fault.column)
}

/// What stands in the text, what in its place, and the fault with its line and column.
type Case = (&'static str, &'static str, &'static str, usize, usize);

const MALFORMED: [Case; 54] = [
    ("chan a, b;", "chan a, ;", "a name is expected", 1, 9),
    ("chan a, b;", "chan a b;", "; is expected", 1, 8),
    (
        "chan a",
        "urgent chan a",
        "a declaration or system is expected",
        1,
        1,
    ),
    (
        "chan a",
        "typedef int a",
        "a declaration or system is expected",
        1,
        1,
    ),
    (
        "chan a",
        "clock a",
        "a clock or number outside a process",
        1,
        7,
    ),
    ("chan c", "chan a", "a is declared twice", 1, 17),
    ("First() {", "First(int k) {", ") is expected", 2, 15),
    ("First() {", "First {", "( is expected", 2, 15),
    ("First", "state", "a name is expected", 2, 9),
    ("clock x, y", "clock x[2], y", "; is expected", 3, 10),
    ("clock x, y", "clock x, x", "x is declared twice", 3, 12),
    ("clock x, y", "chan d", "a channel in a process", 3, 8),
    ("[-3,7]", "[-3]", ", is expected", 4, 9),
    (
        "[-3,7]",
        "[1,7]",
        "a range without the 0 that it starts with",
        4,
        12,
    ),
    ("[-3,7]", "[-3,m]", "m is not declared", 4, 10),
    (
        "[-3,7]",
        "[-3,2147483647+1]",
        "a number of more than 32 bits",
        4,
        10,
    ),
    ("[-3,7]", "[-3,2147483648]", "no number: 2147483648", 4, 10),
    ("[-3,7]", "[-3,7a]", "no number: 7a", 4, 10),
    ("int m;", "int m := 1;", "; is expected", 5, 9),
    ("state S", "S", "state is expected", 6, 3),
    ("x <= 5 &&", "x >= 5 &&", "no upper bound of a clock", 6, 13),
    ("x <= 5 &&", "x == 5 &&", "no upper bound of a clock", 6, 13),
    ("y < 3 }", "y < 3", "} is expected", 6, 28),
    ("U;\n", "S;\n", "S is declared twice", 6, 46),
    ("U;\n", "x;\n", "x is declared twice", 6, 46),
    ("init S;", "commit S; init S;", "init is expected", 7, 3),
    ("init S;", "urgent S; init S;", "init is expected", 7, 3),
    ("init S;", "init n;", "n is no location", 7, 8),
    ("init S;", "init V;", "V is not declared", 7, 8),
    ("S -> T", "-> T", "a name is expected", 9, 5),
    ("S -> T", "S -> V", "V is not declared", 9, 10),
    ("S -> T", "S - > T", "-> is expected", 9, 7),
    ("S -> T", "S -u-> T", "-> is expected", 9, 7),
    (
        "guard x >= 1 &&",
        "select i : int; guard x >= 1 &&",
        "} is expected",
        9,
        14,
    ),
    (
        "guard x >= 1 &&",
        "guard x >= &&",
        "an expression is expected",
        9,
        25,
    ),
    (
        "guard x >= 1 &&",
        "guard x >= 1 &",
        "no word begins with byte 38",
        9,
        27,
    ),
    (
        "guard x >= 1 &&",
        "guard x' == 1 &&",
        "no word begins with byte 39",
        9,
        21,
    ),
    ("sync a!;", "sync a;", "! or ? is expected", 9, 48),
    ("sync a!;", "sync n!;", "n is no channel", 9, 47),
    ("sync a!;", "sync d!;", "d is not declared", 9, 47),
    ("assign n := n + 1", "assign n + 1", "no assignment", 9, 58),
    (
        "assign n := n + 1",
        "assign a := 1",
        "nothing that can be changed",
        9,
        58,
    ),
    (
        "assign n := n + 1",
        "assign n += 1",
        "an expression is expected",
        9,
        61,
    ),
    ("assign n := n + 1", "assign n := x", "no number", 9, 63),
    ("x := 0; }", "x := 0 }", "; is expected", 9, 77),
    ("U { };\n}", "U { }\n}", "; is expected", 13, 1),
    (
        "process Second",
        "process First",
        "First is declared twice",
        14,
        9,
    ),
    ("system Second", "system Third", "no process Third", 21, 8),
    (
        "First, Idle;",
        "First, First;",
        "process First twice",
        21,
        23,
    ),
    ("First, Idle;", "First < Idle;", "; is expected", 21, 22),
    ("First, Idle;", "First, Idle", "; is expected", 22, 1),
    (
        "First, Idle;\n",
        "First, Idle;\nchan d;",
        "the end of the text is expected",
        22,
        1,
    ),
    (
        "First, Idle;\n",
        "First, Idle; /*",
        "a comment without its end",
        21,
        29,
    ),
    (
        "First, Idle;\n",
        "First, Idle; \u{e4}",
        "no word begins with byte 195",
        21,
        29,
    ),
];

#[test]
fn malformed_texts() {
    for (old, new, what, line, column) in MALFORMED {
        assert_eq!(fault(old, new), (what.to_string(), line, column), "{new}");
    }
    let empty = read(b"").unwrap_err();
    assert_eq!(
        empty.to_string(),
        "line 1, 1: a declaration or system is expected"
    );
}

/// No word of the tool is a name.
#[test]
fn reserved_words() {
    for word in [
        "chan",
        "deadlock",
        "void",
        "select",
        "true",
        "imply",
        "before_update",
        "enum",
        "branchpoint",
    ] {
        let text = WHOLE.replace("Here", word);
        assert_eq!(
            read(text.as_bytes()).unwrap_err().what,
            "a name is expected",
            "{word}"
        );
        let text = WHOLE.replace("n == 3", &format!("{word} == 3"));
        assert!(read(text.as_bytes()).is_err(), "{word}");
    }
}

/// Each front of a text is refused, but for the last two: without what stands behind
/// the last sign.
#[test]
fn every_front_of_a_text() {
    for end in 0..WHOLE.len() - 1 {
        assert!(read(&WHOLE.as_bytes()[..end]).is_err(), "{end}");
    }
    assert_eq!(read(&WHOLE.as_bytes()[..WHOLE.len() - 1]), Ok(whole()));
}
