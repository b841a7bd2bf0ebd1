//! The listing's lines at their edges, and DIMACS written and read.

use reference::cases::{AI_ESCARGOT, G};
use reference::clauses::clause_set;
use reference::dimacs::{blocking, read_model, write};
use reference::grid::givens;
use reference::listing::gradelist;
use reference::refusal::Refusal;

#[test]
fn listing_edges() {
    let after_header = |input: &[u8]| {
        let text = gradelist(input);
        let rest = text.strip_prefix("line verdict trials\n");
        rest.expect("the header comes first").to_string()
    };
    assert_eq!(after_header(b""), "");
    assert_eq!(after_header(b"\n"), "1 R 11\n");
    assert_eq!(after_header(b"\n\n"), "1 R 11\n2 R 11\n");
    assert_eq!(after_header(&[&G[..], b"\n\n"].concat()), "1 1 0\n2 R 11\n");
    assert_eq!(after_header(&[&G[..], b"\r\n"].concat()), "1 R 11\n");
    assert_eq!(
        after_header(&[&G[..80], b"\r\n", G].concat()),
        "1 R 12\n2 1 0\n"
    );
    assert_eq!(after_header(AI_ESCARGOT), "1 5 2072\n");
    let eleven = after_header(&b"0\n".repeat(11));
    assert!(eleven.ends_with("\n9 R 11\n10 R 11\n11 R 11\n"));
}

#[test]
fn dimacs_lines() {
    for (set, size) in [(1, 8_829), (2, 11_988)] {
        let clause = blocking(G);
        let text = write(set, AI_ESCARGOT, std::slice::from_ref(&clause)).unwrap();
        let mut lines = text.lines();
        assert_eq!(
            lines.next(),
            Some(format!("p cnf 729 {}", size + 23 + 1).as_str())
        );
        let numbers: Vec<Vec<i16>> = lines
            .map(|line| line.split(' ').map(|word| word.parse().unwrap()).collect())
            .collect();
        let ended = |literals: &[i16]| [literals, &[0]].concat();
        let of_set = clause_set(set)
            .unwrap()
            .iter()
            .map(|clause| ended(clause.literals()));
        let of_grid = givens(AI_ESCARGOT).into_iter().map(|given| ended(&[given]));
        let expected: Vec<Vec<i16>> = of_set.chain(of_grid).chain([ended(&clause)]).collect();
        assert_eq!(numbers, expected);
        assert!(text.ends_with("0\n"));
    }
    assert_eq!(write(3, b"", &[]), Err(Refusal::new(43)));
    assert_eq!(write(1, b"", &[]), Err(Refusal::new(11)));
    assert_eq!(write(1, &[b'x'; 81], &[]), Err(Refusal::new(12)));
}

#[test]
fn models_read_back() {
    let positive: Vec<i16> = blocking(G).iter().map(|literal| -literal).collect();
    assert_eq!(positive[..10], [1, 11, 21, 31, 41, 51, 61, 71, 81, 85]);
    let sign = |v: i16| if positive.contains(&v) { v } else { -v };
    let values: Vec<String> = (1..=729).map(|v| sign(v).to_string()).collect();
    let bare = format!("SAT\n{} 0\n", values.join(" "));
    assert_eq!(read_model(&bare), Some(*G));
    let split: String = values
        .chunks(20)
        .map(|line| format!("v {}\n", line.join(" ")))
        .collect();
    assert_eq!(
        read_model(&format!("c model\ns SATISFIABLE\n{split}v 0\n")),
        Some(*G)
    );

    // A variable missing, one repeated, one outside, a cell with two digits, a cell with none.
    assert_eq!(read_model("SAT\n1 -2 0\n"), None);
    for (from, to) in [
        (" -2 ", " 1 "),
        (" -2 ", " -730 "),
        (" -2 ", " 2 "),
        (" 11 ", " -11 "),
    ] {
        let broken = bare.replacen(from, to, 1);
        assert_ne!(broken, bare);
        assert_eq!(read_model(&broken), None);
    }
}
