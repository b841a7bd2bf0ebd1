//! Reading job files: what a whole file gives, every refusal at its boundary, and their order.

use reference::cases::{Random, AI_ESCARGOT, G};
use reference::jobfile::{read, JobFile};
use reference::order::default_order;
use reference::refusal::Refusal;

fn piece(kind: u16, body: &[u8]) -> Vec<u8> {
    let length = body.len() as u16;
    [&length.to_le_bytes()[..], &kind.to_le_bytes(), body].concat()
}

fn order_body(order: &[i16]) -> Vec<u8> {
    order.iter().flat_map(|entry| entry.to_le_bytes()).collect()
}

/// What reading returns, with the grid and the order.
type Read = (JobFile, [u8; 81], Vec<i16>);

/// A refusal is its number and place; the buffers are unchanged after it.
fn reading(file: &[u8]) -> Result<Read, (u8, usize)> {
    let (mut grid, mut order) = ([77; 81], vec![99; 1_458]);
    match read(file, &mut grid, &mut order) {
        Ok(answer) => Ok((answer, grid, order)),
        Err(Refusal { number, place }) => {
            assert_eq!((grid, order), ([77; 81], vec![99; 1_458]));
            Err((number, place))
        }
    }
}

#[test]
fn defaults_and_whole_files() {
    let short = [piece(1, AI_ESCARGOT), piece(2, &[3])].concat();
    let answer = JobFile {
        technique: 3,
        ceiling: 1_062_882,
    };
    assert_eq!(reading(&short), Ok((answer, *AI_ESCARGOT, default_order())));

    let with_ceiling = [short.clone(), piece(3, &[1, 2, 3, 0xff])].concat();
    let answer = JobFile {
        technique: 3,
        ceiling: 0xff03_0201,
    };
    assert_eq!(
        reading(&with_ceiling),
        Ok((answer, *AI_ESCARGOT, default_order()))
    );

    // The grid's bytes come as they are, dots too.
    let mut dots = *G;
    (dots[0], dots[1]) = (b'.', b'0');
    let order = Random(15).order();
    let without_ceiling = [
        piece(1, &dots),
        piece(2, &[4]),
        piece(4, &order_body(&order)),
    ]
    .concat();
    let answer = JobFile {
        technique: 4,
        ceiling: 1_062_882,
    };
    assert_eq!(reading(&without_ceiling), Ok((answer, dots, order)));
}

#[test]
fn lent_buffers_come_first() {
    for (grid, order, expected) in [
        (80, 1_458, 42),
        (82, 1_458, 42),
        (0, 0, 42),
        (80, 1_457, 42),
        (81, 1_457, 46),
        (81, 1_459, 46),
        (81, 0, 46),
    ] {
        let (mut cells, mut entries) = (vec![77; grid], vec![99; order]);
        let refusal = read(&[1], &mut cells, &mut entries).unwrap_err();
        assert_eq!(refusal, Refusal::new(expected));
        assert_eq!((cells, entries), (vec![77; grid], vec![99; order]));
    }
}

#[test]
fn files_cut_short() {
    let order = order_body(&default_order());
    let pieces = [
        piece(1, G),
        piece(2, &[1]),
        piece(3, &[0; 4]),
        piece(4, &order),
    ];
    let starts = [0, 85, 90, 98];
    let whole = pieces.concat();
    assert!(reading(&whole).is_ok());
    for length in 0..whole.len() {
        let expected = match starts.iter().position(|&start| start == length) {
            // No bytes left is the end, and the first two pieces must be there.
            Some(0 | 1) => Err((34, 0)),
            Some(_) => {
                assert!(reading(&whole[..length]).is_ok());
                continue;
            }
            None => Err((31, *starts.iter().rfind(|&&start| start < length).unwrap())),
        };
        assert_eq!(reading(&whole[..length]), expected, "length {length}");
    }
    for rest in 1..4 {
        let file = [whole.clone(), vec![0; rest]].concat();
        assert_eq!(reading(&file), Err((31, whole.len())));
    }
}

#[test]
fn kinds_and_body_lengths() {
    for kind in [0, 5, 256, 257, 258, u16::MAX] {
        assert_eq!(reading(&piece(kind, G)), Err((32, 0)));
        let later = [piece(1, G), piece(kind, &[1])].concat();
        assert_eq!(reading(&later), Err((32, 85)));
    }
    let not_rising = [piece(2, &[1]), piece(1, G)].concat();
    assert_eq!(reading(&not_rising), Err((32, 5)));
    let doubled = [piece(1, G), piece(2, &[1]), piece(2, &[1])].concat();
    assert_eq!(reading(&doubled), Err((32, 90)));

    for (kind, length) in [(1, 81), (2, 1), (3, 4), (4, 2_916)] {
        for wrong in [0, length - 1, length + 1, 4 * length] {
            if wrong != length {
                assert_eq!(reading(&piece(kind, &vec![b'1'; wrong])), Err((33, 0)));
            }
        }
        // A right body is no refusal by itself; what is missing shows at the end.
        assert_eq!(reading(&piece(kind, &vec![b'1'; length])), Err((34, 0)));
    }
}

#[test]
fn order_within_and_between_pieces() {
    // Within a piece: 31, then 32, then 33.
    assert_eq!(reading(&[2, 0, 9, 0, 1]), Err((31, 0)));
    assert_eq!(reading(&[1, 0, 9, 0, 1]), Err((32, 0)));
    assert_eq!(reading(&[1, 0, 1, 0, 1]), Err((33, 0)));
    // An earlier piece's 33 comes before a later one's 31, and every piece before 34.
    let earlier = [piece(1, &G[..80]), vec![0]].concat();
    assert_eq!(reading(&earlier), Err((33, 0)));
    let at_the_end = [piece(1, G), piece(3, &[0; 4]), vec![0]].concat();
    assert_eq!(reading(&at_the_end), Err((31, 93)));
    assert_eq!(reading(&at_the_end[..93]), Err((34, 0)));
    assert_eq!(
        reading(&[piece(2, &[1]), piece(3, &[0; 4])].concat()),
        Err((34, 0))
    );
    assert_eq!(reading(&[]), Err((34, 0)));
}

#[test]
fn grid_technique_and_order_come_last() {
    let file = |grid: &[u8], technique: u8, order: &[i16]| {
        [
            piece(1, grid),
            piece(2, &[technique]),
            piece(4, &order_body(order)),
        ]
        .concat()
    };
    let mut grid = *G;
    grid[80] = b':';
    let mut twice = default_order();
    twice[1_457] = 1;
    let mut zero = twice.clone();
    zero[1_456] = 0;
    assert_eq!(reading(&file(&grid, 0, &zero)), Err((12, 80)));
    assert_eq!(reading(&file(G, 0, &zero)), Err((21, 0)));
    assert_eq!(reading(&file(G, 5, &zero)), Err((21, 0)));
    assert_eq!(reading(&file(G, 1, &zero)), Err((23, 1_456)));
    assert_eq!(reading(&file(G, 4, &twice)), Err((24, 1_457)));
    // Missing pieces come before a wrong byte.
    assert_eq!(reading(&piece(1, &grid)), Err((34, 0)));
    // Without an order piece the technique is still tested.
    assert_eq!(
        reading(&[piece(1, G), piece(2, &[255])].concat()),
        Err((21, 0))
    );
}
