//! The references as H.265 has them, 6.4.1 and 8.4.4.2.2, and the smallest inputs of docs/DIFFERENCES.md at substitution and
//! the gathers: where the Rust and the port agree with each other and not with the standard, or the port goes with the standard.
use crate::oracle::intra;
use crate::order::panics;
use crate::random::Random;
use crate::refs::{
    CTUS, Chroma, Luma, Marked, Rows, UNITS, ask_chroma, ask_luma, ask_substitute, every_luma, every_picture, neutral,
};
use crate::table::Picture;
use crate::tally::Tally;

/// The corner, and entries 0 to 2n-1 of the row above and of the left column: the standard has no more.
pub type Entries = (u16, Vec<u16>, Vec<u16>);

pub fn standard_part(rows: &Rows, n: usize) -> Entries {
    (rows.0, rows.1[..2 * n].to_vec(), rows.2[..2 * n].to_vec())
}

/// 8.4.4.2.2 over a line from the end of the left column, of so many entries, up to the corner and on to the end of the row above;
/// None where a sample is not available.
fn substituted(mut line: Vec<Option<u16>>, most: usize, neutral: u16) -> Entries {
    if line.iter().all(Option::is_none) {
        line.fill(Some(neutral));
    }
    line[0] = line.iter().copied().find(Option::is_some).flatten();
    for k in 1..line.len() {
        line[k] = line[k].or(line[k - 1]);
    }
    let line: Vec<u16> = line.into_iter().flatten().collect();
    (line[most], line[most + 1..].to_vec(), line[..most].iter().rev().copied().collect())
}

/// The line of a block whose neighbours are told by row and column relative to it, so many entries a side.
fn line(most: usize, at: impl Fn(i64, i64) -> Option<u16>) -> Vec<Option<u16>> {
    let left = (0..most as i64).rev().map(|i| at(i, -1));
    let above = (0..most as i64).map(|i| at(-1, i));
    left.chain([at(-1, -1)]).chain(above).collect()
}

/// 8.4.4.2.2 of such a block: entries 0 to 2n-1.
pub fn gathered(n: usize, neutral: u16, at: impl Fn(i64, i64) -> Option<u16>) -> Entries {
    substituted(line(2 * n, at), 2 * n, neutral)
}

/// 6.5.2: the address of a least transform block of so many samples.
fn address(row: u32, col: u32, cell: u32, ctu: u32, width: u32) -> u64 {
    let ctb = (row / ctu) as u64 * width.div_ceil(ctu) as u64 + (col / ctu) as u64;
    let (y, x) = ((row % ctu / cell) as u64, (col % ctu / cell) as u64);
    let morton: u64 = (0..4).map(|i| (x >> i & 1) << (2 * i) | (y >> i & 1) << (2 * i + 1)).sum();
    let cells = (ctu / cell) as u64;
    ctb * cells * cells + morton
}

/// 6.4.1: a luma place is there unless it is outside the picture or its address is greater than the current one's.
fn available(p: Picture, current: (u32, u32), row: i64, col: i64) -> bool {
    let inside = (0..p.height as i64).contains(&row) && (0..p.width as i64).contains(&col);
    let of = |row, col| address(row, col, p.unit, p.ctu, p.width);
    inside && of(row as u32, col as u32) <= of(current.0, current.1)
}

/// The sample in a row and a column relative to a luma block, where it is available.
pub fn luma_sample(call: &Luma, dr: i64, dc: i64) -> Option<u16> {
    let p = call.picture;
    let (row, col) = (call.row as i64 + dr, call.col as i64 + dc);
    let there = available(p, (call.row, call.col), row, col);
    there.then(|| call.plane[row as usize * p.width as usize + col as usize])
}

pub fn luma_entries(call: &Luma) -> Entries {
    gathered(call.n, neutral(call.bits), |dr, dc| luma_sample(call, dr, dc))
}

/// The references of a chroma block in its picture, whose least transform block has that side. The current place is the block's own.
fn chroma_entries(call: &Chroma, plane: usize, least: u32) -> Entries {
    let ((w, h), (width, _)) = (call.steps(), call.sides());
    let p = Picture { unit: least, ..call.picture };
    gathered(call.n, neutral(call.bits), |dr, dc| {
        let (row, col) = (call.row as i64 + dr, call.col as i64 + dc);
        let there = available(p, call.own(), row * h as i64, col * w as i64);
        there.then(|| call.planes[plane][(row as u64 * width) as usize + col as usize])
    })
}

/// Document 01's rows of a chroma block: its rule over the picture's CTU, and its substitution, which has entry 2n too.
fn ruled_rows(call: &Chroma, plane: usize) -> Rows {
    let ((w, h), (width, height), p) = (call.steps(), call.sides(), call.picture);
    let of = |row: u32, col: u32| address(row, col, p.unit, p.ctu, p.width);
    let (current, most, neutral) = (of(call.current.0, call.current.1), 2 * call.n + 1, neutral(call.bits));
    let line = line(most, |dr, dc| {
        let row = u32::try_from(call.row as i64 + dr).ok().filter(|&r| (r as u64) < height)?;
        let col = u32::try_from(call.col as i64 + dc).ok().filter(|&c| (c as u64) < width)?;
        let cell = of(row * h, col * w);
        let there = cell < current || cell == current && row < call.row;
        there.then(|| call.planes[plane][row as usize * width as usize + col as usize])
    });
    if line.iter().all(Option::is_none) {
        return (neutral, [neutral; 65], [neutral; 65]);
    }
    let (corner, above, left) = substituted(line, most, neutral);
    let [above, left] = [above, left].map(|mut row| {
        row.resize(65, 0);
        row.try_into().unwrap()
    });
    (corner, above, left)
}

/// Whether the standard decides: the current place is the block's own, and the least unit no wider than the block in luma samples.
fn decided(call: &Chroma) -> bool {
    call.current == call.own() && call.picture.unit as usize <= call.n * call.steps().0 as usize
}

/// What a chroma gather is to give by the picture's CTU: the standard's entries where it decides, else document 01's rule over that
/// CTU; entry 2n always by that rule.
pub fn chroma_rows(call: &Chroma, plane: usize) -> Rows {
    let mut rows = ruled_rows(call, plane);
    if decided(call) {
        let (corner, above, left) = chroma_entries(call, plane, call.picture.unit);
        rows.0 = corner;
        rows.1[..2 * call.n].copy_from_slice(&above);
        rows.2[..2 * call.n].copy_from_slice(&left);
    }
    rows
}

/// The standard's substitution of marked rows.
fn marked_entries(m: &Marked, n: usize, bits: u32) -> Entries {
    gathered(n, neutral(bits), |dr, dc| {
        let (flag, sample) = match (dr, dc) {
            (-1, -1) => (m.corner, m.rows.0),
            (-1, i) => (m.above[i as usize], m.rows.1[i as usize]),
            (i, _) => (m.left[i as usize], m.rows.2[i as usize]),
        };
        flag.then_some(sample)
    })
}

fn substitution(t: &mut Tally) {
    // only above[8] is there: it is copied to every entry; the standard has no such sample, and neutral everywhere
    let mut m = Marked { rows: (1, [2; 65], [3; 65]), corner: false, above: [false; 65], left: [false; 65] };
    (m.above[8], m.rows.1[8]) = (true, 77);
    assert_eq!(standard_part(&m.answer(4, 8).1, 4), (77, vec![77; 8], vec![77; 8]));
    assert_eq!(marked_entries(&m, 4, 8), (128, vec![128; 8], vec![128; 8]));
    ask_substitute(t, &m, 4, 8);
    // left[8] and the corner are there: left[8] is copied up the column; in the standard the corner is copied down it
    let mut m = Marked { rows: (5, [2; 65], [3; 65]), corner: true, above: [false; 65], left: [false; 65] };
    (m.left[8], m.rows.2[8]) = (true, 77);
    assert_eq!(standard_part(&m.answer(4, 8).1, 4), (5, vec![5; 8], vec![77; 8]));
    assert_eq!(marked_entries(&m, 4, 8), (5, vec![5; 8], vec![5; 8]));
    ask_substitute(t, &m, 4, 8);
    // where neither entry 2n is there, the two agree
    let mut random = Random::new(17);
    for n in [4, 8, 16, 32] {
        for _ in 0..2000 {
            let mut m = Marked::any(&mut random);
            (m.above[2 * n], m.left[2 * n]) = (false, false);
            assert_eq!(standard_part(&m.answer(n, 10).1, n), marked_entries(&m, n, 10));
            ask_substitute(t, &m, n, 10);
        }
    }
}

fn luma(t: &mut Tally) {
    // entry 2n: above[8] is the sample at row 7, column 8, which the standard's references leave out
    let mut call =
        Luma { bits: 8, picture: Picture::new(16, 16, 16, 4), row: 8, col: 0, n: 4, plane: (0..256).map(|k| k + 1).collect() };
    let (before, answer) = (luma_entries(&call), call.answer().1);
    assert_eq!((answer.1[8], answer.2[8], answer.1[9]), (7 * 16 + 8 + 1, answer.2[7], 0));
    ask_luma(t, &call);
    call.plane[7 * 16 + 8] = 999;
    assert_eq!((call.answer().1.1[8], luma_entries(&call)), (999, before));
    ask_luma(t, &call);
    // on the standard's entries the gather and the standard agree at every place
    let mut random = Random::new(18);
    every_luma(&[(8, 8), (40, 24), (72, 40)], &mut random, |call, _| {
        let (no, rows) = call.answer();
        if no == 0 {
            assert_eq!(standard_part(&rows, call.n), luma_entries(call));
            ask_luma(t, call);
        }
    });
    // a side that is none: the Rust runs past the end of its rows
    assert!(panics(|| {
        let geo = intra::LumaRefGeometry {
            stride: 128,
            block_row: 64,
            block_col: 0,
            height: 128,
            n: std::hint::black_box(64),
            ctu: 64,
            ctus_x: 2,
            min_pu: 8,
            neutral: 128,
        };
        intra::get_reference_samples(&[0; 16384], geo);
    }));
    ask_luma(t, &Luma { bits: 8, picture: Picture::new(128, 128, 64, 8), row: 64, col: 0, n: 64, plane: vec![0; 16384] });
}

/// A chroma call on planes whose samples are all different, its current place its own.
fn chroma_call(format: u32, picture: Picture, (row, col): (u32, u32), n: usize) -> Chroma {
    let planes = [Vec::new(), Vec::new()];
    let mut call = Chroma { bits: 8, format, picture, row, col, n, current: (0, 0), planes };
    call.current = call.own();
    let (w, h) = call.sides();
    call.planes = [1, 10001].map(|first| (0..(w * h) as u16).map(|k| k + first).collect());
    call
}

/// Every place of every format and size in a picture, the current place its own, where the call is served.
fn every_chroma(picture: Picture, mut each: impl FnMut(&Chroma)) {
    for format in [1, 2, 3] {
        for n in [4, 8, 16, 32] {
            let (w, h) = chroma_call(format, picture, (0, 0), n).sides();
            for row in (0..h as u32).step_by(n) {
                for col in (0..w as u32).step_by(n) {
                    let call = chroma_call(format, picture, (row, col), n);
                    if call.number() == 0 {
                        each(&call);
                    }
                }
            }
        }
    }
}

fn chroma(t: &mut Tally) {
    // 4:4:4 with a least unit of 8 and n = 4: the left neighbour is in the block's own cell and not above it
    for ctu in CTUS {
        let call = chroma_call(3, Picture::new(8, 8, ctu, 8), (0, 4), 4);
        assert_eq!(standard_part(&call.answer().1[0], 4), (128, vec![128; 8], vec![128; 8]));
        let left = [4, 12, 20, 28, 28, 28, 28, 28];
        assert_eq!(chroma_entries(&call, 0, 4), (4, vec![4; 8], left.to_vec()));
        ask_chroma(t, &call);
    }
    // the lower block of 4:2:2 with the upper one's place as the current one: above[2] and above[3] are missing
    for ctu in CTUS {
        let mut call = chroma_call(2, Picture::new(8, 8, ctu, 4), (4, 0), 4);
        assert_eq!(standard_part(&call.answer().1[0], 4), chroma_entries(&call, 0, 4));
        ask_chroma(t, &call);
        call.current = (0, 0);
        let (rows, standard) = (call.answer().1[0], chroma_entries(&call, 0, 4));
        assert_eq!(rows.1[..8], [13, 14, 14, 14, 14, 14, 14, 14]);
        assert_eq!(standard.1[..8], [13, 14, 15, 16, 16, 16, 16, 16]);
        ask_chroma(t, &call);
    }
    // whole pictures, the current place the block's own: the standard, at a least transform block of 4 too, has what the gather is to
    // give, at every place but those of the first kind
    for p in every_picture(&[(64, 64), (72, 40)]) {
        every_chroma(p, |call| {
            let own_cell = call.format == 3 && p.unit == 8 && call.n == 4 && call.col % 8 == 4;
            let same = standard_part(&call.answer().1[0], call.n) == chroma_entries(call, 0, 4);
            assert!(decided(call) && same || !decided(call) && (same || own_cell));
            ask_chroma(t, call);
        });
    }
}

/// The order by the picture's CTU. The Rust counts in CTUs of 64 whatever the picture's is, and takes samples that come later.
fn chroma_ctu(t: &mut Tally) {
    let parts = |call: &Chroma| decided(call) && standard_part(&call.rust()[0], call.n) != chroma_entries(call, 0, 4);
    for (ctu, sides, place) in [(16, (40, 24), (4, 16)), (32, (72, 40), (12, 32))] {
        for unit in UNITS {
            // four entries of the left column, and nothing else; a picture of CTU 64 has no such place
            let call = chroma_call(1, Picture::new(sides.0, sides.1, ctu, unit), place, 4);
            let (rust, standard) = (standard_part(&call.rust()[0], 4), chroma_entries(&call, 0, 4));
            assert_eq!((rust.0, &rust.1, &rust.2[..4]), (standard.0, &standard.1, &standard.2[..4]));
            assert!(
                rust.2[4..] == [4, 5, 6, 7].map(|i| rust.2[0] + i * (sides.0 as u16 / 2)) && standard.2[4..] == [rust.2[3]; 4]
            );
            ask_chroma(t, &call);
            every_chroma(Picture::new(sides.0, sides.1, 64, unit), |call| assert!(!parts(call)));
            // no smaller picture shows it
            for (across, down) in (1..=sides.0 * sides.1 / 64).flat_map(|a| (1..=sides.0 * sides.1 / 64 / a).map(move |d| (a, d)))
            {
                if 64 * across * down < sides.0 * sides.1 {
                    every_chroma(Picture::new(8 * across, 8 * down, ctu, unit), |call| assert!(!parts(call)));
                }
            }
        }
    }
}

/// Worked figures: 4:2:0 of 40 by 24 with Cb 20r + c, then the numbers, then the lower square of 4:2:2.
fn chroma_figures(t: &mut Tally) {
    let mut call = chroma_call(1, Picture::new(40, 24, 16, 4), (4, 16), 4);
    call.planes[0] = (0..12).flat_map(|r| (0..20).map(move |c| 20 * r + c)).collect();
    assert_eq!(call.current, (8, 32));
    for (ctu, left) in [
        (16, [95, 115, 135, 155, 155, 155, 155, 155, 155]),
        (32, [95, 115, 135, 155, 175, 195, 215, 235, 235]),
        (64, [95, 115, 135, 155, 175, 195, 215, 235, 235]),
    ] {
        for unit in UNITS {
            call.picture = Picture::new(40, 24, ctu, unit);
            let (corner, above, rest) = call.answer().1[0];
            assert_eq!(
                (corner, above[..9].to_vec(), rest[..9].to_vec()),
                (75, vec![76, 77, 78, 79, 79, 79, 79, 79, 79], left.to_vec())
            );
            ask_chroma(t, &call);
        }
    }
    for (format, ctu, n, no) in [
        (1, 16, 16, 6),
        (1, 32, 32, 6),
        (1, 8, 4, 4),
        (2, 16, 16, 6),
        (2, 32, 32, 6),
        (3, 16, 16, 0),
        (3, 16, 32, 6),
        (2, 64, 32, 0),
    ] {
        let call = chroma_call(format, Picture::new(64, 64, ctu, 4), (0, 0), n);
        assert_eq!(call.number(), no);
        ask_chroma(t, &call);
    }
    let mut call = chroma_call(2, Picture::new(16, 16, 16, 4), (4, 4), 4);
    call.planes[0] = (0..16).flat_map(|r| (0..8).map(move |c| 10 * r + c)).collect();
    for (current, above) in [((4, 8), [34, 35, 36, 37]), ((0, 8), [34, 35, 35, 35])] {
        call.current = current;
        assert_eq!(call.answer().1[0].1[..4], above);
        ask_chroma(t, &call);
    }
}

pub fn differences(t: &mut Tally) {
    substitution(t);
    luma(t);
    chroma(t);
    chroma_ctu(t);
    chroma_figures(t);
}
