//! The smallest inputs of docs/DIFFERENCES.md for smoothing, prediction and reconstruction, each with what the Rust says and
//! what is wanted of the port.
use crate::oracle::intra::{self, AngularScratch};
use crate::order::panics;
use crate::predict::{Angular, Flat, ask_angular};
use crate::random::Random;
use crate::residual::ask_rebuilt;
use crate::smooth::ask;
use crate::tally::{Tally, Want};

/// The Rust's angular prediction of a block of 4×4, from rows of so many entries.
fn rust_angular(corner: u16, above: &[u16], left: &[u16], n: usize, mode: u8) -> Vec<u16> {
    let mut pred = vec![0; 16];
    intra::predict_angular_into(corner, above, left, n, mode, false, 255, &mut pred, &mut AngularScratch::new());
    pred
}

pub fn prediction(t: &mut Tally) {
    let mut random = Random::new(10);
    let mut scratch = AngularScratch::new();
    let mut angular = |t: &mut Tally, rows: Flat, mode: u8, want: u32| {
        let call = Angular::new(0, rows, mode, false, 8);
        assert_eq!(call.answer(&mut scratch).0, want);
        ask_angular(t, &call, &mut scratch, &mut random);
    };
    let rows =
        |entries: usize, n: usize| Flat { above: vec![10; entries], left: (0..entries as u16).collect(), n, pred: vec![9; 16] };

    // modes 0 and 1 at the angular door: the Rust predicts pure horizontal, the port refuses
    for mode in [0, 1] {
        let Flat { above, left, .. } = rows(65, 4);
        assert_eq!(rust_angular(0, &above, &left, 4, mode), rust_angular(0, &above, &left, 4, 10));
        angular(t, rows(65, 4), mode, 3);
    }
    // modes 11 and 25 at n = 4: the Rust fetches entry 15 of the side row and does not use it, so 15 entries are too few for it;
    // the port takes 8
    for mode in [11, 25] {
        let (above, left) = (vec![10; 16], (0..16).collect::<Vec<u16>>());
        let (mut other_above, mut other_left) = (above.clone(), left.clone());
        (other_above[15], other_left[15]) = (999, 999);
        assert_eq!(rust_angular(0, &above, &left, 4, mode), rust_angular(0, &other_above, &other_left, 4, mode));
        assert!(panics(|| {
            rust_angular(0, &above[..15], &left[..15], 4, mode);
        }));
        for (entries, want) in [(7, 5), (8, 0), (15, 0), (16, 0), (64, 0), (65, 0)] {
            angular(t, rows(entries, 4), mode, want);
        }
    }
    // a side that is none: the Rust panics
    for n in [0, 5, 64] {
        assert!(panics(|| {
            rust_angular(0, &[10; 65], &[10; 65], n, 2);
        }));
        angular(t, rows(65, n), 2, 2);
    }
    // a mode that is none: the Rust panics at its table of angles
    assert!(panics(|| {
        rust_angular(0, &[10; 65], &[10; 65], 4, 35);
    }));
    angular(t, rows(65, 4), 35, 3);

    // the smoothing rule: the Rust takes any side, as 32, and any mode, as far from horizontal and vertical
    assert!(intra::should_filter_refs(2, 5) && intra::should_filter_refs(35, 8));
    t.numbers("salvrunde_probe_should_filter_refs", &[2, 5], Want::fields(&[2, 0]));
    t.numbers("salvrunde_probe_should_filter_refs", &[35, 8], Want::fields(&[3, 0]));

    // smoothing: the Rust takes rows of 2n + 1 entries, and panics above n = 32 and at n = 0
    let (above, left) = intra::filter_references(0, &[4; 9], &[4; 9], 4);
    assert_eq!((above[..9].to_vec(), left[9..].iter().all(|&s| s == 0)), (vec![3, 4, 4, 4, 4, 4, 4, 4, 4], true));
    ask(t, 0, &[4; 9], &[4; 9], 4, &[8]);
    assert!(panics(|| {
        intra::filter_references(0, &[4; 129], &[4; 129], std::hint::black_box(64));
    }));
    ask(t, 0, &[4; 129], &[4; 129], 64, &[8]);

    // smoothing at side 4, where the standard never smooths; and the strong form, which its flag at 0 forbids: then the ordinary
    // form is taken, which leaves these rows as they are up to entry 62
    let flat = ([0; 65], [0; 65]);
    assert_eq!(intra::filter_luma_refs(4, &flat.0, &flat.1, 4, 8).1[0], 1);
    assert!(!intra::should_filter_refs(2, 4));
    ask(t, 4, &flat.0, &flat.1, 4, &[8]);
    let mut row = [0; 65];
    row[63] = 1;
    let (strong, ordinary) = (intra::filter_luma_refs(0, &row, &row, 32, 8).1, intra::filter_references(0, &row, &row, 32).0);
    assert_eq!((strong[30], strong[31], ordinary[31], ordinary[62]), (0, 1, 0, 0));
    ask(t, 0, &row, &row, 32, &[8]);

    // the scratch: the Rust leaves indices and fractions there
    let mut scratch = AngularScratch::new();
    intra::predict_angular_into(0, &[0; 65], &[0; 65], 4, 3, false, 255, &mut [0; 16], &mut scratch);
    let [_, indices, fractions] = intra::reach::tables(&scratch);
    assert_eq!((&indices[..4], &fractions[..4]), (&[0, 1, 2, 3][..], &[26, 20, 14, 8][..]));

    // reconstruction: the Rust trusts the largest sample that it is told; the port has the depth's
    let mut out = [0; 16];
    intra::reconstruct_into(&[250; 16], &[10; 16], 4, 1023, &mut out);
    assert_eq!(out[0], 260);
    intra::reconstruct_into(&[250; 16], &[10; 16], 4, 255, &mut out);
    assert_eq!(out[0], 255);
    ask_rebuilt(t, &[250; 16], &[10; 16], 4, 8, &[7; 16]);

    // reconstruction: the Rust adds any residual, and past the range of i32 the sum wraps round or panics
    let mut out = [0; 16];
    let mut residual = [0; 16];
    residual[0] = 65536;
    intra::reconstruct_into(&[0; 16], &residual, 4, 255, &mut out);
    assert_eq!(out[0], 255);
    ask_rebuilt(t, &[0; 16], &residual, 4, 8, &[7; 16]);
    residual[0] = i32::MAX;
    let sum = std::panic::catch_unwind(|| {
        let mut out = [0; 16];
        intra::reconstruct_into(&[1; 16], &residual, 4, 255, &mut out);
        out[0]
    });
    assert!(sum.is_err() || sum.is_ok_and(|s| s == 0), "the sum is not 255");
    ask_rebuilt(t, &[1; 16], &residual, 4, 8, &[7; 16]);
}
