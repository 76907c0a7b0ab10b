//! The calls that read a chain against `Chain` over the stand-ins, its reads looped, and against the model.
//!
//! 11 and 19 are of what is lent, and the Rust is lent nothing: `chains_model.rs` has them, `chains_differences.rs` what
//! the Rust does instead.
#![cfg(oracle)]

use oracle::called::Call;
use oracle::calls::{self, Opened};
use oracle::chained::{self, Tally};
use oracle::held::Case;
use oracle::inputs::END;
use oracle::layout::Layout;
use oracle::openings;
use oracle::random::Random;

/// Shows the calls of one image that opens.
fn hold(opened: &Opened, tally: &mut Tally, show: impl FnOnce(&mut dyn FnMut(&Call))) {
    let mut rust = chained::rusts(opened);
    show(&mut |call| tally.see(&mut rust, call));
}

/// Cases 1 and 8 of the specification, of what only opens and reads; what ours must answer stands in `chains_model.rs`.
#[test]
fn cases() {
    let mut tally = Tally::default();
    openings::both(3, &Layout::q().bytes(), &mut |case| {
        let opened = Opened::of(case).unwrap();
        hold(&opened, &mut tally, |mut see| {
            [1, 2, 4, 6, END].into_iter().for_each(|start| see(&opened.call(start, None)));
            opened.every_read(9, 9, &mut see);
        });
    });
    assert_eq!([0, 20, 21, 22, 23].map(|number| tally.answers[number]), [340, 90, 26, 0, 518]);
}

/// Every image of few sectors that opens, from every sector.
#[test]
fn every_small_image() {
    let mut tally = Tally::default();
    openings::every_small(&mut |case| {
        if let Some(opened) = Opened::of(case) {
            hold(&opened, &mut tally, |mut see| opened.each_start(&mut see));
        }
    });
    assert_eq!([0, 20, 21, 22].map(|number| tally.answers[number]), [93_222, 130_146, 103_862, 14_308]);
    assert_eq!(tally.compared(), 341_538);
}

/// Every read of images of up to 3 sectors.
#[test]
fn every_small_read() {
    let mut tally = Tally::default();
    let mut see = |case: &Case| {
        // Where it opens in both modes with the same tables, the permissive one is enough.
        if let Some(opened) = Opened::of(case) {
            let strict = Opened::of(&Case { mode: 1, ..*case });
            if case.mode == 0 || strict.is_none_or(|strict| strict.tables != opened.tables) {
                hold(&opened, &mut tally, |mut see| opened.every_read(9, 9, &mut see));
            }
        }
    };
    for n in 0..=3 {
        openings::every_fat(3, n, 0, &mut see);
    }
    openings::every_fat(4, 2, 1, &mut see);
    let expected = [20_933, 40_172, 6_896, 792, 82_940];
    assert_eq!([0, 20, 21, 22, 23].map(|number| tally.answers[number]), expected);
    assert_eq!((tally.compared(), tally.bytes), (151_733, 3_943_566));
}

/// Chains, one long chain, loops, stray marks, chains into the tables' own sectors: every start, every edge.
#[test]
fn images() {
    let mut tally = Tally::default();
    let mut random = Random::new("chains images");
    let third: Vec<usize> = (0..20).chain([127, 128, 129, 257]).collect();
    calls::images(&mut random, &third, &[0, 1, 2, 3, 5, 8], &mut |opened| {
        hold(opened, &mut tally, |mut see| {
            opened.every_start(300, &mut see);
            let (starts, edges) = if opened.n() < 100 { (5, 24) } else { (4, 6) };
            opened.every_read(starts, edges, &mut see);
        });
    });
    assert!(tally.compared() > 60_000, "{tally:?}");
    tally.has([0, 20, 21, 22, 23], 200);
}

/// Images with several damages, and with random entries: those that open.
#[test]
fn broken_images() {
    let mut tally = Tally::default();
    let mut more = Random::new("chains broken, reads");
    let mut see = |case: &Case| {
        if let Some(opened) = Opened::of(case) {
            hold(&opened, &mut tally, |mut see| {
                opened.each_start(&mut see);
                opened.some_reads(&mut more, 6, &mut see);
            });
        }
    };
    openings::broken(&mut Random::new("chains broken"), 5_000, &mut see);
    openings::random(&mut Random::new("chains random"), 5_000, &mut see);
    assert!(tally.compared() > 90_000, "{tally:?}");
    tally.has([0, 20, 21, 22, 23], 200);
}

/// Images with a DIFAT sector, with as many sectors as may be, and of version 4 with two FAT sectors.
#[test]
fn long_images() {
    let mut tally = Tally::default();
    let mut random = Random::new("chains long");
    let mut more = Random::new("chains long, reads");
    calls::images(&mut random, &[13_953, 16_384], &[1_025], &mut |opened| {
        hold(opened, &mut tally, |mut see| {
            opened.every_start(5, &mut see);
            opened.some_reads(&mut more, 4, &mut see);
        });
    });
    tally.has([0, 20, 21], 20);
    assert!(tally.bytes > 1_000_000, "{tally:?}");
}
