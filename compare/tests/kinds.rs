//! Request W2's kind, over every scalar of up to five of the bytes that tell the kinds apart: its form, what the model
//! makes of it in the readings' words, and document 01's kind with the numbers that are none taken out. And the edges,
//! with their answers.

use compare::kind::{EDGES, amended, by_form, by_readings};
use compare::{model, rng::Rng, scalars};

fn try_scalar(scalar: &[u8]) -> bool {
    let (form, shown) = (by_form(scalar), String::from_utf8_lossy(scalar));
    assert_eq!(form, model::kind(scalar), "the model: {shown:?}");
    assert_eq!(form, amended(scalar), "document 01's, amended: {shown:?}");
    form != by_readings(scalar)
}

#[test]
fn every_edge() {
    for (scalar, kind) in EDGES {
        assert_eq!(by_form(scalar.as_bytes()), kind, "{scalar:?}");
        try_scalar(scalar.as_bytes());
    }
}

#[test]
fn every_short_scalar() {
    let (mut all, mut moved) = (0, 0);
    for scalar in scalars::kinds() {
        all += 1;
        moved += usize::from(try_scalar(&scalar));
    }
    assert_eq!(all, (0..=5).map(|length| 12_usize.pow(length)).sum::<usize>());
    assert!(moved > 0, "the two kinds are one");
}

#[test]
fn many_scalars() {
    let mut rng = Rng::new(12);
    let moved = (0..1_000_000).filter(|_| try_scalar(&scalars::any(&mut rng))).count();
    assert!(moved > 0, "the two kinds are one");
}
