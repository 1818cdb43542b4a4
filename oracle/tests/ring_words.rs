//! The words of the rings by hand: the original keeps deques, so that heads and words have only
//! this and document 01 beside them.

use oracle::rules::log::{repair_ring, repair_words, undone, Ring, SpanRing};
use oracle::rules::Sample;

#[test]
fn a_mark_of_length_0_does_nothing() {
    assert_eq!(SpanRing::of(2, &[(5, 0)]), SpanRing::of(2, &[]));
    assert_eq!(SpanRing::of(2, &[]).ring.words, [0; 4]);
    assert_eq!(SpanRing::of(2, &[(5, 1), (6, 0), (6, 1)]).spans(), [(5, 2)]);
}

#[test]
fn a_mark_where_the_newest_span_ends_lengthens_it() {
    let ring = SpanRing::of(2, &[(0, 3), (3, 2), (9, 1), (10, 4)]);
    assert_eq!(ring.ring.words, [0, 5, 9, 5]);
    assert_eq!((ring.count, ring.ring.head, ring.ring.held), (10, 0, 2));
    // Only the newest: 5 is where the older one ends.
    let ring = ring.marked((5, 1));
    assert_eq!(ring.spans(), [(9, 5), (5, 1)]);
}

#[test]
fn a_full_ring_drops_its_oldest_and_writes_in_its_place() {
    let marks: Vec<(u64, u64)> = (0..7).map(|i| (10 * i, i + 1)).collect();
    let ring = SpanRing::of(3, &marks);
    // 0 1 2, then 3 over 0, 4 over 1, 5 over 2, 6 over 3.
    assert_eq!(ring.ring.words, [60, 7, 40, 5, 50, 6]);
    assert_eq!((ring.ring.head, ring.ring.held), (1, 3));
    assert_eq!((ring.ring.dropped, ring.count), (4, 28));
    assert_eq!(ring.spans(), [(40, 5), (50, 6), (60, 7)]);
    // Lengthening a full ring's newest span drops none.
    let ring = ring.marked((67, 3));
    assert_eq!(ring.ring.words, [60, 10, 40, 5, 50, 6]);
    assert_eq!(ring.ring.dropped, 4);
}

#[test]
fn a_ring_of_one() {
    let ring = SpanRing::of(1, &[(0, 1), (2, 1), (4, 1), (5, 1)]);
    assert_eq!((ring.ring.head, ring.ring.held), (0, 1));
    assert_eq!((ring.ring.dropped, ring.count), (2, 4));
    assert_eq!(ring.ring.words, [4, 2]);
}

#[test]
fn repair_words_are_six() {
    let xs = [Sample::new(1.0, 0.0), Sample::new(-0.0, 2.0), Sample::ZERO];
    assert_eq!(
        repair_words(&xs, (0, 2)),
        [0, 2, 0x3f80_0000, 0x4000_0000_8000_0000, 0, 0]
    );
    // Adjacent repairs do not join.
    let ring = repair_ring(2, &xs, &[(0, 1), (1, 1), (2, 1)]);
    assert_eq!((ring.head, ring.held, ring.dropped), (1, 2, 1));
    assert_eq!(
        ring.words,
        [2, 1, 0, 0, 0, 0, 1, 1, 0x4000_0000_8000_0000, 0, 0, 0]
    );
}

#[test]
fn undo_skips_what_lies_outside() {
    let xs: Vec<Sample> = (0..8).map(|k| Sample::new(k as f32, 0.5)).collect();
    let ring: Ring = repair_ring(4, &xs, &[(1, 2), (4, 4)]);
    let zeros = [Sample::ZERO; 4];
    let re =
        |first: u64| -> Vec<f32> { undone(&ring, &zeros, first).iter().map(|y| y.re).collect() };
    assert_eq!(re(0), [0.0, 1.0, 2.0, 0.0]);
    assert_eq!(re(2), [2.0, 0.0, 4.0, 5.0]);
    assert_eq!(re(7), [7.0, 0.0, 0.0, 0.0]);
    assert_eq!(re(8), [0.0; 4]);
    assert_eq!(re(u64::MAX), [0.0; 4]);
}
