//! P1 to P8, the flow test's answers, and the lists of clauses that are malformed.

use reference::label::Label;
use reference::table::{clause, formula, Table};

const PLAYER: u8 = 1;
const DEALER: u8 = 2;
const BENCH: u8 = 4;
const HIRER: u8 = 64;
const DESK: u8 = 128;

fn label(secrecy: &[u8], integrity: &[u8]) -> Label {
    let table = |masks| formula(masks).expect("a well-formed list");
    Label { secrecy: table(secrecy), integrity: table(integrity) }
}

#[test]
fn p1_to_p5_tables() {
    let words: [(&[u8], u64); 5] = [
        (&[], u64::MAX),
        (&[0x01], 0xAAAA_AAAA_AAAA_AAAA),
        (&[0x03], 0xEEEE_EEEE_EEEE_EEEE),
        (&[0x01, 0x02], 0x8888_8888_8888_8888),
        (&[0x00], 0),
    ];
    for (masks, word) in words {
        assert_eq!(formula(masks), Some(Table([word; 4])), "{masks:?}");
    }
}

/// The last two principals choose the word: the first without both, then with the hirer, with
/// the desk, and with both.
#[test]
fn tables_of_the_last_two() {
    let tables: [(&[u8], [u64; 4]); 5] = [
        (&[HIRER], [0, u64::MAX, 0, u64::MAX]),
        (&[DESK], [0, 0, u64::MAX, u64::MAX]),
        (&[HIRER | DESK], [0, u64::MAX, u64::MAX, u64::MAX]),
        (&[HIRER, DESK], [0, 0, 0, u64::MAX]),
        (&[PLAYER | HIRER], [0xAAAA_AAAA_AAAA_AAAA, u64::MAX, 0xAAAA_AAAA_AAAA_AAAA, u64::MAX]),
    ];
    for (masks, words) in tables {
        assert_eq!(formula(masks), Some(Table(words)), "{masks:?}");
    }
}

/// Each of these tests fails by one word alone.
#[test]
fn a_flow_test_by_one_word() {
    let formulas: [(&[u8], &[u8]); 4] =
        [(&[HIRER | DESK], &[]), (&[DESK], &[HIRER]), (&[HIRER], &[DESK]), (&[0], &[HIRER, DESK])];
    for (word, (conclusion, premise)) in formulas.into_iter().enumerate() {
        let (secret, open) = (label(conclusion, &[]), label(premise, &[]));
        assert_eq!(secret.flow_test(open), 1);
        assert_eq!(label(&[], premise).flow_test(label(&[], conclusion)), 2);
        let failing = |at: usize| open.secrecy.0[at] & !secret.secrecy.0[at] != 0;
        assert_eq!((0..4).filter(|&at| failing(at)).collect::<Vec<_>>(), [word]);
    }
}

#[test]
fn p6_either_flows_to_one_of_them() {
    let (either, player) = (label(&[PLAYER | DEALER], &[]), label(&[PLAYER], &[]));
    assert_eq!(either.flow_test(player), 0);
    assert_eq!(player.flow_test(either), 1);
}

#[test]
fn p7_integrity_may_be_lost_and_not_won() {
    let (vouched, public) = (label(&[], &[BENCH]), Label::PUBLIC);
    assert_eq!(vouched.flow_test(public), 0);
    assert_eq!(public.flow_test(vouched), 2);
}

#[test]
fn both_halves_fail() {
    let (player, vouched_dealer) = (label(&[PLAYER], &[]), label(&[DEALER], &[BENCH]));
    assert_eq!(player.flow_test(vouched_dealer), 3);
    // Back, the integrity is lost, which is allowed.
    assert_eq!(vouched_dealer.flow_test(player), 1);
    // Neither vouches for the other.
    assert_eq!(vouched_dealer.flow_test(label(&[PLAYER], &[PLAYER])), 3);
    // More secret, and not vouched for.
    assert_eq!(player.flow_test(label(&[PLAYER, DEALER], &[BENCH])), 2);
}

/// Labels that stand in every order to one another.
fn labels() -> Vec<Label> {
    let formulas: [&[u8]; 12] = [
        &[],
        &[PLAYER],
        &[DEALER],
        &[PLAYER | DEALER],
        &[PLAYER, DEALER],
        &[BENCH],
        &[3, 5, 6],
        &[HIRER],
        &[DESK],
        &[HIRER | DESK],
        &[PLAYER, HIRER, DESK],
        &[0],
    ];
    formulas.iter().flat_map(|secrecy| formulas.map(|integrity| label(secrecy, integrity))).collect()
}

/// The answer by the paper's words, one set of principals at a time.
#[test]
fn the_answer_set_by_set() {
    let fails = |premise: Table, conclusion: Table| {
        (0..256).any(|set| premise.holds_for(set) && !conclusion.holds_for(set))
    };
    for from in labels() {
        for to in labels() {
            let answer = match (fails(to.secrecy, from.secrecy), fails(from.integrity, to.integrity)) {
                (false, false) => 0,
                (true, false) => 1,
                (false, true) => 2,
                (true, true) => 3,
            };
            assert_eq!(from.flow_test(to), answer, "{from:x?} {to:x?}");
            assert_eq!(from.flows_to(to), answer == 0, "{from:x?} {to:x?}");
        }
    }
}

/// A join fails in a half exactly if one of the two fails in it. So the raised label
/// of OPEN gives the record's own answer, as the current label flows to the clearance.
#[test]
fn a_join_fails_where_one_of_the_two_does() {
    for (one, other) in
        labels().into_iter().flat_map(|one| labels().into_iter().map(move |other| (one, other)))
    {
        for to in labels() {
            assert_eq!(one.join(other).flow_test(to), one.flow_test(to) | other.flow_test(to));
            assert_eq!(to.flow_test(one.meet(other)), to.flow_test(one) | to.flow_test(other));
        }
    }
}

#[test]
fn p8_join() {
    let joined = label(&[PLAYER], &[]).join(label(&[DEALER], &[BENCH]));
    assert_eq!(joined, label(&[PLAYER, DEALER], &[]));
}

#[test]
fn meet() {
    let met = label(&[PLAYER], &[]).meet(label(&[DEALER], &[BENCH]));
    assert_eq!(met, label(&[PLAYER | DEALER], &[BENCH]));
}

#[test]
fn a_clause_holds_for_the_sets_that_share_a_member() {
    for mask in 0..=255u8 {
        for set in 0..=255u8 {
            let word = clause(mask).0[usize::from(set) / 64];
            assert_eq!(word >> (set % 64) & 1 == 1, mask & set != 0, "clause {mask}, set {set}");
        }
    }
}

/// All lists of one or two masks, and some of three, against the paper's own words.
#[test]
fn malformed_lists() {
    let subset = |one: u8, other: u8| one & !other == 0;
    for a in 0..=255u8 {
        assert!(formula(&[a]).is_some(), "{a}");
        for b in 0..=255u8 {
            let pair = a < b && !subset(a, b) && !subset(b, a);
            assert_eq!(formula(&[a, b]).is_some(), pair, "{a} {b}");
            for c in (0..=255u8).step_by(7).filter(|_| pair) {
                let triple = b < c && ![a, b].iter().any(|&m| subset(m, c) || subset(c, m));
                assert_eq!(formula(&[a, b, c]).is_some(), triple, "{a} {b} {c}");
            }
        }
    }
}

#[test]
fn seventy_clauses_at_most() {
    let mut masks: Vec<u8> = (0..=255).filter(|mask: &u8| mask.count_ones() == 4).collect();
    assert_eq!(masks.len(), 70);
    assert!(formula(&masks).is_some_and(|table| table != Table::TRUE));
    masks.push(255);
    assert_eq!(formula(&masks), None);
}
