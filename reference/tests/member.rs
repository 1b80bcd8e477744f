//! One member: what it says, what hearing does, and the refusals 1, 2, 4 and 10 to 17 in their order. Document 02, K7:
//! when the set of silent processes is set, when it is left, and when it is out of range.

use reference::member::Member;
use reference::questions::Refusal;
use reference::schedule::{bit, everyone};
use reference::{Set, LARGEST};

/// A member of n = 5, t = 4 with own number 2; its set is empty.
fn member(round: usize, estimate: u8, decided: usize) -> Member {
    Member {
        n: 5,
        t: 4,
        own: 2,
        round,
        estimate,
        decided,
        silent: 0,
    }
}

/// The same with a set.
fn with_set(member: Member, silent: Set) -> Member {
    Member { silent, ..member }
}

/// Estimate and decided round after a row.
fn heard(member: Member, row: [u8; 5]) -> (u8, usize) {
    let next = member.hear(&row).expect("the row is accepted");
    assert_eq!(next.round, member.round + 1);
    assert_eq!((next.n, next.t, next.own), (member.n, member.t, member.own));
    (next.estimate, next.decided)
}

#[test]
fn opening() {
    let opened = Member::open(5, 4, 2, 1);
    assert_eq!(opened, Ok(member(1, 1, 0)));
    assert_eq!(Member::open(3, 9, 9, 9), Err(Refusal::Processes));
    assert_eq!(Member::open(usize::MAX, 3, 1, 1), Err(Refusal::Processes));
    assert_eq!(Member::open(5, 5, 9, 9), Err(Refusal::CrashLimit));
    assert_eq!(Member::open(5, 2, 9, 9), Err(Refusal::CrashLimit));
    assert_eq!(Member::open(5, 4, 0, 9), Err(Refusal::OwnNumber));
    assert_eq!(Member::open(5, 4, 6, 9), Err(Refusal::OwnNumber));
    assert_eq!(Member::open(5, 4, 5, 2), Err(Refusal::Vote));
}

#[test]
fn saying() {
    assert_eq!(member(1, 0, 0).say(), Ok(1));
    assert_eq!(member(5, 1, 0).say(), Ok(2));
    assert_eq!(member(3, 0, 2).say(), Ok(3));
    assert_eq!(member(5, 1, 4).say(), Ok(4));
    assert_eq!(member(4, 1, 2).say(), Ok(0));
    assert_eq!(member(6, 1, 5).say(), Ok(0));
}

#[test]
fn states_out_of_range() {
    let undecided = [member(0, 1, 0), member(6, 1, 0), member(7, 1, 0)];
    let decided = [
        member(2, 1, 1),
        member(2, 1, 2),
        member(5, 1, 2),
        member(7, 1, 5),
        member(7, 1, 6),
        member(255, 1, 255),
    ];
    let limits = [
        Member {
            own: 0,
            ..member(1, 1, 0)
        },
        Member {
            own: 6,
            ..member(1, 1, 0)
        },
        Member {
            t: 5,
            ..member(1, 1, 0)
        },
        Member {
            n: LARGEST + 1,
            ..member(1, 1, 0)
        },
        member(1, 2, 0),
    ];
    for state in undecided.iter().chain(&decided).chain(&limits) {
        assert_eq!(state.say(), Err(Refusal::State), "{state:?}");
        assert_eq!(state.hear(&[]), Err(Refusal::State), "{state:?}");
    }
}

#[test]
fn refused_hearings() {
    assert_eq!(member(4, 1, 2).hear(&[]), Err(Refusal::Stopped));
    assert_eq!(member(6, 1, 5).hear(&[9; 5]), Err(Refusal::Stopped));
    let open = member(1, 1, 0);
    assert_eq!(open.hear(&[9; 4]), Err(Refusal::RowLength));
    assert_eq!(open.hear(&[2; 6]), Err(Refusal::RowLength));
    assert_eq!(open.hear(&[2, 0, 2, 2, 5]), Err(Refusal::Code));
    assert_eq!(open.hear(&[3, 1, 4, 2, 2]), Err(Refusal::OwnPlace));
    assert_eq!(open.hear(&[3, 2, 4, 2, 2]), Err(Refusal::EarlyDecided));
    let second = member(2, 1, 0);
    assert_eq!(second.hear(&[2, 2, 4, 2, 2]), Err(Refusal::EarlyDecided));
    let third = member(3, 1, 0);
    assert_eq!(third.hear(&[3, 2, 4, 2, 2]), Err(Refusal::BothDecided));
    let decided = member(3, 1, 2);
    assert_eq!(decided.hear(&[3, 4, 2, 2, 2]), Err(Refusal::BothDecided));
    assert_eq!(decided.hear(&[2, 2, 2, 2, 2]), Err(Refusal::OwnPlace));
}

#[test]
fn hearing_in_round_1() {
    assert_eq!(heard(member(1, 1, 0), [2, 2, 2, 2, 2]), (1, 0));
    assert_eq!(heard(member(1, 1, 0), [2, 2, 2, 2, 0]), (0, 0));
    assert_eq!(heard(member(1, 1, 0), [1, 2, 2, 2, 2]), (0, 0));
}

#[test]
fn hearing_in_round_2() {
    assert_eq!(heard(member(2, 1, 0), [2, 2, 2, 2, 2]), (1, 2));
    assert_eq!(heard(member(2, 1, 0), [1, 2, 2, 2, 2]), (0, 2));
    assert_eq!(heard(member(2, 1, 0), [2, 2, 2, 2, 0]), (1, 0));
    assert_eq!(heard(member(2, 1, 0), [1, 2, 2, 2, 0]), (0, 0));
    assert_eq!(heard(member(2, 0, 0), [0, 1, 0, 0, 0]), (0, 2));
}

#[test]
fn hearing_up_to_the_last_round() {
    // Round 3 = t - 1: one process may be silent.
    assert_eq!(heard(member(3, 1, 0), [0, 2, 2, 2, 2]), (1, 3));
    assert_eq!(heard(member(3, 1, 0), [0, 2, 0, 2, 1]), (0, 0));
    // Round 4 = t: n - t + 1 = 2 estimates.
    assert_eq!(heard(member(4, 1, 0), [0, 2, 0, 0, 2]), (1, 4));
    assert_eq!(heard(member(4, 1, 0), [0, 2, 0, 0, 0]), (1, 0));
    // Round 5 = t + 1.
    assert_eq!(heard(member(5, 1, 0), [0, 2, 0, 0, 0]), (1, 5));
}

/// Members with the last own number in clusters of 33 and 64, and those that their sizes and numbers shut out.
#[test]
fn opening_in_a_large_cluster() {
    for (n, t) in [(33, 32), (33, 3), (64, 63), (64, 3)] {
        let opened = Member::open(n, t, n, 1).expect("the member is opened");
        let bytes = [n as u8, t as u8, n as u8, 1, 1, 0, 0, 0, 0, 0, 0, 0, 0, 0];
        assert_eq!(opened.to_bytes(), bytes);
        assert_eq!(Member::open(n, n, n, 1), Err(Refusal::CrashLimit));
        assert_eq!(Member::open(n, t, n + 1, 1), Err(Refusal::OwnNumber));
    }
    assert_eq!(Member::open(65, 63, 64, 1), Err(Refusal::Processes));
}

/// A member of n = 64, t = 63 with own number 64 and estimate 1; its set is empty.
fn member_64(round: usize, decided: usize) -> Member {
    Member {
        n: 64,
        t: 63,
        own: 64,
        round,
        estimate: 1,
        decided,
        silent: 0,
    }
}

/// Its estimate and decided round after a row with so many estimates 1 at the end, its own included, and else nothing.
fn heard_64(round: usize, estimates: usize) -> (u8, usize) {
    let mut row = [0; 64];
    row[64 - estimates..].fill(2);
    let next = member_64(round, 0).hear(&row);
    let next = next.expect("the row is accepted");
    (next.estimate, next.decided)
}

#[test]
fn hearing_in_a_cluster_of_64() {
    assert_eq!(heard_64(1, 64), (1, 0));
    assert_eq!(heard_64(1, 63), (0, 0));
    assert_eq!(heard_64(2, 64), (1, 2));
    assert_eq!(heard_64(2, 63), (1, 0));
    // Round 62 = t - 1: 60 processes may be silent.
    assert_eq!(heard_64(62, 4), (1, 62));
    assert_eq!(heard_64(62, 3), (1, 0));
    // Round 63 = t: n - t + 1 = 2 estimates.
    assert_eq!(heard_64(63, 2), (1, 63));
    assert_eq!(heard_64(63, 1), (1, 0));
    // Round 64 = t + 1.
    assert_eq!(heard_64(64, 1), (1, 64));
    for length in [0, 32, 63, 65, 128] {
        let heard = member_64(1, 0).hear(&vec![2; length]);
        assert_eq!(heard, Err(Refusal::RowLength));
    }
}

/// The largest numbers of a state: decided in round t + 1 = 64 with round t + 2 = 65.
#[test]
fn the_last_rounds_of_a_cluster_of_64() {
    assert_eq!(member_64(64, 0).say(), Ok(2));
    assert_eq!(member_64(64, 63).say(), Ok(4));
    let stopped = member_64(65, 64);
    assert_eq!(stopped.say(), Ok(0));
    assert_eq!(stopped.hear(&[0; 64]), Err(Refusal::Stopped));
    let bytes = [64, 63, 64, 65, 1, 64, 0, 0, 0, 0, 0, 0, 0, 0];
    assert_eq!(stopped.to_bytes(), bytes);
    assert_eq!(Member::from_bytes(bytes), stopped);
    let out_of_range = [
        member_64(65, 0),
        member_64(66, 64),
        member_64(66, 65),
        Member {
            n: 65,
            ..member_64(1, 0)
        },
        Member {
            own: 65,
            ..member_64(1, 0)
        },
    ];
    for state in out_of_range {
        assert_eq!(state.say(), Err(Refusal::State), "{state:?}");
    }
}

#[test]
fn hearing_a_decision() {
    assert_eq!(heard(member(3, 1, 0), [3, 2, 0, 0, 0]), (0, 3));
    assert_eq!(heard(member(3, 0, 0), [0, 1, 0, 4, 1]), (1, 3));
    assert_eq!(heard(member(3, 1, 2), [1, 4, 1, 0, 0]), (1, 2));
}

/// The six numbers, then the set as eight bytes, lowest first.
#[test]
fn a_state_is_fourteen_bytes() {
    let sets = [
        (0, [0; 8]),
        (bit(1), [1, 0, 0, 0, 0, 0, 0, 0]),
        (bit(8) | bit(9), [0x80, 1, 0, 0, 0, 0, 0, 0]),
        (bit(33), [0, 0, 0, 0, 1, 0, 0, 0]),
        (bit(63), [0, 0, 0, 0, 0, 0, 0, 0x40]),
        (0x0807_0605_0403_0201, [1, 2, 3, 4, 5, 6, 7, 8]),
        (everyone(63), [255, 255, 255, 255, 255, 255, 255, 127]),
    ];
    for (set, set_bytes) in sets {
        let state = with_set(member_64(5, 4), set);
        let bytes = state.to_bytes();
        assert_eq!(bytes[..6], [64, 63, 64, 5, 1, 4]);
        assert_eq!(bytes[6..], set_bytes);
        assert_eq!(Member::from_bytes(bytes), state);
    }
    // Whatever the bytes are, they are those of the state that they stand for.
    let bytes = [
        9, 8, 7, 6, 5, 4, 0xf0, 0xe1, 0xd2, 0xc3, 0xb4, 0xa5, 0x96, 0x87,
    ];
    assert_eq!(Member::from_bytes(bytes).silent, 0x8796_a5b4_c3d2_e1f0);
    assert_eq!(Member::from_bytes(bytes).to_bytes(), bytes);
}

/// "It is empty at opening."
#[test]
fn the_set_is_empty_at_opening() {
    for (n, t) in [(4, 3), (5, 4), (33, 3), (64, 63)] {
        for own in [1, 2, n] {
            for vote in [0, 1] {
                let opened = Member::open(n, t, own, vote);
                assert_eq!(opened.expect("the member is opened").silent, 0);
            }
        }
    }
}

/// The set after a row heard by a member whose set was empty, whose set named processes 3 and 4, and whose set named
/// all others: one and the same if the row sets it.
fn set_by(member: Member, row: [u8; 5]) -> Set {
    let after = |silent| {
        let next = with_set(member, silent).hear(&row);
        next.expect("the row is accepted").silent
    };
    let set = after(0);
    assert_eq!(after(0b01100), set);
    assert_eq!(after(0b11101), set);
    set
}

/// Expects a row to leave the set, whatever it is.
fn left_by(member: Member, row: [u8; 5]) {
    for silent in [0, 0b00001, 0b01100, 0b11101] {
        let next = with_set(member, silent).hear(&row);
        assert_eq!(next.expect("the row is accepted").silent, silent);
    }
}

/// "A row heard while undecided from round 2 on, without a decided message, makes it the processes that sent no
/// estimate."
#[test]
fn rows_that_set_it() {
    // Nobody is silent: estimates 1, 0, and both.
    assert_eq!(set_by(member(2, 1, 0), [2, 2, 2, 2, 2]), 0);
    assert_eq!(set_by(member(2, 0, 0), [1, 1, 1, 1, 1]), 0);
    assert_eq!(set_by(member(2, 1, 0), [1, 2, 2, 1, 2]), 0);
    // An estimate of 0 is an estimate.
    assert_eq!(set_by(member(2, 0, 0), [0, 1, 1, 2, 0]), 0b10001);
    assert_eq!(set_by(member(3, 1, 0), [2, 2, 0, 1, 0]), 0b10100);
    // Every other process is silent.
    assert_eq!(set_by(member(2, 1, 0), [0, 2, 0, 0, 0]), 0b11101);
    assert_eq!(set_by(member(4, 0, 0), [0, 1, 0, 0, 0]), 0b11101);
    // Rounds t and t + 1.
    assert_eq!(set_by(member(4, 1, 0), [0, 2, 0, 0, 2]), 0b01101);
    assert_eq!(set_by(member(5, 1, 0), [2, 2, 0, 2, 2]), 0b00100);
}

/// A row that decides sets it as well, by whichever rule it decides; the decision is worked in the tests above.
#[test]
fn a_row_that_decides_sets_it() {
    // Round 2, zeros only.
    assert_eq!(heard(member(2, 0, 0), [0, 1, 0, 0, 0]), (0, 2));
    assert_eq!(set_by(member(2, 0, 0), [0, 1, 0, 0, 0]), 0b11101);
    // Round 2 and nobody silent; round 3 = t - 1 and one silent process.
    assert_eq!(heard(member(2, 1, 0), [2, 2, 2, 2, 2]), (1, 2));
    assert_eq!(set_by(member(2, 1, 0), [2, 2, 2, 2, 2]), 0);
    assert_eq!(heard(member(3, 1, 0), [0, 2, 2, 2, 2]), (1, 3));
    assert_eq!(set_by(member(3, 1, 0), [0, 2, 2, 2, 2]), 0b00001);
    // Round 4 = t and two estimates; round 5 = t + 1.
    assert_eq!(heard(member(4, 1, 0), [0, 2, 0, 0, 2]), (1, 4));
    assert_eq!(set_by(member(4, 1, 0), [0, 2, 0, 0, 2]), 0b01101);
    assert_eq!(heard(member(5, 1, 0), [0, 2, 0, 0, 0]), (1, 5));
    assert_eq!(set_by(member(5, 1, 0), [0, 2, 0, 0, 0]), 0b11101);
}

/// "Every other row leaves it."
#[test]
fn rows_that_leave_it() {
    // Round 1, whoever is silent there.
    left_by(member(1, 1, 0), [2, 2, 2, 2, 2]);
    left_by(member(1, 1, 0), [0, 2, 0, 0, 0]);
    left_by(member(1, 0, 0), [0, 1, 2, 1, 0]);
    // A row with a decided message, with silent processes and without.
    left_by(member(3, 1, 0), [3, 2, 0, 0, 0]);
    left_by(member(3, 0, 0), [0, 1, 0, 4, 1]);
    left_by(member(3, 1, 0), [2, 2, 2, 2, 4]);
    left_by(member(5, 0, 0), [3, 1, 3, 3, 3]);
    // A row heard by a decided member: its own place is a decided message.
    left_by(member(3, 1, 2), [1, 4, 1, 0, 0]);
    left_by(member(4, 0, 3), [0, 3, 0, 0, 0]);
    left_by(member(5, 1, 4), [2, 4, 2, 2, 2]);
}

/// After a row that sets it, as many are named as n minus the estimates heard: every row of codes 0, 1 and 2 at n = 5.
/// So the rule of rounds up to t - 1 asks for at most r - 2 in the set; no other one holds there, for the own estimate
/// is 1.
#[test]
fn the_ones_of_the_set_are_n_minus_the_estimates() {
    for number in 0..81_usize {
        let code = |place: u32| (number / 3_usize.pow(place) % 3) as u8;
        let row = [code(0), 2, code(1), code(2), code(3)];
        let estimates = row.iter().filter(|code| **code != 0).count();
        for round in 2..=5 {
            let set = set_by(member(round, 1, 0), row);
            let ones = set.count_ones() as usize;
            assert_eq!(ones, 5 - estimates);
            if round <= 3 {
                let (_, decided) = heard(member(round, 1, 0), row);
                assert_eq!(decided != 0, ones <= round - 2, "{row:?}");
            }
            for i in 1..=5 {
                assert_eq!(set & bit(i) != 0, row[i - 1] == 0, "{row:?}");
            }
        }
    }
}

/// The set in a cluster of 64: process 1 alone, those on both sides of the middle, all but the own one, which is 64.
#[test]
fn the_set_in_a_cluster_of_64() {
    let set = |silent: &[usize]| {
        let mut row = [2; 64];
        for i in silent {
            row[i - 1] = 0;
        }
        let next = member_64(2, 0).hear(&row);
        next.expect("the row is accepted").silent
    };
    assert_eq!(set(&[]), 0);
    assert_eq!(set(&[1]), 1);
    assert_eq!(set(&[32, 33]), 0x1_8000_0000);
    assert_eq!(set(&[1, 63]), 0x4000_0000_0000_0001);
    let others: Vec<usize> = (1..64).collect();
    assert_eq!(set(&others), 0x7fff_ffff_ffff_ffff);
    // Process 1 hears nothing from the others: process 64 is the last bit.
    let first = Member {
        own: 1,
        ..member_64(2, 0)
    };
    let mut row = [0; 64];
    row[0] = 2;
    let next = first.hear(&row).expect("the row is accepted");
    assert_eq!(next.silent, 0xffff_ffff_ffff_fffe);
}

/// What a saying and a hearing of a row that is too long are answered: a state in range is asked for first.
fn in_range(state: Member) -> bool {
    let said = state.say().is_ok();
    let refusal = if said {
        Refusal::RowLength
    } else {
        Refusal::State
    };
    assert_eq!(state.hear(&[2; 65]), Err(refusal), "{state:?}");
    said
}

/// "In range now also means that it names only processes 1 to n and not the own number." Nothing is asked about the
/// round: an opened member and one in round 2 may have any such set.
#[test]
fn sets_in_range_and_out_of_range() {
    for state in [
        member(1, 1, 0),
        member(2, 0, 0),
        member(5, 1, 0),
        member(4, 0, 3),
    ] {
        for set in 0..0b10_0000 {
            let own_named = set & 0b00010 != 0;
            assert_eq!(in_range(with_set(state, set)), !own_named);
        }
        for above in 6..=64 {
            assert!(!in_range(with_set(state, bit(above))), "{above}");
            assert!(!in_range(with_set(state, 0b11101 | bit(above))), "{above}");
        }
        for set in [Set::MAX, Set::MAX - 0b00010, 0b11111, everyone(6)] {
            assert!(!in_range(with_set(state, set)), "{set:b}");
        }
    }
}

/// With n = 64 there are no bits above n: all but the own one may be named, the last bit, which is process 64, among
/// them. With n = 63 that bit is above n.
#[test]
fn the_last_bit_of_a_set() {
    let of_size = |n, own| Member {
        n,
        t: 62,
        own,
        ..member_64(3, 0)
    };
    for own in [1, 2, 32, 33, 63, 64] {
        let state = of_size(64, own);
        assert!(in_range(with_set(state, 0)));
        assert!(in_range(with_set(state, Set::MAX & !bit(own))));
        assert!(!in_range(with_set(state, Set::MAX)));
        assert!(!in_range(with_set(state, bit(own))));
        assert_eq!(in_range(with_set(state, bit(64))), own != 64);
    }
    for own in [1, 2, 32, 33, 62, 63] {
        let state = of_size(63, own);
        assert!(in_range(with_set(state, everyone(63) & !bit(own))));
        assert!(!in_range(with_set(state, bit(64))));
        assert!(!in_range(with_set(state, everyone(63))));
        assert_eq!(in_range(with_set(state, bit(63))), own != 63);
    }
}

/// A refused hearing has the number of the first question whose answer is no: the set is part of the first.
#[test]
fn a_set_out_of_range_is_asked_before_the_row() {
    let wrong = with_set(member(4, 1, 2), bit(2));
    assert_eq!(wrong.hear(&[]), Err(Refusal::State));
    assert_eq!(member(4, 1, 2).hear(&[]), Err(Refusal::Stopped));
    let wrong = with_set(member(3, 1, 0), bit(6));
    assert_eq!(wrong.hear(&[3, 2, 4, 2, 2]), Err(Refusal::State));
}
