//! The calls on bare bytes and numbers: they take anything, and what is refused changes nothing.
use fcwfa::bytes::{count_crashes, hear, open, say, simulate, NO_DECISION};
use fcwfa::{Counts, CrashCount, Set};

#[test]
fn members_commit() {
    let mut states = [1, 2, 3, 4].map(|id| open(4, 3, id, 1).unwrap());
    for row in [[2; 4], [2; 4], [4; 4]] {
        for state in &mut states {
            assert_eq!(say(state), Ok(row[0]));
            assert_eq!(hear(state, &row), Ok(()));
        }
    }
    let due = |id| [4, 3, id, 4, 1, 2, 0, 0, 0, 0, 0, 0, 0, 0];
    assert_eq!(states, [1, 2, 3, 4].map(due));
    assert!(states.iter().all(|state| say(state) == Ok(0)));
}

#[test]
fn an_opening_with_any_numbers_is_refused() {
    assert_eq!(open(usize::MAX, 3, 1, 1), Err(1));
    assert_eq!(open(4, usize::MAX, 1, 1), Err(2));
    assert_eq!(open(4, 3, 256 + 1, 1), Err(10));
    assert_eq!(open(4, 3, 1, 2), Err(4));
}

#[test]
fn a_refused_call_leaves_the_bytes_as_they_were() {
    let mut state = open(4, 3, 2, 1).unwrap();
    let before = state;
    assert_eq!(hear(&mut state, &[2, 2, 2]), Err(13));
    assert_eq!(hear(&mut state, &[2, 1, 2, 2]), Err(15));
    assert_eq!(hear(&mut state, &[2, 2, 2, 5]), Err(14));
    assert_eq!(state, before);
    let (mut no_round, mut own_silent) = (before, before);
    no_round[3] = 200;
    own_silent[6] = 0b0010;
    for bytes in [[9; 14], no_round, own_silent] {
        state = bytes;
        assert_eq!(say(&state), Err(11));
        assert_eq!(hear(&mut state, &[]), Err(11));
        assert_eq!(state, bytes);
    }
}

#[test]
fn a_schedule_is_run_to_its_end() {
    let (mut decisions, mut rounds) = ([9; 4], [9; 4]);
    let counts = simulate(
        4,
        3,
        &[1; 4],
        &[1, 0, 0, 0],
        &[0b0010, 0, 0, 0],
        &mut decisions,
        &mut rounds,
    );
    assert_eq!(
        counts,
        Ok(Counts {
            f: 1,
            first: 2,
            last: 3,
            messages: 37
        })
    );
    assert_eq!(decisions, [NO_DECISION, 0, 0, 0]);
    assert_eq!(rounds, [0, 3, 3, 3]);
}

#[test]
fn a_refused_schedule_leaves_the_tables_as_they_were() {
    let (mut decisions, mut rounds) = ([9; 4], [9; 4]);
    let mut run = |t, votes: &[u8], crashes: &[u8], reaches: &[Set]| {
        simulate(4, t, votes, crashes, reaches, &mut decisions, &mut rounds)
    };
    assert_eq!(run(4, &[1; 4], &[0; 4], &[0; 4]), Err(2));
    assert_eq!(run(3, &[1; 3], &[0; 4], &[0; 4]), Err(3));
    assert_eq!(run(3, &[], &[], &[]), Err(3));
    assert_eq!(run(3, &[2; 4], &[9; 4], &[9; 4]), Err(4));
    assert_eq!(run(3, &[1; 4], &[5; 4], &[9; 4]), Err(5));
    assert_eq!(run(3, &[1; 4], &[1; 4], &[1; 4]), Err(6));
    assert_eq!(run(3, &[1; 4], &[1; 4], &[0; 4]), Err(7));
    assert_eq!((decisions, rounds), ([9; 4], [9; 4]));
}

#[test]
fn a_count_of_crashes_takes_anything() {
    let counted = |count, looked_at| Ok(CrashCount { count, looked_at });
    for t in [0, 3, usize::MAX] {
        assert_eq!(count_crashes(t, &[]), counted(0, 0));
        assert_eq!(count_crashes(t, &[0; 100]), counted(0, 100));
    }
    assert_eq!(count_crashes(0, &[0, 255, 1]), counted(1, 2));
    assert_eq!(count_crashes(98, &[9; 100]), counted(99, 99));
    assert_eq!(count_crashes(99, &[9; 100]), counted(100, 100));
    assert_eq!(count_crashes(usize::MAX, &[9; 100]), counted(100, 100));
}
