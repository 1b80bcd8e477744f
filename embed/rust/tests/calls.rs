//! The crate as a program uses it.
use fcwfa::{count_crashes, simulate, Code, Counts, CrashCount, Decided, Decision};
use fcwfa::{Member, Refusal, Report, Set, Vote, LARGEST};

/// A decision with its round.
fn decided(decision: Decision, round: usize) -> Option<Decided> {
    Some(Decided { decision, round })
}

/// Lets members with these votes exchange rows, without a crash, until all have stopped.
fn play(votes: [Vote; 4]) -> Result<Vec<Option<Decided>>, Refusal> {
    let mut members = Vec::new();
    for (id, vote) in (1..).zip(votes) {
        members.push(Member::open(4, 3, id, vote)?);
    }
    while !members.iter().all(Member::is_stopped) {
        let row: Vec<Code> = members.iter().map(Member::say).collect();
        for member in members.iter_mut().filter(|member| !member.is_stopped()) {
            member.hear(&row)?;
        }
    }
    Ok(members.iter().map(Member::decision).collect())
}

#[test]
fn members_commit_and_abort() {
    let mut votes = [Vote::Commit; 4];
    assert_eq!(play(votes), Ok(vec![decided(Decision::Commit, 2); 4]));
    votes[2] = Vote::Abort;
    assert_eq!(play(votes), Ok(vec![decided(Decision::Abort, 2); 4]));
}

#[test]
fn a_member_shows_what_it_is() {
    let mut member = Member::open(5, 4, 2, Vote::Commit).unwrap();
    assert_eq!((member.n(), member.t(), member.id()), (5, 4, 2));
    assert_eq!((member.round(), member.estimate()), (1, Decision::Commit));
    assert_eq!(member.say(), Code::EstimateCommit);
    // Process 4 crashes in round 1: the estimate becomes abort, and all that are heard in round 2 have taken it too.
    let mut row = [Code::EstimateCommit; 5];
    row[3] = Code::Nothing;
    assert_eq!(member.hear(&row), Ok(()));
    assert_eq!((member.round(), member.estimate()), (2, Decision::Abort));
    assert_eq!((member.decision(), member.is_stopped()), (None, false));
    assert!(member.silent().is_empty());
    row = [Code::EstimateAbort; 5];
    row[3] = Code::Nothing;
    assert_eq!(member.hear(&row), Ok(()));
    assert_eq!(member.decision(), decided(Decision::Abort, 2));
    assert!(member.silent().iter().eq([4]));
    assert_eq!(member.say(), Code::DecidedAbort);
    row = [Code::DecidedAbort; 5];
    row[3] = Code::Nothing;
    assert_eq!(member.hear(&row), Ok(()));
    assert_eq!((member.say(), member.is_stopped()), (Code::Nothing, true));
    assert_eq!(member.decision(), decided(Decision::Abort, 2));
}

#[test]
fn a_refused_member_call_changes_nothing() {
    let open = |n, t, id| Member::open(n, t, id, Vote::Commit);
    assert_eq!(open(3, 3, 1), Err(Refusal::N));
    assert_eq!(open(4, 4, 1), Err(Refusal::T));
    assert_eq!(open(4, 3, 0), Err(Refusal::Id));
    assert_eq!(open(4, 3, 5), Err(Refusal::Id));
    let mut member = open(4, 3, 2).unwrap();
    let before = member;
    let mut row = [Code::EstimateCommit; 4];
    assert_eq!(member.hear(&[]), Err(Refusal::RowLength));
    assert_eq!(member.hear(&row[1..]), Err(Refusal::RowLength));
    row[1] = Code::EstimateAbort;
    assert_eq!(member.hear(&row), Err(Refusal::OwnPlace));
    assert_eq!(member, before);
}

#[test]
fn a_schedule_is_run_to_its_end() {
    let report = simulate(4, 3, &[Vote::Commit; 4], &[1, 0, 0, 0], &[0b0010, 0, 0, 0]);
    let abort = decided(Decision::Abort, 3);
    let expected = Report {
        counts: Counts {
            f: 1,
            first: 2,
            last: 3,
            messages: 37,
        },
        decisions: vec![None, abort, abort, abort],
    };
    assert_eq!(report, Ok(expected));
}

/// All four decide in round 2. Process 1 crashes, in round 3 or after it has stopped, and one that never crashes is named first.
#[test]
fn a_survivor_is_first_among_equals() {
    let first = |crashes: [u8; 4]| {
        let report = simulate(4, 3, &[Vote::Commit; 4], &crashes, &[0; 4]);
        report.map(|report| report.counts.first)
    };
    assert_eq!(first([0, 0, 0, 0]), Ok(1));
    assert_eq!(first([3, 0, 0, 0]), Ok(2));
    assert_eq!(first([4, 0, 0, 0]), Ok(2));
    assert_eq!(first([3, 4, 4, 0]), Ok(4));
}

#[test]
fn a_schedule_that_breaks_a_rule_is_refused() {
    let votes = [Vote::Commit; 4];
    let run = |n, t, crashes: &[u8], reaches: &[Set]| {
        let report = simulate(n, t, &votes, crashes, reaches);
        report.map(|report| report.counts)
    };
    assert_eq!(run(3, 3, &[0; 4], &[0; 4]), Err(Refusal::N));
    assert_eq!(run(usize::MAX, 3, &[0; 4], &[0; 4]), Err(Refusal::N));
    assert_eq!(run(4, 4, &[0; 4], &[0; 4]), Err(Refusal::T));
    assert_eq!(run(5, 4, &[0; 5], &[0; 5]), Err(Refusal::Length));
    assert_eq!(run(4, 3, &[0; 3], &[0; 4]), Err(Refusal::Length));
    assert_eq!(run(4, 3, &[5; 4], &[9; 4]), Err(Refusal::Crash));
    assert_eq!(run(4, 3, &[1; 4], &[1; 4]), Err(Refusal::Reach));
    assert_eq!(run(4, 3, &[1; 4], &[0; 4]), Err(Refusal::Crashes));
}

/// The count ends at the crash that is too many, and above t it goes with a refusal.
#[test]
fn crashes_are_counted_up_to_the_one_too_many() {
    let crashes = [1, 0, 2, 3, 4, 4];
    let counted = |count, looked_at| CrashCount { count, looked_at };
    assert_eq!(count_crashes(1, &crashes), counted(2, 3));
    assert_eq!(count_crashes(3, &crashes), counted(4, 5));
    assert_eq!(count_crashes(4, &crashes), counted(5, 6));
    assert_eq!(count_crashes(5, &crashes), counted(5, 6));
    let run = |t| simulate(6, t, &[Vote::Commit; 6], &crashes, &[0; 6]);
    assert_eq!(run(4), Err(Refusal::Crashes));
    assert_eq!(run(5).map(|report| report.counts.f), Ok(5));
}

/// Process 2 of n crashes in round 1 and reaches the last process of the largest cluster alone.
fn one_crash(n: usize) -> Result<Counts, Refusal> {
    let (votes, mut crashes, mut reaches) = (vec![Vote::Commit; n], vec![0; n], vec![0; n]);
    crashes[1] = 1;
    reaches[1] = 1 << (LARGEST - 1);
    simulate(n, 3, &votes, &crashes, &reaches).map(|report| report.counts)
}

#[test]
fn the_largest_cluster_runs_and_a_larger_one_is_refused() {
    let (n, larger) = (LARGEST, LARGEST + 1);
    assert!(Member::open(n, n - 1, n, Vote::Commit).is_ok());
    assert_eq!(
        Member::open(larger, n - 1, n, Vote::Commit),
        Err(Refusal::N)
    );
    assert_eq!(
        one_crash(n),
        Ok(Counts {
            f: 1,
            first: 1,
            last: 3,
            messages: 4 * (n - 1) * (n - 1) + 1
        })
    );
    assert_eq!(one_crash(larger), Err(Refusal::N));
}
