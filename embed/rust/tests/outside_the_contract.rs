//! What becomes of members outside of the contract of `embed/README.md`: why the contract is needed.
use fcwfa::{bytes, Code, Decided, Decision, Member, Refusal, Vote};

/// A decision with its round.
fn decided(decision: Decision, round: usize) -> Option<Decided> {
    Some(Decided { decision, round })
}

/// Four members with t = 3 that all vote to commit.
fn four() -> Vec<Member> {
    (1..=4)
        .map(|id| Member::open(4, 3, id, Vote::Commit).unwrap())
        .collect()
}

/// Plays rounds until all have stopped. Nobody crashes. Where the message of a round from one process to another is lost, nothing is put
/// down for it: what (a) of the contract forbids.
fn play(
    mut members: Vec<Member>,
    lost: fn(round: usize, from: usize, to: usize) -> bool,
) -> Result<Vec<Member>, Refusal> {
    while !members.iter().all(Member::is_stopped) {
        let said: Vec<Code> = members.iter().map(Member::say).collect();
        for member in members.iter_mut().filter(|member| !member.is_stopped()) {
            let arrives = |from| !lost(member.round(), from, member.id());
            let heard = |(from, &code)| if arrives(from) { code } else { Code::Nothing };
            let row: Vec<Code> = (1..).zip(&said).map(heard).collect();
            member.hear(&row)?;
        }
    }
    Ok(members)
}

/// What each member decided.
fn decisions(members: &[Member]) -> Vec<Option<Decided>> {
    members.iter().map(Member::decision).collect()
}

/// The messages that are lost in the split.
fn split(round: usize, from: usize, to: usize) -> bool {
    match round {
        1 => (from, to) == (1, 4),
        2 => from == 4 && to <= 2,
        _ => from >= 3 && to <= 2,
    }
}

/// A run outside of the contract: all vote to commit and nobody crashes, but messages are lost and nothing is put down for them. Members 3
/// and 4 abort in round 2, members 1 and 2 commit in round 3, and no call is refused. The library cannot see it; the contract must rule it
/// out. The silent sets then name processes that have not crashed.
#[test]
fn lost_messages_put_down_as_crashes_split_the_cluster() {
    let (commit, abort) = (decided(Decision::Commit, 3), decided(Decision::Abort, 2));
    let members = play(four(), split).unwrap();
    assert_eq!(decisions(&members), [commit, commit, abort, abort]);
    let silent: Vec<String> = members.iter().map(|m| m.silent().to_string()).collect();
    assert_eq!(silent, ["{3, 4}", "{3, 4}", "{}", "{}"]);
}

/// The same members within the contract: every message arrives, and all commit in round 2.
#[test]
fn the_same_members_agree_if_every_message_arrives() {
    let commit = decided(Decision::Commit, 2);
    let members = play(four(), |_, _, _| false).unwrap();
    assert_eq!(decisions(&members), [commit; 4]);
    assert!(members.iter().all(|member| member.silent().is_empty()));
}

/// A byte from the wire that is no code is refused, before it can stand in a row and by the call on bare bytes, which then changes nothing.
#[test]
fn a_byte_that_is_no_code_is_refused() {
    assert_eq!(Code::try_from(9), Err(Refusal::Code));
    for member in four() {
        let mut state = member.to_bytes();
        assert_eq!(bytes::hear(&mut state, &[2, 2, 9, 2]), Err(14));
        assert_eq!(state, member.to_bytes());
    }
}

/// Some of what is outside of the contract shows in a row. It is refused, the member is as it was, and a decision stands.
#[test]
fn what_shows_in_a_row_is_refused() {
    use Code::{DecidedAbort, DecidedCommit, EstimateCommit, Nothing};
    let mut member = Member::open(4, 3, 2, Vote::Commit).unwrap();
    let mut row = [EstimateCommit; 4];
    for round in 1..=4 {
        // In round 2 process 1 crashes; in round 3 those that are left decide, and say so in round 4.
        row[0] = if round == 1 { EstimateCommit } else { Nothing };
        if round == 4 {
            row[1..].fill(DecidedCommit);
        }
        let before = member;
        let (wrong, refusal) = match round {
            1 | 2 => ([row[0], row[1], DecidedCommit, row[3]], Refusal::Early),
            _ => ([row[0], row[1], DecidedAbort, DecidedCommit], Refusal::Both),
        };
        assert_eq!(member.hear(&wrong), Err(refusal));
        assert_eq!(member, before);
        assert_eq!(member.hear(&row), Ok(()));
    }
    let commit = decided(Decision::Commit, 3);
    assert_eq!((member.decision(), member.say()), (commit, Nothing));
    assert_eq!(member.hear(&[Nothing; 4]), Err(Refusal::Stopped));
    assert_eq!(member.decision(), commit);
}
