//! The silent set of a member: which rows set it, what it says of crashes, and how it stands in the bytes of a state.
use fcwfa::Code::{DecidedCommit, EstimateAbort, EstimateCommit, Nothing};
use fcwfa::{Code, Decided, Decision, Member, Processes, Refusal, Set, Vote, LARGEST};

/// The set of these processes.
fn set(numbers: &[usize]) -> Processes {
    let bits: Set = numbers.iter().map(|id| 1 << (id - 1)).sum();
    bits.into()
}

/// Members that all vote to commit, and that crash as (a) of the contract has it: in the rounds of one table, 0 for never, with the reaches
/// of another.
struct Cluster {
    members: Vec<Member>,
    crashes: Vec<usize>,
    reaches: Vec<Processes>,
    /// The round to play next.
    round: usize,
}

impl Cluster {
    fn open(t: usize, crashes: &[usize], reaches: &[Processes]) -> Cluster {
        let open = |id| Member::open(crashes.len(), t, id, Vote::Commit).unwrap();
        Cluster {
            members: (1..=crashes.len()).map(open).collect(),
            crashes: crashes.to_vec(),
            reaches: reaches.to_vec(),
            round: 1,
        }
    }

    /// Whether a process completes the round.
    fn completes(&self, id: usize) -> bool {
        let crash = self.crashes[id - 1];
        crash == 0 || crash > self.round
    }

    /// Whether the message of this round from one process comes to another.
    fn arrives(&self, from: usize, to: usize) -> bool {
        let crashes_now = self.crashes[from - 1] == self.round;
        self.completes(from) || crashes_now && self.reaches[from - 1].contains(to)
    }

    /// Plays a round. Answers who heard a row that sets the silent set: while undecided, from round 2 on, without a decided message.
    fn play(&mut self) -> Vec<usize> {
        let said: Vec<Code> = self.members.iter().map(Member::say).collect();
        let mut setting = Vec::new();
        for id in 1..=said.len() {
            if !self.completes(id) || self.members[id - 1].is_stopped() {
                continue;
            }
            let arrives = |from| self.arrives(from, id);
            let heard = |(from, &code)| if arrives(from) { code } else { Nothing };
            let row: Vec<Code> = (1..).zip(&said).map(heard).collect();
            let is_told = row.iter().any(|code| code.decision().is_some());
            let member = &mut self.members[id - 1];
            if member.decision().is_none() && self.round >= 2 && !is_told {
                setting.push(id);
            }
            assert_eq!(member.hear(&row), Ok(()));
        }
        self.round += 1;
        setting
    }

    /// The silent set of each member.
    fn silent(&self) -> Vec<Processes> {
        self.members.iter().map(Member::silent).collect()
    }
}

/// Case E of document 01: process 1 crashes in round 1 and reaches 2 and 3; process 4 in round 2 and reaches 2; process 2 in round 3 and
/// reaches nobody. Process 3 is left, and commits in round 4.
#[test]
fn the_silent_are_kept_round_by_round() {
    let nobody = set(&[]);
    let mut cluster = Cluster::open(3, &[1, 3, 0, 2], &[set(&[2, 3]), nobody, nobody, set(&[2])]);
    assert_eq!(cluster.silent(), [nobody; 4]);
    assert_eq!(cluster.play(), []);
    assert_eq!(cluster.silent(), [nobody; 4]);
    assert_eq!(cluster.play(), [2, 3]);
    assert_eq!(cluster.silent(), [nobody, set(&[1]), set(&[1, 4]), nobody]);
    assert_eq!(cluster.play(), [3]);
    let silent = [nobody, set(&[1]), set(&[1, 2, 4]), nobody];
    assert_eq!(cluster.silent(), silent);
    assert_eq!(cluster.members[2].decision(), None);
    assert_eq!(cluster.play(), [3]);
    assert_eq!(cluster.silent(), silent);
    let (decision, round) = (Decision::Commit, 4);
    let made = cluster.members[2].decision();
    assert_eq!(made, Some(Decided { decision, round }));
}

/// Every crash of process `id` of four, and none: its round and its reach.
fn crashes_of(id: usize) -> impl Iterator<Item = (usize, Processes)> {
    let reaches = (0..16).map(Processes::from);
    let others = move || reaches.clone().filter(move |reach| !reach.contains(id));
    let crashes = (1..=4).flat_map(move |round| others().map(move |reach| (round, reach)));
    crashes.chain([(0, set(&[]))])
}

/// Clusters of four in which processes 1 and 4 crash in all ways.
fn clusters() -> impl Iterator<Item = Cluster> {
    let both = crashes_of(1).flat_map(|one| crashes_of(4).map(move |four| [one, four]));
    both.map(|[one, four]| {
        let (crashes, reaches) = ([one.0, 0, 0, four.0], [one.1, set(&[]), set(&[]), four.1]);
        Cluster::open(3, &crashes, &reaches)
    })
}

/// After a row that sets it in round r, the set names each process that crashed before r, nobody who never crashes or crashes later, and
/// one that crashes in r exactly if its message did not come. Every other row leaves it.
#[test]
fn the_silent_have_crashed() {
    for mut cluster in clusters() {
        for round in 1..=4 {
            let mut due = cluster.silent();
            for id in cluster.play() {
                let is_silent = |other: &usize| match cluster.crashes[other - 1] {
                    0 => false,
                    crash if crash == round => !cluster.reaches[other - 1].contains(id),
                    crash => crash < round,
                };
                due[id - 1] = set(&(1..=4).filter(is_silent).collect::<Vec<usize>>());
            }
            assert_eq!(cluster.silent(), due);
        }
    }
}

/// Of which round a set is shows in the state as README.md says: undecided, of the one before the round to play next, if that is not
/// round 1; decided in d, of d or, if the member was told, of d - 1.
#[test]
fn a_state_shows_the_round_of_its_set() {
    let mut told = 0;
    for mut cluster in clusters() {
        let mut of_round = [0; 4];
        for round in 1..=4 {
            for id in cluster.play() {
                of_round[id - 1] = round;
            }
            for (member, of_round) in cluster.members.iter().zip(of_round) {
                match member.decision() {
                    None if member.round() <= 2 => assert_eq!(of_round, 0),
                    None => assert_eq!(of_round, member.round() - 1),
                    Some(made) if of_round == made.round => {}
                    Some(made) => {
                        assert_eq!(of_round, made.round - 1);
                        told += 1;
                    }
                }
                assert!(of_round > 0 || member.silent().is_empty());
            }
        }
    }
    assert!(told > 0);
}

/// A row of round 1, one with a decided message and one that a decided member hears leave the set, whoever is missing from them.
#[test]
fn other_rows_leave_the_set() {
    let mut member = Member::open(5, 4, 2, Vote::Commit).unwrap();
    let [a, c, d] = [EstimateAbort, EstimateCommit, DecidedCommit];
    let mut after = |row: [Code; 5]| {
        assert_eq!(member.hear(&row), Ok(()));
        (member.silent(), member.decision().map(|made| made.round))
    };
    assert_eq!(after([Nothing, c, c, c, c]), (set(&[]), None));
    assert_eq!(after([Nothing, a, c, c, c]), (set(&[1]), None));
    assert_eq!(after([Nothing, a, Nothing, d, c]), (set(&[1]), Some(3)));
    assert_eq!(after([Nothing, d, c, c, Nothing]), (set(&[1]), Some(3)));
}

/// A row by which the member decides sets it too: round 3 is quiet with one silent process, and a round with two is not.
#[test]
fn a_quiet_round_has_few_silent() {
    let mut member = Member::open(5, 4, 2, Vote::Commit).unwrap();
    let mut row = [EstimateCommit; 5];
    member.hear(&row).unwrap();
    row[4] = Nothing;
    member.hear(&row).unwrap();
    let mut other = member;
    member.hear(&row).unwrap();
    assert_eq!(member.silent(), set(&[5]));
    assert_eq!(member.decision().map(|made| made.round), Some(3));
    row[0] = Nothing;
    other.hear(&row).unwrap();
    assert_eq!((other.silent(), other.decision()), (set(&[1, 5]), None));
}

/// The state that README.md reads, after the run that it tells of.
#[test]
fn the_state_of_the_guide_is_that_of_its_run() {
    let (mut crashes, mut reaches) = ([0; 12], [set(&[]); 12]);
    for (id, round) in [(1, 2), (4, 2), (10, 3), (12, 3)] {
        crashes[id - 1] = round;
    }
    reaches[11] = set(&[7]);
    let mut cluster = Cluster::open(5, &crashes, &reaches);
    for _ in 1..=3 {
        cluster.play();
    }
    let (seven, eight) = (cluster.members[6], cluster.members[7]);
    let bytes = seven.to_bytes().map(|byte| format!("{byte:02x}"));
    let guide = include_str!("../../README.md");
    assert!(guide.contains(&format!("\n    {}\n", bytes.join(" "))));
    assert_eq!(seven.silent().to_string(), "{1, 4, 10}");
    assert_eq!(eight.silent().to_string(), "{1, 4, 10, 12}");
}

/// An undecided member with number 3 of n, and a silent set as eight bytes.
fn with_set(n: u8, bytes: [u8; 8]) -> Result<Member, Refusal> {
    let mut state = [n, 3, 3, 2, 1, 0, 0, 0, 0, 0, 0, 0, 0, 0];
    state[6..].copy_from_slice(&bytes);
    let member = Member::from_bytes(state)?;
    assert_eq!(member.to_bytes(), state);
    Ok(member)
}

/// Byte k of the set, from 0, has the processes 8 k + 1 to 8 k + 8, the lowest bit first.
#[test]
fn the_lowest_byte_is_first() {
    let silent = |bytes| with_set(64, bytes).map(|member| member.silent());
    let bytes = [0b1000_0011, 1, 0, 0, 0, 0, 0, 0x80];
    assert_eq!(silent(bytes), Ok(set(&[1, 2, 8, 9, 64])));
    for id in (1..=LARGEST).filter(|id| *id != 3) {
        let mut bytes = [0; 8];
        bytes[(id - 1) / 8] = 1 << ((id - 1) % 8);
        assert_eq!(silent(bytes), Ok(set(&[id])));
        assert_eq!(silent(bytes).map(Processes::bits), Ok(1 << (id - 1)));
    }
}

/// A set that names the member itself or a process above n is in no state.
#[test]
fn a_set_out_of_range_is_refused() {
    for n in [4, 5, 8, 9, 33, 63, 64] {
        for id in 1..=LARGEST {
            let is_in_range = id <= n.into() && id != 3;
            match with_set(n, set(&[id]).bits().to_le_bytes()) {
                Ok(member) => assert!(is_in_range && member.silent() == set(&[id])),
                Err(refusal) => assert!(!is_in_range && refusal == Refusal::State),
            }
        }
        let everybody = Set::MAX >> (LARGEST - usize::from(n));
        let others = everybody & !set(&[3]).bits();
        let member = with_set(n, others.to_le_bytes()).unwrap();
        assert_eq!(member.silent().len(), usize::from(n) - 1);
        assert_eq!(with_set(n, everybody.to_le_bytes()), Err(Refusal::State));
    }
}

/// In the largest cluster all but process 64 crash in round 1, and then all but process 1.
#[test]
fn all_others_of_the_largest_cluster_can_be_silent() {
    for id in [LARGEST, 1] {
        let (mut crashes, reaches) = ([1; LARGEST], [set(&[]); LARGEST]);
        crashes[id - 1] = 0;
        let mut cluster = Cluster::open(LARGEST - 1, &crashes, &reaches);
        assert_eq!(cluster.play(), []);
        assert_eq!(cluster.play(), [id]);
        let silent = cluster.members[id - 1].silent();
        assert_eq!(silent.bits(), !set(&[id]).bits());
        assert!(silent.iter().eq((1..=LARGEST).filter(|other| *other != id)));
        assert_eq!((silent.len(), silent.contains(id)), (LARGEST - 1, false));
    }
}

#[test]
fn a_set_lists_its_processes() {
    let (nobody, few) = (set(&[]), set(&[64, 1, 9]));
    assert_eq!((nobody.len(), nobody.is_empty()), (0, true));
    assert_eq!((few.len(), few.is_empty()), (3, false));
    assert!(nobody.iter().eq([]) && few.iter().eq([1, 9, 64]));
    assert!(few.into_iter().eq(few.iter()) && (&few).into_iter().eq(few.iter()));
    let contained = (0..=65).filter(|id| few.contains(*id));
    assert!(contained.eq(few.iter()) && !few.contains(usize::MAX));
    assert!(Processes::from(Set::MAX).iter().eq(1..=LARGEST));
    let mut numbers = few.iter();
    for left in [2, 1, 0] {
        assert!(numbers.next().is_some());
        assert_eq!(numbers.len(), left);
    }
    assert_eq!(Set::from(few), 1 | 1 << 8 | 1 << 63);
}

#[test]
fn a_set_prints_its_processes() {
    let sets = [set(&[]), set(&[4]), set(&[64, 1, 9])];
    let printed = ["{}", "{4}", "{1, 9, 64}"];
    assert_eq!(sets.map(|set| set.to_string()), printed);
    assert_eq!(sets.map(|set| format!("{set:?}")), printed);
}
