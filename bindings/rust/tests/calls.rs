//! Calls each function of the crate, and compares with what the rules say.

use keycount::{Cluster, Consumer, Move, Phase, Refusal, Step};

const SEED: [u8; 32] = [7; 32];

#[test]
fn records_are_appended_and_read() -> Result<(), Refusal> {
    // The partitions are those of Kafka's own tests of murmur2.
    let mut c = Cluster::new(&[4], &SEED)?;
    assert_eq!(c.append(0, b"foobar")?, (2, 0));
    assert_eq!(c.append(0, b"21")?, (0, 0));
    assert_eq!(c.append(0, b"21")?, (0, 1));
    assert_eq!(c.append(0, &[b'x'; 65536]), Err(Refusal::KeyTooLong));
    assert_eq!(c.append(1, b"21"), Err(Refusal::BadArgument));
    assert_eq!(c.read(0, 0, 9)?, [1, 1]);
    assert_eq!(c.read(0, 0, 1)?, [1]);
    assert_eq!(c.read(0, 3, 9), Err(Refusal::BadArgument));
    assert_eq!(
        (c.keys(), c.key(0)?, c.key(1)?),
        (2, b"foobar".to_vec(), b"21".to_vec())
    );
    assert_eq!(c.key(2), Err(Refusal::BadArgument));
    assert_eq!((c.end(0)?, c.committed(0)?, c.count(1)?), (2, 0, 0));
    c.append(0, &[b'x'; 100])?;
    assert_eq!(c.key(2)?, [b'x'; 100]);
    Ok(())
}

#[test]
fn partitions_move_when_they_are_given_up() -> Result<(), Refusal> {
    let mut c = Cluster::new(&[4], &SEED)?;
    assert_eq!((c.phase(), c.partitions()), (Phase::Empty, 4));
    let (a, b) = (c.join("A")?, c.join("B")?);
    assert_eq!((a, b, c.phase()), (1, 2, Phase::Preparing));
    assert_eq!(c.next_step(a), Step::Sync);
    let lease = c.sync(a)?;
    assert_eq!(lease.offsets, [(0, 0), (1, 0), (2, 0), (3, 0)]);
    assert_eq!(c.next_step(a), Step::Rejoin);
    c.rejoin(a, lease.generation, &lease.partitions())?;
    assert_eq!(
        (c.granted(a)?, c.assigned(a)?),
        (vec![0, 1, 2, 3], vec![0, 1])
    );
    for member in [a, b] {
        let lease = c.sync(member)?;
        c.rejoin(member, lease.generation, &lease.partitions())?;
    }
    assert_eq!(
        (c.generation(), c.phase(), c.is_settled()),
        (3, Phase::Stable, true)
    );
    assert_eq!((c.granted(a)?, c.granted(b)?), (vec![0, 1], vec![2, 3]));
    assert_eq!((c.owner(3), c.owner(4)), (Some(b), None));
    let moves = c.moves(0);
    assert_eq!(moves.len(), 6);
    assert_eq!(
        moves[0],
        Move {
            generation: 1,
            partition: 0,
            last: None,
            holder: a
        }
    );
    assert_eq!(
        c.moves(5),
        [Move {
            generation: 3,
            partition: 3,
            last: Some(a),
            holder: b
        }]
    );
    c.sync(a)?;
    assert_eq!(c.next_step(a), Step::Read);
    c.leave(a)?;
    c.lose(b)?;
    assert_eq!(c.members(), []);
    assert_eq!(c.granted(a), Err(Refusal::UnknownMember));
    Ok(())
}

#[test]
fn a_static_member_comes_back() -> Result<(), Refusal> {
    let mut c = Cluster::new(&[2], &SEED)?;
    assert_eq!(c.take_over("A"), Err(Refusal::NotKept));
    assert_eq!(c.member_named("A"), Ok(None));
    let first = c.join_static("A")?;
    assert!(c.is_kept(first));
    let again = c.take_over("A")?;
    assert_eq!((again, c.members()), (2, vec![2]));
    assert_eq!((c.is_kept(first), c.is_kept(again)), (false, true));
    assert_eq!(
        (c.member_named("A")?, c.name(first)?),
        (Some(again), "A".into())
    );
    assert_eq!(c.name(3), Err(Refusal::UnknownMember));
    assert_eq!(c.member_named("a b"), Err(Refusal::BadArgument));
    Ok(())
}

#[test]
fn a_commit_counts_once_and_says_why_not_again() -> Result<(), Refusal> {
    let mut c = Cluster::new(&[2, 3], &SEED)?;
    for _ in 0..3 {
        assert_eq!(c.append(1, b"foobar")?.0, 2);
    }
    let a = c.join("A")?;
    let g = c.sync(a)?.generation;
    let keys = c.read(2, 0, 2)?;
    assert_eq!(c.commit(a, g, 2, 0, &keys)?, 2);
    assert_eq!(
        c.commit(a, g, 2, 0, &keys),
        Err(Refusal::OffsetMismatch { committed: 2 })
    );
    assert_eq!(c.commit(a, g, 2, 2, &[1]), Err(Refusal::WrongRecords));
    assert_eq!((c.committed(2)?, c.count(0)?), (2, 2));
    Ok(())
}

#[test]
fn arguments_are_tested() {
    let most = [4096, 1];
    for partitions in [&[0][..], &[4097], &[], &[1; 9], &most] {
        assert_eq!(
            Cluster::new(partitions, &SEED).unwrap_err(),
            Refusal::BadArgument
        );
    }
    let mut c = Cluster::new(&most[..1], &SEED).unwrap();
    assert_eq!(c.join("a b"), Err(Refusal::BadArgument));
    assert_eq!(c.rejoin(1, 1, &[4096]), Err(Refusal::BadArgument));
}

#[test]
fn a_cluster_goes_to_another_thread() {
    let mut c = Cluster::new(&[1], &SEED).unwrap();
    let member = c.join("A").unwrap();
    let members = std::thread::spawn(move || c.members()).join().unwrap();
    assert_eq!(members, [member]);
}

#[test]
fn a_consumer_follows_its_group() -> Result<(), Refusal> {
    let mut c = Cluster::new(&[4], &SEED)?;
    for _ in 0..3 {
        c.append(0, b"foobar")?;
    }
    let mut a = Consumer::new(&mut c)?;
    assert_eq!(a.poll(&mut c, 2, 9), Err(Refusal::OutOfGroup));
    let member = a.join(&mut c, "A")?;
    assert_eq!(
        (a.member(), a.step(&mut c)?, a.step(&mut c)?),
        (Some(member), Step::Sync, Step::Read)
    );
    assert_eq!((a.generation(), a.holding()), (1, vec![0, 1, 2, 3]));
    assert_eq!(a.commit(&mut c, 2), Err(Refusal::EmptyCommit));
    assert_eq!(a.poll(&mut c, 2, 2)?, [0, 0]);
    assert_eq!((a.base(2), a.position(2)), (0, 2));
    assert_eq!(a.commit(&mut c, 2)?, 2);
    // The reply to its next commit is lost; that to the same commit tells of it.
    a.poll(&mut c, 2, 9)?;
    let sent = a.pending(&mut c, 2)?;
    c.commit(sent.member, sent.generation, 2, sent.offset, &sent.keys)?;
    assert_eq!(
        a.commit(&mut c, 2),
        Err(Refusal::OffsetMismatch { committed: 3 })
    );
    assert_eq!((a.base(2), c.count(0)?), (3, 3));
    let mut b = Consumer::new(&mut c)?;
    b.join(&mut c, "B")?;
    // Half of its partitions go to another: it holds them until it gives them up.
    assert_eq!(a.step(&mut c)?, Step::Rejoin);
    assert_eq!(a.step(&mut c)?, Step::Sync);
    assert_eq!((a.generation(), a.holding()), (2, vec![0, 1, 2, 3]));
    a.give_up();
    assert_eq!(a.holding(), [0, 1]);
    while !c.is_settled() {
        a.step(&mut c)?;
        b.step(&mut c)?;
    }
    assert_eq!(a.poll(&mut c, 2, 9), Err(Refusal::NotHeld));
    c.lose(member)?;
    assert_eq!(a.step(&mut c), Err(Refusal::UnknownMember));
    b.leave(&mut c)?;
    assert_eq!((b.member(), c.members()), (None, vec![]));
    Ok(())
}

#[test]
fn partitions_are_assigned_and_withheld() {
    // Two of six each: 5 keeps its lowest two, 2 its only one; the free ones go to 2, then to 9.
    let (members, owners) = ([2, 5, 9], [5, 5, 5, 5, 7, 2]);
    let target = [5, 5, 2, 9, 9, 2];
    assert_eq!(keycount::assign(&members, &owners), Ok(target.to_vec()));
    // What 5 still owns is withheld; 7 has left.
    assert_eq!(
        keycount::withhold(&members, &target, &owners),
        Ok(vec![5, 5, 0, 0, 9, 2])
    );
    for members in [&[][..], &[0, 5], &[5, 5], &[9, 5]] {
        assert_eq!(
            keycount::assign(members, &owners),
            Err(Refusal::BadArgument)
        );
    }
    for owners in [&[][..], &[0; 4097]] {
        assert_eq!(
            keycount::assign(&members, owners),
            Err(Refusal::BadArgument)
        );
    }
    assert_eq!(
        keycount::withhold(&members, &target[1..], &owners),
        Err(Refusal::BadArgument)
    );
}
