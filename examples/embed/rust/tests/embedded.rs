//! A member comes and goes. The bytes are KIP-848's, by the Kafka protocol guide.

use migwelun::{Answer, Applied, Coordinator, Error, Place, Replica, Stamp, Topic};

const FIRST: &str = "00000000-0000-0000-0000-000000000001";
const T: Topic<'_> = Topic { name: "t", id: [0x11; 16], partitions: 2 };

/// A join of group g that subscribes t.
const JOIN: [u8; 30] = [
    0, 68, 0, 0, 0, 0, 0, 7, 0xff, 0xff, 0, 2, b'g', 1, 0, 0, 0, 0, 0, 0, 0, 0, 0xea, 0x60, 2, 2, b't', 0, 1, 0,
];

/// Its reply: partitions 0 and 1 at member epoch 1.
fn reply() -> Vec<u8> {
    let head = [0, 0, 0, 0x57, 0, 0, 0, 7, 0, 0, 0, 0, 0, 0, 0, 0, 37];
    let tail = [0, 0, 0, 1, 0, 0, 0x13, 0x88, 1, 2];
    let parts = [3, 0, 0, 0, 0, 0, 0, 0, 1, 0, 0, 0];
    [&head[..], FIRST.as_bytes(), &tail[..], &T.id[..], &parts[..]].concat()
}

#[test]
fn a_member_comes_and_goes() -> Result<(), Error> {
    let mut it = Coordinator::new(0, &[7; 16])?;
    it.set_topics(&[T])?;
    let at = |frame| Stamp { connection: 1, frame };
    assert_eq!(it.answer(&JOIN, at(1), 0)?, Answer::Reply(reply()));
    assert_eq!((it.epochs("g", FIRST), it.epochs("g", "n")), (Some((1, 0)), None));
    assert_eq!(it.answer(&JOIN[1..], at(2), 0)?, Answer::Close);
    let mut it = std::thread::spawn(move || (it.tick(44_999), it.tick(45_000), it)).join().unwrap();
    assert_eq!((it.0, it.1, it.2.epochs("g", FIRST), it.2.remembers("g", FIRST)), (0, 1, None, true));
    Ok(())
}

#[test]
fn topics_have_faults() -> Result<(), Error> {
    let mut it = Coordinator::new(0, &[7; 16])?;
    let faults = [
        (vec![T, Topic { id: [0x22; 16], ..T }], Error::DuplicateName),
        (vec![T, Topic { name: "u", ..T }], Error::DuplicateId),
        (vec![Topic { partitions: 1_000_001, ..T }], Error::TooMany),
        (vec![Topic { partitions: 0, ..T }], Error::BadCount),
    ];
    for (topics, fault) in faults {
        assert_eq!(it.set_topics(&topics), Err(fault));
    }
    it.set_topics(&[])
}

#[test]
fn a_replica_applies_what_another_proposed() -> Result<(), Error> {
    let (mut leader, mut follower) = (Replica::new(0, &[7; 16])?, Replica::new(0, &[8; 16])?);
    let leads = leader.lead()?;
    assert_eq!((&leads[..], leader.apply(1, &leads)), (&[0, 0, 0, 3, 0, 0, 0, 1][..], Ok(Applied::Leads { leadership: 1 })));
    leader.begin(5_000);
    let topics = leader.propose_topics(&[T])?;
    assert_eq!(leader.apply(2, &topics), Ok(Applied::Topics));
    let frame = leader.propose(&JOIN, 7, 1, 5_000)?;
    let applied = Applied::Frame { leadership: 1, connection: 7, frame: 1, answer: Answer::Reply(reply()) };
    assert_eq!((leader.apply(3, &frame), follower.apply(3, &frame)), (Ok(applied), Err(Error::BadEntry(2))));
    for (place, entry) in (1..).zip([&leads, &topics, &frame]) {
        follower.apply(place, entry)?;
    }
    assert_eq!(follower.place(), Place { applied: 3, leadership: 1, moment: 0 });
    assert_eq!((follower.place(), follower.propose_tick(0)), (leader.place(), Err(Error::BadEntry(5))));
    // The first leadership is over: what was proposed under it is passed over.
    let tick = leader.propose_tick(6_000)?;
    let leads = follower.lead()?;
    follower.apply(4, &leads)?;
    assert_eq!(follower.apply(5, &tick), Ok(Applied::PassedOver { why: Error::BadEntry(3) }));
    assert_eq!(follower.place(), Place { applied: 5, leadership: 2, moment: 0 });
    Ok(())
}

#[test]
fn a_replica_is_restored_of_its_snapshot() -> Result<(), Error> {
    let mut it = Replica::new(0, &[7; 16])?;
    let leads = it.lead()?;
    it.apply(1, &leads)?;
    it.begin(5_000);
    for place in 2..4 {
        let entry = if place == 2 { it.propose_topics(&[T])? } else { it.propose(&JOIN, 7, 1, 5_000)? };
        it.apply(place, &entry)?;
    }
    let whole = it.snapshot(1 << 20).collect::<Result<Vec<_>, _>>()?;
    let snapshot = it.snapshot(1).collect::<Result<Vec<_>, _>>()?.concat();
    assert_eq!((whole.len(), &whole[0]), (1, &snapshot));
    let mut other = Replica::restore(&snapshot, &[9; 16])?;
    assert_eq!((other.place(), other.snapshot(1).collect::<Result<Vec<_>, _>>()?.concat()), (it.place(), snapshot.clone()));
    let tick = it.propose_tick(50_000)?;
    assert_eq!((it.apply(4, &tick), other.apply(4, &tick)), (Ok(Applied::Tick { removed: 1 }), Ok(Applied::Tick { removed: 1 })));
    let cut = Replica::restore(&snapshot[..snapshot.len() - 1], &[9; 16]).err();
    assert!(matches!(cut, Some(Error::BadSnapshot { code: 31, .. })), "{cut:?}");
    let longer = Replica::restore(&[&snapshot[..], &[0]].concat(), &[9; 16]).err();
    assert_eq!(longer, Some(Error::BadSnapshot { code: 34, at: snapshot.len() }));
    Ok(())
}
