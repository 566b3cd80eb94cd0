//! The calls of a map, by one thread and by several.

use farmap::{Error, ErrorKind, Map, Options, PutIf, PutNew, Session};
use std::collections::HashMap;
use std::thread;

fn small() -> Map {
    Options::new().memory(64 << 20).sessions(2).open().unwrap()
}

#[test]
fn calls_answer() {
    let map = small();
    let mut session = map.session().unwrap();
    assert_eq!(session.get(b"planet").unwrap(), None);
    session.put(b"planet", b"Saturn").unwrap();
    assert_eq!(session.get(b"planet").unwrap(), Some(b"Saturn".as_slice()));
    assert!(session.contains(b"planet").unwrap() && !session.contains(b"moon").unwrap());
    assert_eq!(session.replace(b"planet", b"Venus").unwrap(), Some(b"Saturn".as_slice()));
    assert_eq!(session.put_new(b"planet", b"Mars").unwrap(), PutNew::Found(b"Venus"));
    assert_eq!(session.put_new(b"moon", b"Titan").unwrap(), PutNew::Set);
    assert_eq!(session.put_if(b"moon", b"Io", b"Rhea").unwrap(), PutIf::Found(Some(b"Titan")));
    assert_eq!(session.put_if(b"moon", b"Titan", b"Rhea").unwrap(), PutIf::Set);
    assert_eq!(session.put_if(b"star", b"", b"").unwrap(), PutIf::Found(None));
    let values = session.get_many(&["planet", "star", "moon"]).unwrap();
    assert_eq!(values, [Some(b"Venus".as_slice()), None, Some(b"Rhea".as_slice())]);
    assert_eq!(session.len().unwrap(), 2);
    assert!(!session.remove_if(b"moon", b"Titan").unwrap() && session.remove_if(b"moon", b"Rhea").unwrap());
    assert_eq!(session.take(b"planet").unwrap(), Some(b"Venus".as_slice()));
    assert_eq!(session.take(b"planet").unwrap(), None);
    assert!(!session.remove(b"planet").unwrap() && session.is_empty().unwrap());
    session.put(b"", b"").unwrap();
    assert_eq!(session.get(b"").unwrap(), Some(b"".as_slice()));
    let stats = session.stats().unwrap();
    assert_eq!((stats.pairs, stats.puts), (1, 3));
}

#[test]
fn errors_say_why() {
    let kind = |told: Result<Map, Error>| told.unwrap_err().kind();
    assert_eq!(kind(Options::new().memory(1000).open()), ErrorKind::Options);
    let missing = Options::new().far("/nonexistent/folder").open().unwrap_err();
    assert!(missing.to_string().contains("/nonexistent/folder"), "{missing}");
    assert_eq!(kind(Options::new().sessions(1000).open()), ErrorKind::Options);
    assert_eq!(kind(Options::new().far("a\0b").open()), ErrorKind::Options);
    let map = small();
    let mut session = map.session().unwrap();
    assert_eq!(session.get(&[0; 65_536]).unwrap_err().kind(), ErrorKind::KeyTooLong);
    assert_eq!(session.put(b"a", &vec![0; (16 << 20) + 1]).unwrap_err().kind(), ErrorKind::ValueTooLong);
    assert_eq!(session.put(b"a", &vec![0; 16 << 20]).unwrap_err().kind(), ErrorKind::BucketTooLong);
    let _other = map.session().unwrap();
    assert_eq!(map.session().unwrap_err().kind(), ErrorKind::NoSession);
}

#[test]
fn a_full_map_says_so() {
    let map = Options::new().memory(8 << 20).sessions(1).open().unwrap();
    let mut session = map.session().unwrap();
    let value = vec![7; 100_000];
    let full = (0..1000u32).find_map(|i| session.put(&i.to_le_bytes(), &value).err()).unwrap();
    assert_eq!(full.kind(), ErrorKind::Full);
    assert!(session.remove(&0u32.to_le_bytes()).unwrap() && session.remove(&1u32.to_le_bytes()).unwrap());
    assert_eq!(session.get(&2u32.to_le_bytes()).unwrap(), Some(value.as_slice()));
}

fn add(session: &mut Session<'_>, key: &[u8]) {
    let more = |old: Option<&[u8]>| Some((old.map_or(0, |old| u64::from_le_bytes(old.try_into().unwrap())) + 1).to_le_bytes().to_vec());
    session.update(key, more).unwrap();
}

/// Four threads count in the same keys, over a map that is renewed and much larger than its memory.
#[test]
fn no_increment_is_lost() {
    let map = Options::new().memory(8 << 20).pairs(1000).far(std::env::temp_dir()).sessions(4).names(50_000).open().unwrap();
    thread::scope(|scope| {
        for thread in 0..4u64 {
            let map = &map;
            scope.spawn(move || {
                let mut session = map.session().unwrap();
                for i in 0..5_000u64 {
                    add(&mut session, &(i % 100).to_le_bytes());
                    session.put(&(1_000 + thread * 5_000 + i).to_le_bytes(), &[1; 700]).unwrap();
                }
            });
        }
    });
    let mut session = map.session().unwrap();
    let mut counts = HashMap::new();
    let mut visit = session.visit();
    while let Some(pairs) = visit.next_bucket().unwrap() {
        for (key, value) in pairs {
            counts.insert(key.to_vec(), value.to_vec());
        }
    }
    assert_eq!(counts.len(), 20_100);
    for key in 0..100u64 {
        assert_eq!(counts[&key.to_le_bytes()[..]], 200u64.to_le_bytes());
    }
    let stats = session.stats().unwrap();
    assert!(stats.swap_outs + stats.far_reads > 0 || stats.renewals > 0, "{stats:?}");
    assert_eq!((stats.lost_pairs, stats.lost_buckets), (0, 0));
}

/// A panic between two calls leaves the session and the map in order.
#[test]
fn a_panic_does_no_harm() {
    let map = small();
    let told = thread::scope(|scope| {
        scope
            .spawn(|| {
                let mut session = map.session().unwrap();
                session.put(b"a", b"1").unwrap();
                session.update(b"a", |_| panic!("no value")).unwrap();
            })
            .join()
    });
    assert!(told.is_err());
    let (mut session, mut other) = (map.session().unwrap(), map.session().unwrap());
    assert_eq!(session.get(b"a").unwrap(), Some(b"1".as_slice()));
    assert_eq!(other.get(b"a").unwrap(), Some(b"1".as_slice()));
}

/// A session may be sent to another thread between two calls.
#[test]
fn a_session_is_sent() {
    let map = small();
    let mut session = map.session().unwrap();
    session.put(b"a", b"1").unwrap();
    let mut session = thread::scope(|scope| {
        scope
            .spawn(move || {
                session.put(b"a", b"2").unwrap();
                session
            })
            .join()
            .unwrap()
    });
    assert_eq!(session.get(b"a").unwrap(), Some(b"2".as_slice()));
}
