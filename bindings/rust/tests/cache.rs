//! The launch line cache against the archive: what is held is found, and nothing else; what a full one refuses; and long histories beside a plain list of
//! entries.
use aslapush::{wide, CommandLine, Kept, LineCache, Refusal, CACHE_ENTRIES, LINE_UNITS};
use numbers::Numbers;

mod numbers;

/// A key by the document's words: the program, kind and text of every argument, and the flag.
#[derive(Debug, Clone, PartialEq)]
struct Key {
    program: Vec<u16>,
    args: Vec<(Kind, Vec<u16>)>,
    force: bool,
}

#[derive(Debug, Clone, Copy, PartialEq)]
enum Kind {
    Regular,
    Raw,
}

impl Key {
    fn list(&self) -> CommandLine {
        let add = |list: CommandLine, (kind, text): &(Kind, Vec<u16>)| match kind {
            Kind::Regular => list.arg(text),
            Kind::Raw => list.raw_arg(text),
        };
        self.args.iter().fold(CommandLine::new(&self.program), add).force_quotes(self.force)
    }

    fn line(&self) -> Vec<u16> {
        self.list().build().unwrap()
    }

    /// The units that an entry uses: program, argument texts and line, and two more for each argument.
    fn uses(&self, line: &[u16]) -> usize {
        self.program.len() + self.args.iter().map(|(_, text)| text.len() + 2).sum::<usize>() + line.len()
    }
}

fn of_kind(kind: Kind, program: &str, args: &[&str]) -> Key {
    Key { program: wide(program), args: args.iter().map(|arg| (kind, wide(arg))).collect(), force: false }
}

fn key(program: &str, args: &[&str]) -> Key {
    of_kind(Kind::Regular, program, args)
}

fn raw(program: &str, args: &[&str]) -> Key {
    of_kind(Kind::Raw, program, args)
}

fn forced(key: Key) -> Key {
    Key { force: true, ..key }
}

/// Keys that differ in as little as keys can. In a store a raw argument is 1, its length and its text, so that some would be the same units but for one number.
fn near() -> Vec<Key> {
    vec![
        key("a", &[]),
        key("", &["a"]),
        key("a", &[""]),
        key("a", &["", ""]),
        key("a", &["b"]),
        raw("a", &["b"]),
        raw("a\u{1}\u{1}b", &[]),
        raw("a", &["b", "c"]),
        raw("a", &["b\u{1}\u{1}c"]),
        forced(key("a", &["b"])),
        key("a", &["b", ""]),
        key("a", &["", "b"]),
        key("a b", &[]),
        key("a", &["bc", "d"]),
        key("a", &["b", "cd"]),
        key("a", &["bcd"]),
        key("a", &["b c"]),
        raw("a", &["\"b c\""]),
        forced(key("a", &["b c"])),
    ]
}

/// Stores all near keys, each under its fingerprint, and finds each before the next is stored and behind all.
fn stored_and_found(fingerprint: impl Fn(usize) -> u64) {
    let mut cache = LineCache::new(1_000);
    for (i, key) in near().iter().enumerate() {
        let (list, line) = (key.list(), key.line());
        assert_eq!(cache.get(fingerprint(i), &list), Ok(None), "{key:?}");
        assert_eq!(cache.store(fingerprint(i), &list), Ok(Kept::Stored(&line)), "{key:?}");
        assert_eq!(cache.store(fingerprint(i), &list), Ok(Kept::Held(&line)), "{key:?}");
        assert_eq!(cache.get(fingerprint(i), &list), Ok(Some(&line[..])), "{key:?}");
        assert_eq!(cache.get(!fingerprint(i), &list), Ok(None), "{key:?}");
    }
    for (i, key) in near().iter().enumerate() {
        assert_eq!(cache.get(fingerprint(i), &key.list()), Ok(Some(&key.line()[..])), "{key:?}");
        assert_eq!(cache.get_or_build(fingerprint(i), &key.list()), Ok(&key.line()[..]), "{key:?}");
    }
    cache.clear();
    assert!(near().iter().enumerate().all(|(i, key)| cache.get(fingerprint(i), &key.list()) == Ok(None)));
}

#[test]
fn keys_are_found_under_fingerprints_of_their_own() {
    stored_and_found(|i| i as u64);
}

#[test]
fn keys_are_found_under_one_fingerprint() {
    stored_and_found(|_| 7);
}

#[test]
fn one_key_under_two_fingerprints_is_held_twice() {
    let key = key("a", &["b"]);
    let (list, line) = (key.list(), key.line());
    let mut cache = LineCache::new(2 * key.uses(&line));
    assert_eq!([0, u64::MAX].map(|f| cache.store(f, &list) == Ok(Kept::Stored(&line))), [true; 2]);
    assert_eq!([0, u64::MAX].map(|f| cache.get(f, &list) == Ok(Some(&line[..]))), [true; 2]);
    assert_eq!(cache.store(1, &list), Err(Refusal::Room), "each has its own units");
}

#[test]
fn a_full_cache_refuses_what_it_does_not_hold() {
    let (list, line) = (key("a", &[]).list(), wide("\"a\""));
    let mut cache = LineCache::new(CACHE_ENTRIES * 4);
    assert!((0..CACHE_ENTRIES as u64).all(|f| cache.store(f, &list) == Ok(Kept::Stored(&line))));
    assert_eq!(cache.store(64, &list), Err(Refusal::Places), "3 before 4: no unit is left either");
    assert_eq!(cache.store(64, &key("a\0", &[]).list()), Err(Refusal::Nul { place: 0 }), "the builder's refusals before 3");
    assert_eq!(cache.store(63, &list), Ok(Kept::Held(&line)));
    assert_eq!(cache.get(0, &list), Ok(Some(&line[..])));
    cache.clear();
    assert_eq!(cache.store(64, &list), Ok(Kept::Stored(&line)));
}

#[test]
fn an_entry_takes_just_its_units() {
    for key in near() {
        let units = key.uses(&key.line());
        assert_eq!(LineCache::new(units).store(1, &key.list()), Ok(Kept::Stored(&key.line())), "{key:?}");
        let mut small = LineCache::new(units - 1);
        assert_eq!(small.store(1, &key.list()), Err(Refusal::Room), "{key:?}");
        assert_eq!(small.get(1, &key.list()), Ok(None), "{key:?}");
    }
    assert_eq!(LineCache::new(0).get_or_build(1, &key("", &[]).list()), Err(Refusal::Room));
}

#[test]
fn what_the_builder_refuses_is_refused_and_never_held() {
    let nul = key("a", &["b", "c\0"]).list();
    let long = CommandLine::new(&vec![97; LINE_UNITS - 1]);
    let mut cache = LineCache::new(100_000);
    assert_eq!(cache.get_or_build(1, &nul), Err(Refusal::Nul { place: 2 }));
    assert_eq!(cache.get_or_build(1, &long), Err(Refusal::Length));
    assert_eq!([cache.get(1, &nul), cache.get(1, &long)], [Ok(None); 2], "a lookup refuses neither");
    assert!(cache.store(1, &key("a", &["b"]).list()).is_ok());
    assert_eq!(cache.get(1, &key("a\0\u{1}b", &[]).list()), Ok(None), "a program that is another key's units");
    let longest = CommandLine::new(&vec![97; LINE_UNITS - 2]);
    assert_eq!(cache.get_or_build(1, &longest).map(<[u16]>::len), Ok(LINE_UNITS));
    assert!(cache.get(1, &longest) == Ok(Some(&longest.build().unwrap()[..])), "the longest line is found");
}

/// The cache as a plain list of entries, by the document's sentences one after another.
struct Plain {
    units: usize,
    entries: Vec<(u64, Key, Vec<u16>)>,
}

impl Plain {
    fn look(&self, fingerprint: u64, key: &Key) -> Option<&[u16]> {
        self.entries.iter().find(|entry| entry.0 == fingerprint && entry.1 == *key).map(|entry| &entry.2[..])
    }

    /// The line, and whether it is stored now.
    fn store(&mut self, fingerprint: u64, key: &Key) -> Result<(Vec<u16>, bool), Refusal> {
        let line = key.list().build()?;
        if self.look(fingerprint, key).is_some() {
            return Ok((line, false));
        }
        if self.entries.len() == CACHE_ENTRIES {
            return Err(Refusal::Places);
        }
        let used: usize = self.entries.iter().map(|(_, key, line)| key.uses(line)).sum();
        if key.uses(&line) > self.units - used {
            return Err(Refusal::Room);
        }
        self.entries.push((fingerprint, key.clone(), line.clone()));
        Ok((line, true))
    }
}

/// A key of few short texts, some with a NUL.
fn drawn(numbers: &mut Numbers) -> Key {
    let pool = [97, 97, 98, 98, 32, 34, 92, 0];
    let program = numbers.units(&pool, 3);
    let args = (0..numbers.below(4)).map(|_| ([Kind::Regular, Kind::Raw][numbers.below(2) as usize], numbers.units(&pool, 3))).collect();
    Key { program, args, force: numbers.below(2) == 0 }
}

/// A history of so many calls on a cache of so many units. How many entries the fullest had.
fn history(seed: u64, units: usize, calls: usize) -> usize {
    let (mut numbers, mut most) = (Numbers(seed), 0);
    let keys: Vec<Key> = near().into_iter().chain((0..9).map(|_| drawn(&mut numbers))).collect();
    let (mut cache, mut plain) = (LineCache::new(units), Plain { units, entries: vec![] });
    for _ in 0..calls {
        let key = &keys[numbers.below(keys.len() as u64) as usize];
        let (fingerprint, list) = (numbers.below(6), key.list());
        match numbers.below(200) {
            0 => {
                cache.clear();
                plain.entries.clear();
            }
            1..100 => assert_eq!(cache.get(fingerprint, &list), Ok(plain.look(fingerprint, key)), "{key:?}"),
            _ => {
                let kept = cache.store(fingerprint, &list).map(|kept| (kept.line().to_vec(), matches!(kept, Kept::Stored(_))));
                assert_eq!(kept, plain.store(fingerprint, key), "{key:?}");
            }
        }
        most = most.max(plain.entries.len());
    }
    most
}

#[test]
fn histories_are_those_of_a_plain_list() {
    let most: Vec<usize> = [0, 40, 200, 700, 5_000].map(|units| history(88172645463325252 + units as u64, units, 20_000)).to_vec();
    assert_eq!(most[0], 0);
    assert!(most[1] > 2 && most[3] < CACHE_ENTRIES, "{most:?}");
    assert_eq!(most[4], CACHE_ENTRIES, "the last one was full");
}

#[test]
fn lookups_run_side_by_side() {
    let (list, line) = (key("a", &["b"]).list(), key("a", &["b"]).line());
    let mut cache = LineCache::new(100);
    assert_eq!(cache.get_or_build(1, &list), Ok(&line[..]));
    let looked = || (0..10_000).all(|_| cache.get(1, &list) == Ok(Some(&line[..])));
    assert!(std::thread::scope(|scope| [scope.spawn(looked), scope.spawn(looked)].map(|thread| thread.join().unwrap())) == [true; 2]);
}

#[test]
fn fingerprints_are_of_the_key_alone() {
    let keys = near();
    let prints: std::collections::HashSet<u64> = keys.iter().map(|key| key.list().fingerprint()).collect();
    assert_eq!(prints.len(), keys.len(), "near keys have fingerprints of their own");
    let (a, b) = (key("a", &["b c"]).list(), key("a", &["b c"]).list().force_quotes(true).force_quotes(false));
    assert_eq!(a.fingerprint(), b.fingerprint());
}

#[test]
fn fingerprints_tell_units_apart_wherever_they_stand() {
    let list = |i: u16, j: u16| CommandLine::new(&wide("e")).arg(&[i, 1, 1, 1, j, 1, 1, 1]);
    let prints: std::collections::HashSet<u64> = (0..10_000).map(|n| list(n / 100, n % 100).fingerprint()).collect();
    assert_eq!(prints.len(), 10_000);
}
