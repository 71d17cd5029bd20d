//! The binding against the archive: lists go through a line and back, entries through a block, room is enough at every bound, and every refusal that can
//! arise is named.
use aslapush::{class_of, code, has_bat_extension, parse, status_text, wide, CommandLine, EnvironmentBlock, Refusal};
use aslapush::{BATCH_UNITS, BLOCK_UNITS, CACHE_ENTRIES, CACHE_WORDS, LINE_UNITS, READ_UNITS};
use numbers::Numbers;

mod numbers;

#[test]
fn regular_arguments_come_back() {
    let mut numbers = Numbers(88172645463325252);
    let pool = [32u16, 9, 34, 34, 92, 92, 97, 0x430, 0xd800, 37];
    for _ in 0..20_000 {
        let count = numbers.below(6);
        let list: Vec<Vec<u16>> = (0..count).map(|_| numbers.units(&pool, 9)).collect();
        let line = list.iter().fold(CommandLine::new(&wide("p q")), |l, a| l.arg(a)).force_quotes(numbers.below(2) == 0).build().unwrap();
        assert_eq!(parse(&line, &wide("x")).unwrap().split_first().unwrap(), (&wide("p q"), &list[..]));
    }
}

/// A line of so many arguments, each so many times one unit, forced.
fn repeated(program: &[u16], unit: u16, sizes: &[usize]) -> CommandLine {
    sizes.iter().fold(CommandLine::new(program), |line, n| line.arg(&vec![unit; *n])).force_quotes(true)
}

#[test]
fn a_line_that_meets_the_bound_has_just_the_room() {
    for sizes in [&[][..], &[0], &[1], &[4], &[0, 0, 0], &[3, 0, 7, 1], &[3_000, 900]] {
        let (units, count) = (sizes.iter().sum::<usize>(), sizes.len());
        let line = repeated(&wide("exe"), 34, sizes).build().unwrap();
        assert_eq!(line.len(), 3 + 2 + 2 * units + 3 * count, "quotes {sizes:?}");
        let batch = repeated(&wide("a.bat"), 37, sizes).build_batch().unwrap();
        assert_eq!(batch.len(), 5 + 31 + 8 * units + 3 * count, "percents {sizes:?}");
    }
}

#[test]
fn reading_has_room_for_as_many_arguments_as_there_can_be() {
    for n in [0, 1, 2, 3, 500, READ_UNITS / 2] {
        let line: Vec<u16> = wide(" a").into_iter().cycle().take(2 * n).collect();
        let args = parse(&line, &[]).unwrap();
        assert_eq!(args.len(), n + 1, "{n} times a space and a letter");
        assert_eq!(parse(&[&line[..], &[32]].concat(), &[]).unwrap().len(), n + 1, "and a space more");
    }
    let name = vec![97; READ_UNITS];
    assert_eq!(parse(&[0, 97, 98], &name).unwrap(), [name], "a line that is empty up to its NUL");
}

/// Entries in their order, each a key and a value.
type Listed = Vec<(Vec<u16>, Vec<u16>)>;

/// A block of such entries.
fn block(entries: &Listed) -> Vec<u16> {
    entries.iter().fold(EnvironmentBlock::new(), |b, (key, value)| b.entry(key, value)).build().unwrap()
}

/// What the binding reads, with the units used.
fn entries(lent: &[u16]) -> Result<(Listed, usize), Refusal> {
    let read = EnvironmentBlock::read(lent)?;
    let listed: Listed = read.iter().map(|(key, value)| (key.to_vec(), value.to_vec())).collect();
    assert_eq!((read.len(), read.is_empty()), (listed.len(), listed.is_empty()));
    assert_eq!([read.block(), read.rest()].concat(), lent);
    Ok((listed, read.block().len()))
}

#[test]
fn entries_come_back() {
    let mut numbers = Numbers(0x9e3779b97f4a7c15);
    for _ in 0..20_000 {
        let list: Listed = (0..numbers.below(6))
            .map(|_| {
                let first = [61, 66, 0xdfff][numbers.below(3) as usize];
                let key = [vec![first], numbers.units(&[97, 58, 0x430, 0xd800], 20)].concat();
                (key, numbers.units(&[61, 61, 97, 0xdc00], 40))
            })
            .collect();
        let built = block(&list);
        let lent = [built.clone(), numbers.units(&[0, 61, 97], 9)].concat();
        assert_eq!(entries(&lent), Ok((list, built.len())));
    }
}

/// Reading by the document's sentences, one after another.
fn plainly(lent: &[u16]) -> Result<(Listed, usize), Refusal> {
    let (mut listed, mut at) = (vec![], 0);
    loop {
        let bad = Refusal::Entry { place: listed.len() + 1 };
        let rest = &lent[at..];
        match rest {
            [] => return Err(bad),
            [0, 0, ..] if at == 0 => return Ok((listed, 2)),
            [0, ..] if at == 0 => return Err(bad),
            [0, ..] => return Ok((listed, at + 1)),
            _ => {}
        }
        let entry = &rest[..rest.iter().position(|&unit| unit == 0).ok_or(bad)?];
        let key = 1 + entry[1..].iter().position(|&unit| unit == 61).ok_or(bad)?;
        listed.push((entry[..key].to_vec(), entry[key + 1..].to_vec()));
        at += entry.len() + 1;
    }
}

#[test]
fn every_short_block_is_read_by_the_sentences_and_built_again() {
    for length in 0..10 {
        for number in 0..3usize.pow(length) {
            let lent: Vec<u16> = (0..length).map(|i| [0, 61, 65][number / 3usize.pow(i) % 3]).collect();
            let read = entries(&lent);
            assert_eq!(read, plainly(&lent), "{lent:?}");
            if let Ok((listed, used)) = read {
                assert_eq!(block(&listed), lent[..used], "{lent:?}");
            }
        }
    }
}

#[test]
fn bad_entries_are_refused_at_their_places() {
    let place = |text: &str| EnvironmentBlock::read(&wide(text)).map(|entries| entries.len());
    let at = |place| Err(Refusal::Entry { place });
    assert_eq!([place(""), place("\0"), place("\0A=1\0\0"), place("\0\0")], [at(1), at(1), at(1), Ok(0)]);
    assert_eq!([place("A"), place("A="), place("A=\0"), place("A=\0\0"), place("A=\0B=\0")], [at(1), at(1), at(2), Ok(1), at(3)]);
    assert_eq!([place("=\0\0"), place("=A\0\0"), place("==\0\0"), place("A=\0=C:\0\0"), place("A=\0=C:=x\0\0")], [at(1), at(1), Ok(1), at(2), Ok(2)]);
    assert_eq!([place("A=\0\0B"), place("A=\0\0B=\0\0")], [Ok(1), Ok(1)], "what stands behind is ignored");
    let drive = entries(&wide("=C:=x=y\0==\0\0")).unwrap();
    assert_eq!(drive, (vec![(wide("=C:"), wide("x=y")), (wide("="), vec![])], 12));
    let refusal = Refusal::Entry { place: 2 };
    assert_eq!((refusal.number(), refusal.place()), (8, 2));
    assert!(refusal.to_string().starts_with("entry 2 has no `=` behind its first unit"));
}

#[test]
fn a_block_of_the_limit_is_read_and_no_unit_more() {
    let most = (BLOCK_UNITS - 1) / 3;
    let mut lent: Vec<u16> = wide("A=\0").into_iter().cycle().take(3 * most).chain([0, 7, 7]).collect();
    assert_eq!((lent.len(), entries(&lent).unwrap().0.len()), (BLOCK_UNITS, most));
    lent.push(7);
    assert_eq!(EnvironmentBlock::read(&lent).unwrap_err(), Refusal::Length, "what stands behind counts");
    let long = [wide("A="), vec![97; BLOCK_UNITS - 4], vec![0, 0]].concat();
    assert_eq!(entries(&long).unwrap(), (vec![(wide("A"), vec![97; BLOCK_UNITS - 4])], BLOCK_UNITS));
    assert_eq!(EnvironmentBlock::read(&vec![97; BLOCK_UNITS]).unwrap_err(), Refusal::Entry { place: 1 });
    assert_eq!(EnvironmentBlock::read(&vec![97; BLOCK_UNITS + 1]).unwrap_err(), Refusal::Length, "2 is tested first");
}

/// The number that the header gives a name; where it gives it another name, that one's.
fn in_header(name: &str) -> usize {
    let value = |row: &str| Some(row.trim().strip_prefix(name)?.strip_prefix(" = ")?.split([',', ' ']).next()?.to_string());
    let value = include_str!("../../../include/aslapush.h").lines().find_map(value).unwrap();
    value.parse().unwrap_or_else(|_| in_header(&value))
}

#[test]
fn limits_are_those_of_the_header_and_of_the_table() {
    let names = ["ASLAPUSH_READ_UNITS", "ASLAPUSH_LINE_UNITS", "ASLAPUSH_BATCH_UNITS", "ASLAPUSH_BLOCK_UNITS"];
    assert_eq!(names.map(in_header), [READ_UNITS, LINE_UNITS, BATCH_UNITS, BLOCK_UNITS]);
    let row = include_str!("../../../README.md").lines().find(|row| row.starts_with("| 2 |")).unwrap();
    let said: Vec<usize> = row.split(' ').filter(|word| word.contains(',')).filter_map(|word| word.replace(',', "").parse().ok()).collect();
    assert_eq!(said, [READ_UNITS, LINE_UNITS, BLOCK_UNITS]);
    assert_eq!(["ASLAPUSH_CACHE_ENTRIES", "ASLAPUSH_CACHE_WORDS"].map(in_header), [CACHE_ENTRIES, CACHE_WORDS]);
    let page = include_str!("../../../docs/CACHE.md");
    assert!(page.contains(&format!("up to {CACHE_ENTRIES} ordinary lines")) && page.contains(&format!("An index of {CACHE_WORDS} words")));
}

#[test]
fn limits_are_met_and_no_unit_more() {
    let line = |n: usize| CommandLine::new(&vec![97; n - 2]).build();
    assert_eq!(line(LINE_UNITS).unwrap().len(), LINE_UNITS);
    assert_eq!(line(LINE_UNITS + 1), Err(Refusal::Length));
    assert_eq!(parse(&line(LINE_UNITS).unwrap(), &[]).unwrap(), [vec![97; LINE_UNITS - 2]], "the longest line is read back");
    let batch = |n: usize| CommandLine::new(&vec![97; n - 31]).build_batch();
    assert_eq!(batch(BATCH_UNITS).unwrap().len(), BATCH_UNITS);
    assert_eq!(batch(BATCH_UNITS + 1), Err(Refusal::Length));
    assert_eq!(parse(&vec![97; READ_UNITS], &[]).unwrap().len(), 1);
    assert_eq!(parse(&vec![97; READ_UNITS + 1], &[]), Err(Refusal::Length));
    assert_eq!(parse(&[], &vec![97; READ_UNITS + 1]), Err(Refusal::Length));
    let block = |n: usize| EnvironmentBlock::new().entry(&vec![97; n - 3], &[]).build();
    assert_eq!(block(BLOCK_UNITS).unwrap().len(), BLOCK_UNITS);
    assert_eq!(block(BLOCK_UNITS + 1), Err(Refusal::Length));
    // Far past the limit the room stays at the limit, and an earlier refusal is still given first.
    let long = vec![97; 3_000_000];
    assert_eq!(CommandLine::new(&wide("p")).arg(&long).build(), Err(Refusal::Length));
    assert_eq!(CommandLine::new(&wide("p")).arg(&long).arg(&[0]).build_batch(), Err(Refusal::Nul { place: 2 }));
    let line = CommandLine::new(&wide("p")).arg(&vec![97; 30_000]).build_batch().unwrap();
    assert!(line.capacity() < 2 * LINE_UNITS, "capacity {}", line.capacity());
}

#[test]
fn refusals_are_named() {
    let line = |program: &str, args: &[&str]| args.iter().fold(CommandLine::new(&wide(program)), |l, a| l.arg(&wide(a)));
    assert_eq!(line("p\0", &[]).build(), Err(Refusal::Nul { place: 0 }));
    assert_eq!(line("p", &["a", "b\0"]).build(), Err(Refusal::Nul { place: 2 }));
    assert_eq!(line("p", &["a", "b\r"]).build_batch(), Err(Refusal::LineBreak { place: 2 }));
    assert_eq!(line("p\"", &[]).build_batch(), Err(Refusal::Script));
    assert_eq!(line("p\\", &[]).build_batch(), Err(Refusal::Script));
    assert_eq!(line("p\\\0", &[]).build_batch().unwrap(), wide(r#"cmd.exe /e:ON /v:OFF /d /c ""p\"""#), "7 looks at the last unit as lent");
    assert_eq!(EnvironmentBlock::new().entry(&wide("A"), &wide("1")).entry(&wide("B"), &[0]).build(), Err(Refusal::Nul { place: 2 }));
    assert_eq!([Refusal::Nul { place: 2 }.number(), Refusal::Length.number()], [5, 2]);
    assert_eq!([Refusal::Nul { place: 2 }.place(), Refusal::Length.place()], [2, 0]);
    assert_eq!(Refusal::Nul { place: 2 }.to_string(), "item 2 contains a NUL: remove it");
}

#[test]
fn the_rest_is_plain() {
    assert_eq!(parse(&[], &wide("a b")).unwrap(), [wide("a b")]);
    assert_eq!(EnvironmentBlock::new().build().unwrap(), [0, 0]);
    assert_eq!(CommandLine::new(&wide("p")).raw_arg(&wide("\"a b")).build().unwrap(), wide("\"p\" \"a b"));
    assert_eq!(status_text(3_221_225_477), "exit code: 0xc0000005");
    assert_eq!([code(0), code(2_147_483_648), code(u32::MAX)], [0, i32::MIN, -1]);
    assert!(has_bat_extension(&wide("a.Bat")) && !has_bat_extension(&wide("bat")));
    assert_eq!([class_of(0), class_of(34), class_of(0x430)], [1, 4, 0]);
}
