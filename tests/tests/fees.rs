//! C-22: a fee shared over the cells of a set by their counts, and the stops 14, 23, 24 and 15 in their order.
use calls::cases::five_archive;
use calls::compare::{subjects, Compare, SHARE};
use calls::damage;
use calls::kinds::{kinds, SIZES};
use calls::lent::Lent;
use calls::model::{self, cube, fees, our_archive, Row};
use calls::random::Random;
use calls::write::table_bytes;
use calls::ROWS;

const HIGHEST: u32 = 1_000_000_000;

/// Base rows of one dimension with these counts: the cells of set 1.
fn counted(counts: &[u32]) -> Vec<u8> {
    let row = |(i, &count): (usize, &u32)| Row::new(vec![i as u32], 0, count);
    our_archive(&[65_535], &counts.iter().enumerate().map(row).collect::<Vec<_>>())
}

/// A fee that is small, at the limit, or any that is shared.
fn fee(random: &mut Random) -> u32 {
    match random.below(4) {
        0 => random.pick(&[0, 1, 2, 3, 100, HIGHEST - 1, HIGHEST]),
        1 => random.below(2_000) as u32,
        _ => random.below(HIGHEST as u64 + 1) as u32,
    }
}

/// The cents that both subjects write, and nothing else.
fn cents(archive: &[u8], fee: u32, set: u32) -> Vec<u32> {
    let mut all = subjects().into_iter().map(|(name, calls)| {
        let mut lent = Lent::new(4 + 4 * ROWS, 0);
        let length = calls.share_fee(archive, fee, set, lent.out()).unwrap_or_else(|stop| panic!("{name}: stop {stop}"));
        let fields: Vec<u32> = lent.written(length).unwrap().chunks(4).map(|w| u32::from_le_bytes(w.try_into().unwrap())).collect();
        assert_eq!(fields[0] as usize, fields.len() - 1, "{name}: the number of cells");
        fields[1..].to_vec()
    });
    let first = all.next().unwrap();
    assert!(all.all(|other| other == first));
    first
}

/// The five rows: dimension 2 has the codes 1, 3 and 5 with the counts 2, 1 and 2.
#[test]
fn the_five_rows() {
    for (fee, want) in [
        (0, [0, 0, 0]),
        (1, [1, 0, 0]),
        (2, [1, 0, 1]),
        (3, [1, 1, 1]),
        (101, [41, 20, 40]),
        (HIGHEST, [400_000_000, 200_000_000, 400_000_000]),
    ] {
        assert_eq!(cents(&five_archive(), fee, 0b010), want, "fee {fee}");
    }
    assert_eq!(cents(&five_archive(), 100, 0b000), [100]);
    assert_eq!(cents(&five_archive(), 99, 0b111), [20, 20, 20, 20, 19]);
}

/// Counts of readings, not of base rows: one base row with three readings, one with one.
#[test]
fn the_counts_are_those_of_readings() {
    let rows = [(vec![0], 1), (vec![0], 2), (vec![0], 3), (vec![1], 4)];
    let archive = model::build(&table_bytes(&[2], &rows)).unwrap();
    assert_eq!(cents(&archive, 100, 1), [75, 25]);
}

/// The earlier cell first if remainders are equal; a larger remainder before it, though its count is smaller.
#[test]
fn the_cents_left() {
    assert_eq!(cents(&counted(&[1, 1, 1]), 100, 1), [34, 33, 33]);
    assert_eq!(cents(&counted(&[1, 1, 1]), 101, 1), [34, 34, 33]);
    assert_eq!(cents(&counted(&[3, 3, 1]), 10, 1), [4, 4, 2]);
    assert_eq!(cents(&counted(&[2, 2, 2, 1]), 1_000, 1), [286, 286, 285, 143]);
    assert_eq!(cents(&counted(&[1_048_576]), HIGHEST, 1), [HIGHEST]);
    assert_eq!(cents(&counted(&[1_048_575, 1]), HIGHEST, 1), [999_999_046, 954]);
}

/// The greatest number of cells, with equal counts and with counts that make the greatest total.
#[test]
fn as_many_cells_as_there_can_be() {
    let last = 1_048_576 - (ROWS as u32 - 1);
    let high: Vec<u32> = (0..ROWS).map(|i| if i + 1 == ROWS { last } else { 1 }).collect();
    let rising: Vec<u32> = (1..=ROWS as u32).collect();
    let mut compare = Compare::new();
    for counts in [vec![1; ROWS], vec![1_024; ROWS], high, rising] {
        let archive = counted(&counts);
        let accepted = compare.archive(&archive, "1,024 cells").unwrap();
        for fee in [0, 1, 511, 1_023, 1_024, 1_025, 999_999_999, HIGHEST] {
            compare.share(&archive, &accepted, fee, 1, "1,024 cells");
            compare.share(&archive, &accepted, fee, 1, "1,024 cells");
        }
    }
    compare.had(SHARE, &[0, 15]);
}

/// What is written adds up to the fee, each share is less than a cent away, and no other split is nearer: all splits of small fees over up to
/// four cells are tried, with cents below zero too.
#[test]
fn no_split_is_nearer() {
    let mut random = Random::seeded(701);
    for i in 0..200 {
        let counts: Vec<u32> = (0..1 + i % 4).map(|_| 1 + random.below(9) as u32).collect();
        let fee = random.below(8) as u32;
        let ours: Vec<i128> = cents(&counted(&counts), fee, 1).into_iter().map(i128::from).collect();
        let total: i128 = counts.iter().map(|&count| count as i128).sum();
        assert_eq!(ours.iter().sum::<i128>(), fee as i128);
        for (cents, &count) in ours.iter().zip(&counts) {
            assert!((cents * total - fee as i128 * count as i128).abs() < total, "fee {fee}, counts {counts:?}: {ours:?}");
        }
        let least = fees::apart(fee, &counts, &ours);
        let all = (1..counts.len()).fold(vec![vec![]], |splits: Vec<Vec<i128>>, _| {
            splits.iter().flat_map(|split| (-3..=fee as i128 + 3).map(move |cents| [&split[..], &[cents]].concat())).collect()
        });
        for mut split in all {
            split.push(fee as i128 - split.iter().sum::<i128>());
            assert!(fees::apart(fee, &counts, &split) >= least, "fee {fee}, counts {counts:?}: {split:?} is nearer than {ours:?}");
        }
    }
}

#[test]
fn random_archives() {
    let mut random = Random::seeded(702);
    let mut compare = Compare::new();
    for i in 0..600 {
        let sizes = random.sizes(1 + i % 8);
        let count = 1 + random.row_count().min(40);
        let rows = random.base_rows(&sizes, count);
        let s = our_archive(&sizes, &rows);
        let accepted = compare.archive(&s, &format!("archive {i}")).unwrap();
        for _ in 0..6 {
            let (fee, set) = (fee(&mut random), random.below(1 << accepted.dims()) as u32);
            compare.share(&s, &accepted, fee, set, &format!("archive {i}"));
        }
        let odd = random.pick(&[HIGHEST + 1, 1 << 30, 1 << 31, u32::MAX, HIGHEST]);
        let set = random.pick(&[0, 1 << accepted.dims(), (1 << accepted.dims()) - 1, 256, u32::MAX]);
        compare.share(&s, &accepted, odd, set, &format!("archive {i}"));
    }
    compare.had(SHARE, &[0, 14, 15, 23]);
}

/// Weights of which many are equal, so that remainders are.
#[test]
fn equal_remainders() {
    let mut random = Random::seeded(703);
    let mut compare = Compare::new();
    for i in 0..400 {
        let among = random.pick(&[1, 2, 3, 6]);
        let counts: Vec<u32> = (0..1 + random.place(40)).map(|_| 1 + random.below(among) as u32).collect();
        let s = counted(&counts);
        let accepted = compare.archive(&s, &format!("counts {i}")).unwrap();
        for fee in 0..20 {
            compare.share(&s, &accepted, fee * 7, 1, &format!("counts {i}"));
        }
    }
    compare.had(SHARE, &[0, 15]);
}

#[test]
fn tables_of_1024_rows() {
    let mut random = Random::seeded(704);
    let mut compare = Compare::new();
    for (name, rows) in kinds(&mut random).into_iter().step_by(3) {
        let s = model::build(&table_bytes(&SIZES, &rows)).unwrap();
        let accepted = compare.archive(&s, name).unwrap();
        for set in [0, 1, 0b0101_0101, 255] {
            compare.share(&s, &accepted, fee(&mut random), set, name);
        }
    }
    compare.had(SHARE, &[0, 15]);
}

#[test]
fn damaged_archives() {
    let mut random = Random::seeded(705);
    let mut compare = Compare::new();
    for i in 0..60 {
        let sizes = random.sizes(1 + i % 8);
        let rows = random.base_rows(&sizes, 1 + i % 7);
        let s = our_archive(&sizes, &rows);
        let mut part = random.part();
        damage::bytes(&s, 40, &mut random.part(), |b, done| {
            if let Ok(accepted) = compare.archive(b, &format!("archive {i}: {done}")) {
                compare.share(b, &accepted, fee(&mut part), 0, done);
            }
        });
    }
    compare.had(SHARE, &[0, 2, 10, 11, 12, 15]);
}

/// The file's stops, then 14, 23, 24, 15: each is seen with everything wrong that comes after it.
#[test]
fn stops_in_their_order() {
    let mut wrong = five_archive();
    *wrong.last_mut().unwrap() ^= 1;
    let no_rows = table_bytes(&[3, 3], &[]);
    for (name, calls) in subjects() {
        let mut built = [0; 100];
        let length = calls.build(&no_rows, &mut built).unwrap();
        let empty = &built[..length];
        let mut lent = [7; 64];
        let cases = [
            (&wrong[..], u32::MAX, 8, 11),
            (empty, u32::MAX, 4, 14),
            (empty, u32::MAX, u32::MAX, 14),
            (empty, HIGHEST + 1, 0, 23),
            (empty, u32::MAX, 3, 23),
            (empty, HIGHEST, 0, 24),
            (empty, 0, 0, 24),
            (empty, 5, 3, 24),
            (&five_archive(), 0, 8, 14),
            (&five_archive(), HIGHEST + 1, 7, 23),
        ];
        for (s, fee, set, stop) in cases {
            assert_eq!(calls.share_fee(s, fee, set, &mut []), Err(stop), "{name}, fee {fee}, set {set}");
            assert_eq!(calls.share_fee(s, fee, set, &mut lent), Err(stop), "{name}, fee {fee}, set {set}");
        }
        assert_eq!(calls.share_fee(&five_archive(), HIGHEST, 7, &mut []), Err(15), "{name}");
        assert_eq!(calls.share_fee(&five_archive(), HIGHEST, 7, &mut lent[..23]), Err(15), "{name}");
        assert_eq!(lent, [7; 64], "{name}");
        assert_eq!(calls.share_fee(&five_archive(), HIGHEST, 7, &mut lent[..24]), Ok(24), "{name}");
        assert_eq!(lent[24..], [7; 40], "{name}");
    }
}

/// Outputs of every length round the result's.
#[test]
fn every_length_of_output() {
    let accepted = model::open(&five_archive()).unwrap();
    for (room, set) in (0..40).flat_map(|room| cube::lattice(3).into_iter().map(move |set| (room, set))) {
        let result = accepted.share_fee(1_001, set).unwrap();
        let want = model::fit(&result, room);
        for (name, calls) in subjects() {
            let mut lent = Lent::new(room, room % 9);
            let got = calls.share_fee(&five_archive(), 1_001, set, lent.out());
            assert_eq!(got, want.map(<[u8]>::len), "{name}, set {set}, output of {room}");
            assert_eq!(lent.written(got.unwrap_or(0)), Ok(want.unwrap_or_default()), "{name}, set {set}, output of {room}");
        }
    }
}
