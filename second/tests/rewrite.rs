//! Accepted tables written again.


use crate::common::zoned;
use second::generator::{self, raw};
use second::random::Random;
use second::{cleared, rewrite, rewrite_by_records, Chip, Refusal, Verdict};

/// From the records: what it answers, and a buffer that is three bytes longer than the table.
fn by_records(table: &[u8], chip: Chip) -> (Result<usize, Refusal>, Vec<u8>) {
    let mut out = vec![0xA5; table.len() + 3];
    (rewrite_by_records(table, chip, &mut out), out)
}

#[test]
fn rewritten_is_cleared_and_twice_is_once() {
    let mut random = Random::new(21);
    let mut cleaned = 0;
    for at in 0..20_000 {
        let chip = Chip::BOTH[at % 2];
        let table = generator::valid(&mut random, chip.into());
        let mut out = vec![0xA5; table.len() + 3];
        assert_eq!(rewrite(&table, chip, &mut out), Ok(table.len()));
        assert_eq!(by_records(&table, chip), (Ok(table.len()), out.clone()));
        assert_eq!(&out[table.len()..], &[0xA5; 3]);
        out.truncate(table.len());
        assert_eq!(out, cleared(&table));
        cleaned += usize::from(out != table);
        let mut again = vec![0x5A; out.len()];
        assert_eq!(rewrite(&out, chip, &mut again), Ok(out.len()));
        assert_eq!(again, out);
    }
    // Junk in reserved places must have been there to be cleared.
    assert!(cleaned > 5_000);
}

#[test]
fn accepted_targeted_tables_too() {
    let mut accepted = 0;
    let cases = generator::targeted().iter();
    for ((name, table), chip) in cases.flat_map(|case| Chip::BOTH.map(|chip| (case, chip))) {
        if let Verdict::Accepted(_) = second::check(table, chip.into()) {
            let mut out = vec![0xA5; table.len()];
            assert_eq!(rewrite(table, chip, &mut out), Ok(table.len()), "{name}");
            assert_eq!(out, cleared(table), "{name}");
            assert_eq!(by_records(table, chip).1[..table.len()], out, "{name}");
            accepted += 1;
        }
    }
    assert!(accepted > 2000);
}

#[test]
fn refusals_change_nothing() {
    let table = zoned(&[raw::fan(1, 5, 6)]);
    for length in 0..table.len() {
        let mut out = vec![0xA5; length];
        assert_eq!(
            rewrite(&table, Chip::F320, &mut out),
            Err(Refusal::at(16, 0))
        );
        let again = rewrite_by_records(&table, Chip::F320, &mut out);
        assert_eq!(again, Err(Refusal::at(16, 0)));
        assert!(out.iter().all(|&byte| byte == 0xA5));
    }
    let refused = raw::table(&[raw::fan(1, 5, 6)]);
    let mut out = vec![0xA5; refused.len()];
    assert_eq!(
        rewrite(&refused, Chip::F320, &mut out),
        Err(Refusal::at(13, 16))
    );
    assert_eq!(by_records(&refused, Chip::F320).0, Err(Refusal::at(13, 16)));
    assert!(out.iter().all(|&byte| byte == 0xA5));
    let only_320 = zoned(&[raw::current(1, 0x27)]);
    let mut out = vec![0xA5; only_320.len()];
    assert_eq!(
        rewrite(&only_320, Chip::F321, &mut out),
        Err(Refusal::at(10, 46))
    );
    assert_eq!(
        by_records(&only_320, Chip::F321).0,
        Err(Refusal::at(10, 46))
    );
    assert!(out.iter().all(|&byte| byte == 0xA5));
    assert_eq!(rewrite(&only_320, Chip::F320, &mut out), Ok(only_320.len()));
}
