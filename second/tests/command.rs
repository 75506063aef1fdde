//! The program itself, run as a program.

use second::generator::raw::{self, TABLE_A};
use second::{Chip, Rules, Settings};
use std::io::Write;
use std::process::{Command, Output, Stdio};

fn run(arguments: &[&str], input: &[u8]) -> Output {
    let mut child = Command::new(env!("CARGO_BIN_EXE_second"))
        .args(arguments)
        .stdin(Stdio::piped())
        .stdout(Stdio::piped())
        .stderr(Stdio::piped())
        .spawn()
        .unwrap();
    // A program that does not read its input may be gone already.
    let _ = child.stdin.take().unwrap().write_all(input);
    child.wait_with_output().unwrap()
}

#[test]
fn lists_and_rewrites() {
    let out = run(&["list"], &TABLE_A);
    assert!(out.status.success());
    assert_eq!(out.stdout, b"T\t0.90\t16\t2\t0\t7\tself\t-\t-\t-\n");
    let mut dirty = TABLE_A;
    dirty[12..].fill(0xFF);
    assert_eq!(run(&["rewrite"], &dirty).stdout, TABLE_A);
    assert_eq!(run(&["rewrite"], &[]).stdout, b"R\t1\t0\n");
}

#[test]
fn looks_for_a_fan() {
    let table = raw::table(&[
        raw::zone(1, 0),
        raw::current(1, 0x24),
        raw::pump(1, 0x05, 0xFF),
    ]);
    assert_eq!(run(&["fan", "1"], &table).stdout, b"yes\t3\n");
    assert_eq!(
        run(&["fan", "--chip", "320", "0"], &table).stdout,
        b"no\t3\n"
    );
    let refused = run(&["fan", "--chip", "321", "1"], &table);
    assert!(refused.status.success());
    assert_eq!(refused.stdout, b"R\t10\t46\n");
    assert_eq!(run(&["fan", "255"], &TABLE_A).stdout, b"no\t0\n");
}

#[test]
fn takes_an_element_out() {
    let fan = raw::fan(1, 0x05, 0xFF);
    let table = raw::table(&[raw::current(1, 0x24), raw::zone(1, 0), fan.clone()]);
    let left = raw::table(&[raw::zone(1, 0), fan]);
    assert_eq!(run(&["remove", "0"], &table).stdout, left);
    let named = run(&["remove", "--chip", "320", "1"], &table);
    assert!(named.status.success());
    assert_eq!(named.stdout, b"R\t22\t30\n");
    assert_eq!(run(&["remove", "3"], &table).stdout, b"R\t17\t0\n");
    let refused = run(&["remove", "--chip", "321", "0"], &table);
    assert_eq!(refused.stdout, b"R\t10\t16\n");
}

/// The table on standard output and the lines on standard error; or the `R` line alone. The first 4,096 bytes count.
#[test]
fn saves_what_can_be_saved() {
    let mut file = raw::table(&[
        raw::current(1, 0x24),
        raw::fan(2, 0x05, 0xFF),
        raw::zone(1, 7),
    ]);
    file.extend([0x0F, 3, 0, 0xFF]);
    let wanted = raw::table(&[raw::current(1, 0x24), raw::zone(1, 0)]);
    let out = run(&["salvage"], &file);
    assert!(out.status.success());
    assert_eq!(out.stdout, wanted);
    let lines = b"76\t7\tleft out\n30\t13\tleft out\n46\t14\tcleared\n";
    assert_eq!(out.stderr, lines);
    let out = run(&["salvage", "--chip", "321"], &file);
    assert_eq!(out.stdout, raw::table(&[raw::zone(1, 0)]));
    let lines = b"16\t10\tleft out\n76\t7\tleft out\n30\t13\tleft out\n46\t14\tcleared\n";
    assert_eq!(out.stderr, lines);
    let lost = run(&["salvage"], &TABLE_A[..15]);
    assert!(lost.status.success());
    assert_eq!(
        (&lost.stdout[..], &lost.stderr[..]),
        (&b"R\t24\t0\n"[..], &[][..])
    );
    let long = [&TABLE_A[..], &[0x0F, 3, 0].repeat(30_000)].concat();
    let out = run(&["salvage"], &long);
    assert_eq!(out.stdout, TABLE_A);
    assert!(out
        .stderr
        .ends_with(b"4090\t7\tleft out\n4093\t7\tleft out\n"));
}

#[test]
fn prints_the_pin_sheet() {
    let table = raw::table(&[raw::zone(1, 0), raw::current(1, 0x24)]);
    let text = String::from_utf8(run(&["pins"], &table).stdout).unwrap();
    assert_eq!(text.lines().count(), 25);
    for line in ["P0.7\t46", "P1.0\tL", "P2.4\t46", "P3.0\t-"] {
        assert!(text.contains(&format!("{line}\n")), "{text}");
    }
    assert_eq!(
        run(&["pins", "--chip", "320"], &table).stdout,
        text.as_bytes()
    );
    let refused = run(&["pins", "--chip", "321"], &table);
    assert!(refused.status.success());
    assert_eq!(refused.stdout, b"R\t10\t46\n");
    let bare = run(&["pins", "--chip", "321"], &TABLE_A).stdout;
    assert_eq!(bare.iter().filter(|&&byte| byte == b'\n').count(), 21);
}

#[test]
fn moves_to_hex_and_back() {
    let lines = b":10000000011000020007000080FFFFFF0000000059\n:00000001FF\n";
    assert_eq!(run(&["hex"], &TABLE_A).stdout, lines);
    assert_eq!(run(&["hex", "--chip", "321"], &TABLE_A).stdout, lines);
    assert_eq!(run(&["unhex"], lines).stdout, TABLE_A);
    assert_eq!(run(&["unhex", "--chip", "321"], lines).stdout, TABLE_A);
    assert_eq!(run(&["hex"], lines).stdout, b"R\t2\t0\n");
    let refused = run(&["unhex"], &TABLE_A);
    assert!(refused.status.success());
    assert_eq!(refused.stdout, b"R\t21\t1\n");
    let four = raw::table(&[raw::zone(1, 0), raw::current(1, 0x24)]);
    let text = run(&["hex"], &four).stdout;
    assert_eq!(run(&["unhex"], &text).stdout, four);
    assert_eq!(
        run(&["unhex", "--chip", "321"], &text).stdout,
        b"R\t10\t46\n"
    );
    assert_eq!(run(&["hex", "--chip", "321"], &four).stdout, b"R\t10\t46\n");
    // The archive's rules, which are not asked for.
    let old = raw::table(&[raw::digital(1, 2, 0x40), raw::zone(1, 0)]);
    let text = run(&["hex"], &old).stdout;
    assert_eq!(run(&["unhex"], &text).stdout, old);
}

/// The longest good text is read to its end, and of longer ones enough.
#[test]
fn long_texts_are_not_cut_short() {
    let longest = second::hex::text(&[1; 65_536], 1);
    assert_eq!(longest.len(), 917_516);
    assert_eq!(run(&["unhex"], &longest).stdout, b"R\t3\t0\n");
    let open = &longest[..longest.len() - 1];
    assert_eq!(run(&["unhex"], open).stdout, b"R\t21\t65537\n");
    // A record at the last address may be long.
    let front = &longest[..65_535 * 14];
    let last = second::hex::record(65_535, 0, &[1; 255]);
    let longer = [front, &last, b":00000001FF\n"].concat();
    assert_eq!(longer.len(), 918_024);
    assert_eq!(run(&["unhex"], &longer).stdout, b"R\t3\t0\n");
    for more in [&b"\n"[..], &[0; 1_000_000]] {
        let text = [&longest[..], more].concat();
        assert_eq!(run(&["unhex"], &text).stdout, b"R\t21\t65538\n");
    }
    assert_eq!(run(&["unhex"], &[0; 2_000_000]).stdout, b"R\t21\t1\n");
}

/// The trace out of a file or from standard input; a table that is refused, and files that are not there.
#[test]
fn runs_a_trace_through_a_table() {
    let folder = std::env::temp_dir().join(format!("second-trace-{}", std::process::id()));
    std::fs::create_dir_all(&folder).unwrap();
    let file = |name: &str, bytes: &[u8]| {
        let path = folder.join(name);
        std::fs::write(&path, bytes).unwrap();
        path.to_str().unwrap().to_string()
    };
    let table = file(
        "table",
        &raw::table(&[raw::zone(1, 0), raw::current(1, 0x24)]),
    );
    let lines = b"0\t1\t1023\n1\t1\t1024\n2\t1\t0";
    let trace = file("trace", lines);
    let wanted = b"300\nR\t18\t2\n0\n0\t0\t0\t0\t0\t0\n1\t0\t300\t2\t0\t0\n";
    let missing = format!("{trace}s");
    let folder_name = folder.to_str().unwrap();
    for (words, input, output) in [
        (&[&table[..], &trace][..], &b""[..], &wanted[..]),
        (&[&table], lines, wanted),
        (&["--chip", "320", &table, &trace], lines, wanted),
        (&["--chip", "321", &table, &trace], lines, b"R\t10\t46\n"),
        (&[&trace, &trace], lines, b"R\t2\t0\n"),
        (&[&missing, &trace], lines, b"X\t1\n"),
        (&[&table, &missing], lines, b"X\t2\n"),
        (&[&table, folder_name], lines, b"X\t2\n"),
    ] {
        let ran = run(&[&["trace"], words].concat(), input);
        assert!(ran.status.success());
        assert_eq!(ran.stdout, output, "{words:?}");
    }
    let lines = ["lines", "--seed", "3", "--count", "40", &table];
    let made = run(&lines, &[]).stdout;
    assert!(made.iter().filter(|&&byte| byte == b'\n').count() >= 39);
    assert_eq!(run(&lines, &[]).stdout, made);
    let on_321 = [&lines[..1], &["--chip", "321"], &lines[1..]].concat();
    assert_eq!(run(&on_321, &[]).status.code(), Some(1));
    std::fs::remove_dir_all(&folder).unwrap();
}

#[test]
fn holds_two_files_side_by_side() {
    let folder = std::env::temp_dir().join(format!("second-diff-{}", std::process::id()));
    std::fs::create_dir_all(&folder).unwrap();
    let file = |name: &str, table: &[u8]| {
        let path = folder.join(name);
        std::fs::write(&path, table).unwrap();
        path.to_str().unwrap().to_string()
    };
    let one = file(
        "one",
        &raw::table(&[raw::zone(1, 0), raw::analogue(1, 0x27)]),
    );
    let two = file(
        "two",
        &raw::table(&[raw::zone(2, 0), raw::analogue(2, 0x24)]),
    );
    let bad = file("bad", &raw::table(&[raw::analogue(2, 0x24)]));
    let long = file("long", &[&raw::TABLE_A[..], &[0; 5000]].concat());
    let said = |words: &[&str]| {
        let output = run(&[&["diff"], words].concat(), &[]);
        assert!(output.status.success());
        String::from_utf8(output.stdout).unwrap()
    };
    assert_eq!(said(&[&one, &one]), "");
    let lines = said(&["--chip", "320", &one, &two]);
    assert!(lines.ends_with("D\t46\t46\tzone identifier\t1\t2\nD\t46\t46\tpin\tP2.7\tP2.4\n"));
    assert_eq!(said(&["--chip", "321", &one, &two]), "R\t1\t10\t46\n");
    assert_eq!(said(&[&bad, &bad]), "R\t1\t13\t16\n");
    assert_eq!(said(&[&one, &bad]), "R\t2\t13\t16\n");
    assert_eq!(said(&[&one, &long]), "R\t2\t3\t0\n");
    let missing = folder.join("missing").to_str().unwrap().to_string();
    assert_eq!(said(&[&missing, &missing]), "X\t1\n");
    assert_eq!(said(&[&bad, &missing]), "X\t2\n");
    assert_eq!(said(&[folder.to_str().unwrap(), &one]), "X\t1\n");
    std::fs::remove_dir_all(&folder).unwrap();
}

#[test]
fn long_input_is_not_cut_to_a_table() {
    let mut table = raw::table(&[raw::text(1, &vec![0; 4096 - 22])]);
    assert_eq!(run(&["list"], &table).stdout.first(), Some(&b'T'));
    table.push(0);
    assert_eq!(run(&["list"], &table).stdout, b"R\t3\t0\n");
    table.resize(70_000, 0);
    assert_eq!(run(&["list"], &table).stdout, b"R\t3\t0\n");
    table[0] = 0x10;
    assert_eq!(run(&["list"], &table).stdout, b"R\t2\t0\n");
}

#[test]
fn receives_in_reports_of_any_size() {
    let good = raw::table(&[raw::fan(1, 0x05, 0x06), raw::zone(1, 0)]);
    let bad = raw::table(&[raw::fan(1, 0x05, 0x06)]);
    for words in [
        &["receive"][..],
        &["receive", "1"],
        &["receive", "--chip", "321", "4096"],
    ] {
        assert_eq!(run(words, &good).stdout, b"ok\t2\n", "{words:?}");
        assert_eq!(run(words, &bad).stdout, b"R\t13\t16\n", "{words:?}");
        assert_eq!(run(words, &[]).stdout, b"R\t1\t0\n", "{words:?}");
    }
    let mut pin = TABLE_A;
    pin[9] = 0x24;
    assert_eq!(run(&["receive", "--chip", "320"], &pin).stdout, b"ok\t0\n");
    assert_eq!(
        run(&["receive", "--chip", "321"], &pin).stdout,
        b"R\t10\t0\n"
    );
    let old = raw::table(&[raw::digital(1, 2, 0x40), raw::zone(1, 0)]);
    assert_eq!(run(&["receive"], &old).stdout, b"R\t23\t16\n");
    assert_eq!(run(&["receive", "--archive"], &old).stdout, b"ok\t2\n");
    let mut long = TABLE_A.to_vec();
    long.resize(65_552, 0);
    assert_eq!(run(&["receive"], &long).stdout, b"R\t3\t0\n");
}

#[test]
fn rows_are_the_same_for_the_same_seed() {
    let rows = |seed: &str| {
        let arguments = ["rows", "--seed", seed, "--count", "300", "--max", "600"];
        let out = run(&arguments, &[]);
        assert!(out.status.success() && out.stderr.is_empty());
        String::from_utf8(out.stdout).unwrap()
    };
    let one = rows("1");
    assert_eq!(one, rows("1"));
    assert_ne!(one, rows("2"));
    let lines: Vec<&str> = one.lines().collect();
    assert_eq!(lines.len(), 300);
    for number in (0..=15).chain([23]) {
        let wanted = number.to_string();
        let there = |line: &&str| line.split('\t').nth(1) == Some(&wanted);
        assert!(lines.iter().any(there), "{number}");
    }
}

#[test]
fn rows_say_what_is_left_out() {
    let arguments = ["rows", "--seed", "1", "--count", "100", "--max", "405"];
    let out = run(&arguments, &[]);
    let said = String::from_utf8(out.stderr).unwrap();
    assert!(said.contains("answer 11 is left out"), "{said}");
}

#[test]
fn makes_files_and_checks_them() {
    let folder = std::env::temp_dir().join(format!("second-test-{}", std::process::id()));
    let folder_name = folder.to_str().unwrap();
    let made = ["make", "mixed", "--seed", "3", "--count", "2", folder_name];
    assert!(run(&made, &[]).status.success());
    let file = folder.join("mixed-000001.bin");
    let bytes = std::fs::read(&file).unwrap();
    let out = run(&["check", file.to_str().unwrap()], &[]);
    std::fs::remove_dir_all(&folder).unwrap();
    assert_eq!(bytes.len(), 4096);
    let line = String::from_utf8(out.stdout).unwrap();
    let count = second::check(&bytes, Settings::default()).beside();
    assert_eq!(line, format!("0\t{count}\t{}\n", file.display()));
}

#[test]
fn holds_itself_against_itself() {
    let out = run(&["self", "--seed", "9", "--count", "2000"], &[]);
    assert!(out.status.success());
    let text = String::from_utf8(out.stdout).unwrap();
    assert!(text.ends_with("2000 tables, 0 differences\n"), "{text}");
}

#[test]
fn misuse_is_told_and_gives_status_2() {
    let misuses: [&[&str]; 63] = [
        &[],
        &["dance"],
        &["list", "extra"],
        &["check"],
        &["rows", "--seed", "1"],
        &["rows", "--seed", "x", "--count", "1", "--max", "1"],
        &["self", "--speed", "1"],
        &["make", "cake", "--seed", "1", "--count", "1", "somewhere"],
        &["bench", "now"],
        &["receive", "0"],
        &["receive", "4097"],
        &["receive", "64", "64"],
        &["receive", "x"],
        &["receive", ""],
        &["receive", "--report", "64"],
        &["list", "--chip"],
        &["list", "--chip", "322"],
        &["list", "--chip", "0320"],
        &["list", "--chip", "f321"],
        &["list", "--chip", ""],
        &["list", "--chip", "320", "--chip", "320"],
        &["list", "--chip=321"],
        &["rewrite", "--chip", "321", "extra"],
        &["check", "file", "--chip", "321"],
        &["check", "--chip", "321"],
        &["list", "--archive", "extra"],
        &["list", "--archive", "--archive"],
        &["list", "--archive", "--chip", "321", "--archive"],
        &["list", "--chip", "--archive", "321"],
        &["list", "--archived"],
        &["check", "file", "--archive"],
        &["rewrite", "--archive"],
        &["fan"],
        &["fan", ""],
        &["fan", "256"],
        &["fan", "-1"],
        &["fan", "one"],
        &["fan", "1", "2"],
        &["fan", "--archive", "1"],
        &["remove"],
        &["remove", "-1"],
        &["remove", "one"],
        &["remove", "1", "2"],
        &["remove", "--archive", "1"],
        &["pins", "extra"],
        &["pins", "--archive"],
        &["hex", "extra"],
        &["hex", "--archive"],
        &["unhex", "extra"],
        &["unhex", "--archive"],
        &["unhex", "--chip", "322"],
        &["salvage", "extra"],
        &["salvage", "--archive"],
        &["salvage", "--chip", "322"],
        &["diff", "one"],
        &["diff", "one", "two", "three"],
        &["diff", "--archive", "one", "two"],
        &["trace"],
        &["trace", "one", "two", "three"],
        &["trace", "--archive", "one"],
        &["lines", "--seed", "1", "one"],
        &["lines", "--seed", "1", "--count", "2"],
        &[
            "rows", "--seed", "1", "--count", "1", "--max", "1", "--chip", "321",
        ],
    ];
    for arguments in misuses {
        let out = run(arguments, &[]);
        assert_eq!(out.status.code(), Some(2), "{arguments:?}");
        assert!(out.stdout.is_empty());
        let said = String::from_utf8(out.stderr).unwrap();
        assert!(said.contains("use: second COMMAND"), "{arguments:?}");
    }
    let gone = run(&["check", "/no/such/file"], &[]);
    assert_eq!(gone.status.code(), Some(1));
}

/// P2.4 as a hardware revision pin: good on the 320, which is meant if none is named.
#[test]
fn the_chip_is_named_behind_the_command() {
    let mut table = TABLE_A;
    table[9] = 0x24;
    let listed = b"T\t0.90\t16\t2\t0\t7\tself\tP2.4\t-\t-\n";
    assert_eq!(run(&["list"], &table).stdout, listed);
    assert_eq!(run(&["list", "--chip", "320"], &table).stdout, listed);
    let refused = run(&["list", "--chip", "321"], &table);
    assert!(refused.status.success());
    assert_eq!(refused.stdout, b"R\t10\t0\n");
    assert_eq!(run(&["rewrite", "--chip", "320"], &table).stdout, table);
    let refused = run(&["rewrite", "--chip", "321"], &table);
    assert_eq!(refused.stdout, b"R\t10\t0\n");
    let file = std::env::temp_dir().join(format!("second-chip-{}", std::process::id()));
    std::fs::write(&file, table).unwrap();
    let name = file.to_str().unwrap();
    let answers = ["320", "321"].map(|chip| run(&["check", "--chip", chip, name], &[]).stdout);
    std::fs::remove_file(&file).unwrap();
    assert_eq!(answers[0], format!("0\t0\t{name}\n").into_bytes());
    assert_eq!(answers[1], format!("10\t0\t{name}\n").into_bytes());
}

/// Block mode: refused unless the archive is asked, before or behind the chip.
#[test]
fn the_archive_is_named_behind_the_command() {
    let table = raw::table(&[raw::digital(1, 0xF2, 0x40), raw::zone(1, 0)]);
    assert_eq!(run(&["list"], &table).stdout, b"R\t23\t16\n");
    let listed = b"T\t0.90\t67\t2\t0\t7\tself\t-\t-\t-\n\
        E\t16\t01\t1\t-\tretired\nE\t37\t0B\t1\t-\n";
    for options in [
        &["list", "--archive"][..],
        &["list", "--archive", "--chip", "321"],
        &["list", "--chip", "321", "--archive"],
    ] {
        assert_eq!(run(options, &table).stdout, listed, "{options:?}");
    }
    assert_eq!(run(&["rewrite"], &table).stdout, b"R\t23\t16\n");
    let file = std::env::temp_dir().join(format!("second-archive-{}", std::process::id()));
    std::fs::write(&file, table).unwrap();
    let name = file.to_str().unwrap();
    let strict = run(&["check", name], &[]).stdout;
    let old = run(&["check", "--archive", name], &[]).stdout;
    std::fs::remove_file(&file).unwrap();
    assert_eq!(strict, format!("23\t16\t{name}\n").into_bytes());
    assert_eq!(old, format!("0\t2\t{name}\n").into_bytes());
}

/// The rows, with these options behind the command's name, are answered with these settings.
fn rows_with(options: &[&str], settings: Settings) {
    let mut arguments = [&["rows"], options].concat();
    arguments.extend(["--seed", "1", "--count", "200", "--max", "600"]);
    let rows = String::from_utf8(run(&arguments, &[]).stdout).unwrap();
    assert_eq!(rows.lines().count(), 200);
    for line in rows.lines() {
        let fields: Vec<&str> = line.split('\t').collect();
        let byte = |at| u8::from_str_radix(&fields[0][at..at + 2], 16).unwrap();
        let table: Vec<u8> = (0..fields[0].len()).step_by(2).map(byte).collect();
        let verdict = second::check(&table, settings);
        let answer = [verdict.number().to_string(), verdict.beside().to_string()];
        assert_eq!(fields[1..], answer);
    }
    let mut own = [&["self"], options].concat();
    own.extend(["--seed", "9", "--count", "1000"]);
    let text = String::from_utf8(run(&own, &[]).stdout).unwrap();
    assert!(text.ends_with("1000 tables, 0 differences\n"), "{text}");
}

#[test]
fn rows_and_tables_with_each_of_the_settings() {
    rows_with(&["--chip", "321"], Chip::F321.into());
    let archive = Settings::new(Chip::F320, Rules::Archive);
    rows_with(&["--archive"], archive);
    rows_with(&["--chip", "321", "--archive"], archive.other_chip());
}
