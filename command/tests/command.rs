//! The command as it is called: what it prints, says and ends with.
mod common;

use common::{gablemadder, run_on};
use std::fs::{self, File};
use std::path::Path;
use std::process::{Command, Output, Stdio};

const PLATE: &str = concat!(env!("CARGO_MANIFEST_DIR"), "/../crates/dfm_main/stdin");
const REPORT: &str = concat!(env!("CARGO_MANIFEST_DIR"), "/../crates/dfm_main/stdout");

fn run(words: &[&str]) -> Output {
    gablemadder(words).output().unwrap()
}

fn text(bytes: &[u8]) -> &str {
    std::str::from_utf8(bytes).unwrap()
}

/// It ended with 2, printed nothing and said one line, which has these words.
fn refused(output: &Output, words: &str) {
    let said = text(&output.stderr);
    assert_eq!(output.status.code(), Some(2), "{said}");
    assert_eq!(text(&output.stdout), "");
    assert_eq!(said.matches('\n').count(), 1, "{said}");
    assert!(said.ends_with('\n') && said.contains(words), "{said}");
}

/// A file of this test's own.
fn file(name: &str, bytes: &[u8]) -> String {
    let path = Path::new(env!("CARGO_TARGET_TMPDIR")).join(name);
    fs::write(&path, bytes).unwrap();
    path.to_str().unwrap().to_string()
}

fn plate_text() -> String {
    String::from_utf8(run(&["show", PLATE]).stdout).unwrap()
}

/// The plate with another thickness, as a file.
fn plate_of(thickness: &str, name: &str) -> String {
    let changed = plate_text().replace("0.5\n", &format!("{thickness}\n"));
    let made = run_on(&["make", "-"], changed.as_bytes());
    assert_eq!(text(&made.stderr), "");
    file(name, &made.stdout)
}

#[test]
fn a_report_is_printed_unchanged() {
    let output = run(&["check", PLATE]);
    assert_eq!(output.stdout, fs::read(REPORT).unwrap());
    assert_eq!((text(&output.stderr), output.status.code()), ("", Some(0)));
    let output = run_on(&["check", "-"], &fs::read(PLATE).unwrap());
    assert_eq!((output.stdout, output.status.code()), (fs::read(REPORT).unwrap(), Some(0)));
}

#[test]
fn an_error_among_the_findings_is_status_1() {
    let output = run(&["check", &plate_of("0.3", "error.part")]);
    assert!(text(&output.stdout).contains("\nError|Thin wall|1|1:0,1:1|"), "{}", text(&output.stdout));
    assert_eq!((text(&output.stderr), output.status.code()), ("", Some(1)));
    assert_eq!(run(&["check", &plate_of("2", "good.part")]).status.code(), Some(0));
}

#[test]
fn several_files_are_named_and_the_worst_counts() {
    let (good, bad) = (plate_of("2", "several_good.part"), plate_of("0.3", "several_bad.part"));
    let output = run(&["check", &good, &bad]);
    let printed = text(&output.stdout);
    assert!(printed.starts_with(&format!("== {good}\n0 - 0 -\n== {bad}\n1 - 0 -\nError|")), "{printed}");
    assert_eq!((text(&output.stderr), output.status.code()), ("", Some(1)));
    let output = run(&["check", &good, "no/such.part", &bad]);
    assert_eq!(text(&output.stdout), printed);
    assert_eq!((text(&output.stderr), output.status.code()), ("no/such.part: there is no such file\n", Some(2)));
}

#[test]
fn scripts_get_an_object_for_each_file() {
    let short = file("short.part", &[0; 143]);
    let output = run(&["check", "--json", PLATE, &short, "no/such.part"]);
    let lines: Vec<&str> = text(&output.stdout).lines().collect();
    assert_eq!(lines.len(), 3);
    let report = fs::read_to_string(REPORT).unwrap();
    let message = report.trim_end().rsplit('|').next().unwrap();
    let finding = format!("{{\"severity\":\"Warning\",\"rule\":\"Thin wall\",\"count\":1,\"faces\":[\"1:0\",\"1:1\"],\"message\":\"{message}\"}}");
    assert_eq!(lines[0], format!("{{\"file\":\"{PLATE}\",\"findings\":[{finding}],\"thickness\":null,\"bends\":0,\"height\":null}}"));
    let refusal = "{\"number\":1,\"condition\":\"shorter than 144 bytes\",\"place\":\"143 bytes\",";
    assert!(lines[1].starts_with(&format!("{{\"file\":\"{short}\",\"refusal\":{refusal}")), "{}", lines[1]);
    assert_eq!(lines[2], "{\"file\":\"no/such.part\",\"error\":\"there is no such file\"}");
    assert_eq!((text(&output.stderr).lines().count(), output.status.code()), (2, Some(2)));
}

#[test]
fn show_and_make_undo_each_other() {
    let made = run_on(&["make", "-"], plate_text().as_bytes());
    assert_eq!(made.stdout, fs::read(PLATE).unwrap());
    assert_eq!((text(&made.stderr), made.status.code()), ("", Some(0)));
    assert_eq!(text(&run_on(&["show", "-"], &made.stdout).stdout), plate_text());
}

#[test]
fn a_wrong_text_is_answered_with_its_place() {
    let wrong = file("wrong.txt", plate_text().replacen("0 20 0", "0 abc 0", 1).as_bytes());
    let output = run(&["make", &wrong]);
    refused(&output, &format!("{wrong}:13:5: expected a number, found \"abc\"\n"));
}

/// The plate in OBJ text, with another thickness.
fn plate_obj(thickness: &str) -> String {
    let corners: Vec<String> = ["0 0", "20 0", "20 20", "0 20"].map(str::to_string).to_vec();
    let level = |z: &str| corners.iter().map(|corner| format!("v {corner} {z}\n")).collect::<String>();
    let faces = ["1 4 3 2", "5 6 7 8", "1 2 6 5", "2 3 7 6", "3 4 8 7", "4 1 5 8"];
    let faces: String = (0..).zip(faces).map(|(index, face)| format!("g {index}\nf {face}\n")).collect();
    format!("# the plate\n{}{}{faces}", level("0"), level(thickness))
}

#[test]
fn obj_text_is_made_a_part_file() {
    let made = run_on(&["obj", "--process", "CNC", "-"], plate_obj("0.5").as_bytes());
    assert_eq!(made.stdout, fs::read(PLATE).unwrap());
    assert_eq!((text(&made.stderr), made.status.code()), ("", Some(0)));
    let (from, to) = (file("plate.obj", plate_obj(".5").as_bytes()), file("plate_of_obj.part", b"before"));
    let to_output = run(&["obj", &from, "-o", "-", "--process=CNC"]);
    assert_eq!(to_output.stdout, made.stdout);
    let made = run(&["obj", &from, "-o", &to, "--process=CNC"]);
    assert_eq!((text(&made.stdout), text(&made.stderr), made.status.code()), ("", "", Some(0)));
    assert_eq!(fs::read(&to).unwrap(), fs::read(PLATE).unwrap());
}

#[test]
fn the_job_of_obj_text_is_said_by_options() {
    let words = ["obj", "-", "--process", "sheet", "--up", "0,0,-1", "--layer", "0.3", "--min_wall", "1", "--min_hole", "3", "--nozzle", "0.6"];
    let more = ["--overhang", "50.5", "--material", "\"Steel DC01\" metal min_wall 0.5 bend_ratio 1.25"];
    let made = run_on(&[&words[..], &more].concat(), plate_obj("1").as_bytes());
    assert_eq!(text(&made.stderr), "");
    let shown = run_on(&["show", "-"], &made.stdout);
    let job = "job\n  process sheet\n  up 0 0 -1\n  layer 0.3\n  min_wall 1\n  min_hole 3\n  nozzle 0.6\n  overhang 50.5\n  \
               material \"Steel DC01\" metal min_wall 0.5 bend_ratio 1.25\n\nface 1:0 plane\n";
    assert!(text(&shown.stdout).contains(job), "{}", text(&shown.stdout));
    let made = run_on(&["obj", "-", "--process", "FDM", "--overhang", "none"], plate_obj("1").as_bytes());
    let shown = run_on(&["show", "-"], &made.stdout);
    let job = "job\n  process FDM\n  up 0 1 0\n  layer 0.2\n  min_wall 0.8\n  min_hole 2\n  nozzle 0.4\n\nface ";
    assert!(text(&shown.stdout).contains(job), "{}", text(&shown.stdout));
    let said = |words: &[&str], want: &str| refused(&run(words), &format!("gablemadder: {want}; `gablemadder --help` says how it is called\n"));
    said(&["obj", "part.obj"], "--process is needed");
    said(&["obj", "part.obj", "--process"], "--process: expected \"CNC\", \"sheet\", \"FDM\", \"SLA\" or \"SLS\", found the end of the line");
    said(&["obj", "part.obj", "--process", "CNC", "--layer", "0"], "--layer: expected a number from 0.001 to 1000, found \"0\"");
    said(&["obj", "part.obj", "--process", "CNC", "--layers", "1"], "there is no option \"--layers\" here");
    said(&["obj", "--process", "CNC"], "no file is named");
    said(&["obj", "part.obj", "--process", "CNC", "--json"], "--json is for reports, and --check is not there");
    said(&["obj", "part.obj", "--process", "CNC", "--check", "-o", "-"], "-o - and --check would both write to standard output");
    said(&["check", "part.obj", "--process", "CNC"], "there is no option \"--process\" here");
}

#[test]
fn obj_text_is_checked() {
    let words = ["obj", "--check", "--process", "CNC", "-"];
    let checked = run_on(&words, plate_obj("0.5").as_bytes());
    assert_eq!((checked.stdout, checked.status.code()), (fs::read(REPORT).unwrap(), Some(0)));
    let checked = run_on(&words, plate_obj("0.3").as_bytes());
    assert!(text(&checked.stdout).starts_with("1 - 0 -\nError|Thin wall|1|1:0,1:1|"));
    assert_eq!((text(&checked.stderr), checked.status.code()), ("", Some(1)));
    let to = file("checked.part", b"");
    let checked = run_on(&[&words[..], &["-o", &to, "--json"]].concat(), plate_obj("2").as_bytes());
    assert_eq!(text(&checked.stdout), "{\"file\":\"-\",\"findings\":[],\"thickness\":null,\"bends\":0,\"height\":null}\n");
    assert_eq!((fs::metadata(&to).unwrap().len(), checked.status.code()), (1200, Some(0)));
    let checked = run_on(&[&words[..], &["--json"]].concat(), b"v 0 0 0\nvn 0 0 1\n");
    let place = "line 2, column 1: expected \\\"v\\\", \\\"f\\\", \\\"g\\\" or \\\"#\\\" at the line's start, found \\\"vn\\\"";
    let refusal = format!("{{\"number\":14,\"condition\":\"OBJ text: a line of any other form\",\"place\":\"{place}\",\"advice\":\"");
    assert!(text(&checked.stdout).starts_with(&format!("{{\"file\":\"-\",\"refusal\":{refusal}")), "{}", text(&checked.stdout));
    assert_eq!((text(&checked.stderr).lines().count(), checked.status.code()), (1, Some(2)));
}

#[test]
fn refused_obj_text_is_told_with_its_line() {
    let said = |obj: &str, words: &str| {
        let want = format!("standard input: refused {words}");
        refused(&run_on(&["obj", "--process", "CNC", "-"], obj.as_bytes()), &want);
        refused(&run_on(&["obj", "--process", "CNC", "--check", "-"], obj.as_bytes()), &want);
    };
    let plate = plate_obj("0.5");
    let form = "14 (OBJ text: a line of any other form): ";
    said(
        &plate.replace("v 0 20 0.5", "v 0 2e1 0.5"),
        &format!("{form}line 9, column 5: expected a decimal of 1 to 15 digits without an exponent, found"),
    );
    said(&plate.replace('\n', "\r\n"), &format!("{form}line 2, column 8: expected a line feed alone, found a carriage return before it. Keep to"));
    said(&plate.replace("f 1 4 3 2", "f 1//1 4//1 3//1"), &format!("{form}line 11, column 3: expected a vertex number from 1, digits alone, found "));
    let vertex = "15 (OBJ text: a vertex number not yet defined): ";
    said(
        &plate.replace("f 4 1 5 8", "f 4 1 5 9"),
        &format!("{vertex}line 21, column 9: expected the number of a vertex defined above, from 1 to 8, found \"9\". "),
    );
    let many = format!("{plate}{}", "f 1 2 3\n".repeat(4091));
    said(&many, "3 (over 16,384 vertices or over 4,096 polygons): 4097 faces with 12297 corners, where 4096 and 16384 are the most. ");
    // what only the check refuses
    let checked = |obj: &str, words: &str| {
        assert_eq!(run_on(&["obj", "--process", "CNC", "-"], obj.as_bytes()).status.code(), Some(0));
        refused(&run_on(&["obj", "--process", "CNC", "--check", "-"], obj.as_bytes()), &format!("standard input: refused {words}"));
    };
    checked(&plate_obj("20000"), "6 (coordinate not finite or out of range): line 13, polygon 1 (face 1:1), vertex 0: z is 20000.0; ");
    checked(
        &plate.replace("f 1 2 6 5", "f 1 1 6 6"),
        "8 (a polygon without a plane: its normal sum is shorter than 1e-14): line 15, polygon 2 (face 1:2): ",
    );
}

#[test]
fn what_obj_cannot_read_or_write_is_told() {
    let obj = |words: &[&str]| run(&[&["obj", "--process", "CNC"], words].concat());
    refused(&obj(&["no/such.obj"]), "no/such.obj: there is no such file\n");
    refused(&obj(&[env!("CARGO_MANIFEST_DIR")]), ": it is a folder, not a file\n");
    let (plate, huge) = (file("written.obj", plate_obj("1").as_bytes()), file("huge.obj", b""));
    File::options().write(true).open(&huge).unwrap().set_len(1 << 30).unwrap();
    refused(&obj(&[&huge]), ": too long: 1073741824 bytes, and ");
    fs::remove_file(huge).unwrap();
    refused(&obj(&[&plate, "-o", "no/such/folder.part"]), "no/such/folder.part: it cannot be written: ");
    refused(&obj(&[&plate, "-o", "/dev/full"]), "/dev/full: it cannot be written: the disk is full\n");
    let full = File::options().write(true).open("/dev/full").unwrap();
    let output = gablemadder(&["obj", "--process", "CNC", &plate]).stdout(full).output().unwrap();
    refused(&output, "gablemadder: standard output: the disk is full\n");
}

#[test]
fn a_refusal_says_where_and_what_to_do() {
    let plate = fs::read(PLATE).unwrap();
    let changed = |at: usize, bytes: &[u8]| {
        let mut copy = plate.clone();
        copy[at..at + bytes.len()].copy_from_slice(bytes);
        copy
    };
    let said = |file: &[u8], words: &str| {
        refused(&run_on(&["check", "-"], file), &format!("standard input: refused {words}"));
        // A flat polygon can be shown.
        if !words.starts_with('8') {
            refused(&run_on(&["show", "-"], file), &format!("standard input: refused {words}"));
        }
    };
    let entries = 24 * 24;
    let job = entries + 6 * 80;
    said(&[], "1 (shorter than 144 bytes): 0 bytes. Pass the whole");
    said(&changed(job + 128, &[2]), "2 (edition not 1): trailer: edition 2. Write");
    said(&changed(job + 132, &[1, 64]), "3 (over 16,384 vertices or over 4,096 polygons): trailer: 16385 vertices and 6 polygons. ");
    said(&plate[1..], "4 (length not 24V + 80P + 144, or `back` wrong): 1199 bytes, where 24 vertices and 6 polygons take 1200. ");
    said(&changed(job + 140, &[1]), "4 (length not 24V + 80P + 144, or `back` wrong): trailer: back is ");
    said(&changed(job, &[5]), "5 (job out of the rules): job: process is 5; ");
    said(
        &changed(24 * 7 + 8, &f64::NAN.to_le_bytes()),
        "6 (coordinate not finite or out of range): polygon 1 (face 1:1), vertex 3: y is not a number. ",
    );
    said(
        &changed(0, &1e5f64.to_le_bytes()),
        "6 (coordinate not finite or out of range): polygon 0 (face 1:0), vertex 0: x is 100000.0; from -10000 to 10000 ",
    );
    let polygon = "7 (polygon entry out of the rules, or vertices left after the last run): polygon 2 (face 1:2): ";
    said(&changed(entries + 172, &[2]), &format!("{polygon}it has 2 vertices; 3 to 64 are allowed. Give "));
    said(&changed(entries + 176, &[9]), &format!("{polygon}its kind is 9; "));
    let twice: [u8; 24] = plate[24..48].try_into().unwrap();
    let flat = changed(48, &[twice, twice].concat());
    said(
        &flat,
        "8 (a polygon without a plane: its normal sum is shorter than 1e-14): polygon 0 (face 1:0): its vertices 1 and 2 are the same point. ",
    );
    said(plate_text().as_bytes(), "2 (edition not 1): trailer: edition ");
    assert!(text(&run_on(&["check", "-"], plate_text().as_bytes()).stderr).contains("`gablemadder make` makes the part file from it."));
}

#[test]
fn what_cannot_be_read_is_told() {
    for command in ["check", "show", "make", "picture"] {
        refused(&run(&[command, "no/such.part"]), "no/such.part: there is no such file\n");
        refused(&run(&[command, env!("CARGO_MANIFEST_DIR")]), ": it is a folder, not a file\n");
        refused(&run(&[command, "/dev/zero"]), "/dev/zero: too long: over ");
        refused(&run(&[command, "no\nsuch"]), "no\\nsuch: there is no such file\n");
    }
    let empty = file("empty.part", b"");
    refused(&run(&["check", &empty]), ": 0 bytes. ");
    refused(&run(&["show", &empty]), ": 0 bytes. ");
    refused(&run(&["picture", &empty]), ": 0 bytes. ");
    refused(&run(&["make", &empty]), ":1:1: expected \"part\", found the end of the text\n");
}

#[test]
fn a_huge_file_is_not_read() {
    let path = file("huge.part", b"");
    File::options().write(true).open(&path).unwrap().set_len(1 << 30).unwrap();
    for command in ["check", "show", "make"] {
        refused(&run(&[command, &path]), ": too long: 1073741824 bytes, and ");
    }
    fs::remove_file(path).unwrap();
}

#[test]
fn a_full_disk_is_told() {
    for words in [&["check", PLATE][..], &["check", "--json", PLATE], &["show", PLATE], &["picture", PLATE], &["--help"]] {
        let full = File::options().write(true).open("/dev/full").unwrap();
        refused(&gablemadder(words).stdout(full).output().unwrap(), "gablemadder: standard output: the disk is full\n");
    }
}

#[test]
fn nothing_of_an_output_stays_where_it_was_cut() {
    let (plate, out) = (file("cut.txt", plate_text().as_bytes()), file("cut.out", b"before\n"));
    // A limit of 512 bytes in place of a disk that fills up while 1,200 are written.
    let script = "trap '' XFSZ; ulimit -f 1; exec \"$0\" make \"$1\" >>\"$2\"";
    let output = Command::new("sh").args(["-c", script, env!("CARGO_BIN_EXE_gablemadder"), &plate, &out]).output().unwrap();
    refused(&output, "gablemadder: standard output: ");
    assert_eq!(fs::read(&out).unwrap(), b"before\n");
}

#[test]
fn a_closed_pipe_is_told() {
    let mut child = gablemadder(&["show", PLATE]).stdout(Stdio::piped()).stderr(Stdio::piped()).stdin(Stdio::piped()).spawn().unwrap();
    drop(child.stdout.take());
    let output = child.wait_with_output().unwrap();
    // It may have written all before the reader went away.
    if output.status.code() != Some(0) {
        refused(&output, "gablemadder: standard output: its reader has gone\n");
    }
    let script = "{ sleep 0.2; \"$0\" check \"$1\"; echo $? >&2; } | true";
    let output = Command::new("sh").args(["-c", script, env!("CARGO_BIN_EXE_gablemadder"), PLATE]).output().unwrap();
    assert_eq!(text(&output.stderr), "gablemadder: standard output: its reader has gone\n2\n");
}

#[test]
fn the_command_line_is_read() {
    for words in [&["--help"][..], &["help"], &["check", "--help"], &["check", "-h", PLATE]] {
        let output = run(words);
        assert!(text(&output.stdout).contains("gablemadder check [--json] FILE.."));
        assert_eq!((text(&output.stderr), output.status.code()), ("", Some(0)));
    }
    assert_eq!(text(&run(&["--version"]).stdout), concat!("gablemadder ", env!("CARGO_PKG_VERSION"), "\n"));
    refused(&run(&[]), "gablemadder: no command is given; ");
    refused(&run(&["chek", PLATE]), "gablemadder: there is no command \"chek\"; ");
    refused(&run(&["check"]), "gablemadder: no file is named; ");
    refused(&run(&["check", "--jsn", PLATE]), "gablemadder: there is no option \"--jsn\" here; ");
    refused(&run(&["show", PLATE, PLATE]), "gablemadder: 2 files are named, where one is meant; ");
    refused(&run(&["show", "--json", PLATE]), "gablemadder: there is no option \"--json\" here; ");
    refused(&run(&["check", "--from", "1,2,3", PLATE]), "gablemadder: there is no option \"--from\" here; ");
    for from in ["1,2", "0,0,0", "1,2,x", "1,2,inf", ""] {
        refused(&run(&["picture", PLATE, "--from", from]), "gablemadder: --from takes a direction, such as 1,-2,1.5, and not ");
    }
    refused(&run(&["picture", PLATE, "--from"]), "gablemadder: --from takes a direction, such as 1,-2,1.5, and not \"\"; ");
    refused(&run(&["check", "--", "--json"]), "--json: there is no such file\n");
}
