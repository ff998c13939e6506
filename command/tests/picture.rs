//! The pictures, and the parts in examples/parts: text, report and picture of each.
mod common;

use common::run_on;
use std::fs;

const EXAMPLES: &str = concat!(env!("CARGO_MANIFEST_DIR"), "/../examples/parts");
const NAMES: [&str; 5] = ["plate", "detent-plate", "bracket", "cover", "hollow-block"];

/// What it prints, where it says nothing and ends well.
fn printed(words: &[&str], input: &[u8]) -> Vec<u8> {
    let output = run_on(words, input);
    assert_eq!((String::from_utf8_lossy(&output.stderr).as_ref(), output.status.code()), ("", Some(0)), "{words:?}");
    output.stdout
}

fn made(text: &str) -> Vec<u8> {
    printed(&["make", "-"], text.as_bytes())
}

fn picture(file: &[u8], from: Option<&str>) -> String {
    let words = from.map_or(vec!["picture", "-"], |from| vec!["picture", "--from", from, "-"]);
    let svg = String::from_utf8(printed(&words, file)).unwrap();
    assert_well_formed(&svg);
    svg
}

fn example(name: &str, ending: &str) -> String {
    fs::read_to_string(format!("{EXAMPLES}/{name}.{ending}")).unwrap()
}

/// Tags nest, attributes are quoted, every `&` begins a name, and numbers are numbers.
fn assert_well_formed(svg: &str) {
    let mut open: Vec<&str> = vec![];
    let mut pieces = svg.split('<');
    assert_eq!(pieces.next(), Some(""));
    for piece in pieces {
        let (tag, text) = piece.split_once('>').expect("a tag ends");
        let name = tag.trim_matches('/').split(' ').next().unwrap();
        match (tag.starts_with('/'), tag.ends_with('/')) {
            (true, _) => assert_eq!(open.pop(), Some(name)),
            (false, false) => open.push(name),
            (false, true) => assert!(tag.matches('"').count() % 2 == 0, "{tag}"),
        }
        let names = ["amp;", "lt;", "gt;", "quot;"];
        assert!(text.split('&').skip(1).all(|rest| names.iter().any(|name| rest.starts_with(name))), "{text}");
    }
    assert!(open.is_empty() && svg.starts_with("<svg ") && svg.ends_with("</svg>\n"));
    assert!(!svg.contains("NaN") && !svg.contains("inf\""));
}

#[test]
fn examples_have_their_reports_and_pictures() {
    for name in NAMES {
        let text = example(name, "txt");
        let file = made(&text);
        let report = run_on(&["check", "-"], &file);
        assert_eq!(String::from_utf8(report.stdout).unwrap(), example(name, "report"), "{name}");
        assert_eq!(report.status.code(), Some(example(name, "report").contains("\nError|").into()), "{name}");
        assert_eq!(picture(&file, None), example(name, "svg"), "{name}");
        let bare: String = text.split_inclusive('\n').filter(|line| !line.starts_with('#')).collect();
        assert_eq!(String::from_utf8(printed(&["show", "-"], &file)).unwrap(), bare, "{name}");
    }
    let plate = concat!(env!("CARGO_MANIFEST_DIR"), "/../crates/dfm_main/stdin");
    assert_eq!(made(&example("plate", "txt")), fs::read(plate).unwrap());
}

#[test]
fn the_example_in_obj_text_has_its_report_and_picture() {
    let text = example("angle", "obj");
    let words = ["obj", "--process", "CNC", "--up", "0,0,1", "-"];
    let file = printed(&words, text.as_bytes());
    let report = example("angle", "report");
    assert_eq!(printed(&["check", "-"], &file), report.as_bytes());
    assert_eq!(printed(&[&words[..], &["--check"]].concat(), text.as_bytes()), report.as_bytes());
    assert_eq!(picture(&file, None), example("angle", "svg"));
}

#[test]
fn examples_find_what_they_are_there_for() {
    let rules = [
        ("plate", &["Warning|Thin wall|"][..]),
        ("detent-plate", &["Warning|Sharp inside corner|1|2:0,2:4|"]),
        ("bracket", &["Error|Tight bend|", "Warning|Short flange|"]),
        ("cover", &["Warning|Overhang|"]),
        ("hollow-block", &["Error|Enclosed hollow|"]),
        ("angle", &["Warning|Thin wall|1|1:3,1:5|"]),
    ];
    for (name, wanted) in rules {
        let report = example(name, "report");
        assert!(wanted.iter().all(|start| report.lines().any(|line| line.starts_with(start))), "{name}");
    }
}

#[test]
fn the_view_can_be_turned() {
    let plate = made(&example("plate", "txt"));
    let front = picture(&plate, Some("0,0,1"));
    assert!(front.contains(">Face 1:1; hidden in this view: 1:0<"), "{front}");
    let back = picture(&plate, Some("0.2,0.1,-1"));
    assert!(back.contains(">Face 1:0; hidden in this view: 1:1<"));
    let steep = picture(&plate, Some("0,1,0"));
    assert!(steep.contains(">Hidden in this view: faces 1:0, 1:1<") && steep.contains("stroke-dasharray=\"5 4\""));
}

#[test]
fn hidden_faces_are_dashed() {
    let svg = picture(&made(&example("hollow-block", "txt")), None);
    assert!(svg.contains(">Hidden in this view: faces 2:0, 2:1, 2:2, 2:3, 2:4, 2:5<"));
    assert!(svg.contains("stroke-dasharray=\"3 2\""));
}

#[test]
fn a_name_is_escaped() {
    let text = example("hollow-block", "txt").replace("Nylon PA 12", "a<b> & \\\"c\\\"");
    let svg = picture(&made(&text), None);
    assert!(svg.contains("SLS printing, a&lt;b&gt; &amp; &quot;c&quot;</text>"));
}

#[test]
fn a_part_without_polygons_is_drawn() {
    let text = example("plate", "txt");
    let job = text.split("\nface").next().unwrap();
    assert!(picture(&made(job), None).contains("no findings"));
}

#[test]
fn open_and_crossing_bodies_are_drawn() {
    let text = example("hollow-block", "txt");
    // The hollow reaches out of the block, and then also loses a face.
    let crossing = text.replace(" 10\n", " 18\n");
    let svg = picture(&made(&crossing), None);
    assert_eq!(svg, picture(&made(&crossing), None));
    let last = crossing.rfind("\nface").unwrap();
    assert_ne!(picture(&made(&crossing[..last]), None), svg);
}

#[test]
fn a_part_that_the_check_refuses_is_drawn_without_findings() {
    let text = example("plate", "txt");
    let flat = format!("{text}\nface 9:0 plane\npolygon\n1 1 1\n2 2 2\n3 3 3\n");
    let output = run_on(&["picture", "-"], &made(&flat));
    assert_eq!(output.status.code(), Some(2));
    let svg = String::from_utf8(output.stdout).unwrap();
    assert_well_formed(&svg);
    assert!(svg.contains("not checked"));
}

/// A vaulted cover of two shells and a rim between them: 2 n² + 4 n polygons.
fn cover(n: usize) -> String {
    let at = |inset: f64, i: usize, j: usize| {
        let [u, v] = [i, j].map(|k| 2.0 * k as f64 / n as f64 - 1.0);
        let (u2, v2) = (u * u, v * v);
        let (a, h) = (40.0 - inset, 25.0 - inset);
        format!("{} {} {}\n", a * u, 0.7 * a * v, h * (1.0 - u2 * u2) * (1.0 - v2 * v2))
    };
    let mut text = example("cover", "txt").split("\nface").next().unwrap().to_string();
    let mut polygon = |face: &str, corners: [String; 4]| text.push_str(&format!("face {face}\npolygon\n{}", corners.concat()));
    for (i, j) in (0..n * n).map(|k| (k / n, k % n)) {
        polygon("1:0 other", [at(0.0, i, j), at(0.0, i + 1, j), at(0.0, i + 1, j + 1), at(0.0, i, j + 1)]);
        polygon("2:0 other", [at(2.0, i, j), at(2.0, i, j + 1), at(2.0, i + 1, j + 1), at(2.0, i + 1, j)]);
    }
    for k in 0..n {
        for [(i, j), (p, q)] in [[(k, 0), (k + 1, 0)], [(n, k), (n, k + 1)], [(n - k, n), (n - k - 1, n)], [(0, n - k), (0, n - k - 1)]] {
            polygon("3:0 plane", [at(2.0, i, j), at(2.0, p, q), at(0.0, p, q), at(0.0, i, j)]);
        }
    }
    text
}

#[test]
fn a_cover_of_3000_polygons_is_drawn_small() {
    let file = made(&cover(38));
    assert_eq!(file.len(), (24 * 4 + 80) * 3040 + 144);
    for from in [None, Some("0.5,-0.8,0.6"), Some("0,0,-1")] {
        let svg = picture(&file, from);
        assert!(svg.len() < 500_000, "{} bytes", svg.len());
        assert!(svg.contains("Overhang"));
    }
}
