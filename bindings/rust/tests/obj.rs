//! Part files of OBJ text through the package: what is written, refusals, and what is left in a lent buffer.
mod common;

use common::{cuboid, part, plate, plate_report, CNC};
use gablemadder::{check, obj_room, obj_to_part, obj_to_part_with, Refusal, JOB};

/// The plate of the scope, in OBJ text with an index for each face.
const PLATE: &str = "\
# 20 x 20 x 0.5
v 0 0 0
v 20 0 0
v 20 20 0
v 0 20 0
v 0 0 .5
v 20 0 .5
v 20 20 .5
v 0 20 .5

g 0
f 1 4 3 2
g 1
f 5 6 7 8
g 2
f 1 2 6 5
g 3
f 2 3 7 6
g 4
f 3 4 8 7
g 5
f 4 1 5 8";

/// The job of a part file.
fn job(file: &[u8]) -> &[u8] {
    &file[file.len() - 144..file.len() - 16]
}

#[test]
fn the_plate_is_the_same_part_file() {
    let plate = plate();
    let file = obj_to_part(PLATE.as_bytes(), job(&plate)).unwrap();
    assert_eq!(file, plate);
    assert_eq!(check(&file).unwrap().text(), plate_report());
}

#[test]
fn a_text_without_faces_is_a_part_without_polygons() {
    let empty = part(CNC, &[]);
    for text in [&b""[..], b"\n", b"# nothing\n\n", b"v 1 2 3", b"g 4"] {
        assert_eq!(obj_to_part(text, job(&empty)).as_ref(), Ok(&empty));
    }
}

#[test]
fn decimals_are_the_nearest_numbers() {
    let text = b"v 0.1 -0 +12345.6789012345\nv .5 7. -.000000000000001\nv 1 2 3\nf 1 2 3\n";
    let want = [0.1, -0.0, 12345.6789012345, 0.5, 7.0, -1e-15, 1.0, 2.0, 3.0];
    let file = obj_to_part(text, &[0; JOB]).unwrap();
    let found: Vec<u64> = file[..72].chunks(8).map(|bytes| u64::from_le_bytes(bytes.try_into().unwrap())).collect();
    assert_eq!(found, want.map(f64::to_bits));
}

#[test]
fn each_refusal_in_its_order() {
    let head = "v 0 0 0\nv 1 0 0\nv 0 1 0\n";
    let refused = |lines: &str, job: usize| obj_to_part(format!("{head}{lines}").as_bytes(), &vec![0; job]).unwrap_err();
    assert_eq!(refused("f 1 2\nf 1 2 4", JOB), Refusal::BadLine);
    assert_eq!(refused("f 1 2 4\nf 1 2", 0), Refusal::UndefinedVertex);
    assert_eq!(refused("f 1 2 4 x", JOB), Refusal::BadLine);
    assert_eq!(refused(&"f 1 2 3\n".repeat(4097), 0), Refusal::TooLarge);
    assert_eq!(refused(&format!("{}x", "f 1 2 3\n".repeat(4097)), JOB), Refusal::BadLine);
    assert_eq!(refused("f 1 2 3", 127), Refusal::BadJob);
    assert_eq!(refused("f 1 2 3", 129), Refusal::BadJob);
    assert_eq!(refused("f 1 2 3\r\n", JOB), Refusal::BadLine);
}

#[test]
fn the_check_refuses_what_the_text_says() {
    let plate = plate();
    let checked = |text: String| check(&obj_to_part(text.as_bytes(), job(&plate)).unwrap()).map(|_| ());
    let triangle = |x: &str| format!("v {x} 0 0\nv 0 1 0\nv 0 0 0\nf 1 2 3\n");
    assert_eq!(checked(triangle("10000")), Ok(()));
    assert_eq!(checked(triangle("10000.0000000001")), Err(Refusal::BadVertex));
    assert_eq!(checked(triangle("0")), Err(Refusal::FlatPolygon));
    let faces = |count: u32| (0..count).fold(triangle("1"), |text, k| format!("{text}g {k}\nf 1 2 3\n"));
    assert_eq!(checked(faces(1025)), Err(Refusal::TooManyFaces));
    let bad = obj_to_part(triangle("1").as_bytes(), &[0; JOB]).unwrap();
    assert_eq!(check(&bad).map(|_| ()), Err(Refusal::BadJob));
}

#[test]
fn a_lent_buffer_before_and_after() {
    let want = part(CNC, &cuboid(1, [20.0, 20.0, 0.5]));
    let mut out = vec![b'#'; want.len() + 5];
    assert_eq!(obj_to_part_with(PLATE.as_bytes(), job(&want), &mut out), Ok(want.len()));
    assert_eq!((&out[..want.len()], &out[want.len()..]), (&want[..], &b"#####"[..]));
    let mut out = vec![b'#'; want.len() - 1];
    for (text, job, refusal) in [
        (PLATE, job(&want), Refusal::OutputTooShort),
        (PLATE, &want[..100], Refusal::BadJob),
        ("f 1 2 3", job(&want), Refusal::UndefinedVertex),
        ("f 1 2 3 ", &want[..9], Refusal::BadLine),
    ] {
        assert_eq!(obj_to_part_with(text.as_bytes(), job, &mut out), Err(refusal));
        assert!(out.iter().all(|byte| *byte == b'#'));
    }
}

#[test]
fn as_much_as_there_may_be() {
    let corners = "f 1 2 3 4\n".repeat(4096);
    let text = format!("v 0 0 0\nv 1 0 0\nv 1 1 0\nv 0 1 0\n{corners}");
    let file = obj_to_part(text.as_bytes(), job(&plate())).unwrap();
    assert_eq!(file.len(), obj_room(usize::MAX));
    assert!(check(&file).is_ok());
    let text = format!("{text}f 1 2 3\n");
    assert_eq!(obj_to_part(text.as_bytes(), job(&plate())), Err(Refusal::TooLarge));
}
