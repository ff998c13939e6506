//! Part files of Wavefront OBJ text.
use crate::{obj_to_part_with, Refusal, MOST_POLYGONS, MOST_VERTICES};

/// Bytes of a part file's job.
pub const JOB: usize = 128;

/// Bytes of a part file of so many vertices and polygons.
const fn file_length(vertices: usize, polygons: usize) -> usize {
    24 * vertices + 80 * polygons + JOB + 16
}

/// How many bytes hold the part file of any OBJ text of this length. A face takes 8 bytes of the text at the least, which make 152 of the file, and no
/// part file has more than [`MOST_VERTICES`] and [`MOST_POLYGONS`].
///
/// ```
/// assert_eq!(gablemadder::obj_room(0), 163);
/// assert_eq!(gablemadder::obj_room(1 << 30), 721_040);
/// ```
pub const fn obj_room(text_length: usize) -> usize {
    let most = file_length(MOST_VERTICES, MOST_POLYGONS);
    if text_length >= most {
        return most;
    }
    let room = 19 * (text_length + 1) + file_length(0, 0);
    if room < most {
        room
    } else {
        most
    }
}

/// Makes a part file of OBJ text and a job, the 128 bytes that stand before the trailer of a part file.
///
/// These lines are read: `v x y z`, a vertex, three decimals of 1 to 15 digits each, with a sign or none, at most one point, no exponent; `f a b c ..`, a
/// face of 3 to 64 vertices by their numbers from 1, no slashes; `g n`, the index, below 2^32, of the faces that follow, 0 before the first. One or more
/// spaces stand before each field but the first and nowhere else. Empty lines and those that start with `#` are passed over. Each face becomes a polygon of
/// the part file, a plane of feature 1, in the order of the text, and each decimal the nearest f64.
///
/// Refusals: [`BadLine`](Refusal::BadLine) or [`UndefinedVertex`](Refusal::UndefinedVertex) for the first line to which one of them applies; then
/// [`TooLarge`](Refusal::TooLarge); then [`BadJob`](Refusal::BadJob), where the job has not 128 bytes. What the job says is not looked at:
/// [`check`](crate::check) of the file can answer `BadJob` for it, and [`BadVertex`](Refusal::BadVertex), [`FlatPolygon`](Refusal::FlatPolygon) and
/// [`TooManyFaces`](Refusal::TooManyFaces) for what the text says.
///
/// ```
/// # fn main() -> Result<(), Box<dyn std::error::Error>> {
/// # let plate = std::fs::read(concat!(env!("CARGO_MANIFEST_DIR"), "/../../examples/plate.part"))?;
/// # let job = &plate[plate.len() - 144..plate.len() - 16];
/// let text = b"v 0 0 0\nv 20 0 0\nv 0 20 0\ng 7\nf 1 2 3\n";
/// let file = gablemadder::obj_to_part(text, job)?;
/// assert_eq!(file.len(), 24 * 3 + 80 + 144);
/// assert!(gablemadder::check(&file).is_ok());
/// assert_eq!(gablemadder::obj_to_part(b"f 1 2 3", job), Err(gablemadder::Refusal::UndefinedVertex));
/// # Ok(())
/// # }
/// ```
pub fn obj_to_part(text: &[u8], job: &[u8]) -> Result<Vec<u8>, Refusal> {
    // Zeros of the system's, which take no time until they are used.
    let mut file = vec![0; obj_room(text.len())];
    let length = obj_to_part_with(text, job, &mut file)?;
    file.truncate(length);
    file.shrink_to_fit();
    Ok(file)
}

#[cfg(test)]
mod tests {
    use super::*;

    #[test]
    fn the_room_is_enough_and_no_more_than_there_can_be() {
        for (faces, corners) in [(1, 3), (1, 64), (2, 3), (100, 3), (1_996, 3), (4_096, 3), (4_096, 4), (256, 64)] {
            let length = faces * (2 + 2 * corners) - 1;
            assert!(obj_room(length) >= file_length(faces * corners, faces), "{faces} faces of {corners}");
        }
        let most = file_length(MOST_VERTICES, MOST_POLYGONS);
        assert_eq!((obj_room(usize::MAX), obj_room(most), obj_room(most - 1)), (most, most, most));
        assert!((0..50_000).all(|n| obj_room(n) <= obj_room(n + 1)));
    }
}
