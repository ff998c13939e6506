//! A few pieces sorted by planes: all that lies beyond a plane is painted before what lies on the viewer's side, and what crosses it is cut.
use super::piece::{Piece, SAME};

/// How many planes are tried at each step.
const TRIES: usize = 6;

enum Task {
    Sort(Vec<Piece>),
    Paint(Vec<Piece>),
}

/// From back to front. The nodes of the tree wait on a stack, so that no depth is too great.
pub fn sorted(pieces: Vec<Piece>) -> Vec<Piece> {
    let mut stack = vec![Task::Sort(pieces)];
    let mut all = vec![];
    while let Some(task) = stack.pop() {
        match task {
            Task::Paint(pieces) => all.extend(pieces),
            Task::Sort(pieces) if pieces.len() < 2 => all.extend(pieces),
            Task::Sort(pieces) => {
                let [far, on, near] = divided(pieces);
                stack.extend([Task::Sort(near), Task::Paint(on), Task::Sort(far)]);
            }
        }
    }
    all
}

enum Place {
    Far,
    On,
    Near,
    Both,
}

fn place(piece: &Piece, plane: &Piece) -> Place {
    let offs = piece.corners.iter().map(|&p| plane.above(p));
    let (least, most) = offs.fold((0.0, 0.0), |(a, b): (f64, f64), off| (a.min(off), b.max(off)));
    match (least < -SAME, most > SAME) {
        (false, false) => Place::On,
        (true, false) => Place::Far,
        (false, true) => Place::Near,
        (true, true) => Place::Both,
    }
}

/// Pieces beyond the plane of one of them, in it, and before it.
fn divided(pieces: Vec<Piece>) -> [Vec<Piece>; 3] {
    let chosen = best(&pieces);
    let plane = pieces[chosen].clone();
    let [mut far, mut on, mut near] = [vec![], vec![], vec![]];
    for (i, piece) in pieces.into_iter().enumerate() {
        match place(&piece, &plane) {
            _ if i == chosen => on.push(piece),
            Place::Far => far.push(piece),
            Place::On => on.push(piece),
            Place::Near => near.push(piece),
            Place::Both => {
                let (before, beyond) = piece.split(&plane);
                near.extend(before);
                far.extend(beyond);
            }
        }
    }
    [far, on, near]
}

/// The piece whose plane cuts the fewest others, and of those the one that parts them most evenly.
fn best(pieces: &[Piece]) -> usize {
    let step = pieces.len().div_ceil(TRIES);
    let cost = |&i: &usize| {
        let (mut far, mut near, mut both) = (0i64, 0i64, 0i64);
        for piece in pieces {
            match place(piece, &pieces[i]) {
                Place::Far => far += 1,
                Place::Near => near += 1,
                Place::Both => both += 1,
                Place::On => (),
            }
        }
        8 * both + (far - near).abs()
    };
    (0..pieces.len()).step_by(step).min_by_key(cost).unwrap_or(0)
}
