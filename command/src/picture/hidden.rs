//! Which parts of a line are seen.
use super::piece::Piece;
use super::vector::{between, Point};

/// Pixels on a side of the squares in which pieces are looked up.
const SQUARE: f64 = 24.0;
/// A piece hides only what lies farther behind it, in pixels: an edge lies on the pieces that it bounds.
const MARGIN: f64 = 0.05;

/// Shorter parts of a line that is seen only in parts are left out, in pixels.
const SHORT: f64 = 0.7;

/// Pieces by the squares of the picture that they reach into.
pub struct Cover<'a> {
    pieces: &'a [Piece],
    columns: usize,
    rows: usize,
    squares: Vec<Vec<u32>>,
}

impl<'a> Cover<'a> {
    pub fn new(pieces: &'a [Piece], width: f64, height: f64) -> Cover<'a> {
        let [columns, rows] = [width, height].map(|x| (x / SQUARE).ceil().max(1.0) as usize);
        let mut cover = Cover { pieces, columns, rows, squares: vec![vec![]; columns * rows] };
        for (i, piece) in pieces.iter().enumerate() {
            for square in cover.within(piece.lo, piece.hi) {
                cover.squares[square].push(i as u32);
            }
        }
        cover
    }

    fn within(&self, lo: [f64; 2], hi: [f64; 2]) -> Vec<usize> {
        let at = |x: f64, count: usize| ((x / SQUARE).max(0.0) as usize).min(count - 1);
        let (left, right) = (at(lo[0], self.columns), at(hi[0], self.columns));
        let (top, bottom) = (at(lo[1], self.rows), at(hi[1], self.rows));
        (top..=bottom).flat_map(|row| (left..=right).map(move |column| row * self.columns + column)).collect()
    }

    fn at(&self, x: f64, y: f64) -> impl Iterator<Item = &'a Piece> + '_ {
        let square = self.within([x, y], [x, y])[0];
        // The nearest first: after them most lines are known to be hidden.
        self.squares[square].iter().rev().map(|&i| &self.pieces[i as usize])
    }

    /// The parts of the way from a to b that no piece hides, by what share of the way they begin and end at.
    fn seen(&self, a: Point, b: Point) -> Vec<(f64, f64)> {
        let mut seen: Vec<(f64, f64)> = vec![];
        for pair in stops(a, b).windows(2) {
            let (from, to) = (pair[0], pair[1]);
            let (p, q) = (between(a, b, from), between(a, b, to));
            for (s, t) in self.seen_in_square(p, q) {
                let share = |t: f64| if t == 1.0 { to } else { from + (to - from) * t };
                match seen.last_mut() {
                    Some(last) if last.1 == share(s) => last.1 = share(t),
                    _ => seen.push((share(s), share(t))),
                }
            }
        }
        seen
    }

    /// The same of a way within a square.
    fn seen_in_square(&self, a: Point, b: Point) -> Vec<(f64, f64)> {
        let mut seen: Vec<(f64, f64)> = vec![(0.0, 1.0)];
        for piece in self.at(0.5 * (a[0] + b[0]), 0.5 * (a[1] + b[1])) {
            let Some((start, end)) = piece.hides(a, b, MARGIN) else { continue };
            seen = seen.into_iter().flat_map(|(s, t)| [(s, t.min(start)), (s.max(end), t)]).filter(|(s, t)| s < t).collect();
            if seen.is_empty() {
                break;
            }
        }
        seen
    }

    /// The same by where the parts begin and end; dots that are left of a hidden line are left out.
    pub fn seen_lines(&self, [a, b]: [Point; 2]) -> Vec<[Point; 2]> {
        let (x, y) = (b[0] - a[0], b[1] - a[1]);
        let length = (x * x + y * y).sqrt();
        let parts = self.seen(a, b).into_iter().filter(|&(s, t)| (t - s) * length > SHORT || t - s == 1.0);
        parts.map(|(s, t)| [between(a, b, s), between(a, b, t)]).collect()
    }

    pub fn sees(&self, p: Point) -> bool {
        !self.at(p[0], p[1]).any(|piece| piece.hides_point(p, MARGIN))
    }
}

/// From 0 to 1, with all shares of the way from a to b at which it goes from a square to the next.
fn stops(a: Point, b: Point) -> Vec<f64> {
    let mut all = vec![0.0, 1.0];
    for i in 0..2 {
        let (lo, hi) = (a[i].min(b[i]), a[i].max(b[i]));
        let (first, last) = ((lo / SQUARE).floor() as i64 + 1, (hi / SQUARE).ceil() as i64 - 1);
        all.extend((first..=last).map(|k| (k as f64 * SQUARE - a[i]) / (b[i] - a[i])).filter(|t| (0.0..1.0).contains(t)));
    }
    all.sort_by(f64::total_cmp);
    all.dedup();
    all
}

#[cfg(test)]
mod tests {
    use super::super::piece::tests::square;
    use super::*;

    #[test]
    fn a_line_between_two_squares() {
        let pieces = [square(0, 10.0, 0.0, 5.0), square(1, 60.0, 0.0, 5.0), square(2, 65.0, 0.0, 7.0), square(3, 30.0, 0.0, -5.0)];
        let cover = Cover::new(&pieces, 100.0, 20.0);
        let lines = cover.seen_lines([[0.0, 5.0, 0.0], [100.0, 5.0, 0.0]]);
        let ends: Vec<[i64; 2]> = lines.iter().map(|line| line.map(|p| (1e6 * p[0]).round() as i64)).collect();
        assert_eq!(ends, [[0, 10], [20, 60], [75, 100]].map(|line| line.map(|x| x * 1_000_000)));
        assert_eq!(cover.seen([12.0, 5.0, 0.0], [18.0, 5.0, 0.0]), []);
        assert!(cover.sees([35.0, 5.0, 0.0]) && !cover.sees([15.0, 5.0, 0.0]));
    }
}
