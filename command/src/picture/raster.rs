//! Which face is seen at each place of the picture, on a grid.
use super::piece::Piece;

pub struct Raster {
    pub columns: usize,
    pub rows: usize,
    /// Pixels on a side of a cell.
    pub cell: f64,
    /// By row, then column.
    pub faces: Vec<Option<usize>>,
    depths: Vec<f64>,
}

impl Raster {
    pub fn new(width: f64, height: f64, cell: f64) -> Raster {
        let [columns, rows] = [width, height].map(|x| (x / cell).ceil().max(1.0) as usize);
        Raster { columns, rows, cell, faces: vec![None; columns * rows], depths: vec![f64::NEG_INFINITY; columns * rows] }
    }

    /// The middle of a cell, in pixels.
    pub fn middle(&self, i: usize) -> [f64; 2] {
        [i % self.columns, i / self.columns].map(|k| (k as f64 + 0.5) * self.cell)
    }

    /// The cell of a place, if the grid has it.
    pub fn at(&self, [x, y]: [f64; 2]) -> Option<usize> {
        let (column, row) = ((x / self.cell).floor(), (y / self.cell).floor());
        let inside = column >= 0.0 && row >= 0.0 && column < self.columns as f64 && row < self.rows as f64;
        inside.then_some(row as usize * self.columns + column as usize)
    }

    /// Cells whose middle the piece covers become its face's, where nothing nearer is there.
    pub fn paint(&mut self, piece: &Piece, face: usize) {
        for (row, from, to) in rows(piece, self.columns, self.rows, self.cell) {
            let y = (row as f64 + 0.5) * self.cell;
            for column in from..to {
                let depth = piece.depth((column as f64 + 0.5) * self.cell, y);
                let i = row * self.columns + column;
                if depth > self.depths[i] {
                    (self.depths[i], self.faces[i]) = (depth, Some(face));
                }
            }
        }
    }

    /// Whether the piece covers the middle of any cell.
    pub fn holds(&self, piece: &Piece) -> bool {
        rows(piece, self.columns, self.rows, self.cell).any(|(_, from, to)| from < to)
    }

    /// How many cells each of so many faces has.
    pub fn counts(&self, faces: usize) -> Vec<usize> {
        let mut counts = vec![0; faces];
        self.faces.iter().flatten().for_each(|&face| counts[face] += 1);
        counts
    }

    /// For each cell, how far it is to a cell of another face or to the grid's border: in cells, by steps to the side, up and down.
    pub fn rooms(&self) -> Vec<u32> {
        let (columns, rows) = (self.columns, self.rows);
        let mut rooms = vec![0u32; columns * rows];
        let at = |column: usize, row: usize| row * columns + column;
        let best = |rooms: &[u32], i: usize, j: usize| if self.faces[i] == self.faces[j] { rooms[j] } else { 0 };
        for i in 0..rooms.len() {
            let (column, row) = (i % columns, i / columns);
            if column > 0 && row > 0 {
                let (left, over) = (at(column - 1, row), at(column, row - 1));
                rooms[i] = 1 + best(&rooms, i, left).min(best(&rooms, i, over));
            }
        }
        for i in (0..rooms.len()).rev() {
            let (column, row) = (i % columns, i / columns);
            let back = match column + 1 < columns && row + 1 < rows {
                true => 1 + best(&rooms, i, at(column + 1, row)).min(best(&rooms, i, at(column, row + 1))),
                false => 0,
            };
            rooms[i] = rooms[i].min(back);
        }
        rooms
    }
}

/// The rows of a grid that a piece reaches, each with its columns from the first to before the last.
fn rows(piece: &Piece, columns: usize, rows: usize, cell: f64) -> impl Iterator<Item = (usize, usize, usize)> + '_ {
    let first = (piece.lo[1] / cell - 0.5).ceil().max(0.0) as usize;
    let reached = (first..rows).take_while(move |&row| (row as f64 + 0.5) * cell <= piece.hi[1]);
    reached.map(move |row| {
        let (left, right) = span(piece, (row as f64 + 0.5) * cell);
        let from = (left / cell - 0.5).ceil().max(0.0) as usize;
        (row, from, ((right / cell + 0.5).floor().max(0.0) as usize).min(columns))
    })
}

/// From where to where the piece covers a row.
fn span(piece: &Piece, y: f64) -> (f64, f64) {
    let (mut left, mut right) = (f64::INFINITY, f64::NEG_INFINITY);
    let n = piece.corners.len();
    for i in 0..n {
        let (a, b) = (piece.corners[i], piece.corners[(i + 1) % n]);
        if (a[1] <= y) != (b[1] <= y) {
            let x = a[0] + (b[0] - a[0]) * (y - a[1]) / (b[1] - a[1]);
            (left, right) = (left.min(x), right.max(x));
        }
    }
    (left, right)
}

#[cfg(test)]
pub mod tests {
    use super::super::piece::tests::square;
    use super::*;

    /// Of the pixels that any piece covers, how many show something farther than the nearest piece when the painted ones are laid over each other.
    pub fn wrongly_covered(pieces: &[Piece], painted: &[Piece], width: f64, height: f64) -> (usize, usize) {
        let mut raster = Raster::new(width, height, 1.0);
        pieces.iter().for_each(|piece| raster.paint(piece, 0));
        let mut last = vec![f64::NEG_INFINITY; raster.depths.len()];
        for piece in painted {
            for (row, from, to) in rows(piece, raster.columns, raster.rows, raster.cell) {
                for column in from..to {
                    last[row * raster.columns + column] = piece.depth(column as f64 + 0.5, row as f64 + 0.5);
                }
            }
        }
        let wrong = raster.depths.iter().zip(&last).filter(|(nearest, last)| **nearest > **last + 0.05).count();
        (wrong, raster.faces.iter().flatten().count())
    }

    #[test]
    fn the_nearer_face_is_seen() {
        let mut raster = Raster::new(30.0, 20.0, 1.0);
        raster.paint(&square(0, 0.0, 0.0, 2.0), 0);
        raster.paint(&square(1, 5.0, 5.0, 1.0), 1);
        assert_eq!(raster.counts(3), [100, 75, 0]);
        assert_eq!(raster.faces[raster.at([7.0, 7.0]).unwrap()], Some(0));
        assert_eq!(raster.at([-0.5, 3.0]), None);
    }

    #[test]
    fn there_is_most_room_in_the_middle() {
        let mut raster = Raster::new(30.0, 30.0, 1.0);
        raster.paint(&square(0, 10.0, 10.0, 2.0), 0);
        let rooms = raster.rooms();
        let room = |x: f64, y: f64| rooms[raster.at([x, y]).unwrap()];
        assert_eq!([room(10.5, 15.5), room(11.5, 15.5), room(14.5, 14.5), room(19.5, 19.5)], [1, 2, 5, 1]);
    }
}
