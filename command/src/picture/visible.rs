//! Pieces cut down to what is seen of them, for parts whose polygons cross each other all over: then no order of painting is right, and none is needed.
use super::piece::Piece;
use super::raster::Raster;

/// What is seen of each piece, by colour.
pub fn parts(pieces: Vec<Piece>) -> Vec<Piece> {
    let pieces = seen(pieces);
    let depths = |piece: &Piece| piece.corners.iter().fold((f64::INFINITY, f64::NEG_INFINITY), |(a, b), p| (a.min(p[2]), b.max(p[2])));
    let mut nearest: Vec<(f64, &Piece)> = pieces.iter().map(|piece| (depths(piece).1, piece)).collect();
    nearest.sort_by(|a, b| b.0.total_cmp(&a.0));
    let mut all: Vec<Piece> = pieces.iter().flat_map(|piece| left_of(piece, depths(piece).0, &nearest)).collect();
    all.sort_by_key(|piece| piece.colour);
    all
}

/// What others leave of a piece; they are sorted by the depth of their nearest corner, and beyond its farthest none hides it.
fn left_of(piece: &Piece, farthest: f64, nearest: &[(f64, &Piece)]) -> Vec<Piece> {
    let mut left = vec![piece.clone()];
    for (_, over) in nearest.iter().take_while(|(depth, _)| *depth > farthest) {
        if piece.less(over).is_some() {
            left = left.into_iter().flat_map(|part| part.less(over).unwrap_or(vec![part])).collect();
        }
        if left.is_empty() {
            break;
        }
    }
    left
}

/// The pieces that are the nearest at the middle of some pixel, and those too small to tell. No other hides anything that these do not.
fn seen(pieces: Vec<Piece>) -> Vec<Piece> {
    let [width, height] = [0, 1].map(|i| pieces.iter().fold(0.0, |m: f64, p| m.max(p.hi[i])));
    let mut raster = Raster::new(width, height, 1.0);
    pieces.iter().enumerate().for_each(|(i, piece)| raster.paint(piece, i));
    let counts = raster.counts(pieces.len());
    pieces.into_iter().enumerate().filter(|(i, piece)| counts[*i] > 0 || !raster.holds(piece)).map(|(_, piece)| piece).collect()
}
