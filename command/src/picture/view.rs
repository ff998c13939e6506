//! From where the part is seen, and where its points come to lie in the picture.
use super::vector::{add, bounds, cross, dot, length, scale, sub, unit, Point};

/// How far a view leans: to the side, up, and to the front. No two of the part's planes along the axes are seen alike.
const LEAN: [f64; 3] = [0.55, 0.5, 0.8];

/// Right, front and up, of which the first two are as near to x and to z (or y) as `up` allows.
fn frame(up: Point) -> [Point; 3] {
    let up = unit(up);
    let x = if up[0].abs() < 0.9 { [1.0, 0.0, 0.0] } else { [0.0, 0.0, 1.0] };
    let right = unit(sub(x, scale(up, dot(x, up))));
    [right, cross(right, up), up]
}

/// Directions to look from, the most usual first: from above, then from below.
pub fn candidates(up: Point) -> Vec<Point> {
    let [right, front, up] = frame(up);
    let mut all = vec![];
    for above in [1.0, -1.0] {
        for (side, ahead) in [(1.0, 1.0), (-1.0, 1.0), (1.0, -1.0), (-1.0, -1.0)] {
            let flat = add(scale(right, side * LEAN[0]), scale(front, ahead * LEAN[2]));
            all.push(add(flat, scale(up, above * LEAN[1])));
        }
    }
    all
}

/// Unit directions of the picture, as they stand in space.
#[derive(Clone, Copy)]
struct View {
    right: Point,
    up: Point,
    toward: Point,
}

impl View {
    /// Seen from this direction; `up` points upwards in the picture.
    fn new(from: Point, up: Point) -> View {
        let toward = if length(unit(from)) > 0.5 { unit(from) } else { unit(candidates(up)[0]) };
        let [_, front, up] = frame(up);
        let steep = length(cross(up, toward)) < 1e-6;
        let right = unit(cross(if steep { scale(front, -1.0) } else { up }, toward));
        View { right, up: cross(toward, right), toward }
    }
}

/// The picture's plane: a view, drawn to a scale. Lengths are pixels, depths too; x runs to the right, y down, depth towards the viewer.
#[derive(Clone, Copy)]
pub struct Canvas {
    view: View,
    scale: f64,
    shift: [f64; 2],
    pub width: f64,
    pub height: f64,
}

impl Canvas {
    /// A canvas of this width into which the points fit, with margins at the sides and above and below.
    pub fn new(points: &[Point], from: Point, up: Point, width: f64, heights: [f64; 2], [side, end]: [f64; 2]) -> Canvas {
        let view = View::new(from, up);
        let [least, most] = heights;
        let one = Canvas { view, scale: 1.0, shift: [0.0; 2], width, height: most };
        let [lo, hi] = bounds(points.iter().map(|&p| one.place(p)));
        let [wide, high] = [hi[0] - lo[0], hi[1] - lo[1]].map(|x| x.max(1e-9));
        let scale = ((width - 2.0 * side) / wide).min((most - 2.0 * end) / high);
        let height = (high * scale + 2.0 * end).ceil().max(least);
        let shift = [0.5 * width - 0.5 * scale * (lo[0] + hi[0]), 0.5 * height - 0.5 * scale * (lo[1] + hi[1])];
        Canvas { scale, shift, height, ..one }
    }

    /// Where a point comes to lie.
    pub fn place(&self, p: Point) -> Point {
        let [x, y, depth] = self.turn(p);
        [x * self.scale + self.shift[0], y * self.scale + self.shift[1], depth * self.scale]
    }

    /// A direction in the picture.
    pub fn turn(&self, direction: Point) -> Point {
        let view = &self.view;
        [dot(direction, view.right), -dot(direction, view.up), dot(direction, view.toward)]
    }
}

#[cfg(test)]
mod tests {
    use super::*;

    fn near(a: Point, b: Point) -> bool {
        length(sub(a, b)) < 1e-12
    }

    #[test]
    fn seen_from_the_front_x_is_right_and_y_up() {
        let corners = [[0.0, 0.0, 0.0], [2.0, 1.0, 5.0]];
        let canvas = Canvas::new(&corners, [0.0, 0.0, 3.0], [0.0, 1.0, 0.0], 120.0, [0.0, 500.0], [10.0, 10.0]);
        assert_eq!(canvas.height, 70.0);
        assert!(near(canvas.place([0.0, 0.0, 0.0]), [10.0, 60.0, 0.0]));
        assert!(near(canvas.place([2.0, 1.0, 5.0]), [110.0, 10.0, 250.0]));
    }

    #[test]
    fn seen_along_up_the_front_is_below() {
        for from in [[0.0, 1.0, 0.0], [0.0, -1e300, 0.0], [0.0; 3]] {
            let canvas = Canvas::new(&[[0.0; 3], [1.0; 3]], from, [0.0, 1.0, 0.0], 100.0, [0.0, 100.0], [0.0, 0.0]);
            assert!(canvas.place([0.3, 0.4, 0.5]).iter().all(|x| x.is_finite()));
        }
        let top = Canvas::new(&[[0.0; 3], [1.0; 3]], [0.0, 1.0, 0.0], [0.0, 1.0, 0.0], 100.0, [0.0, 100.0], [0.0, 0.0]);
        assert!(near(top.turn([0.0, 0.0, 1.0]), [0.0, 1.0, 0.0]));
    }

    #[test]
    fn one_point_has_a_canvas() {
        let canvas = Canvas::new(&[[7.0; 3]], [1.0, 1.0, 1.0], [0.0, 0.0, 1.0], 100.0, [0.0, 100.0], [10.0, 10.0]);
        assert!(canvas.place([7.0; 3]).iter().all(|x| x.is_finite()));
        assert!(canvas.height >= 20.0);
    }
}
