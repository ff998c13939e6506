//! A polygon cut into triangles.
use super::vector::{cross, dot, sub, Point};

/// Cuts off one corner after the other, each a triangle that holds no other corner. Where sides cross, no such corner may be left: then the next is cut
/// off all the same.
pub fn triangles(corners: &[Point], normal: Point) -> Vec<[Point; 3]> {
    let mut left: Vec<Point> = corners.to_vec();
    let mut all = vec![];
    while left.len() > 3 {
        let ear = (0..left.len()).find(|&i| is_ear(&left, i, normal)).unwrap_or(0);
        all.push(triangle(&left, ear));
        left.remove(ear);
    }
    all.push([left[0], left[1], left[2]]);
    all
}

/// A corner with the ones before and after it.
fn triangle(corners: &[Point], i: usize) -> [Point; 3] {
    let n = corners.len();
    [corners[(i + n - 1) % n], corners[i], corners[(i + 1) % n]]
}

fn is_ear(corners: &[Point], i: usize, normal: Point) -> bool {
    let [a, b, c] = triangle(corners, i);
    let turn = |p: Point, q: Point, r: Point| dot(cross(sub(q, p), sub(r, p)), normal);
    if turn(a, b, c) <= 0.0 {
        return false;
    }
    let inside = |p: Point| turn(a, b, p) >= 0.0 && turn(b, c, p) >= 0.0 && turn(c, a, p) >= 0.0;
    !corners.iter().any(|&p| p != a && p != b && p != c && inside(p))
}

#[cfg(test)]
mod tests {
    use super::*;
    use crate::picture::vector::{length, normal};

    fn area(corners: &[Point]) -> f64 {
        0.5 * length(normal(corners))
    }

    #[test]
    fn an_l_keeps_its_area() {
        let l = [[0.0, 0.0, 1.0], [3.0, 0.0, 1.0], [3.0, 1.0, 1.0], [1.0, 1.0, 1.0], [1.0, 3.0, 1.0], [0.0, 3.0, 1.0]];
        let cut = triangles(&l, [0.0, 0.0, 1.0]);
        assert_eq!(cut.len(), 4);
        assert_eq!(cut.iter().map(|t| area(t)).sum::<f64>(), 5.0);
    }

    #[test]
    fn sides_that_cross_are_cut_too() {
        let star = [[0.0, 3.0, 0.0], [-2.0, -3.0, 0.0], [3.0, 1.0, 0.0], [-3.0, 1.0, 0.0], [2.0, -3.0, 0.0]];
        assert_eq!(triangles(&star, [0.0, 0.0, 1.0]).len(), 3);
    }
}
