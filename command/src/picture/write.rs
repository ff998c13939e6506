//! Numbers, texts and paths as SVG has them.
use super::vector::Point;
use std::collections::BTreeMap;
use std::fmt::Write;

/// Hundredths of a pixel.
pub type Spot = [i64; 2];

pub fn spot(p: Point) -> Spot {
    [p[0], p[1]].map(|x| (x * 100.0).round() as i64)
}

/// A number of hundredths, without zeros that say nothing.
pub fn hundredths(n: i64) -> String {
    let sign = if n < 0 { "-" } else { "" };
    let (whole, rest) = (n.abs() / 100, n.abs() % 100);
    match (rest / 10, rest % 10) {
        (0, 0) => format!("{sign}{whole}"),
        (tens, 0) => format!("{sign}{whole}.{tens}"),
        (tens, ones) => format!("{sign}{whole}.{tens}{ones}"),
    }
}

pub fn number(x: f64) -> String {
    hundredths((x * 100.0).round() as i64)
}

/// A path through the spots; the first is stated, the others by their distance from the one before.
pub fn path(out: &mut String, spots: &[Spot], is_closed: bool) {
    let mut last = [0, 0];
    for (i, &at) in spots.iter().enumerate() {
        let [x, y] = if i == 0 { at } else { [at[0] - last[0], at[1] - last[1]] };
        let start = match i {
            0 => "M",
            1 => "l",
            _ if x < 0 => "",
            _ => " ",
        };
        let gap = if y < 0 { "" } else { " " };
        let _ = write!(out, "{start}{}{gap}{}", hundredths(x), hundredths(y));
        last = at;
    }
    if is_closed {
        out.push('z');
    }
}

/// Spots without those that repeat the one before.
pub fn spots(points: &[Point]) -> Vec<Spot> {
    let mut all: Vec<Spot> = points.iter().map(|&p| spot(p)).collect();
    all.dedup();
    while all.len() > 1 && all.first() == all.last() {
        all.pop();
    }
    all
}

/// Lines joined end to end, as long as one leads on to another.
pub fn chains(lines: &[[Spot; 2]]) -> Vec<Vec<Spot>> {
    let mut ends: BTreeMap<Spot, Vec<usize>> = BTreeMap::new();
    for (i, line) in lines.iter().enumerate() {
        line.iter().for_each(|&end| ends.entry(end).or_default().push(i));
    }
    let mut used = vec![false; lines.len()];
    let mut all = vec![];
    for (i, &[start, end]) in lines.iter().enumerate() {
        if std::mem::replace(&mut used[i], true) || start == end {
            continue;
        }
        let mut chain = vec![start, end];
        grow(&mut chain, lines, &ends, &mut used);
        chain.reverse();
        grow(&mut chain, lines, &ends, &mut used);
        all.push(chain);
    }
    all
}

fn grow(chain: &mut Vec<Spot>, lines: &[[Spot; 2]], ends: &BTreeMap<Spot, Vec<usize>>, used: &mut [bool]) {
    while let Some(&last) = chain.last() {
        let Some(&next) = ends.get(&last).and_then(|all| all.iter().find(|&&i| !used[i])) else {
            return;
        };
        used[next] = true;
        let [a, b] = lines[next];
        if a != b {
            chain.push(if a == last { b } else { a });
        }
    }
}

/// A text between tags.
pub fn escaped(text: &str) -> String {
    text.replace('&', "&amp;").replace('<', "&lt;").replace('>', "&gt;").replace('"', "&quot;")
}

#[cfg(test)]
mod tests {
    use super::*;

    #[test]
    fn numbers_are_short() {
        let all = [0.0, -0.001, 1.0, -0.5, 12.345, -0.05, 100.0].map(number);
        assert_eq!(all, ["0", "0", "1", "-0.5", "12.35", "-0.05", "100"]);
    }

    #[test]
    fn a_path_runs_from_spot_to_spot() {
        let mut out = String::new();
        path(&mut out, &[[100, 250], [200, 250], [150, -50]], true);
        assert_eq!(out, "M1 2.5l1 0-0.5-3z");
    }

    #[test]
    fn lines_are_joined() {
        let lines = [[[0, 0], [1, 0]], [[2, 0], [1, 0]], [[5, 5], [6, 6]], [[2, 0], [0, 0]], [[7, 7], [7, 7]]];
        assert_eq!(chains(&lines), [vec![[0, 0], [2, 0], [1, 0], [0, 0]], vec![[6, 6], [5, 5]]]);
    }

    #[test]
    fn a_text_is_escaped() {
        assert_eq!(escaped("a<b & \"c\">"), "a&lt;b &amp; &quot;c&quot;&gt;");
    }
}
