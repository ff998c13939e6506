//! In which order the pieces are painted: what lies farther first, so that the nearer covers it.
use super::piece::{Cover, Piece};
use super::tree;
use super::visible;
use std::collections::{BTreeMap, BTreeSet};

/// With more pairs that cover each other, no order is looked for.
const MOST_PAIRS: usize = 600_000;
/// Nor where more pieces cross each other or lie over each other in a ring.
const MOST_IN_RING: usize = 24;

/// The pieces from back to front. Where some cross each other, or each lies over the next in a ring, they are cut.
pub fn sorted(pieces: Vec<Piece>) -> Vec<Piece> {
    let Some(above) = covered_by(&pieces) else {
        return visible::parts(pieces);
    };
    let ring = rings(&above);
    match is_large(&ring) {
        true => visible::parts(pieces),
        false => painted(pieces, &above, ring),
    }
}

fn is_large(ring: &[usize]) -> bool {
    let mut sizes = vec![0; ring.len()];
    ring.iter().for_each(|&r| sizes[r] += 1);
    sizes.into_iter().any(|size| size > MOST_IN_RING)
}

/// The pieces ring by ring; those of a ring as the tree sorts them.
fn painted(pieces: Vec<Piece>, above: &[Vec<usize>], ring: Vec<usize>) -> Vec<Piece> {
    let mut pieces: Vec<Option<Piece>> = pieces.into_iter().map(Some).collect();
    let mut all = vec![];
    for members in group_order(&pieces, above, ring) {
        let group: Vec<Piece> = members.into_iter().filter_map(|i| pieces[i].take()).collect();
        all.extend(if group.len() > 1 { tree::sorted(group) } else { group });
    }
    all
}

/// For each piece those that lie over it; of two that cross, each lies over the other. None if there are too many.
fn covered_by(pieces: &[Piece]) -> Option<Vec<Vec<usize>>> {
    let mut by_left: Vec<usize> = (0..pieces.len()).collect();
    by_left.sort_by(|&i, &j| pieces[i].lo[0].total_cmp(&pieces[j].lo[0]));
    let mut above = vec![vec![]; pieces.len()];
    let mut pairs = 0;
    for (k, &i) in by_left.iter().enumerate() {
        let a = &pieces[i];
        for &j in by_left[k + 1..].iter().take_while(|&&j| pieces[j].lo[0] < a.hi[0]) {
            let b = &pieces[j];
            if b.lo[1] >= a.hi[1] || a.lo[1] >= b.hi[1] {
                continue;
            }
            let cover = a.compare(b);
            if matches!(cover, Cover::Over | Cover::Crossing) {
                above[j].push(i);
            }
            if matches!(cover, Cover::Under | Cover::Crossing) {
                above[i].push(j);
            }
            pairs += 1;
        }
        if pairs > MOST_PAIRS {
            return None;
        }
    }
    Some(above)
}

/// The number of each piece's ring: pieces that a way along `above` leads to and back share one (Tarjan's strongly connected components).
fn rings(above: &[Vec<usize>]) -> Vec<usize> {
    let none = usize::MAX;
    let (mut seen, mut low, mut ring) = (vec![none; above.len()], vec![none; above.len()], vec![none; above.len()]);
    let (mut open, mut count, mut rings) = (vec![], 0, 0);
    for start in 0..above.len() {
        let mut path = if seen[start] == none { vec![(start, 0)] } else { vec![] };
        while let Some((i, next)) = path.pop() {
            if next == 0 {
                (seen[i], low[i]) = (count, count);
                count += 1;
                open.push(i);
            } else {
                let j = above[i][next - 1];
                low[i] = if ring[j] == none { low[i].min(low[j]) } else { low[i] };
            }
            if let Some(&j) = above[i].get(next) {
                path.push((i, next + 1));
                if seen[j] == none {
                    path.push((j, 0));
                }
            } else if low[i] == seen[i] {
                let from = open.iter().rposition(|&j| j == i).expect("it is open");
                for j in open.drain(from..) {
                    ring[j] = rings;
                }
                rings += 1;
            }
        }
    }
    ring
}

/// The groups, each after all that its members lie over. Among those that may come next, one of the colour painted last goes first, since pieces of a
/// colour that follow each other are written as one; otherwise the farthest.
fn group_order(pieces: &[Option<Piece>], above: &[Vec<usize>], ring: Vec<usize>) -> Vec<Vec<usize>> {
    let count = ring.iter().max().map_or(0, |most| most + 1);
    let mut members = vec![vec![]; count];
    (0..ring.len()).for_each(|i| members[ring[i]].push(i));
    let mut waits = vec![0usize; count];
    let links = || above.iter().enumerate().flat_map(|(i, over)| over.iter().map(move |&j| (i, j)));
    links().filter(|&(i, j)| ring[i] != ring[j]).for_each(|(_, j)| waits[ring[j]] += 1);
    let of = |group: usize| pieces[members[group][0]].as_ref().expect("nothing is taken yet");
    let mut ranks: Vec<usize> = (0..count).collect();
    ranks.sort_by(|&g, &h| of(g).mean_depth().total_cmp(&of(h).mean_depth()));
    let mut rank = vec![0; count];
    ranks.iter().enumerate().for_each(|(k, &g)| rank[g] = k);
    let mut ready = Ready::default();
    (0..count).filter(|&g| waits[g] == 0).for_each(|g| ready.put(of(g).colour, rank[g]));
    let mut order = vec![];
    while let Some(next) = ready.take() {
        let group = ranks[next];
        for &i in &members[group] {
            for &j in above[i].iter().filter(|&&j| ring[j] != group) {
                waits[ring[j]] -= 1;
                if waits[ring[j]] == 0 {
                    ready.put(of(ring[j]).colour, rank[ring[j]]);
                }
            }
        }
        order.push(group);
    }
    order.into_iter().map(|group| std::mem::take(&mut members[group])).collect()
}

/// Groups by their rank that may be painted next.
#[derive(Default)]
struct Ready {
    by_colour: BTreeMap<[u8; 3], BTreeSet<usize>>,
    all: BTreeMap<usize, [u8; 3]>,
    last: [u8; 3],
}

impl Ready {
    fn put(&mut self, colour: [u8; 3], rank: usize) {
        self.by_colour.entry(colour).or_default().insert(rank);
        self.all.insert(rank, colour);
    }

    fn take(&mut self) -> Option<usize> {
        let same = self.by_colour.get(&self.last).and_then(|ranks| ranks.first());
        let rank = *same.or(self.all.keys().next())?;
        self.last = self.all.remove(&rank)?;
        self.by_colour.get_mut(&self.last)?.remove(&rank);
        Some(rank)
    }
}

#[cfg(test)]
mod tests {
    use super::super::piece::tests::{piece, square};
    use super::*;

    fn order(pieces: Vec<Piece>) -> Vec<usize> {
        sorted(pieces).iter().map(|p| p.facet).collect()
    }

    #[test]
    fn from_back_to_front() {
        let stairs = vec![square(0, 0.0, 0.0, 3.0), square(1, 5.0, 5.0, 2.0), square(2, 10.0, 10.0, 9.0), square(3, 2.0, 2.0, 1.0)];
        let order = order(stairs);
        let at = |facet: usize| order.iter().position(|&f| f == facet).unwrap();
        assert!(at(3) < at(1) && at(1) < at(0) && at(1) < at(2));
    }

    #[test]
    fn a_large_face_behind_goes_first_though_its_middle_is_nearer() {
        let slope = piece(0, &[[0.0, 0.0, 0.0], [100.0, 0.0, 100.0], [100.0, 10.0, 100.0], [0.0, 10.0, 0.0]]);
        let near = square(1, 0.0, 0.0, 11.0);
        assert_eq!(order(vec![near, slope]), [0, 1]);
    }

    #[test]
    fn crossing_pieces_are_cut() {
        let ramp = piece(1, &[[0.0, 0.0, 0.0], [10.0, 0.0, 4.0], [10.0, 10.0, 4.0], [0.0, 10.0, 0.0]]);
        let order = order(vec![square(0, 0.0, 0.0, 2.0), ramp]);
        assert_eq!(order.len(), 3);
        assert!([vec![1, 0, 1], vec![0, 1, 0]].contains(&order));
    }

    #[test]
    fn a_ring_of_three_is_cut() {
        let bar = |facet: usize, from: [f64; 3], to: [f64; 3]| {
            let (dx, dy) = (to[0] - from[0], to[1] - from[1]);
            let length = (dx * dx + dy * dy).sqrt();
            let (x, y) = (-3.0 * dy / length, 3.0 * dx / length);
            let corner = |p: [f64; 3], k: f64| [p[0] + k * x, p[1] + k * y, p[2]];
            piece(facet, &[corner(from, -1.0), corner(to, -1.0), corner(to, 1.0), corner(from, 1.0)])
        };
        let bars = vec![
            bar(0, [-10.0, 0.0, 0.0], [110.0, 0.0, 10.0]),
            bar(1, [105.0, -10.0, 0.0], [45.0, 100.0, 10.0]),
            bar(2, [55.0, 100.0, 0.0], [-5.0, -10.0, 10.0]),
        ];
        let pieces = sorted(bars);
        assert!(pieces.len() > 3);
        for (k, under) in pieces.iter().enumerate() {
            assert!(pieces[k + 1..].iter().all(|over| !matches!(under.compare(over), Cover::Over | Cover::Crossing)));
        }
    }
}
