//! The part as a picture: an SVG of it from an oblique direction, its flagged faces coloured and numbered, and the findings beneath.
//!
//! The same part gives the same bytes on every machine: nothing but sums, products, quotients and square roots is computed, and no map is hashed.
mod colour;
mod edges;
mod hidden;
mod legend;
mod mesh;
mod notes;
mod order;
mod piece;
mod raster;
mod tags;
mod tree;
mod triangles;
mod vector;
mod view;
mod visible;
mod write;

use crate::part::Part;
use edges::Edge;
use gablemadder::{Face, Report, Rule};
use hidden::Cover;
use mesh::{Facet, Mesh};
use notes::{Flags, Note};
use piece::Piece;
use raster::Raster;
use std::fmt::Write;
use tags::{Sight, Tag};
use vector::{length, normal, sub, Point};
use view::Canvas;
use write::{chains, number, path, spot, spots, Spot};

const WIDTH: f64 = 960.0;
/// The least and the most.
const HEIGHTS: [f64; 2] = [180.0, 580.0];
/// At the sides, and above and below.
const MARGINS: [f64; 2] = [64.0, 36.0];
/// Lines are faint where they are so near to each other, in pixels.
const NARROW: f64 = 1.2;
/// Above the drawing, for the title.
const TOP: f64 = 64.0;

/// The part, seen from a direction; the job's `up` points upwards.
pub fn svg(part: &Part, report: Option<&Report>, from: [f64; 3]) -> String {
    let mesh = Mesh::new(part);
    let notes = notes::of(report, &mesh);
    let flags = Flags::new(&notes, mesh.faces.len());
    let canvas = Canvas::new(&part.vertices, from, part.job.up, WIDTH, HEIGHTS, MARGINS);
    let pieces = order::sorted(pieces(&mesh, &flags, &canvas));
    let cover = Cover::new(&pieces, canvas.width, canvas.height);
    let sight = Sight::new(&mesh, &canvas, rastered(&mesh, &pieces, &canvas, 2.0), &cover);
    let mut body = String::new();
    let _ = writeln!(body, "<g transform=\"translate(0 {})\">", number(TOP));
    fills(&mut body, &pieces);
    lines(&mut body, &mesh, &canvas, &cover);
    corners(&mut body, &mesh, &notes, &canvas, &cover);
    ghosts(&mut body, &mesh, &notes, &sight, &canvas);
    numbers(&mut body, &tags::placed(&notes, &flags, &sight));
    axes(&mut body, &canvas);
    body.push_str("</g>\n");
    let names: Vec<String> = mesh.faces.iter().map(Face::to_string).collect();
    let end = legend::write(&mut body, &notes, &names, |face| sight.sees(face), TOP + canvas.height + 28.0, WIDTH);
    document(&legend::title(part, report), &body, end)
}

/// From where most findings are seen, the worst counting most; if several directions are alike in this, from above, and where most flagged faces are
/// seen, and most of them.
pub fn view(part: &Part, report: Option<&Report>) -> [f64; 3] {
    let mesh = Mesh::new(part);
    let notes = notes::of(report, &mesh);
    let flags = Flags::new(&notes, mesh.faces.len());
    let all = view::candidates(part.job.up);
    let worth = |&i: &usize| {
        let canvas = Canvas::new(&part.vertices, all[i], part.job.up, WIDTH, HEIGHTS, MARGINS);
        let raster = rastered(&mesh, &pieces(&mesh, &flags, &canvas), &canvas, 4.0);
        let cells = raster.counts(mesh.faces.len());
        let seen = |note: &Note| note.faces.iter().any(|&face| cells[face] > 1);
        let told: u32 = notes.iter().filter(|note| seen(note)).map(|note| 3 - note.finding.severity as u32).sum();
        let flagged: Vec<usize> = (0..cells.len()).filter(|&face| flags.worst(face).is_some()).map(|face| cells[face]).collect();
        let faces = flagged.iter().filter(|&&count| count > 1).count();
        (told, i < 4, faces, flagged.iter().sum::<usize>(), std::cmp::Reverse(i))
    };
    let most = if notes.is_empty() { Some(0) } else { (0..all.len()).max_by_key(worth) };
    most.map_or(all[0], |i| all[i])
}

fn face(mesh: &Mesh, piece: &Piece) -> usize {
    mesh.facets[piece.facet].face
}

/// What of the mesh is painted: of a solid body only what faces the viewer.
fn pieces(mesh: &Mesh, flags: &Flags, canvas: &Canvas) -> Vec<Piece> {
    let piece = |(i, facet): (usize, &Facet)| {
        let normal = canvas.turn(facet.normal);
        if mesh.is_solid && normal[2] <= 0.0 {
            return None;
        }
        let look = canvas.turn(facet.look);
        // A polygon may be bent so far that a part of it faces the other way.
        let look = if look[2] * normal[2] < 0.0 { normal } else { look };
        let colour = colour::shaded(flags.worst(facet.face), look);
        Piece::new(i, colour, facet.corners.iter().map(|&p| canvas.place(p)).collect(), normal)
    };
    mesh.facets.iter().enumerate().filter_map(piece).collect()
}

fn rastered(mesh: &Mesh, pieces: &[Piece], canvas: &Canvas, cell: f64) -> Raster {
    let mut raster = Raster::new(canvas.width, canvas.height, cell);
    pieces.iter().for_each(|piece| raster.paint(piece, face(mesh, piece)));
    raster
}

/// The pieces, those of a colour that follow each other as one path. A thin line of the same colour closes the gaps between neighbours.
fn fills(out: &mut String, pieces: &[Piece]) {
    out.push_str("<g stroke-width=\".6\" stroke-linejoin=\"round\">\n");
    for run in pieces.chunk_by(|a, b| a.colour == b.colour) {
        let colour = colour::hex(run[0].colour);
        let _ = write!(out, "<path fill=\"{colour}\" stroke=\"{colour}\" d=\"");
        run.iter().for_each(|piece| path(out, &spots(&piece.corners), true));
        out.push_str("\"/>\n");
    }
    out.push_str("</g>\n");
}

/// The edges, as far as they are seen: thin ones inside, heavier ones where the part turns away from the viewer, and faint ones where they crowd.
fn lines(out: &mut String, mesh: &Mesh, canvas: &Canvas, cover: &Cover) {
    let [mut inner, mut outer, mut crowded] = [vec![], vec![], vec![]];
    for edge in &mesh.edges {
        let fronts: Vec<&Facet> = edge.facets.iter().map(|&i| &mesh.facets[i]).filter(|f| canvas.turn(f.normal)[2] > 0.0).collect();
        let is_outer = !fronts.is_empty() && fronts.len() < edge.facets.len();
        if mesh.is_solid && fronts.is_empty() || !is_outer && !edge.is_sharp(&mesh.facets) {
            continue;
        }
        let ends = edge.ends.map(|p| canvas.place(p));
        let kind = match fronts.iter().any(|facet| is_narrow(facet, ends, canvas)) {
            true => &mut crowded,
            false if is_outer => &mut outer,
            false => &mut inner,
        };
        kind.extend(cover.seen_lines(ends).into_iter().map(|line| line.map(spot)));
    }
    out.push_str("<g fill=\"none\" stroke=\"#27303a\" stroke-linecap=\"round\" stroke-linejoin=\"round\">\n");
    stroke(out, &crowded, "stroke-width=\".4\" stroke-opacity=\".35\"");
    stroke(out, &inner, "stroke-width=\".6\"");
    stroke(out, &outer, "stroke-width=\"1.1\"");
    out.push_str("</g>\n");
}

/// Whether a facet is hardly wider, from one of its sides on, than the line there.
fn is_narrow(facet: &Facet, [a, b]: [Point; 2], canvas: &Canvas) -> bool {
    let corners: Vec<Point> = facet.corners.iter().map(|&p| canvas.place(p)).collect();
    let (area, [x, y, _]) = (0.5 * normal(&corners)[2].abs(), sub(b, a));
    area < NARROW * length([x, y, 0.0])
}

fn stroke(out: &mut String, lines: &[[Spot; 2]], style: &str) {
    if !lines.is_empty() {
        let _ = write!(out, "<path {style} d=\"");
        chains(lines).iter().for_each(|chain| path(out, chain, false));
        out.push_str("\"/>\n");
    }
}

/// The sharp inside corners themselves, as far as they are seen.
fn corners(out: &mut String, mesh: &Mesh, notes: &[Note], canvas: &Canvas, cover: &Cover) {
    out.push_str("<g fill=\"none\" stroke-width=\"2.6\" stroke-linecap=\"round\">\n");
    for note in notes.iter().filter(|note| note.finding.rule == Rule::SharpInsideCorner) {
        let is_named = |edge: &&Edge| edge.facets.iter().all(|&i| note.faces.contains(&mesh.facets[i].face));
        let mut heavy = vec![];
        for edge in mesh.edges.iter().filter(|edge| edge.is_inside_corner(&mesh.facets)).filter(is_named) {
            heavy.extend(cover.seen_lines(edge.ends.map(|p| canvas.place(p))).into_iter().map(|line| line.map(spot)));
        }
        stroke(out, &heavy, &format!("stroke=\"{}\"", colour::hex(colour::darkest(note.finding.severity))));
    }
    out.push_str("</g>\n");
}

/// Dashed outlines of the faces of findings of which nothing is seen.
fn ghosts(out: &mut String, mesh: &Mesh, notes: &[Note], sight: &Sight, canvas: &Canvas) {
    out.push_str("<g fill=\"none\" stroke-linecap=\"round\" stroke-dasharray=\"5 4\">\n");
    for note in notes.iter().filter(|note| !note.faces.iter().any(|&face| sight.sees(face))) {
        let mut dashed = vec![];
        for edge in mesh.edges.iter().filter(|edge| edge.is_sharp(&mesh.facets)) {
            if edge.facets.iter().any(|&i| note.faces.contains(&mesh.facets[i].face)) {
                dashed.push(edge.ends.map(|p| spot(canvas.place(p))));
            }
        }
        let colour = colour::hex(colour::dark(note.finding.severity));
        stroke(out, &dashed, &format!("stroke=\"{colour}\" stroke-width=\"1.6\""));
    }
    out.push_str("</g>\n");
}

fn numbers(out: &mut String, tags: &[Tag]) {
    for tag in tags {
        if let Some(foot) = tag.foot {
            let [x, y, fx, fy] = [tag.at[0], tag.at[1], foot[0], foot[1]].map(number);
            let _ = write!(out, "<path d=\"M{fx} {fy}L{x} {y}\" stroke=\"#fff\" stroke-width=\"3\"/>");
            let _ = write!(out, "<path d=\"M{fx} {fy}L{x} {y}\" stroke=\"#27303a\" stroke-width=\"1\"/>");
            let _ = writeln!(out, "<circle cx=\"{fx}\" cy=\"{fy}\" r=\"2.6\" fill=\"#27303a\" stroke=\"#fff\"/>");
        }
    }
    for tag in tags {
        legend::shape(out, tag.at[0], tag.at[1], tag.width(), &tag.text, tag.severity, tag.is_behind);
    }
}

/// The directions of x, y and z, in the corner below on the left.
fn axes(out: &mut String, canvas: &Canvas) {
    let (x, y) = (46.0, canvas.height - 38.0);
    let mut all: Vec<(Point, &str)> = ["x", "y", "z"].into_iter().enumerate().map(|(i, name)| (axis(canvas, i), name)).collect();
    all.sort_by(|a, b| a.0[2].total_cmp(&b.0[2]));
    for (way, name) in all {
        let (ex, ey) = (x + 26.0 * way[0], y + 26.0 * way[1]);
        let _ = write!(out, "<path d=\"M{} {}L{} {}\" stroke=\"#5b6672\" stroke-width=\"1.4\"/>", number(x), number(y), number(ex), number(ey));
        let flat = length([way[0], way[1], 0.0]);
        let reach = (26.0 * flat).max(10.0) + 8.0;
        let (tx, ty) = (x + reach * way[0] / flat.max(0.01), y + reach * way[1] / flat.max(0.01) + 4.0);
        let _ =
            writeln!(out, "<text x=\"{}\" y=\"{}\" text-anchor=\"middle\" font-size=\"12\" fill=\"#5b6672\">{name}</text>", number(tx), number(ty));
    }
}

fn axis(canvas: &Canvas, i: usize) -> Point {
    let mut way = [0.0; 3];
    way[i] = 1.0;
    canvas.turn(way)
}

fn document(title: &[String; 2], body: &str, end: f64) -> String {
    let [first, second] = title.each_ref().map(|line| write::escaped(line));
    let (wide, high) = (number(WIDTH), number((end + 8.0).ceil()));
    let left = number(legend::LEFT);
    format!(
        "<svg xmlns=\"http://www.w3.org/2000/svg\" width=\"{wide}\" height=\"{high}\" viewBox=\"0 0 {wide} {high}\" \
         font-family=\"sans-serif\" font-size=\"13\" fill=\"#1c232b\">\n\
         <title>{first}: {second}</title>\n\
         <rect width=\"{wide}\" height=\"{high}\" fill=\"#fff\"/>\n\
         <text x=\"{left}\" y=\"34\" font-size=\"18\" font-weight=\"bold\">{first}</text>\n\
         <text x=\"{left}\" y=\"56\" fill=\"#5b6672\">{second}</text>\n\
         {body}</svg>\n"
    )
}

#[cfg(test)]
pub mod tests {
    use super::*;
    use crate::make;

    /// Of the pixels that the part covers, how many show a facet that lies behind another.
    pub fn wrong_pixels(part: &Part, from: [f64; 3]) -> (usize, usize) {
        let mesh = Mesh::new(part);
        let canvas = Canvas::new(&part.vertices, from, part.job.up, WIDTH, HEIGHTS, MARGINS);
        let pieces = pieces(&mesh, &Flags::new(&[], mesh.faces.len()), &canvas);
        let painted = order::sorted(pieces.clone());
        raster::tests::wrongly_covered(&pieces, &painted, canvas.width, canvas.height)
    }

    fn example(name: &str) -> Part {
        let path = format!("{}/../examples/parts/{name}.txt", env!("CARGO_MANIFEST_DIR"));
        make::part(&std::fs::read(path).unwrap()).unwrap()
    }

    #[test]
    fn nearer_faces_lie_over_farther_ones() {
        for name in ["plate", "detent-plate", "bracket", "cover", "hollow-block"] {
            let part = example(name);
            let more = [[1.0, 0.1, 0.05], [0.3, -1.0, 0.4], [-0.2, 0.3, -1.0], [0.0, 0.0, 1.0]];
            for from in view::candidates(part.job.up).into_iter().chain(more) {
                let (wrong, all) = wrong_pixels(&part, from);
                assert!(wrong == 0 && all > 1000, "{name} from {from:?}: {wrong} of {all}");
            }
        }
    }

    #[test]
    fn so_they_do_where_polygons_cross() {
        let job = "part 1\njob\nprocess CNC\nup 0 0 1\nlayer 0.2\nmin_wall 0.8\nmin_hole 2\n";
        let mut seed = 1u64;
        let mut coordinate = || {
            seed = seed.wrapping_mul(6364136223846793005).wrapping_add(1442695040888963407);
            (seed >> 40) % 1000
        };
        for count in [2, 8, 200] {
            let mut text = job.to_string();
            for i in 0..count {
                let mut corner = || format!("{} {} {}\n", coordinate(), coordinate(), coordinate());
                text.push_str(&format!("face 1:{i} plane\npolygon\n{}{}{}", corner(), corner(), corner()));
            }
            let (wrong, all) = wrong_pixels(&make::part(text.as_bytes()).unwrap(), [0.4, -0.7, 0.5]);
            assert!(1000 * wrong <= all && all > 1000, "{count} triangles: {wrong} of {all}");
        }
    }
}
