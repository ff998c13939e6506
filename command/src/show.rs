//! A part as text, in the form that FORMAT.md lays down.
use crate::part::{Job, Material, Part, Surface};
use std::fmt::Write;

/// The text of a part, from which `make` makes the same bytes.
pub fn text(part: &Part) -> String {
    let mut out = String::from("part 1\n\njob\n");
    put_job(&mut out, &part.job);
    let mut last = String::new();
    for polygon in &part.polygons {
        // Numbers are written exactly, so two lines agree only where all bits do.
        let face = format!("face {} {}\n", polygon.face, surface(&polygon.surface));
        if face != last {
            out.push('\n');
            out.push_str(&face);
            last = face;
        }
        out.push_str("polygon\n");
        for &corner in part.corners(polygon) {
            let _ = writeln!(out, "  {}", three(corner));
        }
    }
    out
}

fn put_job(out: &mut String, job: &Job) {
    let mut put = |name: &str, value: String| {
        let _ = writeln!(out, "  {name} {value}");
    };
    put("process", job.process.name().to_string());
    put("up", three(job.up));
    put("layer", real(job.layer));
    put("min_wall", real(job.min_wall));
    put("min_hole", real(job.min_hole));
    if let Some(nozzle) = job.nozzle {
        put("nozzle", real(nozzle));
    }
    if let Some(tenths) = job.overhang {
        put("overhang", places(tenths, 1));
    }
    if let Some(m) = &job.material {
        put("material", material(m));
    }
}

fn material(m: &Material) -> String {
    let name = m.name.replace('\\', "\\\\").replace('"', "\\\"");
    let mut text = format!("\"{name}\" {} min_wall {}", m.class.name(), real(m.min_wall));
    if let Some(ratio) = m.bend_ratio {
        text += &format!(" bend_ratio {}", places(ratio, 3));
    }
    text
}

fn surface(surface: &Surface) -> String {
    match *surface {
        Surface::Plane => "plane".to_string(),
        Surface::Cylinder { origin, direction, radius } => {
            format!("cylinder origin {} direction {} radius {}", three(origin), three(direction), real(radius))
        }
        Surface::Revolved { origin, direction } => format!("revolved origin {} direction {}", three(origin), three(direction)),
        Surface::Other => "other".to_string(),
    }
}

fn three(v: [f64; 3]) -> String {
    format!("{} {} {}", real(v[0]), real(v[1]), real(v[2]))
}

/// The shortest text that reads back as the same f64.
fn real(x: f64) -> String {
    let text = format!("{x:?}");
    text.strip_suffix(".0").map(str::to_string).unwrap_or(text)
}

/// n / 10^places, without zeros at the end.
fn places(n: u32, places: usize) -> String {
    let unit = 10u32.pow(places as u32);
    let text = format!("{}.{:0places$}", n / unit, n % unit);
    text.trim_end_matches('0').trim_end_matches('.').to_string()
}

#[cfg(test)]
mod tests {
    use super::*;

    #[test]
    fn numbers_are_short_and_exact() {
        for (x, text) in [
            (20.0, "20"),
            (-0.0, "-0"),
            (0.1, "0.1"),
            (1e-7, "1e-7"),
            (-1e4, "-10000"),
            (5e-324, "5e-324"),
            (0.30000000000000004, "0.30000000000000004"),
        ] {
            assert_eq!(real(x), text);
            assert_eq!(text.parse::<f64>().unwrap().to_bits(), x.to_bits());
        }
    }

    #[test]
    fn places_lose_their_zeros() {
        for (n, k, text) in
            [(450, 1, "45"), (455, 1, "45.5"), (0, 1, "0"), (7, 1, "0.7"), (1500, 3, "1.5"), (100_000, 3, "100"), (1, 3, "0.001"), (10, 3, "0.01")]
        {
            assert_eq!(places(n, k), text);
        }
    }
}
