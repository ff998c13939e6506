//! The report of a part: its text, and what that says.
use std::borrow::Cow;
use std::error::Error;
use std::fmt::{self, Display, Formatter};

/// How bad a finding is; the worst is the least.
#[derive(Clone, Copy, Debug, PartialEq, Eq, PartialOrd, Ord, Hash)]
pub enum Severity {
    /// Cannot be made as drawn, or will likely fail.
    Error,
    /// Can be made, at extra cost or risk.
    Warning,
    /// Worth knowing.
    Note,
}

impl Severity {
    /// All of them, the worst first.
    pub const ALL: [Severity; 3] = [Severity::Error, Severity::Warning, Severity::Note];

    /// As a report names it.
    pub fn name(self) -> &'static str {
        match self {
            Severity::Error => "Error",
            Severity::Warning => "Warning",
            Severity::Note => "Note",
        }
    }
}

impl Display for Severity {
    fn fmt(&self, f: &mut Formatter) -> fmt::Result {
        f.pad(self.name())
    }
}

/// The rules of all processes, in the order of their names.
#[derive(Clone, Copy, Debug, PartialEq, Eq, PartialOrd, Ord, Hash)]
pub enum Rule {
    /// A hole is many diameters deep.
    DeepHole,
    /// An inside corner is many tool diameters deep.
    DeepInsideCorner,
    /// A hollow traps resin or powder.
    EnclosedHollow,
    /// A floor or a roof is thinner than two layers.
    FewLayers,
    /// A hole is near a bend, an edge or another hole.
    HoleTooClose,
    /// The material is not formed as sheet metal.
    Material,
    /// No material is assigned.
    NoMaterial,
    /// Some sides have no other beside them: the body is open.
    NotClosed,
    /// A sheet varies in thickness.
    NotOneThickness,
    /// Faces hang over and need supports.
    Overhang,
    /// An inside corner is sharp, which no rotating tool leaves.
    SharpInsideCorner,
    /// A flange is too short for a press brake.
    ShortFlange,
    /// A hole is too small for its process.
    SmallHole,
    /// A wall is too thin for its process.
    ThinWall,
    /// A floor or a roof is thinner than one layer.
    ThinnerThanALayer,
    /// A wall is narrower than the nozzle's line.
    ThinnerThanTheNozzle,
    /// A bend is tighter than the material bears.
    TightBend,
    /// An inside radius needs a very small tool.
    TightInsideRadius,
}

impl Rule {
    /// All of them, in their order.
    pub const ALL: [Rule; 18] = [
        Rule::DeepHole,
        Rule::DeepInsideCorner,
        Rule::EnclosedHollow,
        Rule::FewLayers,
        Rule::HoleTooClose,
        Rule::Material,
        Rule::NoMaterial,
        Rule::NotClosed,
        Rule::NotOneThickness,
        Rule::Overhang,
        Rule::SharpInsideCorner,
        Rule::ShortFlange,
        Rule::SmallHole,
        Rule::ThinWall,
        Rule::ThinnerThanALayer,
        Rule::ThinnerThanTheNozzle,
        Rule::TightBend,
        Rule::TightInsideRadius,
    ];

    /// As a report names it.
    pub fn name(self) -> &'static str {
        match self {
            Rule::DeepHole => "Deep hole",
            Rule::DeepInsideCorner => "Deep inside corner",
            Rule::EnclosedHollow => "Enclosed hollow",
            Rule::FewLayers => "Few layers",
            Rule::HoleTooClose => "Hole too close",
            Rule::Material => "Material",
            Rule::NoMaterial => "No material",
            Rule::NotClosed => "Not closed",
            Rule::NotOneThickness => "Not one thickness",
            Rule::Overhang => "Overhang",
            Rule::SharpInsideCorner => "Sharp inside corner",
            Rule::ShortFlange => "Short flange",
            Rule::SmallHole => "Small hole",
            Rule::ThinWall => "Thin wall",
            Rule::ThinnerThanALayer => "Thinner than a layer",
            Rule::ThinnerThanTheNozzle => "Thinner than the nozzle",
            Rule::TightBend => "Tight bend",
            Rule::TightInsideRadius => "Tight inside radius",
        }
    }
}

impl Display for Rule {
    fn fmt(&self, f: &mut Formatter) -> fmt::Result {
        f.pad(self.name())
    }
}

/// A face of a part, as its file names it.
#[derive(Clone, Copy, Debug, PartialEq, Eq, PartialOrd, Ord, Hash)]
pub struct Face {
    /// The feature that made it.
    pub feature: u32,
    /// Which face of that feature.
    pub index: u32,
}

impl Face {
    fn parse(text: &str) -> Option<Face> {
        let (feature, index) = text.split_once(':')?;
        Some(Face { feature: feature.parse().ok()?, index: index.parse().ok()? })
    }
}

impl Display for Face {
    fn fmt(&self, f: &mut Formatter) -> fmt::Result {
        write!(f, "{}:{}", self.feature, self.index)
    }
}

/// A line of a report: all faults of a part that share severity, rule and message.
#[derive(Clone, Copy, Debug, PartialEq, Eq)]
pub struct Finding<'a> {
    /// How bad it is.
    pub severity: Severity,
    /// The rule that it breaks.
    pub rule: Rule,
    /// How many faults it stands for.
    pub count: u64,
    /// What is wrong, in a sentence.
    pub message: &'a str,
    faces: &'a str,
}

impl<'a> Finding<'a> {
    /// The faces that it speaks of, in the report's order.
    pub fn faces(&self) -> impl Iterator<Item = Face> + 'a {
        face_names(self.faces).filter_map(Face::parse)
    }

    /// The message comes last, since a material's name may have bars.
    fn parse(line: &'a str) -> Option<Finding<'a>> {
        let mut fields = line.splitn(5, '|');
        let severity = fields.next()?;
        let rule = fields.next()?;
        let count = fields.next()?.parse().ok()?;
        let faces = fields.next()?;
        let message = fields.next()?;
        if !face_names(faces).all(|name| Face::parse(name).is_some()) {
            return None;
        }
        let severity = Severity::ALL.into_iter().find(|s| s.name() == severity)?;
        let rule = Rule::ALL.into_iter().find(|r| r.name() == rule)?;
        Some(Finding { severity, rule, count, message, faces })
    }
}

/// The names in a list of faces; `-` is the empty list.
fn face_names(faces: &str) -> impl Iterator<Item = &str> {
    (faces != "-").then(|| faces.split(',')).into_iter().flatten()
}

/// A text that is no report.
#[derive(Clone, Copy, Debug, PartialEq, Eq)]
pub struct Malformed;

impl Display for Malformed {
    fn fmt(&self, f: &mut Formatter) -> fmt::Result {
        f.write_str("not a report of a part")
    }
}

impl Error for Malformed {}

/// The report of a part. It borrows its text, or owns it ([`into_owned`](Report::into_owned)).
#[derive(Clone, Debug, PartialEq)]
pub struct Report<'a> {
    text: Cow<'a, str>,
    thickness: Option<f64>,
    bends: u64,
    height: Option<f64>,
}

impl<'a> Report<'a> {
    /// Reads a report's bytes, of a check or kept from one.
    ///
    /// ```
    /// let report = gablemadder::Report::parse(b"1 3ff8000000000000 2 -\nNote|No material|1|-|Assign one.\n").unwrap();
    /// assert_eq!((report.thickness(), report.bends(), report.height()), (Some(1.5), 2, None));
    /// assert_eq!(report.findings().next().unwrap().message, "Assign one.");
    /// assert!(gablemadder::Report::parse(b"refused 1\n").is_err());
    /// ```
    pub fn parse(bytes: &'a [u8]) -> Result<Report<'a>, Malformed> {
        std::str::from_utf8(bytes).ok().and_then(Report::of_text).ok_or(Malformed)
    }

    fn of_text(text: &'a str) -> Option<Report<'a>> {
        let (head, rest) = text.split_once('\n')?;
        let mut fields = head.split(' ');
        let findings: usize = fields.next()?.parse().ok()?;
        let thickness = length(fields.next()?)?;
        let bends = fields.next()?.parse().ok()?;
        let height = length(fields.next()?)?;
        let whole = rest.is_empty() || rest.ends_with('\n');
        let good = lines(rest).filter(|line| Finding::parse(line).is_some()).count();
        if fields.next().is_some() || !whole || good != findings || lines(rest).count() != findings {
            return None;
        }
        Some(Report { text: Cow::Borrowed(text), thickness, bends, height })
    }

    /// The whole text, byte for byte: the first line, and a line for each finding.
    pub fn text(&self) -> &str {
        &self.text
    }

    /// The findings: the worst first, then by rule.
    ///
    /// ```
    /// use gablemadder::{Face, Report, Rule, Severity};
    /// let report = Report::parse(b"1 - 0 -\nWarning|Thin wall|1|1:0,1:1|Wall is 0.50 mm thick.\n").unwrap();
    /// let finding = report.findings().next().unwrap();
    /// assert_eq!((finding.severity, finding.rule, finding.count), (Severity::Warning, Rule::ThinWall, 1));
    /// assert!(finding.faces().eq([Face { feature: 1, index: 0 }, Face { feature: 1, index: 1 }]));
    /// ```
    pub fn findings(&self) -> impl Iterator<Item = Finding<'_>> {
        // Every line after the first was read once, so none is passed over.
        lines(&self.text).skip(1).filter_map(Finding::parse)
    }

    /// The thickness of a sheet, in mm.
    pub fn thickness(&self) -> Option<f64> {
        self.thickness
    }

    /// How many bends a sheet has.
    pub fn bends(&self) -> u64 {
        self.bends
    }

    /// The height of a print, in mm.
    pub fn height(&self) -> Option<f64> {
        self.height
    }

    /// The same with a text of its own.
    pub fn into_owned(self) -> Report<'static> {
        Report { text: Cow::Owned(self.text.into_owned()), thickness: self.thickness, bends: self.bends, height: self.height }
    }
}

impl Display for Report<'_> {
    fn fmt(&self, f: &mut Formatter) -> fmt::Result {
        f.write_str(&self.text)
    }
}

fn lines(text: &str) -> impl Iterator<Item = &str> {
    text.split_terminator('\n')
}

/// A length by the 16 hexadecimal digits of its f64, or a dash for none.
fn length(text: &str) -> Option<Option<f64>> {
    if text == "-" {
        return Some(None);
    }
    let digits = text.len() == 16 && text.bytes().all(|b| matches!(b, b'0'..=b'9' | b'a'..=b'f'));
    let bits = u64::from_str_radix(text, 16).ok()?;
    digits.then_some(Some(f64::from_bits(bits)))
}

#[cfg(test)]
mod tests {
    use super::*;

    const PLATE: &str = "1 - 0 -\nWarning|Thin wall|1|1:0,1:1|Wall is 0.50 mm thick; a | b needs at least 0.80 mm.\n";

    #[test]
    fn a_report_is_read() {
        let report = Report::parse(PLATE.as_bytes()).unwrap();
        assert_eq!(report.text(), PLATE);
        let findings: Vec<Finding> = report.findings().collect();
        assert_eq!(findings.len(), 1);
        assert_eq!(findings[0].message, "Wall is 0.50 mm thick; a | b needs at least 0.80 mm.");
        assert_eq!(findings[0].faces().map(|f| f.to_string()).collect::<Vec<_>>(), ["1:0", "1:1"]);
        let owned = report.clone().into_owned();
        assert_eq!(owned, report);
        assert_eq!(owned.to_string(), PLATE);
    }

    #[test]
    fn the_first_line_is_read() {
        let report = Report::parse(b"0 - 0 -\n").unwrap();
        assert_eq!((report.thickness(), report.bends(), report.height()), (None, 0, None));
        assert_eq!(report.findings().count(), 0);
        let report = Report::parse(b"0 3fe0000000000000 3 -\n").unwrap();
        assert_eq!((report.thickness(), report.bends(), report.height()), (Some(0.5), 3, None));
        let report = Report::parse(b"0 - 0 4034000000000000\n").unwrap();
        assert_eq!(report.height(), Some(20.0));
    }

    #[test]
    fn no_faces_and_faces_twice() {
        let text = b"2 - 0 -\nError|Thin wall|1|7:4294967295,7:4294967295|a\nNote|No material|1|-|b\n";
        let report = Report::parse(text).unwrap();
        let face = Face { feature: 7, index: u32::MAX };
        let faces: Vec<Vec<Face>> = report.findings().map(|f| f.faces().collect()).collect();
        assert_eq!(faces, [vec![face, face], vec![]]);
    }

    #[test]
    fn other_texts_are_none() {
        let wrong: [&[u8]; 20] = [
            b"",
            b"refused 4\n",
            b"too long\n",
            b"0 - 0 -",
            b"0 - 0 - \n",
            b"0 - 0\n",
            b"1 - 0 -\n",
            b"0 - 0 -\n\n",
            b"0 3FE0000000000000 0 -\n",
            b"0 +fe0000000000000 0 -\n",
            b"0 3fe 0 -\n",
            b"0 - 0 -\nNote|No material|1|-|a\n",
            b"1 - 0 -\nNote|No material|1|-|a",
            b"1 - 0 -\nNote|No material|1|-\n",
            b"1 - 0 -\nNote|Material worn|1|-|a\n",
            b"1 - 0 -\nRemark|No material|1|-|a\n",
            b"1 - 0 -\nNote|No material|1|1:2,3|a\n",
            b"1 - 0 -\nNote|No material|1|1:2,-|a\n",
            b"1 - 0 -\nNote|No material|1||a\n",
            b"1 - 0 -\nNote|No material|1|-|\xb2\n",
        ];
        for text in wrong {
            assert_eq!(Report::parse(text), Err(Malformed), "{:?}", String::from_utf8_lossy(text));
        }
    }

    #[test]
    fn names_are_all_different() {
        let names: std::collections::BTreeSet<&str> = Rule::ALL.iter().map(|r| r.name()).collect();
        assert_eq!(names.len(), Rule::ALL.len());
        assert!(Rule::ALL.is_sorted_by_key(|r| r.name()));
        assert!(Severity::Error < Severity::Warning && Severity::Warning < Severity::Note);
    }
}
