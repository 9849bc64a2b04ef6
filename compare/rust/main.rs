//! Jobs in, meshes out, as text, over rerecast's poly_mesh.rs and math.rs, which are compiled as they stand in RERECAST_SRC.
//! compare/rust/driver builds and runs it; `compare/rust/driver --help` has the formats.
#[macro_use]
extern crate alloc;

mod contours;
#[allow(dead_code)]
mod math {
    include!(concat!(env!("RERECAST_SRC"), "/math.rs"));
}
#[allow(dead_code)]
mod poly_mesh {
    include!(concat!(env!("RERECAST_SRC"), "/poly_mesh.rs"));
}
mod watch;

pub use contours::{AreaType, RegionId};
pub use math::Aabb3d;

use contours::{Contour, ContourSet, RegionVertexId};
use glam::{U16Vec2, U16Vec3};
use poly_mesh::{PolygonNavmesh, PolygonNavmeshError};
use std::fmt::Write as _;
use std::io::{BufRead, StdinLock, Write};
use std::panic::{AssertUnwindSafe, catch_unwind};
use std::process::exit;
use std::str::FromStr;
use std::time::{Duration, Instant};

fn malformed(what: &str) -> ! {
    let _ = std::io::stdout().flush();
    eprintln!("rust/driver: malformed input: {what}");
    exit(2)
}

/// Words parted by blanks or line ends.
struct Words {
    input: StdinLock<'static>,
    line: String,
    at: usize,
}

impl Words {
    fn new() -> Self {
        Words {
            input: std::io::stdin().lock(),
            line: String::new(),
            at: 0,
        }
    }

    fn next(&mut self) -> Option<&str> {
        loop {
            let rest = &self.line[self.at..];
            let start = self.at + rest.len() - rest.trim_start().len();
            if start < self.line.len() {
                let length = self.line[start..].find(char::is_whitespace);
                self.at = length.map_or(self.line.len(), |n| start + n);
                return Some(&self.line[start..self.at]);
            }
            self.line.clear();
            self.at = 0;
            match self.input.read_line(&mut self.line) {
                Ok(0) => return None,
                Ok(_) => {}
                Err(e) => malformed(&e.to_string()),
            }
        }
    }

    fn number<T: FromStr>(&mut self, what: &str) -> T {
        match self.next() {
            None => malformed(&format!("it ends where {what} is due")),
            Some(word) => word
                .parse()
                .unwrap_or_else(|_| malformed(&format!("'{word}' is no number for {what}"))),
        }
    }
}

type Job = (ContourSet, u16);

fn read_contour(words: &mut Words) -> Contour {
    let mut contour = Contour {
        region: RegionId(words.number("a region")),
        area: AreaType(words.number("an area code")),
        ..Default::default()
    };
    for _ in 0..words.number::<u32>("a contour's length") {
        let vertex = U16Vec3::new(words.number("x"), words.number("y"), words.number("z"));
        let word = match words.number::<u16>("a flag") {
            0 => 0,
            1 => RegionVertexId::BORDER_VERTEX.bits(),
            _ => malformed("a flag is neither 0 nor 1"),
        };
        contour.vertices.push((vertex, word));
    }
    contour
}

fn read_job(words: &mut Words) -> Option<Job> {
    match words.next()? {
        "job" => {}
        other => malformed(&format!("'{other}' where 'job' is due")),
    }
    let nvp = words.number("nvp");
    let mut set = ContourSet {
        width: words.number("w"),
        height: words.number("h"),
        border_size: words.number("border"),
        ..Default::default()
    };
    for _ in 0..words.number::<usize>("the number of contours") {
        set.contours.push(read_contour(words));
    }
    match words.next() {
        Some("end") => Some((set, nvp)),
        other => malformed(&format!("{other:?} where 'end' is due")),
    }
}

fn print_mesh(mesh: &PolygonNavmesh, out: &mut String) {
    let nvp = mesh.max_vertices_per_polygon as usize;
    let polygons = mesh.polygon_count();
    writeln!(out, "ok {} {}", mesh.vertices.len(), polygons).unwrap();
    for v in &mesh.vertices {
        writeln!(out, "v {} {} {}", v.x, v.y, v.z).unwrap();
    }
    for i in 0..polygons {
        let corners = &mesh.polygons[i * nvp..(i + 1) * nvp];
        let links = &mesh.polygon_neighbors[i * nvp..(i + 1) * nvp];
        let used = corners.iter().position(|c| *c == PolygonNavmesh::NO_INDEX);
        let used = used.unwrap_or(nvp);
        write!(out, "p {} {}", mesh.regions[i].0, mesh.areas[i].0).unwrap();
        for c in &corners[..used] {
            write!(out, " {c}").unwrap();
        }
        out.push_str("\nn");
        for l in &links[..used] {
            write!(out, " {l}").unwrap();
        }
        out.push('\n');
    }
}

/// The answer's text, without `done`.
fn answer((set, nvp): Job) -> String {
    let mut out = String::new();
    match catch_unwind(AssertUnwindSafe(|| set.into_polygon_mesh(nvp))) {
        Ok(Ok(mesh)) => print_mesh(&mesh, &mut out),
        Ok(Err(e)) => out.push_str(match e {
            PolygonNavmeshError::TooManyVertices { .. } => "err TooManyVertices\n",
            PolygonNavmeshError::TooManyPolygons { .. } => "err TooManyPolygons\n",
            PolygonNavmeshError::InvalidContour => "err InvalidContour\n",
        }),
        Err(_) => out.push_str("panic\n"),
    }
    out
}

fn put(text: std::fmt::Arguments) {
    let mut out = std::io::stdout().lock();
    if out.write_fmt(text).and_then(|()| out.flush()).is_err() {
        eprintln!("rust/driver: can't write the answer");
        exit(2)
    }
}

fn build(limit: Duration) {
    let mut words = Words::new();
    let mut worker = watch::Worker::new(answer);
    while let Some(job) = read_job(&mut words) {
        let text = worker.run(job, limit);
        put(format_args!("{}done\n", text.as_deref().unwrap_or("hang\n")));
    }
}

/// The shortest of several builds: three, or more until a hundredth of a second is spent, or fewer once five seconds are.
fn time() {
    let mut words = Words::new();
    while let Some((set, nvp)) = read_job(&mut words) {
        let (mut least, mut all, mut runs) = (Duration::MAX, Duration::ZERO, 0);
        let mut reply = 0;
        while runs < 1
            || (all < Duration::from_secs(5) && (runs < 3 || all < Duration::from_millis(10)))
        {
            let own = set.clone();
            let start = Instant::now();
            let mesh = own.into_polygon_mesh(nvp);
            let spent = start.elapsed();
            reply = if mesh.is_ok() { 0 } else { 7 };
            least = least.min(spent);
            all += spent;
            runs += 1;
        }
        put(format_args!("time {reply} {}\n", least.as_nanos()));
    }
}

fn dist() {
    let mut words = Words::new();
    while let Some(first) = words.next() {
        let px = first.parse().unwrap_or_else(|_| malformed("px is no number"));
        let p = U16Vec2::new(px, words.number("pz"));
        let a = U16Vec2::new(words.number("ax"), words.number("az"));
        let b = U16Vec2::new(words.number("bx"), words.number("bz"));
        let d = math::distance_squared_between_point_and_line_u16vec2(p, (a, b));
        put(format_args!("{:08x}\n", d.to_bits()));
    }
}

fn main() {
    let words: Vec<String> = std::env::args().skip(1).collect();
    let words: Vec<&str> = words.iter().map(String::as_str).collect();
    let (mode, limit) = match words[..] {
        [mode] => (mode, Some(10.0)),
        ["build", limit] => ("build", limit.parse().ok().filter(|s| *s > 0.0 && *s < 1e6)),
        _ => ("", None),
    };
    match (mode, limit) {
        ("build", Some(seconds)) => {
            std::panic::set_hook(Box::new(|_| {}));
            build(Duration::from_secs_f64(seconds))
        }
        ("time", _) => time(),
        ("dist", _) => dist(),
        _ => {
            eprintln!("rust/driver: one mode is wanted: build, time or dist; and for build, if wanted, how many seconds a job may take");
            exit(2)
        }
    }
}
