//! Meshes document 01's square, prints the mesh, and writes it as a binary STL, in millimetres, to the file that is named.
//! `examples/run` builds and runs it.

/// include/mittencrest.h in Rust: a slice is a pointer and its count of elements.
mod mittencrest {
    unsafe extern "C" {
        pub fn mittencrest_build_v1(
            header: *mut f32, inches: bool, nvp: u32, w: u16, h: u16, border: u16,
            lengths: *const u32, lengths_count: usize,
            regions: *const u16, regions_count: usize,
            codes: *const u8, codes_count: usize,
            numbers: *const u16, numbers_count: usize,
            vertices: *mut u16, vertices_count: usize,
            polygons: *mut u16, polygons_count: usize,
            neighbours: *mut u32, neighbours_count: usize,
            polyregions: *mut u16, polyregions_count: usize,
            polycodes: *mut u8, polycodes_count: usize,
            flags: *mut u16, flags_count: usize,
            work: *mut u32, work_count: usize,
            answer: *mut u64,
        ) -> u32;
        pub fn mittencrest_stl_v1(
            nvp: u32, inches: bool, size: f32, height: f32,
            vertices: *const u16, vertices_count: usize,
            polygons: *const u16, polygons_count: usize,
            links: *const u32, links_count: usize,
            file: *mut u8, file_count: usize,
            answer: *mut u64,
        ) -> u32;
        pub safe fn mittencrest_millimetres_v1(inches: bool, length: f32) -> f32;
    }
}

const NVP: usize = 6;
const V: usize = 4;
const T: usize = V - 2;

/// The mesh as a binary STL: each polygon has two facets fewer than corners, and all together at most T.
fn stl_of(header: &[f32], inches: bool, vertices: &[u16], polygons: &[u16], neighbours: &[u32]) -> Vec<u8> {
    let mut file = vec![0u8; 84 + 50 * T];
    let mut answer = [0u64; 3];
    // Safe: as below.
    let reply = unsafe {
        mittencrest::mittencrest_stl_v1(
            NVP as u32, inches, header[6], header[7],
            vertices.as_ptr(), vertices.len(),
            polygons.as_ptr(), polygons.len(),
            neighbours.as_ptr(), neighbours.len(),
            file.as_mut_ptr(), file.len(),
            answer.as_mut_ptr(),
        )
    };
    if reply != 0 {
        println!("refused {reply} {}", answer[1]);
        std::process::exit(1);
    }
    file.truncate(84 + 50 * answer[1] as usize);
    file
}

fn main() {
    let Some(name) = std::env::args().nth(1) else {
        eprintln!("usage: example PART.stl");
        std::process::exit(2);
    };
    // A box of 2 mm by 2 mm, cells of 0.5 mm by 0.5 mm, steps in height of 0.25 mm.
    let mut header = [0.0, 0.0, 0.0, 2.0, 0.0, 2.0, 0.5, 0.25, 0.0f32];
    // One contour: region 1, area code 7, four vertices (x, y, z, flag), the ground on the right hand.
    let (lengths, regions, codes) = ([V as u32], [1u16], [7u8]);
    let numbers = [0, 0, 0, 0, 0, 0, 4, 0, 4, 0, 4, 0, 4, 0, 0, 0u16];
    // What is lent, each as long as it has to be.
    let (mut vertices, mut polygons, mut neighbours) = ([0u16; 3 * V], [0u16; T * NVP], [0u32; T * NVP]);
    let (mut polyregions, mut polycodes, mut flags) = ([0u16; T], [0u8; T], [0u16; T]);
    let mut work = vec![0u32; 4096 + 128 * V];
    let mut answer = [0u64; 4];

    // Safe: each pointer comes with its own count, the two arrays have nine floats and four words, and no two that are written overlap.
    let reply = unsafe {
        mittencrest::mittencrest_build_v1(
            header.as_mut_ptr(), false, NVP as u32, 4, 4, 0,
            lengths.as_ptr(), lengths.len(),
            regions.as_ptr(), regions.len(),
            codes.as_ptr(), codes.len(),
            numbers.as_ptr(), numbers.len(),
            vertices.as_mut_ptr(), vertices.len(),
            polygons.as_mut_ptr(), polygons.len(),
            neighbours.as_mut_ptr(), neighbours.len(),
            polyregions.as_mut_ptr(), polyregions.len(),
            polycodes.as_mut_ptr(), polycodes.len(),
            flags.as_mut_ptr(), flags.len(),
            work.as_mut_ptr(), work.len(),
            answer.as_mut_ptr(),
        )
    };
    if reply != 0 {
        println!("refused {reply} {}", answer[1]);
        std::process::exit(1);
    }
    let cell = mittencrest::mittencrest_millimetres_v1(answer[3] == 1, header[6]);
    println!("mesh: {} vertices, {} polygons, cells of {cell} mm", answer[2], answer[1]);
    for (i, v) in vertices.chunks(3).take(answer[2] as usize).enumerate() {
        println!("vertex {i}: {} {} {}", v[0], v[1], v[2]);
    }
    for (p, corners) in polygons.chunks(NVP).take(answer[1] as usize).enumerate() {
        print!("polygon {p}: region {}, area code {}, corners", polyregions[p], polycodes[p]);
        for c in corners.iter().take_while(|c| **c != 65535) {
            print!(" {c}");
        }
        println!();
    }
    let (corners, coordinates) = (answer[1] as usize * NVP, answer[2] as usize * 3);
    let file = stl_of(&header, answer[3] == 1, &vertices[..coordinates], &polygons[..corners], &neighbours[..corners]);
    if let Err(e) = std::fs::write(&name, &file) {
        eprintln!("{name}: {e}");
        std::process::exit(1);
    }
    println!("stl: {} facets, {} bytes, in millimetres", (file.len() - 84) / 50, file.len());
}
