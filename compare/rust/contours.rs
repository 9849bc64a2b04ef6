//! Stand-in for the modules of rerecast that poly_mesh.rs uses and that aren't in document 01's text: the fields and numbers that it
//! reads. The two numbers that count are Recast's: RC_BORDER_VERTEX and RC_BORDER_REG.
use crate::math::Aabb3d;

#[derive(Debug, Default, Clone, PartialEq)]
pub struct ContourSet {
    pub contours: Vec<Contour>,
    pub aabb: Aabb3d,
    pub cell_size: f32,
    pub cell_height: f32,
    pub width: u16,
    pub height: u16,
    pub border_size: u16,
    pub max_error: f32,
}

#[derive(Debug, Default, Clone, PartialEq)]
pub struct Contour {
    /// A vertex, and the word with the bit that marks it for removal.
    pub vertices: Vec<(glam::U16Vec3, u32)>,
    pub region: RegionId,
    pub area: AreaType,
}

pub struct RegionVertexId(u32);

impl RegionVertexId {
    pub const BORDER_VERTEX: Self = Self(0x10000);

    pub const fn bits(&self) -> u32 {
        self.0
    }
}

#[derive(Debug, Default, Clone, Copy, PartialEq, Eq)]
pub struct RegionId(pub u16);

impl RegionId {
    pub const NONE: Self = Self(0);
    pub const BORDER_REGION: Self = Self(0x8000);

    pub const fn bits(&self) -> u16 {
        self.0
    }
}

#[derive(Debug, Default, Clone, Copy, PartialEq, Eq)]
pub struct AreaType(pub u8);
