//! Stand-in for the crate `glam`: what poly_mesh.rs and math.rs name, and nothing else. One plain operator for each component, dot
//! products summed from the left, nothing fused. In the release build integers wrap.
#![no_std]
use core::ops::{Add, Index, Mul, Sub};

macro_rules! vector {
    ($name:ident, $number:ty, [$($c:ident),+], [$($also:ident),*]) => {
        #[derive(Debug, Clone, Copy, Default, PartialEq, $($also),*)]
        #[repr(C)]
        pub struct $name {
            $(pub $c: $number),+
        }

        impl $name {
            pub const ZERO: Self = Self { $($c: 0 as $number),+ };

            #[inline]
            pub const fn new($($c: $number),+) -> Self {
                Self { $($c),+ }
            }

            #[inline]
            pub const fn splat(v: $number) -> Self {
                Self { $($c: v),+ }
            }

            #[inline]
            pub fn length_squared(self) -> $number {
                self.dot(self)
            }
        }

        impl Add for $name {
            type Output = Self;
            #[inline]
            fn add(self, other: Self) -> Self {
                Self { $($c: self.$c + other.$c),+ }
            }
        }

        impl Sub for $name {
            type Output = Self;
            #[inline]
            fn sub(self, other: Self) -> Self {
                Self { $($c: self.$c - other.$c),+ }
            }
        }

        impl Mul<$name> for $number {
            type Output = $name;
            #[inline]
            fn mul(self, v: $name) -> $name {
                $name { $($c: self * v.$c),+ }
            }
        }
    };
}

macro_rules! of_two {
    ($name:ident, $number:ty, [$($also:ident),*]) => {
        vector!($name, $number, [x, y], [$($also),*]);
        impl $name {
            #[inline]
            pub fn dot(self, other: Self) -> $number {
                (self.x * other.x) + (self.y * other.y)
            }
        }
    };
}

macro_rules! of_three {
    ($name:ident, $number:ty, [$($also:ident),*]) => {
        vector!($name, $number, [x, y, z], [$($also),*]);
        impl $name {
            #[inline]
            pub fn dot(self, other: Self) -> $number {
                (self.x * other.x) + (self.y * other.y) + (self.z * other.z)
            }
        }
        impl Index<usize> for $name {
            type Output = $number;
            #[inline]
            fn index(&self, i: usize) -> &$number {
                match i {
                    0 => &self.x,
                    1 => &self.y,
                    2 => &self.z,
                    _ => panic!("index out of bounds"),
                }
            }
        }
        impl core::ops::IndexMut<usize> for $name {
            #[inline]
            fn index_mut(&mut self, i: usize) -> &mut $number {
                match i {
                    0 => &mut self.x,
                    1 => &mut self.y,
                    2 => &mut self.z,
                    _ => panic!("index out of bounds"),
                }
            }
        }
    };
}

of_two!(U16Vec2, u16, [Eq]);
of_two!(IVec2, i32, [Eq]);
of_two!(Vec2, f32, []);
of_three!(U16Vec3, u16, [Eq]);
of_three!(IVec3, i32, [Eq]);
of_three!(UVec3, u32, [Eq]);
of_three!(Vec3, f32, []);
of_three!(Vec3A, f32, []);

#[inline]
pub const fn u16vec3(x: u16, y: u16, z: u16) -> U16Vec3 {
    U16Vec3::new(x, y, z)
}

#[inline]
pub const fn uvec3(x: u32, y: u32, z: u32) -> UVec3 {
    UVec3::new(x, y, z)
}

impl U16Vec2 {
    #[inline]
    pub fn as_vec2(&self) -> Vec2 {
        Vec2::new(self.x as f32, self.y as f32)
    }
}

impl U16Vec3 {
    #[inline]
    pub fn as_ivec3(&self) -> IVec3 {
        IVec3::new(self.x as i32, self.y as i32, self.z as i32)
    }

    #[inline]
    pub fn as_uvec3(&self) -> UVec3 {
        UVec3::new(self.x as u32, self.y as u32, self.z as u32)
    }
}

pub trait Vec3Swizzles {
    type Vec2;
    fn xz(self) -> Self::Vec2;
}

impl Vec3Swizzles for U16Vec3 {
    type Vec2 = U16Vec2;
    #[inline]
    fn xz(self) -> U16Vec2 {
        U16Vec2::new(self.x, self.z)
    }
}

impl Vec3Swizzles for IVec3 {
    type Vec2 = IVec2;
    #[inline]
    fn xz(self) -> IVec2 {
        IVec2::new(self.x, self.z)
    }
}

// What follows is named by parts of math.rs that are never run here.

pub struct BVec3([bool; 3]);

impl BVec3 {
    pub fn all(self) -> bool {
        self.0 == [true; 3]
    }
}

impl Vec2 {
    pub fn min(self, other: Self) -> Self {
        Self::new(self.x.min(other.x), self.y.min(other.y))
    }

    pub fn max(self, other: Self) -> Self {
        Self::new(self.x.max(other.x), self.y.max(other.y))
    }
}

macro_rules! extremes {
    ($name:ident) => {
        impl $name {
            pub fn min(self, other: Self) -> Self {
                Self::new(self.x.min(other.x), self.y.min(other.y), self.z.min(other.z))
            }

            pub fn max(self, other: Self) -> Self {
                Self::new(self.x.max(other.x), self.y.max(other.y), self.z.max(other.z))
            }
        }
    };
}
extremes!(Vec3);
extremes!(Vec3A);

impl Vec3 {
    pub fn cmple(self, other: Self) -> BVec3 {
        BVec3([self.x <= other.x, self.y <= other.y, self.z <= other.z])
    }

    pub fn cmpge(self, other: Self) -> BVec3 {
        BVec3([self.x >= other.x, self.y >= other.y, self.z >= other.z])
    }
}

impl From<Vec3A> for Vec3 {
    fn from(v: Vec3A) -> Self {
        Self::new(v.x, v.y, v.z)
    }
}

impl Vec3A {
    pub fn cross(self, other: Self) -> Self {
        Self::new(
            self.y * other.z - other.y * self.z,
            self.z * other.x - other.z * self.x,
            self.x * other.y - other.x * self.y,
        )
    }

    pub fn normalize_or_zero(self) -> Self {
        unimplemented!("this part of math.rs isn't run")
    }
}
