//! The calls of the header for C, and its structs.

use crate::error::Outcome;
use crate::nets::NetClearance;
use crate::style::Arc;

#[repr(C)]
pub struct RawJoin {
    pub kind: u32,
    pub miter_angle: u32,
    pub miter_min_turn: u32,
    pub arc: Arc,
}

#[repr(C)]
pub struct RawOutlineStyle {
    pub outer_offset: i32,
    pub inner_offset: i32,
    pub join: RawJoin,
}

#[repr(C)]
pub struct RawCap {
    pub kind: u32,
    pub arc: Arc,
}

#[repr(C)]
pub struct RawStrokeStyle {
    pub width: i32,
    pub join: RawJoin,
    pub start_cap: RawCap,
    pub end_cap: RawCap,
    pub side: u32,
    pub closed: u32,
}

#[repr(C)]
pub struct RawOptions {
    pub min_area: u64,
    pub clockwise: u32,
    pub collinear: u32,
}

#[repr(C)]
pub struct RawBoolean {
    pub rule: u32,
    pub subject_fill: u32,
    pub clip_fill: u32,
}

#[derive(Clone, Copy)]
#[repr(C)]
pub struct ShapeCounts {
    pub points: usize,
    pub contours: usize,
    pub shapes: usize,
}

#[derive(Clone, Copy)]
#[repr(C)]
pub struct EdgeCounts {
    pub edges: usize,
    pub paths: usize,
}

extern "C" {
    pub fn mesh_answer(
        request: *const u8,
        request_size: usize,
        room: *mut u8,
        room_size: usize,
        needed: *mut usize,
    ) -> Outcome;

    pub fn mesh_answer_within(
        request: *const u8,
        request_size: usize,
        most_splits: u64,
        room: *mut u8,
        room_size: usize,
        needed: *mut usize,
    ) -> Outcome;

    pub fn mesh_why(
        request: *const u8,
        request_size: usize,
        room: *mut u8,
        room_size: usize,
        needed: *mut usize,
    ) -> Outcome;
}

/// The type of coordinates: `i32` or `i16`.
pub trait Coordinate: Width + Copy + Default + 'static {}

impl Coordinate for i32 {}
impl Coordinate for i16 {}

/// What has calls of its own. Nothing outside this crate can name it.
pub trait Width: Sized {
    #[doc(hidden)]
    const CALLS: Calls<Self>;
}

/// Declares calls for both widths, of which `I` stands for the coordinates.
macro_rules! calls {
    ($($call:ident: $wide:ident, $narrow:ident, ($($argument:ident: $type:ty),* $(,)?);)*) => {
        /// The calls of one width.
        #[doc(hidden)]
        pub struct Calls<I> {
            $(pub $call: unsafe extern "C" fn($($type),*) -> Outcome,)*
        }

        mod wide {
            use super::*;
            type I = i32;
            extern "C" {
                $(pub fn $wide($($argument: $type),*) -> Outcome;)*
            }
        }

        mod narrow {
            use super::*;
            type I = i16;
            extern "C" {
                $(pub fn $narrow($($argument: $type),*) -> Outcome;)*
            }
        }

        impl Width for i32 {
            const CALLS: Calls<i32> = Calls { $($call: wide::$wide,)* };
        }

        impl Width for i16 {
            const CALLS: Calls<i16> = Calls { $($call: narrow::$narrow,)* };
        }
    };
}

calls! {
    outline: mesh_outline_i32, mesh_outline_i16, (
        points: *const [I; 2], point_count: usize, ends: *const usize, end_count: usize,
        style: *const RawOutlineStyle, options: *const RawOptions,
        shape_points: *mut [I; 2], shape_point_room: usize, contour_ends: *mut usize, contour_room: usize,
        shape_ends: *mut usize, shape_room: usize, counts: *mut ShapeCounts,
    );
    stroke: mesh_stroke_i32, mesh_stroke_i16, (
        points: *const [I; 2], point_count: usize, ends: *const usize, end_count: usize,
        style: *const RawStrokeStyle, start_points: *const [I; 2], start_point_count: usize,
        end_points: *const [I; 2], end_point_count: usize, options: *const RawOptions,
        shape_points: *mut [I; 2], shape_point_room: usize, contour_ends: *mut usize, contour_room: usize,
        shape_ends: *mut usize, shape_room: usize, counts: *mut ShapeCounts,
    );
    variable_stroke: mesh_variable_stroke_i32, mesh_variable_stroke_i16, (
        vertices: *const [I; 3], vertex_count: usize, ends: *const usize, end_count: usize,
        arc: *const Arc, options: *const RawOptions,
        shape_points: *mut [I; 2], shape_point_room: usize, contour_ends: *mut usize, contour_room: usize,
        shape_ends: *mut usize, shape_room: usize, counts: *mut ShapeCounts,
    );
    outline_near: mesh_outline_near_i32, mesh_outline_near_i16, (
        points: *const [I; 2], point_count: usize, ends: *const usize, end_count: usize,
        style: *const RawOutlineStyle, options: *const RawOptions, most_splits: u64,
        shape_points: *mut [I; 2], shape_point_room: usize, contour_ends: *mut usize, contour_room: usize,
        shape_ends: *mut usize, shape_room: usize, counts: *mut ShapeCounts, nearness: *mut u64,
    );
    stroke_near: mesh_stroke_near_i32, mesh_stroke_near_i16, (
        points: *const [I; 2], point_count: usize, ends: *const usize, end_count: usize,
        style: *const RawStrokeStyle, start_points: *const [I; 2], start_point_count: usize,
        end_points: *const [I; 2], end_point_count: usize, options: *const RawOptions, most_splits: u64,
        shape_points: *mut [I; 2], shape_point_room: usize, contour_ends: *mut usize, contour_room: usize,
        shape_ends: *mut usize, shape_room: usize, counts: *mut ShapeCounts, nearness: *mut u64,
    );
    variable_stroke_near: mesh_variable_stroke_near_i32, mesh_variable_stroke_near_i16, (
        vertices: *const [I; 3], vertex_count: usize, ends: *const usize, end_count: usize,
        arc: *const Arc, options: *const RawOptions, most_splits: u64,
        shape_points: *mut [I; 2], shape_point_room: usize, contour_ends: *mut usize, contour_room: usize,
        shape_ends: *mut usize, shape_room: usize, counts: *mut ShapeCounts, nearness: *mut u64,
    );
    outline_edges: mesh_outline_edges_i32, mesh_outline_edges_i16, (
        points: *const [I; 2], point_count: usize, ends: *const usize, end_count: usize,
        style: *const RawOutlineStyle,
        edges: *mut [[I; 2]; 2], edge_room: usize, path_ends: *mut usize, path_room: usize,
        counts: *mut EdgeCounts,
    );
    stroke_edges: mesh_stroke_edges_i32, mesh_stroke_edges_i16, (
        points: *const [I; 2], point_count: usize, ends: *const usize, end_count: usize,
        style: *const RawStrokeStyle, start_points: *const [I; 2], start_point_count: usize,
        end_points: *const [I; 2], end_point_count: usize,
        edges: *mut [[I; 2]; 2], edge_room: usize, path_ends: *mut usize, path_room: usize,
        counts: *mut EdgeCounts,
    );
    variable_stroke_edges: mesh_variable_stroke_edges_i32, mesh_variable_stroke_edges_i16, (
        vertices: *const [I; 3], vertex_count: usize, ends: *const usize, end_count: usize, arc: *const Arc,
        edges: *mut [[I; 2]; 2], edge_room: usize, path_ends: *mut usize, path_room: usize,
        counts: *mut EdgeCounts,
    );
    validate_outline: mesh_validate_outline_i32, mesh_validate_outline_i16, (
        points: *const [I; 2], point_count: usize, ends: *const usize, end_count: usize,
        style: *const RawOutlineStyle, padding: *mut i64,
    );
    validate_stroke: mesh_validate_stroke_i32, mesh_validate_stroke_i16, (
        points: *const [I; 2], point_count: usize, ends: *const usize, end_count: usize,
        style: *const RawStrokeStyle, start_points: *const [I; 2], start_point_count: usize,
        end_points: *const [I; 2], end_point_count: usize, padding: *mut i64,
    );
    validate_variable_stroke: mesh_validate_variable_stroke_i32, mesh_validate_variable_stroke_i16, (
        vertices: *const [I; 3], vertex_count: usize, ends: *const usize, end_count: usize,
        arc: *const Arc, padding: *mut i64,
    );
    boolean: mesh_boolean_i32, mesh_boolean_i16, (
        subject_points: *const [I; 2], subject_point_count: usize,
        subject_ends: *const usize, subject_end_count: usize,
        clip_points: *const [I; 2], clip_point_count: usize, clip_ends: *const usize, clip_end_count: usize,
        boolean: *const RawBoolean, options: *const RawOptions,
        shape_points: *mut [I; 2], shape_point_room: usize, contour_ends: *mut usize, contour_room: usize,
        shape_ends: *mut usize, shape_room: usize, counts: *mut ShapeCounts,
    );
    boolean_near: mesh_boolean_near_i32, mesh_boolean_near_i16, (
        subject_points: *const [I; 2], subject_point_count: usize,
        subject_ends: *const usize, subject_end_count: usize,
        clip_points: *const [I; 2], clip_point_count: usize, clip_ends: *const usize, clip_end_count: usize,
        boolean: *const RawBoolean, options: *const RawOptions, most_splits: u64,
        shape_points: *mut [I; 2], shape_point_room: usize, contour_ends: *mut usize, contour_room: usize,
        shape_ends: *mut usize, shape_room: usize, counts: *mut ShapeCounts, nearness: *mut u64,
    );
    without_slivers: mesh_without_slivers_i32, mesh_without_slivers_i16, (
        points: *const [I; 2], point_count: usize, contour_ends: *const usize, contour_count: usize,
        shape_ends: *const usize, shape_count: usize, width: u32,
        left_points: *mut [I; 2], left_point_room: usize, left_contour_ends: *mut usize, left_contour_room: usize,
        left_shape_ends: *mut usize, left_shape_room: usize, counts: *mut ShapeCounts,
    );
    clearance: mesh_clearance_i32, mesh_clearance_i16, (
        points: *const [I; 2], point_count: usize, contour_ends: *const usize, contour_count: usize,
        shape_ends: *const usize, shape_count: usize, path_points: *const [I; 2], path_point_count: usize,
        path_ends: *const usize, path_count: usize, closed: u32, clearance: *mut u64,
    );
    inner_reach: mesh_inner_reach_i32, mesh_inner_reach_i16, (
        points: *const [I; 2], point_count: usize, ends: *const usize, end_count: usize,
        style: *const RawStrokeStyle, start_points: *const [I; 2], start_point_count: usize,
        end_points: *const [I; 2], end_point_count: usize, reach: *mut u64,
    );
    clearances: mesh_clearances_i32, mesh_clearances_i16, (
        points: *const [I; 2], point_count: usize, contour_ends: *const usize, contour_count: usize,
        net_ends: *const usize, net_count: usize, distance: u32,
        pairs: *mut NetClearance, pair_room: usize, pair_count: *mut usize,
    );
}
