//! The kernel's C functions, as the crate `native` exports them, behind safe calls.

/// A point of the plane, in 1/256 mm.
#[repr(C)]
#[derive(Clone, Copy, PartialEq, Eq, Debug, Default)]
pub struct Planar {
    pub x: i32,
    pub y: i32,
}

/// Accepted: refusal 0. Refused: number, storey and place of the fault.
#[repr(C)]
#[derive(Clone, Copy, PartialEq, Eq, Debug, Default)]
pub struct Answer {
    pub refusal: u8,
    pub storey: u8,
    pub place: usize,
}

#[repr(C)]
#[derive(Clone, Copy, PartialEq, Eq, Debug, Default)]
pub struct PointAnswer {
    pub answer: Answer,
    pub point: Planar,
    pub allowance: u32,
}

#[repr(C)]
#[derive(Clone, Copy, PartialEq, Eq, Debug, Default)]
pub struct FileAnswer {
    pub answer: Answer,
    pub allowance: u16,
    pub name: u16,
    pub points: u16,
    pub workings: u16,
}

// A slice crosses as a pointer and a length. Nothing checks these lines against the exports, so they are kept few.
unsafe extern "C" {
    fn planar_point(
        polygon: *const Planar,
        polygon_len: usize,
        allowance: u16,
        a: u16,
        k: u8,
        buffer: *mut Planar,
        buffer_len: usize,
    ) -> PointAnswer;
    fn planar_left(polygon: *mut Planar, len: usize, a: u16, k: u8) -> Answer;
    fn planar_right(polygon: *mut Planar, len: usize, a: u16, k: u8) -> Answer;
    fn planar_raise(buffer: *mut Planar, len: usize, points: usize) -> Answer;
    fn planar_turn(polygon: *mut Planar, len: usize) -> Answer;
    fn planar_flatten(
        polygon: *const Planar,
        polygon_len: usize,
        allowance: u16,
        tolerance: u16,
        working: *mut Planar,
        working_len: usize,
        points: *mut Planar,
        points_len: usize,
        parameters: *mut u16,
        parameters_len: usize,
    ) -> Answer;
    fn planar_open(file: *const u8, file_len: usize, buffer: *mut Planar, buffer_len: usize) -> FileAnswer;
}

// The calls below are sound for every argument: the exports have no precondition, and each pointer comes with the length of its slice.

pub fn point(polygon: &[Planar], allowance: u16, a: u16, k: u8, buffer: &mut [Planar]) -> PointAnswer {
    unsafe { planar_point(polygon.as_ptr(), polygon.len(), allowance, a, k, buffer.as_mut_ptr(), buffer.len()) }
}

pub fn left(polygon: &mut [Planar], a: u16, k: u8) -> Answer {
    unsafe { planar_left(polygon.as_mut_ptr(), polygon.len(), a, k) }
}

pub fn right(polygon: &mut [Planar], a: u16, k: u8) -> Answer {
    unsafe { planar_right(polygon.as_mut_ptr(), polygon.len(), a, k) }
}

pub fn raise(buffer: &mut [Planar], points: usize) -> Answer {
    unsafe { planar_raise(buffer.as_mut_ptr(), buffer.len(), points) }
}

pub fn turn(polygon: &mut [Planar]) -> Answer {
    unsafe { planar_turn(polygon.as_mut_ptr(), polygon.len()) }
}

pub fn flatten(
    polygon: &[Planar],
    allowance: u16,
    tolerance: u16,
    working: &mut [Planar],
    points: &mut [Planar],
    parameters: &mut [u16],
) -> Answer {
    unsafe {
        planar_flatten(
            polygon.as_ptr(),
            polygon.len(),
            allowance,
            tolerance,
            working.as_mut_ptr(),
            working.len(),
            points.as_mut_ptr(),
            points.len(),
            parameters.as_mut_ptr(),
            parameters.len(),
        )
    }
}

pub fn open(file: &[u8], buffer: &mut [Planar]) -> FileAnswer {
    unsafe { planar_open(file.as_ptr(), file.len(), buffer.as_mut_ptr(), buffer.len()) }
}
