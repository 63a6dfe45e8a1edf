//! The calls of include/feltloquat.h, declared again for Rust. A slice is a pointer and a length.

#[repr(C)]
pub struct OuterAnswer {
    pub refused: u32,
    pub place: u64,
    pub vertices: usize,
}

#[repr(C)]
pub struct CornersAnswer {
    pub refused: u32,
    pub place: u64,
    pub southwest: usize,
    pub southeast: usize,
    pub northeast: usize,
    pub northwest: usize,
}

#[repr(C)]
pub struct EntryAnswer {
    pub number: usize,
    pub corner: u32,
    pub weight: u32,
}

#[repr(C)]
pub struct VerdictAnswer {
    pub refused: u32,
    pub place: u64,
    pub word: u32,
    pub corner: u32,
    pub east: i32,
    pub north: i32,
    pub first: EntryAnswer,
    pub second: EntryAnswer,
    pub third: EntryAnswer,
}

#[repr(C)]
pub struct WordAnswer {
    pub refused: u32,
    pub place: u64,
    pub word: u32,
}

#[repr(C)]
pub struct ReadAnswer {
    pub refused: u32,
    pub place: u64,
    pub boxes: usize,
    pub plugs: usize,
}

#[repr(C)]
pub struct WriteAnswer {
    pub refused: u32,
    pub place: u64,
    pub bytes: usize,
}

extern "C" {
    pub fn feltloquat_outer_polygon(
        boxes: *const i32,
        boxes_length: usize,
        answer: *mut i32,
        answer_length: usize,
    ) -> OuterAnswer;

    pub fn feltloquat_corner_polygons(
        boxes: *const i32,
        boxes_length: usize,
        answer: *mut i32,
        answer_length: usize,
    ) -> CornersAnswer;

    pub fn feltloquat_verdict(boxes: *const i32, boxes_length: usize, east: i32, north: i32) -> VerdictAnswer;

    pub fn feltloquat_word(boxes: *const i32, boxes_length: usize, east: i32, north: i32) -> WordAnswer;

    pub fn feltloquat_verdict_on_records(
        boxes: *const crate::BoxEdges,
        boxes_length: usize,
        east: i32,
        north: i32,
    ) -> VerdictAnswer;

    pub fn feltloquat_read_round(
        file: *const u8,
        file_length: usize,
        boxes: *mut i32,
        boxes_length: usize,
        plugs: *mut i32,
        plugs_length: usize,
    ) -> ReadAnswer;

    pub fn feltloquat_write_round(
        boxes: *const i32,
        boxes_length: usize,
        plugs: *const i32,
        plugs_length: usize,
        file: *mut u8,
        file_length: usize,
    ) -> WriteAnswer;

    pub fn feltloquat_print_round(file: *const u8, file_length: usize, text: *mut [u8; 131_072]) -> usize;
}
