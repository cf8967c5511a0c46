//! The product's seven C functions. A slice is a pointer and a length.

pub type Sizes = unsafe extern "C" fn(*const u8, usize, *mut u8, usize) -> usize;
pub type Unpack = unsafe extern "C" fn(
    *const u8,
    usize,
    *mut u8,
    usize,
    *mut u8,
    usize,
    *mut u8,
    usize,
    *mut u8,
    usize,
) -> usize;
pub type Pack = unsafe extern "C" fn(
    usize,
    *const u8,
    usize,
    *const u8,
    usize,
    *const u8,
    usize,
    *mut u8,
    usize,
    *mut u8,
    usize,
) -> usize;
pub type Row =
    unsafe extern "C" fn(*const u8, usize, usize, usize, *mut u8, usize, *mut u8, usize) -> usize;
pub type OneCase = unsafe extern "C" fn(*const u8, usize, usize, *mut u8, usize) -> usize;
pub type Check = unsafe extern "C" fn(*const u8, usize, *mut u8, usize) -> usize;
pub type Text = unsafe extern "C" fn(
    usize,
    usize,
    *const u8,
    usize,
    *mut u8,
    usize,
    *mut u8,
    usize,
    *mut u8,
    usize,
) -> usize;

#[derive(Clone, Copy)]
pub struct Library {
    pub sizes: Sizes,
    pub unpack: Unpack,
    pub pack: Pack,
    pub row: Row,
    pub one_case: OneCase,
    pub check: Check,
    pub text: Text,
}

/// The product's library, if this was built with BOUNDARY_DIR set.
#[cfg(boundary)]
pub fn linked() -> Option<Library> {
    Some(Library {
        sizes: product::kelpanvil_sizes,
        unpack: product::kelpanvil_unpack,
        pack: product::kelpanvil_pack,
        row: product::kelpanvil_row,
        one_case: product::kelpanvil_one_case,
        check: product::kelpanvil_check,
        text: product::kelpanvil_text,
    })
}

#[cfg(not(boundary))]
pub fn linked() -> Option<Library> {
    None
}

pub const NOT_LINKED: &str = "no library: build with BOUNDARY_DIR=directory of libboundary.a";

#[cfg(boundary)]
mod product {
    extern "C" {
        pub fn kelpanvil_sizes(job: *const u8, l: usize, answer: *mut u8, m: usize) -> usize;
        pub fn kelpanvil_unpack(
            job: *const u8,
            job_length: usize,
            nodes: *mut u8,
            nodes_length: usize,
            expressions: *mut u8,
            expressions_length: usize,
            clauses: *mut u8,
            clauses_length: usize,
            answer: *mut u8,
            answer_length: usize,
        ) -> usize;
        pub fn kelpanvil_pack(
            k: usize,
            nodes: *const u8,
            nodes_length: usize,
            expressions: *const u8,
            expressions_length: usize,
            clauses: *const u8,
            clauses_length: usize,
            out: *mut u8,
            out_length: usize,
            answer: *mut u8,
            answer_length: usize,
        ) -> usize;
        pub fn kelpanvil_row(
            job: *const u8,
            job_length: usize,
            case: usize,
            time: usize,
            out: *mut u8,
            out_length: usize,
            answer: *mut u8,
            answer_length: usize,
        ) -> usize;
        pub fn kelpanvil_one_case(
            job: *const u8,
            job_length: usize,
            case: usize,
            answer: *mut u8,
            answer_length: usize,
        ) -> usize;
        pub fn kelpanvil_check(job: *const u8, l: usize, answer: *mut u8, m: usize) -> usize;
        pub fn kelpanvil_text(
            k: usize,
            n: usize,
            text: *const u8,
            text_length: usize,
            expressions: *mut u8,
            expressions_length: usize,
            clauses: *mut u8,
            clauses_length: usize,
            answer: *mut u8,
            answer_length: usize,
        ) -> usize;
    }
}
