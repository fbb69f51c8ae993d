// What the benchmark links: the calls, the kernels, and the libraries of others.

#[repr(C)]
struct Answer {
    number: u32,
    place: usize,
}

#[repr(C)]
struct Setting {
    modulus: u32,
    roots: [u32; 12],
}

#[repr(C)]
struct Found {
    answer: Answer,
    setting: Setting,
}

#[link(name = "meter", kind = "static")]
extern "C" {
    fn fdr_house_row(row: u32) -> Found;
    fn fdr_modular_fill(setting: Setting, table: *mut u32, table_len: usize) -> Answer;
    fn fdr_modular_transform(
        schedule: u32, buf: *mut u32, buf_len: usize, m: u32, table: *const u32, table_len: usize, scratch: *mut u32, scratch_len: usize,
    ) -> Answer;
    fn fdr_fixed_fill(table: *mut i32, table_len: usize) -> Answer;
    fn fdr_fixed_transform(
        schedule: u32, buf: *mut i32, buf_len: usize, table: *const i32, table_len: usize, scratch: *mut i32, scratch_len: usize,
    ) -> Answer;
    fn fdr_fixed_reverse(buf: *mut i32, buf_len: usize) -> Answer;
}

#[link(name = "kernels", kind = "static")]
extern "C" {
    fn fdr_modular_kernel(
        schedule: u32, buf: *mut u32, buf_len: usize, m: u32, table: *const u32, table_len: usize, n: usize, scratch: *mut u32, scratch_len: usize,
    );
    fn fdr_fixed_kernel(
        schedule: u32, buf: *mut i32, buf_len: usize, table: *const i32, table_len: usize, n: usize, scratch: *mut i32, scratch_len: usize,
    );
}

extern "C" {
    pub fn others_residues(n: u32, m: u32, samples: *const u32);
    pub fn others_ntl(n: u32);
    pub fn others_points(n: u32, samples: *const i32);
    pub fn others_fftw(n: u32);
    pub fn others_kiss(n: u32);
}

fn done(answer: Answer) {
    assert!(answer.number == 0, "refused {} at place {}", answer.number, answer.place);
}

// The modulus of house row 0, and a table of its roots.
pub fn modular_table(len: usize) -> (u32, Vec<u32>) {
    let mut table = vec![0; len];
    let found = unsafe { fdr_house_row(0) };
    done(found.answer);
    let m = found.setting.modulus;
    done(unsafe { fdr_modular_fill(found.setting, table.as_mut_ptr(), len) });
    (m, table)
}

pub fn fixed_table(len: usize) -> Vec<i32> {
    let mut table = vec![0; len];
    done(unsafe { fdr_fixed_fill(table.as_mut_ptr(), len) });
    table
}

pub fn modular_kernel(schedule: u32, buf: &mut [u32], m: u32, table: &[u32], scratch: &mut [u32]) {
    let n = buf.len().trailing_zeros() as usize;
    unsafe { fdr_modular_kernel(schedule, buf.as_mut_ptr(), buf.len(), m, table.as_ptr(), table.len(), n, scratch.as_mut_ptr(), scratch.len()) }
}

pub fn modular_call(schedule: u32, buf: &mut [u32], m: u32, table: &[u32], scratch: &mut [u32]) {
    done(unsafe { fdr_modular_transform(schedule, buf.as_mut_ptr(), buf.len(), m, table.as_ptr(), table.len(), scratch.as_mut_ptr(), scratch.len()) })
}

pub fn fixed_kernel(schedule: u32, buf: &mut [i32], table: &[i32], scratch: &mut [i32]) {
    let n = table.len().trailing_zeros() as usize;
    unsafe { fdr_fixed_kernel(schedule, buf.as_mut_ptr(), buf.len(), table.as_ptr(), table.len(), n, scratch.as_mut_ptr(), scratch.len()) }
}

pub fn fixed_call(schedule: u32, buf: &mut [i32], table: &[i32], scratch: &mut [i32]) {
    done(unsafe { fdr_fixed_transform(schedule, buf.as_mut_ptr(), buf.len(), table.as_ptr(), table.len(), scratch.as_mut_ptr(), scratch.len()) })
}

// The call by schedule 1, and the reversal: the spectrum in order, as others leave it.
pub fn fixed_in_order(buf: &mut [i32], table: &[i32], scratch: &mut [i32]) {
    fixed_call(1, buf, table, scratch);
    done(unsafe { fdr_fixed_reverse(buf.as_mut_ptr(), buf.len()) })
}
