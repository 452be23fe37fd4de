// The library's three functions as Rust calls them, and the input that both the driver and the bench make.

// A part of the bytes.
#[repr(C)]
#[derive(Clone, Copy, PartialEq, Debug)]
pub struct Span {
    pub at: u64,
    pub len: u64,
}

// What a question about a chain is answered.
#[repr(C)]
#[derive(Clone, Copy, PartialEq, Debug)]
pub struct Found {
    pub rejection: u64,
    pub len: u64,
}

// As include/permit.h declares them.
mod declared {
    use super::{Found, Span};

    unsafe extern "C" {
        pub fn judge(bytes: *const u8, len: usize) -> u64;
        pub fn piece(bytes: *const u8, len: usize, path: *const u64, path_len: usize) -> Span;
        pub fn chain(
            n: u64,
            certificates: *const u32,
            certificates_len: usize,
            signatures: *const u8,
            signatures_len: usize,
            anchors: *const u8,
            anchors_len: usize,
            day: u64,
            first: u64,
            out: *mut u16,
            out_len: usize,
        ) -> Found;
    }
}

#[inline(always)]
pub fn judge(bytes: &[u8]) -> u64 {
    unsafe { declared::judge(bytes.as_ptr(), bytes.len()) }
}

#[inline(always)]
pub fn piece(bytes: &[u8], path: &[u64]) -> Span {
    unsafe { declared::piece(bytes.as_ptr(), bytes.len(), path.as_ptr(), path.len()) }
}

// Certificates as six numbers each, the marks of their signatures and the marks of the trust anchors.
pub struct Pool {
    pub n: usize,
    pub certificates: Vec<u32>,
    pub signatures: Vec<u8>,
    pub anchors: Vec<u8>,
}

impl Pool {
    // One number of a certificate.
    pub fn number(&self, a: usize, field: usize) -> u32 {
        self.certificates[6 * a + field]
    }

    pub fn holds(&self, a: usize, day: u64) -> bool {
        u64::from(self.number(a, 2)) <= day && day <= u64::from(self.number(a, 3))
    }

    // What the library answers.
    pub fn ask(&self, day: u64, first: u64, out: &mut [u16]) -> Found {
        let (c, s, a) = (&self.certificates, &self.signatures, &self.anchors);
        unsafe {
            declared::chain(
                self.n as u64,
                c.as_ptr(),
                c.len(),
                s.as_ptr(),
                s.len(),
                a.as_ptr(),
                a.len(),
                day,
                first,
                out.as_mut_ptr(),
                out.len(),
            )
        }
    }
}

// The bytes of a length, of which only so many count.
pub struct Written([u8; 3], usize);

impl std::ops::Deref for Written {
    type Target = [u8];

    fn deref(&self) -> &[u8] {
        &self.0[..self.1]
    }
}

pub fn written_length(n: usize) -> Written {
    match n {
        0..=127 => Written([n as u8, 0, 0], 1),
        128..=255 => Written([129, n as u8, 0], 2),
        _ => Written([130, (n / 256) as u8, (n % 256) as u8], 3),
    }
}

// The bytes of an element.
pub fn element(tag: u8, contents: &[u8]) -> Vec<u8> {
    [&[tag], &*written_length(contents.len()), contents].concat()
}
