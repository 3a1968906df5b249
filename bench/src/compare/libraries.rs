//! OpenSSL and ISA-L, opened while the program runs: it is built without them, and goes on where they are absent.

use std::ffi::{c_char, c_int, c_uint, c_void, CStr};
use std::mem::transmute;
use std::ptr::{null, null_mut};

extern "C" {
    fn dlopen(name: *const c_char, flags: c_int) -> *mut c_void;
    fn dlsym(library: *mut c_void, name: *const c_char) -> *mut c_void;
}

const NOW: c_int = 2;

/// The first library of these names that is there.
fn open(names: &[&CStr]) -> Option<*mut c_void> {
    names
        .iter()
        // SAFETY: the name ends with a zero byte, and these libraries do no more when they are opened than to set themselves up.
        .map(|name| unsafe { dlopen(name.as_ptr(), NOW) })
        .find(|library| !library.is_null())
}

fn symbol(library: *mut c_void, name: &CStr) -> Option<*mut c_void> {
    // SAFETY: the library is open, and the name ends with a zero byte.
    let found = unsafe { dlsym(library, name.as_ptr()) };
    (!found.is_null()).then_some(found)
}

type Fetch = unsafe extern "C" fn(*mut c_void, *const c_char, *const c_char) -> *mut c_void;
type Digest =
    unsafe extern "C" fn(*const u8, usize, *mut u8, *mut c_uint, *mut c_void, *mut c_void) -> c_int;

#[derive(Clone, Copy)]
pub struct OpenSsl {
    digest: Digest,
    sha256: *mut c_void,
}

impl OpenSsl {
    /// The algorithm is looked up once: that takes a tenth of a digest's time.
    pub fn open() -> Option<Self> {
        let library = open(&[c"libcrypto.so.3", c"libcrypto.so"])?;
        let fetch = symbol(library, c"EVP_MD_fetch")?;
        let digest = symbol(library, c"EVP_Digest")?;
        // SAFETY: the two are declared so in openssl/evp.h, and no context or property is given.
        unsafe {
            let fetch = transmute::<*mut c_void, Fetch>(fetch);
            Some(OpenSsl {
                digest: transmute::<*mut c_void, Digest>(digest),
                sha256: fetch(null_mut(), c"SHA256".as_ptr(), null()),
            })
        }
    }

    pub fn digest(self, s: &[u8], out: &mut [u8; 32]) {
        let to = out.as_mut_ptr();
        // SAFETY: the slice is live, and the output has the 32 bytes that are written.
        unsafe { (self.digest)(s.as_ptr(), s.len(), to, null_mut(), self.sha256, null_mut()) };
    }
}

type Tables = unsafe extern "C" fn(c_int, c_int, *mut u8, *mut u8);
type Encode = unsafe extern "C" fn(c_int, c_int, c_int, *mut u8, *mut *mut u8, *mut *mut u8);
type Invert = unsafe extern "C" fn(*mut u8, *mut u8, c_int) -> c_int;

#[derive(Clone, Copy)]
pub struct Isal {
    tables: Tables,
    encode: Encode,
    invert: Invert,
}

/// So many lines of bytes of a slice, each from a place on.
pub type Places = [usize];

/// ISA-L leaves what it has in the upper halves of the vector registers. On some machines code for SSE2 is then slower until they are
/// cleared, by half and more, and everything else that is timed is such code.
fn clear_upper_halves() {
    #[target_feature(enable = "avx")]
    unsafe fn clear() {
        std::arch::x86_64::_mm256_zeroupper();
    }
    if std::is_x86_feature_detected!("avx") {
        // SAFETY: the instruction is there.
        unsafe { clear() };
    }
}

impl Isal {
    pub fn open() -> Option<Self> {
        let library = open(&[c"libisal.so.2", c"libisal.so"])?;
        let tables = symbol(library, c"ec_init_tables")?;
        let encode = symbol(library, c"ec_encode_data")?;
        let invert = symbol(library, c"gf_invert_matrix")?;
        // SAFETY: the three are declared so in erasure_code.h.
        unsafe {
            Some(Isal {
                tables: transmute::<*mut c_void, Tables>(tables),
                encode: transmute::<*mut c_void, Encode>(encode),
                invert: transmute::<*mut c_void, Invert>(invert),
            })
        }
    }

    /// What encoding takes in the place of a grid with rows of k factors.
    pub fn tables(self, k: usize, grid: &[u8], tables: &mut [u8]) {
        assert_eq!(tables.len(), 32 * grid.len());
        let (grid, rows) = (grid.as_ptr() as *mut u8, grid.len() / k);
        // SAFETY: the grid is only read, and 32 bytes are written for each of its factors.
        unsafe { (self.tables)(k as c_int, rows as c_int, grid, tables.as_mut_ptr()) };
    }

    /// Each target becomes the sum of the sources times a row of the grid.
    pub fn encode(
        self,
        len: usize,
        tables: &[u8],
        from: &[u8],
        sources: &Places,
        to: &mut [u8],
        targets: &Places,
    ) {
        assert_eq!(tables.len(), 32 * sources.len() * targets.len());
        let mut read = [null_mut(); 16];
        for (line, at) in read.iter_mut().zip(sources) {
            *line = from[*at..][..len].as_ptr() as *mut u8;
        }
        let mut write = [null_mut(); 16];
        for (line, at) in write.iter_mut().zip(targets) {
            *line = to[*at..][..len].as_mut_ptr();
        }
        let (tables, k, rows) = (tables.as_ptr() as *mut u8, sources.len(), targets.len());
        assert!(k <= read.len() && rows <= write.len());
        // SAFETY: every line has `len` bytes; tables and sources are only read.
        unsafe {
            (self.encode)(
                len as c_int,
                k as c_int,
                rows as c_int,
                tables,
                read.as_mut_ptr(),
                write.as_mut_ptr(),
            )
        };
        clear_upper_halves();
    }

    /// The inverse of a grid of k rows, which is used up.
    pub fn invert(self, k: usize, grid: &mut [u8], inverse: &mut [u8]) {
        assert!(grid.len() == k * k && inverse.len() == k * k);
        // SAFETY: both have k rows of k bytes.
        let failed = unsafe { (self.invert)(grid.as_mut_ptr(), inverse.as_mut_ptr(), k as c_int) };
        assert_eq!(failed, 0, "the grid has an inverse");
    }
}
