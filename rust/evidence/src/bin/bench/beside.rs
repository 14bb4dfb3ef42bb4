//! Another build of the library, loaded beside the linked one. It is made from its archive:
//! `cc -shared -o FILE.so -Wl,--whole-archive libenergy.a -Wl,--no-whole-archive`.

use energy::{Figures, Frames};
use std::ffi::{CStr, CString};
use std::os::raw::{c_char, c_int, c_void};
use std::path::{Path, PathBuf};

#[repr(C)]
struct PlanAnswer {
    number: u32,
    p: u64,
}

#[repr(C)]
struct NeededAnswer {
    number: u32,
    p: u64,
    capacity: u64,
}

type List = *const u32;
type Plan = unsafe extern "C" fn(Figures, List, usize, List, usize, List, usize, *mut u32, usize) -> PlanAnswer;
type Needed = unsafe extern "C" fn(Figures, List, usize, List, usize, List, usize) -> NeededAnswer;

#[link(name = "dl")]
extern "C" {
    fn dlopen(path: *const c_char, flags: c_int) -> *mut c_void;
    fn dlsym(library: *mut c_void, name: *const c_char) -> *mut c_void;
    fn dlerror() -> *const c_char;
}

/// Every function is found when the library is loaded.
const NOW: c_int = 2;

/// Its functions, and the file that they come from.
#[derive(Clone)]
pub struct Beside {
    pub path: PathBuf,
    plan: Plan,
    needed: Needed,
}

/// What the loader says is wrong.
fn fault() -> String {
    // SAFETY: the loader's message, where there is one, is a text that stays until its next call.
    unsafe {
        let text = dlerror();
        if text.is_null() {
            return "not loaded".to_string();
        }
        CStr::from_ptr(text).to_string_lossy().into_owned()
    }
}

/// A function of a loaded library.
fn function(library: *mut c_void, name: &str) -> Result<*mut c_void, String> {
    let name = CString::new(name).expect("a name without byte 0");
    // SAFETY: the library is loaded, and the name is a text.
    let found = unsafe { dlsym(library, name.as_ptr()) };
    if found.is_null() {
        return Err(fault());
    }
    Ok(found)
}

impl Beside {
    /// The library in a file, for the rest of the run.
    pub fn load(path: impl AsRef<Path>) -> Result<Beside, String> {
        let path = path.as_ref();
        let path = path
            .canonicalize()
            .map_err(|error| format!("{}: {error}", path.display()))?;
        let text = CString::new(path.to_string_lossy().as_bytes()).map_err(|error| error.to_string())?;
        // SAFETY: the path is a text; the library runs nothing when it is loaded.
        let library = unsafe { dlopen(text.as_ptr(), NOW) };
        if library.is_null() {
            return Err(fault());
        }
        let (plan, needed) = (function(library, "energy_plan")?, function(library, "energy_needed")?);
        // SAFETY: include/energy.h declares these functions so, and the library is never closed.
        let (plan, needed) = unsafe {
            (
                std::mem::transmute::<_, Plan>(plan),
                std::mem::transmute::<_, Needed>(needed),
            )
        };
        Ok(Beside { path, plan, needed })
    }

    /// Its name in the tables: the file's.
    pub fn name(&self) -> String {
        let stem = self.path.file_stem().unwrap_or_default();
        stem.to_string_lossy().into_owned()
    }

    /// Its `energy_plan`; whether it was accepted.
    pub fn plan(&self, figures: Figures, frames: Frames, budgets: &mut [u32]) -> bool {
        let Frames { harvest, least, most } = frames;
        // SAFETY: all lists are valid for their lengths, and a mutable list overlaps no other.
        let answer = unsafe {
            (self.plan)(
                figures,
                harvest.as_ptr(),
                harvest.len(),
                least.as_ptr(),
                least.len(),
                most.as_ptr(),
                most.len(),
                budgets.as_mut_ptr(),
                budgets.len(),
            )
        };
        answer.number == 0 && answer.p == 0
    }

    /// Its `energy_needed`, if it was accepted.
    pub fn needed(&self, figures: Figures, frames: Frames) -> Option<u64> {
        let Frames { harvest, least, most } = frames;
        // SAFETY: all lists are valid for their lengths.
        let answer = unsafe {
            (self.needed)(
                figures,
                harvest.as_ptr(),
                harvest.len(),
                least.as_ptr(),
                least.len(),
                most.as_ptr(),
                most.len(),
            )
        };
        (answer.number == 0 && answer.p == 0).then_some(answer.capacity)
    }
}
