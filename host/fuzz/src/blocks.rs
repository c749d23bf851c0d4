//! Which parts of the library's machine code were ever run. It comes without instrumentation, so a breakpoint stands at the
//! beginning of every basic block; the first run over it takes it out again and counts it.

use crate::crash::write_case;
use crate::listing;
use crate::sys::{self, PAGE, PROT_EXEC, PROT_READ, PROT_WRITE};
use std::ffi::{c_int, c_void};
use std::process::Command;
use std::ptr::null_mut;
use std::sync::atomic::{AtomicPtr, AtomicUsize, Ordering::SeqCst};
use std::sync::Mutex;

/// The library that is linked.
const LIBRARY: &str = concat!(
    env!("CARGO_MANIFEST_DIR"),
    "/../../target/staticlib/libbuilder.a"
);
/// The breakpoint instruction.
const BREAK: u8 = 0xCC;
/// The code's bytes lie within so many, else none is marked.
const FARTHEST: usize = 1 << 20;
/// Where the registers that a handler gets hold the address of the next instruction.
const NEXT: usize = 168;

/// The lowest address with a breakpoint, and how far the highest is.
static LOWEST: AtomicUsize = AtomicUsize::new(0);
static LENGTH: AtomicUsize = AtomicUsize::new(0);
/// For each address from the lowest on, the byte that the breakpoint replaced.
static REPLACED: AtomicPtr<u8> = AtomicPtr::new(null_mut());
static MET: AtomicUsize = AtomicUsize::new(0);
/// Every block with its address.
static ALL: Mutex<Vec<(String, usize)>> = Mutex::new(Vec::new());

extern "C" {
    fn build();
}

/// How many blocks were met so far.
pub fn met() -> usize {
    MET.load(SeqCst)
}

/// The blocks that were not met, as a function's name and how far behind its beginning.
pub fn unmet() -> Vec<String> {
    let all = ALL.lock().expect("no panic here");
    // SAFETY: every address is within the code, which can be read.
    let left = |(_, address): &&(String, usize)| unsafe { *(*address as *const u8) } == BREAK;
    all.iter()
        .filter(left)
        .map(|(name, _)| name.clone())
        .collect()
}

/// Puts the breakpoints in. Returns how many there are, or why there are none.
pub fn mark() -> Result<usize, String> {
    if !cfg!(all(target_arch = "x86_64", target_os = "linux")) {
        return Err("not x86-64 Linux".to_string());
    }
    let code = output("objdump", &["-d", LIBRARY])?;
    let own = std::env::current_exe().map_err(|error| error.to_string())?;
    let symbols = output("nm", &[&own.to_string_lossy()])?;
    let address = |name: &str| {
        let mut lines = symbols.lines().map(|line| line.splitn(3, ' '));
        let found = lines.find_map(|mut parts| {
            let value = parts.next()?;
            (parts.nth(1)? == name).then(|| usize::from_str_radix(value, 16).ok())
        });
        found.flatten()
    };
    let base = address("build").ok_or("no symbol `build`")?;
    let slide = (build as *const () as usize).wrapping_sub(base);
    let (mut places, mut names) = (Vec::new(), Vec::new());
    for block in listing::blocks(&code) {
        if let Some(start) = address(block.function) {
            let at = start.wrapping_add(slide) + block.offset;
            names.push((format!("{}+{:#x}", block.function, block.offset), at));
            places.push((at, block.first));
        }
    }
    let count = put(&places)?;
    *ALL.lock().expect("no panic here") = names;
    Ok(count)
}

fn output(program: &str, arguments: &[&str]) -> Result<String, String> {
    let run = Command::new(program).args(arguments).output();
    let run = run.map_err(|error| format!("{program}: {error}"))?;
    Ok(String::from_utf8_lossy(&run.stdout).into_owned())
}

/// Replaces the first byte of each place by a breakpoint.
fn put(places: &[(usize, u8)]) -> Result<usize, String> {
    let addresses = || places.iter().map(|(address, _)| *address);
    let lowest = addresses().min().ok_or("no blocks")?;
    let length = addresses().max().unwrap_or(lowest) - lowest + 1;
    if length > FARTHEST {
        return Err("the code lies too far apart".to_string());
    }
    let page = lowest / PAGE * PAGE;
    let all = PROT_READ | PROT_WRITE | PROT_EXEC;
    // SAFETY: the pages hold this program's own code; that they can be written too harms nothing.
    if unsafe { sys::mprotect(page as *mut c_void, lowest + length - page, all) } != 0 {
        return Err("the code cannot be written".to_string());
    }
    // SAFETY: every place is within the code.
    let other = |(address, first): &&(usize, u8)| unsafe { *(*address as *const u8) } != *first;
    if let Some((address, _)) = places.iter().find(other) {
        return Err(format!("other code at {address:#x} than in the library"));
    }
    let replaced = Box::leak(vec![BREAK; length].into_boxed_slice());
    for (address, first) in places {
        replaced[address - lowest] = *first;
    }
    LOWEST.store(lowest, SeqCst);
    LENGTH.store(length, SeqCst);
    REPLACED.store(replaced.as_mut_ptr(), SeqCst);
    sys::handle(sys::SIGTRAP, take_out);
    for (address, _) in places {
        // SAFETY: the place is the beginning of an instruction of the library, and nothing runs it now.
        unsafe { *(*address as *mut u8) = BREAK };
    }
    Ok(places.len())
}

/// Takes the breakpoint out that was met, counts it and lets the instruction run. Any other trap ends the process.
extern "C" fn take_out(signal: c_int, about: *mut c_void, registers: *mut c_void) {
    // SAFETY: the registers are laid out as the C library has them on x86-64; the address is checked before it is used.
    unsafe {
        let next = registers.byte_add(NEXT).cast::<usize>();
        let at = *next - 1;
        let offset = at.wrapping_sub(LOWEST.load(SeqCst));
        if offset >= LENGTH.load(SeqCst) {
            write_case(signal, about, registers);
        }
        let first = *REPLACED.load(SeqCst).add(offset);
        if first == BREAK {
            write_case(signal, about, registers);
        }
        *(at as *mut u8) = first;
        *next = at;
    }
    MET.fetch_add(1, SeqCst);
}
