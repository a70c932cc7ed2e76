//! How deep a call goes on the stack: it is run on a stack of its own that was
//! painted before, and the lowest byte that lost its paint tells.

#![allow(unsafe_code)]

use std::ptr;
use std::sync::atomic::{AtomicPtr, Ordering};

const DEPTH: usize = 256 * 1024;

/// The start of the C library's ucontext_t, and room for the rest of it.
#[repr(C, align(16))]
struct Context {
    flags: usize,
    link: *mut Context,
    stack: *mut u8,
    stack_flags: i32,
    stack_size: usize,
    rest: [u8; 8192],
}

extern "C" {
    fn getcontext(context: *mut Context) -> i32;
    fn makecontext(context: *mut Context, entry: extern "C" fn(), count: i32, ...);
    fn swapcontext(from: *mut Context, to: *const Context) -> i32;
}

type Job<'a> = &'a mut dyn FnMut();

/// The job that the painted stack is to run: `entry` takes no arguments.
static JOB: AtomicPtr<Job<'static>> = AtomicPtr::new(ptr::null_mut());

extern "C" fn entry() {
    // SAFETY: `used_of` has put a job there that outlives this call, and
    // waits for it.
    unsafe { (*JOB.load(Ordering::Relaxed))() }
}

/// Bytes of stack that the job uses; the deeper of two paints, since a byte
/// may by chance be left as it was painted.
pub fn used(job: Job) -> usize {
    [0xc5, 0x3a].into_iter().map(|paint| used_of(job, paint)).max().unwrap_or(0)
}

fn used_of(job: Job, paint: u8) -> usize {
    let mut stack = vec![paint; DEPTH];
    let mut job: Job = job;
    // SAFETY: both contexts are large enough for the C library's own type and
    // live until the job has come back through `link`. The stack is lent to
    // the job alone. JOB's lifetime is stretched, and it is cleared here.
    unsafe {
        let mut back: Context = std::mem::zeroed();
        let mut there: Context = std::mem::zeroed();
        assert_eq!(getcontext(&mut there), 0);
        there.link = &mut back;
        there.stack = stack.as_mut_ptr();
        there.stack_size = DEPTH;
        JOB.store(ptr::from_mut(&mut job).cast(), Ordering::Relaxed);
        makecontext(&mut there, entry, 0);
        assert_eq!(swapcontext(&mut back, &there), 0);
        JOB.store(ptr::null_mut(), Ordering::Relaxed);
    }
    let untouched = stack.iter().take_while(|&&byte| byte == paint).count();
    DEPTH - untouched
}
