//! How much stack a call takes where the library is linked: it is made on a thread whose
//! stack is memory of this program's own. That is painted before, and what isn't paint
//! after it was used.

use std::ffi::{c_int, c_void};
use std::panic::{catch_unwind, resume_unwind, AssertUnwindSafe};
use std::ptr::null_mut;

/// `pthread_attr_t`, with room for that of any Linux.
#[repr(C, align(16))]
struct Attributes([u64; 16]);

/// The function that a thread starts with.
type Start = extern "C" fn(*mut c_void) -> *mut c_void;

extern "C" {
    fn pthread_attr_init(attributes: *mut Attributes) -> c_int;
    fn pthread_attr_setstack(attributes: *mut Attributes, low: *mut c_void, size: usize) -> c_int;
    fn pthread_attr_destroy(attributes: *mut Attributes) -> c_int;
    fn pthread_create(
        thread: *mut usize,
        attributes: *const Attributes,
        start: Start,
        argument: *mut c_void,
    ) -> c_int;
    fn pthread_join(thread: usize, result: *mut *mut c_void) -> c_int;
}

/// A stack begins and ends with a page.
const PAGE: usize = 4 << 10;
const WORD: usize = size_of::<u64>();

#[derive(Clone, Copy)]
#[repr(C, align(4096))]
struct Page([u64; PAGE / WORD]);

const PAINT: u64 = 0x5ac5_ac5a_c5ac_5ac5;

/// What the thread is given, and what it leaves.
struct Task<'a> {
    call: &'a (dyn Fn() + Sync),
    /// Where the stack that is counted begins.
    top: usize,
    made: std::thread::Result<()>,
}

extern "C" fn start(task: *mut c_void) -> *mut c_void {
    // SAFETY: `taken` passes a task, which it leaves alone until this thread has ended.
    let task = unsafe { &mut *task.cast::<Task>() };
    let mark = 0_u64;
    task.top = &raw const mark as usize;
    task.made = catch_unwind(AssertUnwindSafe(task.call));
    null_mut()
}

/// Of a stack of `bytes` bytes those that a call took, with what the Rust around it took.
pub fn taken(bytes: usize, call: &(dyn Fn() + Sync)) -> usize {
    let mut stack = vec![Page([PAINT; PAGE / WORD]); bytes / PAGE];
    let (low, size) = (stack.as_mut_ptr(), stack.len() * PAGE);
    let mut task = Task {
        call,
        top: 0,
        made: Ok(()),
    };
    let mut attributes = Attributes([0; 16]);
    let mut thread = 0;
    let done = |status: c_int| assert_eq!(status, 0, "a thread with this stack");
    // SAFETY: the stack and the task are there until the thread has ended, and nothing
    // else looks at them before that.
    unsafe {
        done(pthread_attr_init(&mut attributes));
        done(pthread_attr_setstack(&mut attributes, low.cast(), size));
        let task = (&raw mut task).cast();
        done(pthread_create(&mut thread, &attributes, start, task));
        done(pthread_join(thread, null_mut()));
        done(pthread_attr_destroy(&mut attributes));
    }
    if let Err(why) = task.made {
        resume_unwind(why);
    }
    let words = stack.iter().flat_map(|page| page.0);
    let untouched = words.take_while(|&word| word == PAINT).count() * WORD;
    task.top - (low as usize + untouched)
}
