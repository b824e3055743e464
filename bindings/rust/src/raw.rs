//! The calls of the library, as bindings/c/jt.h declares them, and the handles that they fill. All
//! unsafe code is here.

use crate::{Budget, Error, Options, Used};
use std::marker::PhantomData;
use std::mem;

extern "C" {
    fn jt_memory_limit(bytes: u64) -> u64;
    #[cfg(test)]
    fn jt_memory_held() -> i64;
}

/// Returns how many bytes this thread holds more than when its limit was set.
#[cfg(test)]
pub(crate) fn held() -> i64 {
    // SAFETY: the call only reads a number of this thread.
    unsafe { jt_memory_held() }
}

/// How a call ended. `length` counts the bytes that it reports, even if the buffer is too short.
#[repr(C)]
pub(crate) struct Answer {
    pub(crate) status: u32,
    pub(crate) code: u32,
    pub(crate) line: u32,
    letter: u32,
    length: u64,
}

/// The numbers of a budget, as `struct jt_budget`.
#[repr(C)]
#[derive(Clone, Copy)]
pub(crate) struct Numbers {
    fuel: u64,
    output: u64,
    depth: u32,
    size: u32,
    nesting: u8,
}
impl From<Budget> for Numbers {
    fn from(budget: Budget) -> Numbers {
        let Budget { fuel, output, depth, size, nesting, memory: _ } = budget;
        Numbers { fuel, output, depth, size, nesting }
    }
}

/// A limit of this thread's memory. The limit before applies again when it is dropped.
pub(crate) struct MemoryLimit {
    before: u64,
    thread: PhantomData<*mut u8>,
}
impl MemoryLimit {
    /// Limits what the library holds for this thread to `bytes` more than now.
    pub(crate) fn new(bytes: u64) -> MemoryLimit {
        // SAFETY: the call only sets numbers of this thread.
        MemoryLimit { before: unsafe { jt_memory_limit(bytes) }, thread: PhantomData }
    }
    /// Ends the limit, and returns what is left of it.
    pub(crate) fn end(self) -> u64 {
        // SAFETY: as above.
        let left = unsafe { jt_memory_limit(self.before) };
        mem::forget(self);
        left
    }
}
impl Drop for MemoryLimit {
    fn drop(&mut self) {
        // SAFETY: as above.
        unsafe { jt_memory_limit(self.before) };
    }
}

/// Declares a handle. It owns what it holds, and borrows nothing from other handles.
macro_rules! handle {
    ($(#[$doc:meta])* $type:ident, $free:ident) => {
        $(#[$doc])*
        #[repr(C)]
        pub(crate) struct $type {
            at: *mut u8,
            full: bool,
        }
        impl $type {
            pub(crate) fn empty() -> $type {
                $type { at: std::ptr::null_mut(), full: false }
            }
        }
        impl Drop for $type {
            fn drop(&mut self) {
                extern "C" {
                    fn $free(handle: &mut $type);
                }
                // SAFETY: the handle is empty, or a call filled it.
                unsafe { $free(self) }
            }
        }
    };
}
handle! {
    /// The sources of templates, or nothing.
    LibraryHandle, jt_library_free
}
handle! {
    /// An accepted image, or nothing.
    ImageHandle, jt_image_free
}
handle! {
    /// A context, or nothing. Its pointer keeps it on its thread.
    ContextHandle, jt_context_free
}
handle! {
    /// The outcome of a run, or nothing. Its pointer keeps it on its thread.
    OutcomeHandle, jt_outcome_free
}
handle! {
    /// A run in slices, or nothing. Its pointer keeps it on its thread.
    RunHandle, jt_run_free
}
impl RunHandle {
    /// Returns a run before its first instruction.
    pub(crate) fn start(
        image: &mut ImageHandle,
        context: &mut ContextHandle,
        budget: Numbers,
    ) -> Result<RunHandle, Error> {
        extern "C" {
            fn jt_run_start(
                image: &mut ImageHandle,
                context: &mut ContextHandle,
                budget: Numbers,
                run: &mut RunHandle,
            ) -> u32;
        }
        let mut run = RunHandle::empty();
        // SAFETY: the handles differ, and no other call uses them.
        match unsafe { jt_run_start(image, context, budget, &mut run) } {
            0 => Ok(run),
            _ => Err(Error::NoMemory),
        }
    }
    /// Executes a number of instructions, and returns whether the run goes on.
    pub(crate) fn advance(&mut self, steps: u32) -> Result<bool, Error> {
        extern "C" {
            fn jt_run_advance(run: &mut RunHandle, steps: u32) -> u32;
        }
        // SAFETY: the handle holds a run of this thread, and no other call uses it.
        match unsafe { jt_run_advance(self, steps) } {
            0 => Ok(false),
            7 => Ok(true),
            _ => Err(Error::NoMemory),
        }
    }
    /// Returns what the run has used.
    pub(crate) fn used(&mut self) -> Used {
        extern "C" {
            fn jt_run_used(run: &mut RunHandle) -> Used;
        }
        // SAFETY: as above; the call only reads the run.
        unsafe { jt_run_used(self) }
    }
}

/// Declares that a handle may go to another thread, and how a second one of the same value is made.
macro_rules! shared {
    ($type:ident, $share:ident) => {
        // SAFETY: the library proves that what the handle holds may go to another thread.
        unsafe impl Send for $type {}
        impl $type {
            /// Returns a second handle of the same value.
            pub(crate) fn share(&mut self) -> Result<$type, Error> {
                extern "C" {
                    fn $share(from: &mut $type, to: &mut $type) -> u32;
                }
                let mut other = $type::empty();
                // SAFETY: the handles differ, and no other call uses them.
                match unsafe { $share(self, &mut other) } {
                    0 => Ok(other),
                    _ => Err(Error::NoMemory),
                }
            }
        }
    };
}
shared!(LibraryHandle, jt_library_share);
shared!(ImageHandle, jt_image_share);

/// Declares calls over handles, then slices, each passed as its pointer and its length, then other
/// arguments. The buffer is the last.
macro_rules! calls {
    ($(fn $name:ident(
        ($($first:ident: $f:ty),*), [$($data:ident: $d:ty),*], $($plain:ident: $p:ty),*
    );)+) => {$(
        pub(crate) fn $name(
            $($first: $f,)* $($data: &[$d],)* $($plain: $p,)* out: &mut Vec<u8>,
        ) -> Answer {
            extern "C" {
                fn $name(
                    $(_: $f,)* $(_: *const $d, _: usize,)* $(_: $p,)* _: *mut u8, _: usize,
                ) -> Answer;
            }
            // SAFETY: each pointer belongs to its length, and is not null. Handles and buffer are
            // borrowed mutably, so they differ, and no other call uses them.
            unsafe {
                $name(
                    $($first,)*
                    $($data.as_ptr(), $data.len(),)*
                    $($plain,)*
                    out.as_mut_ptr(),
                    out.capacity(),
                )
            }
        }
    )+};
}
calls! {
    fn jt_version((), [],);
    fn jt_library_load((), [texts: u8, lengths: [u64; 2]], library: &mut LibraryHandle);
    fn jt_library_compile(
        (library: &mut LibraryHandle), [entry: u8], options: Options, image: &mut ImageHandle
    );
    fn jt_library_explain((library: &mut LibraryHandle), [entry: u8], options: Options);
    fn jt_library_needs((library: &mut LibraryHandle), [entry: u8], options: Options);
    fn jt_image_load((), [bytes: u8], image: &mut ImageHandle);
    fn jt_image_save((image: &mut ImageHandle), [],);
    fn jt_context_load((), [bytes: u8], context: &mut ContextHandle);
    fn jt_image_run(
        (image: &mut ImageHandle, context: &mut ContextHandle), [],
        budget: Numbers, outcome: &mut OutcomeHandle
    );
    fn jt_outcome_read((outcome: &mut OutcomeHandle), [],);
    fn jt_run_outcome((run: &mut RunHandle), [],);
}

/// Makes a call with a buffer of `room` bytes, and again if that is too short. Returns the answer
/// and the reported bytes.
pub(crate) fn called(
    mut room: usize,
    mut call: impl FnMut(&mut Vec<u8>) -> Answer,
) -> Result<(Answer, Vec<u8>), Error> {
    let mut out = Vec::new();
    loop {
        out.try_reserve_exact(room).map_err(|_| Error::NoMemory)?;
        let answer = call(&mut out);
        room = answer.length as usize;
        if room <= out.capacity() {
            // SAFETY: the call has written all bytes that it reports.
            unsafe { out.set_len(room) };
            return match answer.status {
                0 | 1 | 4 => Ok((answer, out)),
                3 => Err(Error::refused(&String::from_utf8_lossy(&out))),
                6 => Err(Error::NoMemory),
                status => unreachable!("status {status}, code {}", answer.code),
            };
        }
    }
}
