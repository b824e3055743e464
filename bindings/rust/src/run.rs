//! Runs in slices, which the host stops when it wants.

use crate::raw::{called, jt_run_outcome, MemoryLimit, RunHandle};
use crate::{Budget, Context, Error, Image, Outcome};
use std::fmt;
use std::sync::atomic::{AtomicBool, Ordering};
use std::time::{Duration, Instant};

/// The room for a text that needs no second buffer.
const ROOM: usize = 1024;
/// The instructions of a first slice, and of a longest. (The first ones may be slow.)
const STEPS: (u32, u32) = (4, 8_192);
/// The least time of a slice that is not the longest one, and the most.
const TIMES: (Duration, Duration) = (Duration::from_millis(1), Duration::from_millis(4));

/// Whether a run goes on.
#[derive(Clone, Copy, Debug, PartialEq, Eq)]
pub enum Progress {
    /// The run goes on.
    Going,
    /// The run has ended, and has an outcome.
    Ended,
}

/// What a run has used of its [`Budget`]. For a run that ended with a text, these are the least
/// numbers with which it ends so.
///
/// ```
/// use jt::{Budget, Context, Templates, Used};
///
/// let image = Templates::new(&[("t", "{{ n }}")]).compile("t", jt::Options::default())?;
/// let mut run = image.start(&Context::from_json(r#"{"n": 42}"#)?, Budget::default())?;
/// run.advance(100)?;
/// assert_eq!(run.used(), Used { fuel: 3, output: 2, depth: 0, size: 1, nesting: 0 });
/// assert_eq!(run.used().to_string(), "fuel 3 depth 0 output 2 size 1 nesting 0");
/// # Ok::<(), jt::Error>(())
/// ```
#[derive(Clone, Copy, Debug, Default, PartialEq, Eq)]
#[repr(C)]
pub struct Used {
    /// The sum of the costs of the executed instructions.
    pub fuel: u64,
    /// The number of written bytes, those of kept texts included.
    pub output: u64,
    /// The most calls that were open at once.
    pub depth: u32,
    /// The greatest size of a value that was tested against its limit, and 0 if none was. These are
    /// the values of the context that the template names and the values that instructions push.
    pub size: u32,
    /// The greatest nesting of these values.
    pub nesting: u8,
}
impl fmt::Display for Used {
    fn fmt(&self, f: &mut fmt::Formatter<'_>) -> fmt::Result {
        let Used { fuel, output, depth, size, nesting } = self;
        write!(f, "fuel {fuel} depth {depth} output {output} size {size} nesting {nesting}")
    }
}

/// A run of an image that the host may stop: it executes some instructions in each call.
///
/// The outcome is that of [`Image::run`], whatever the slices are. A run that is dropped is
/// stopped, and gives all its memory back. Runs of one thread may take turns; each stays on its
/// thread:
///
/// ```compile_fail
/// # fn send(run: jt::Run) {
/// std::thread::spawn(move || drop(run));
/// # }
/// ```
///
/// A deadline is tested between slices of at most some thousand instructions, which usually take a
/// millisecond or less. An instruction over a value as large as the `size` of the budget permits
/// may take longer.
pub struct Run {
    handle: RunHandle,
    progress: Progress,
    // What is left of the memory of the budget.
    memory: u64,
}
impl Image {
    /// Starts a run of the image for a context, before its first instruction. The image and the
    /// context may be dropped while it goes on.
    ///
    /// # Errors
    ///
    /// `NoMemory` if a growth is refused, by the system or by the `memory` of the budget.
    ///
    /// ```
    /// use jt::{Budget, Context, Outcome, Progress, Templates};
    ///
    /// let image = Templates::new(&[("t", "Hello!")]).compile("t", jt::Options::default())?;
    /// let mut run = image.start(&Context::from_json("{}")?, Budget::default())?;
    /// while run.advance(1000)? == Progress::Going {}
    /// assert_eq!(run.outcome()?, Some(Outcome::Text("Hello!".into())));
    /// # Ok::<(), jt::Error>(())
    /// ```
    pub fn start(&self, context: &Context, budget: Budget) -> Result<Run, Error> {
        let mut image = self.share()?;
        let mut memory = budget.memory;
        let start = || context.with(|it| RunHandle::start(&mut image, it, budget.into()));
        let handle = within(&mut memory, start)?;
        Ok(Run { handle, progress: Progress::Going, memory })
    }
}
impl Run {
    /// Executes a number of instructions, or fewer if the run ends.
    ///
    /// # Errors
    ///
    /// `NoMemory` if a growth is refused. The run then has no outcome, and each later call returns
    /// `NoMemory`.
    pub fn advance(&mut self, steps: u32) -> Result<Progress, Error> {
        let handle = &mut self.handle;
        if !within(&mut self.memory, || handle.advance(steps))? {
            self.progress = Progress::Ended;
        }
        Ok(self.progress)
    }
    /// Executes the run until it ends or a condition fails, which is tested before each slice.
    ///
    /// # Errors
    ///
    /// That of [`advance`](Run::advance).
    ///
    /// ```
    /// use jt::{Budget, Context, Progress, Templates};
    ///
    /// let source = "{% for i in range(9999) %}{{ i }}{% endfor %}";
    /// let image = Templates::new(&[("t", source)]).compile("t", jt::Options::default())?;
    /// let mut run = image.start(&Context::from_json("{}")?, Budget::default())?;
    /// let mut slices = 3;
    /// let condition = || {
    ///     slices -= 1;
    ///     slices >= 0
    /// };
    /// assert_eq!(run.run_while(condition)?, Progress::Going);
    /// # Ok::<(), jt::Error>(())
    /// ```
    pub fn run_while(&mut self, mut goes_on: impl FnMut() -> bool) -> Result<Progress, Error> {
        let mut steps = STEPS.0;
        while self.progress == Progress::Going && goes_on() {
            let begin = Instant::now();
            self.advance(steps)?;
            let took = begin.elapsed();
            if took < TIMES.0 {
                steps = STEPS.1.min(2 * steps);
            } else if took > TIMES.1 {
                let share = TIMES.0.as_secs_f64() / took.as_secs_f64();
                steps = 1.max((f64::from(steps) * share) as u32);
            }
        }
        Ok(self.progress)
    }
    /// Executes the run until it ends or the deadline has passed.
    ///
    /// # Errors
    ///
    /// That of [`advance`](Run::advance).
    ///
    /// ```
    /// use jt::{Budget, Context, Progress, Templates};
    /// use std::time::{Duration, Instant};
    ///
    /// let source = "{% for a in range(9999) %}{% for b in range(9999) %}{% endfor %}{% endfor %}";
    /// let image = Templates::new(&[("t", source)]).compile("t", jt::Options::default())?;
    /// let ample = Budget { fuel: u64::MAX, ..Budget::default() };
    /// let mut run = image.start(&Context::from_json("{}")?, ample)?;
    /// let deadline = Instant::now() + Duration::from_millis(20);
    /// assert_eq!(run.run_until(deadline)?, Progress::Going);
    /// println!("stopped after {}", run.used());
    /// # Ok::<(), jt::Error>(())
    /// ```
    pub fn run_until(&mut self, deadline: Instant) -> Result<Progress, Error> {
        self.run_while(|| Instant::now() < deadline)
    }
    /// Executes the run until it ends or the flag is set, as by another thread.
    ///
    /// # Errors
    ///
    /// That of [`advance`](Run::advance).
    pub fn run_unless(&mut self, cancel: &AtomicBool) -> Result<Progress, Error> {
        self.run_while(|| !cancel.load(Ordering::Relaxed))
    }
    /// Returns the outcome, or `None` while the run goes on.
    ///
    /// # Errors
    ///
    /// `NoMemory` if the run was refused memory.
    pub fn outcome(&mut self) -> Result<Option<Outcome>, Error> {
        // (A run that was refused memory says so here, and in its outcome.)
        if self.advance(0)? == Progress::Going {
            return Ok(None);
        }
        let handle = &mut self.handle;
        called(ROOM, |out| jt_run_outcome(handle, out)).map(|told| Some(Outcome::of(told)))
    }
    /// Returns what the run has used until now. An instruction that ends the run by a fault, or by
    /// a number of the budget, is left out.
    pub fn used(&mut self) -> Used {
        self.handle.used()
    }
}
impl fmt::Debug for Run {
    fn fmt(&self, f: &mut fmt::Formatter<'_>) -> fmt::Result {
        f.debug_struct("Run").field("progress", &self.progress).finish_non_exhaustive()
    }
}

/// Makes a call within a limit of memory, and leaves there what is left of it.
fn within<T>(memory: &mut u64, call: impl FnOnce() -> T) -> T {
    if *memory == u64::MAX {
        return call();
    }
    let limit = MemoryLimit::new(*memory);
    let result = call();
    *memory = limit.end();
    result
}
