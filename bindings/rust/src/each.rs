//! Runs an image for many contexts, by threads of a scope.

use crate::{Budget, Context, Error, Image, Outcome};
use std::collections::VecDeque;
use std::num::NonZeroUsize;
use std::sync::atomic::{AtomicBool, Ordering};
use std::sync::mpsc::{sync_channel, Receiver, SyncSender};
use std::sync::{Arc, Mutex, PoisonError};
use std::thread::Scope;
use std::{fmt, vec};

/// The number of contexts that a thread takes at once: a task for each of them would cost as much
/// as its run.
const BATCH: usize = 32;
/// The batches under way for each thread: one that runs, and those that wait for it.
const AHEAD: usize = 3;

/// How the run for one context ended.
type Ended = Result<Outcome, Error>;

/// Contexts, and where their outcomes go.
struct Task<J> {
    contexts: Vec<J>,
    ended: SyncSender<Vec<Ended>>,
}

/// What the threads of an iterator share.
struct Shared<J> {
    tasks: Mutex<Receiver<Task<J>>>,
    // Set when the iterator is dropped: no further run begins.
    is_stopped: AtomicBool,
}

/// The outcomes of [`Image::run_each`], in the order of the contexts.
#[must_use = "a context is read and run when outcomes are asked for"]
pub struct RunEach<I: Iterator> {
    contexts: I,
    // None when all contexts are read, so that the threads end.
    tasks: Option<SyncSender<Task<I::Item>>>,
    // The outcomes of the batches under way, in the order of their contexts.
    pending: VecDeque<Receiver<Vec<Ended>>>,
    most_pending: usize,
    ready: vec::IntoIter<Ended>,
    shared: Arc<Shared<I::Item>>,
}
impl Image {
    /// Runs the image for each context, a JSON object in UTF-8, by `workers` threads of the scope.
    ///
    /// The iterator yields an outcome, or an error, for each context and in their order. A context
    /// that is refused, or a run for which there is no memory, ends nothing. Some hundreds of
    /// contexts are read ahead, on the thread of the iterator, and no more than that. Threads
    /// start here; they end when the contexts end, or when the iterator is dropped, after the runs
    /// that they have begun.
    ///
    /// # Panics
    ///
    /// The iterator panics if `as_ref` of a context panics in a thread.
    ///
    /// ```
    /// use jt::{Budget, Options, Outcome, Templates};
    /// use std::thread;
    ///
    /// let templates = Templates::new(&[("t", "{{ 6 // n }}")]);
    /// let image = templates.compile("t", Options::default())?;
    /// let contexts = (0..1000).map(|n| format!("{{\"n\": {n}}}"));
    /// let workers = thread::available_parallelism().unwrap();
    /// thread::scope(|scope| {
    ///     let outcomes = image.run_each(scope, contexts, Budget::default(), workers);
    ///     for (n, outcome) in outcomes.enumerate() {
    ///         match outcome {
    ///             Ok(Outcome::Text(text)) => assert_eq!(text, (6 / n).to_string()),
    ///             other => assert!(n == 0 && matches!(other, Ok(Outcome::Fault(..)))),
    ///         }
    ///     }
    /// });
    /// # Ok::<(), jt::Error>(())
    /// ```
    pub fn run_each<'scope, I>(
        &'scope self,
        scope: &'scope Scope<'scope, '_>,
        contexts: I,
        budget: Budget,
        workers: NonZeroUsize,
    ) -> RunEach<I::IntoIter>
    where
        I: IntoIterator,
        I::Item: AsRef<[u8]> + Send + 'scope,
    {
        let most_pending = AHEAD * workers.get();
        let (tasks, taken) = sync_channel::<Task<I::Item>>(most_pending);
        let is_stopped = AtomicBool::new(false);
        let shared = Arc::new(Shared { tasks: Mutex::new(taken), is_stopped });
        for _ in 0..workers.get() {
            let shared = Arc::clone(&shared);
            scope.spawn(move || self.work(&shared, budget));
        }
        RunEach {
            contexts: contexts.into_iter(),
            tasks: Some(tasks),
            pending: VecDeque::with_capacity(most_pending),
            most_pending,
            ready: Vec::new().into_iter(),
            shared,
        }
    }
    /// Runs the image for the contexts of tasks, until there are none or the iterator is dropped.
    fn work<J: AsRef<[u8]>>(&self, shared: &Shared<J>, budget: Budget) {
        let next = || shared.tasks.lock().unwrap_or_else(PoisonError::into_inner).recv();
        let is_wanted = |_: &J| !shared.is_stopped.load(Ordering::Relaxed);
        while let Ok(Task { contexts, ended }) = next() {
            let run = |context: J| self.run(&Context::from_json(context)?, budget);
            // (It fails if the iterator is dropped.)
            let _ = ended.send(contexts.into_iter().take_while(is_wanted).map(run).collect());
        }
    }
}
impl<I: Iterator> RunEach<I> {
    /// Gives batches to the threads until enough are under way, or all contexts are read.
    fn fill(&mut self) {
        while self.pending.len() < self.most_pending {
            let tasks = match &self.tasks {
                Some(tasks) => tasks,
                None => return,
            };
            let contexts: Vec<_> = self.contexts.by_ref().take(BATCH).collect();
            let is_last = contexts.len() < BATCH;
            let (ended, outcomes) = sync_channel(1);
            // (The channel has room for all that is pending. If all threads have panicked, nobody
            // takes the task, and its outcomes are missed below.)
            let _ = tasks.send(Task { contexts, ended });
            self.pending.push_back(outcomes);
            if is_last {
                self.tasks = None;
            }
        }
    }
}
impl<I: Iterator> Iterator for RunEach<I> {
    type Item = Result<Outcome, Error>;

    fn next(&mut self) -> Option<Self::Item> {
        loop {
            if let Some(outcome) = self.ready.next() {
                return Some(outcome);
            }
            self.fill();
            let outcomes = self.pending.pop_front()?;
            self.ready = outcomes.recv().expect("the thread of a batch has panicked").into_iter();
        }
    }
}
impl<I: Iterator> Drop for RunEach<I> {
    fn drop(&mut self) {
        self.shared.is_stopped.store(true, Ordering::Relaxed);
    }
}
impl<I: Iterator> fmt::Debug for RunEach<I> {
    fn fmt(&self, f: &mut fmt::Formatter<'_>) -> fmt::Result {
        f.debug_struct("RunEach").field("pending", &self.pending.len()).finish_non_exhaustive()
    }
}
