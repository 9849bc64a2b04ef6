//! Builds in a thread of its own, so that one that spins for ever can be left behind. Such a thread can't be ended: it gets a signal
//! whose handler sleeps for ever, so that it takes no processor from the jobs after it. For 64-bit Linux.
use std::os::unix::thread::{JoinHandleExt, RawPthread};
use std::sync::mpsc::{Receiver, RecvTimeoutError, Sender, channel};
use std::thread::JoinHandle;
use std::time::Duration;

unsafe extern "C" {
    fn signal(number: i32, handler: usize) -> usize;
    fn pause() -> i32;
    fn pthread_kill(thread: RawPthread, number: i32) -> i32;
    fn pthread_getcpuclockid(thread: RawPthread, clock: *mut i32) -> i32;
    fn clock_gettime(clock: i32, time: *mut [i64; 2]) -> i32;
}

const SIGUSR1: i32 = 10;

extern "C" fn sleep_for_ever(_: i32) {
    loop {
        unsafe { pause() };
    }
}

/// Processor time that a thread has used: on a busy machine no job is taken for one that spins.
fn used_by(thread: RawPthread) -> Duration {
    let (mut clock, mut time) = (0, [0i64; 2]);
    unsafe {
        assert_eq!(pthread_getcpuclockid(thread, &mut clock), 0);
        assert_eq!(clock_gettime(clock, &mut time), 0);
    }
    Duration::new(time[0] as u64, time[1] as u32)
}

pub struct Worker<J> {
    work: fn(J) -> String,
    jobs: Sender<J>,
    answers: Receiver<String>,
    thread: JoinHandle<()>,
}

impl<J: Send + 'static> Worker<J> {
    pub fn new(work: fn(J) -> String) -> Self {
        let (jobs, todo) = channel();
        let (done, answers) = channel();
        let thread = std::thread::spawn(move || {
            for job in todo {
                if done.send(work(job)).is_err() {
                    break;
                }
            }
        });
        Worker { work, jobs, answers, thread }
    }

    /// The answer to a job, or none if it takes more processor time than `limit`.
    pub fn run(&mut self, job: J, limit: Duration) -> Option<String> {
        let thread = self.thread.as_pthread_t();
        let before = used_by(thread);
        self.jobs.send(job).expect("the worker is there");
        let mut wait = limit;
        loop {
            match self.answers.recv_timeout(wait) {
                Ok(text) => return Some(text),
                Err(RecvTimeoutError::Disconnected) => panic!("the worker ended"),
                Err(RecvTimeoutError::Timeout) => {}
            }
            let used = used_by(thread) - before;
            if used >= limit {
                unsafe {
                    signal(SIGUSR1, sleep_for_ever as *const () as usize);
                    pthread_kill(thread, SIGUSR1);
                }
                *self = Worker::new(self.work);
                return None;
            }
            wait = (limit - used).max(Duration::from_millis(1));
        }
    }
}
