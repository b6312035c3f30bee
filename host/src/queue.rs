//! One call at a time: a thread that has the desk, and a queue before it with a limit. Turns that wait together share one transaction of the
//! database, and no answer leaves before the blocks that its call changed are stored. Sign-ins wait in a line of their own, of which one is let in
//! after all others that wait: each takes as long as a password's check.

use crate::clock;
use crate::desk::{Asked, Desk, Fault, Outcome, Work};
use crate::limits::Places;
use crate::log;
use std::collections::VecDeque;
use tokio::sync::mpsc::error::TryRecvError;
use tokio::sync::{mpsc, oneshot};

/// Turns that may wait; beyond it the browser is told 503.
const WAITING: usize = 256;
/// Sign-ins that may wait. One address has at most as many as are left for others.
const SIGN_INS: usize = 16;
const SIGN_IN_PARTS: usize = 1;
/// Turns that share a transaction at most.
const TOGETHER: usize = 64;

struct Job {
    work: Work,
    reply: oneshot::Sender<Outcome>,
}

/// The queue is full, or the server is about to stop.
#[derive(Debug)]
pub struct Full;

#[derive(Clone)]
pub struct Queue {
    jobs: mpsc::Sender<Job>,
    sign_ins: Places,
}

impl Queue {
    /// Starts the thread, which ends with the last queue or, by `stopped`, when the server has to stop.
    pub fn start(desk: Desk, stopped: impl FnOnce(String) + Send + 'static) -> std::io::Result<Queue> {
        let (sender, receiver) = mpsc::channel(WAITING);
        std::thread::Builder::new().name("turns".into()).spawn(move || {
            if let Err(why) = turns(desk, receiver) {
                stopped(why);
            }
        })?;
        Ok(Queue { jobs: sender, sign_ins: Places::new(SIGN_INS, SIGN_IN_PARTS) })
    }

    /// A request's turn, if there is room for it to wait.
    pub async fn request(&self, asked: Asked) -> Result<Outcome, Full> {
        let _place = match asked.is_sign_in() {
            true => Some(self.sign_ins.take(asked.source).ok_or(Full)?),
            false => None,
        };
        let (reply, outcome) = oneshot::channel();
        self.jobs.try_send(Job { work: Work::Request(asked), reply }).map_err(|_| Full)?;
        outcome.await.map_err(|_| Full)
    }

    /// The end of a callback. Its ticket is spent already, so this waits for room.
    pub async fn finish(&self, serial: u32, ok: bool) -> Result<Outcome, Full> {
        self.wait(Work::Finish { serial, ok }).await
    }

    /// Keeps house, for as long as the server runs.
    pub async fn keep_house(&self) {
        loop {
            tokio::time::sleep(clock::KEEPING).await;
            match self.wait(Work::Housekeep).await {
                Ok(Outcome::Answered { answer, .. }) if answer.refusal != 0 => {
                    log::line(format_args!("house is not kept: refusal {}", answer.refusal))
                }
                Ok(_) => {}
                Err(Full) => return,
            }
        }
    }

    async fn wait(&self, work: Work) -> Result<Outcome, Full> {
        let (reply, outcome) = oneshot::channel();
        self.jobs.send(Job { work, reply }).await.map_err(|_| Full)?;
        outcome.await.map_err(|_| Full)
    }
}

/// Answers that leave once their blocks are stored.
type Batch = Vec<(oneshot::Sender<Outcome>, Outcome)>;

fn turns(mut desk: Desk, mut jobs: mpsc::Receiver<Job>) -> Result<(), String> {
    let (mut waiting, mut sign_ins, mut batch) = (VecDeque::new(), VecDeque::new(), Batch::new());
    loop {
        if sign_ins.is_empty() {
            match jobs.blocking_recv() {
                Some(job) => line_up(job, &mut waiting, &mut sign_ins),
                None => return Ok(()),
            }
        }
        line_up_others(&mut jobs, &mut waiting, &mut sign_ins);
        while !waiting.is_empty() {
            take_turns(&mut desk, &mut waiting, &mut batch)?;
            // For as long as others come, what was made is stored while the core is at the next.
            if sign_ins.is_empty() {
                line_up_others(&mut jobs, &mut waiting, &mut sign_ins);
            }
        }
        send(&mut desk, &mut batch)?;
        if let Some(job) = sign_ins.pop_front() {
            let outcome = turn(&mut desk, &mut batch, &job.work)?;
            batch.push((job.reply, outcome));
            send(&mut desk, &mut batch)?;
        }
    }
}

/// Sign-ins stand in a line of their own.
fn line_up(job: Job, waiting: &mut VecDeque<Job>, sign_ins: &mut VecDeque<Job>) {
    if job.work.is_sign_in() {
        sign_ins.push_back(job);
    } else {
        waiting.push_back(job);
    }
}

fn line_up_others(jobs: &mut mpsc::Receiver<Job>, waiting: &mut VecDeque<Job>, sign_ins: &mut VecDeque<Job>) {
    while waiting.len() < TOGETHER {
        match jobs.try_recv() {
            Ok(job) => line_up(job, waiting, sign_ins),
            Err(TryRecvError::Empty | TryRecvError::Disconnected) => break,
        }
    }
}

/// The turns of the first that wait, together or one alone. Before the last of all that wait the others are stored and sent, while the core is at it.
fn take_turns(desk: &mut Desk, waiting: &mut VecDeque<Job>, batch: &mut Batch) -> Result<(), String> {
    let begun = desk.begin(waiting.iter().map(|job| &job.work));
    if begun == waiting.len() || batch.len() >= TOGETHER {
        send(desk, batch)?;
    }
    let made = desk.end(waiting.iter().map(|job| &job.work));
    if made.is_empty() {
        if let Some(job) = waiting.pop_front() {
            let outcome = turn(desk, batch, &job.work)?;
            batch.push((job.reply, outcome));
        }
    }
    let jobs = waiting.drain(..made.len());
    batch.extend(jobs.map(|job| job.reply).zip(made));
    Ok(())
}

/// Makes a turn. Where the core ends in it, nothing of the turn is laid down, and it is made again with a new core, once.
fn turn(desk: &mut Desk, batch: &mut Batch, work: &Work) -> Result<Outcome, String> {
    match desk.alone(work) {
        Ok(outcome) => return Ok(outcome),
        Err(Fault::Core(why)) => log::line(format_args!("core: {why}; it is started anew")),
        Err(Fault::Stop(why)) => {
            send(desk, batch)?;
            return Err(why);
        }
    }
    send(desk, batch)?;
    desk.recover()?;
    desk.alone(work).map_err(|fault| match fault {
        Fault::Core(why) => format!("the core, started anew: {why}"),
        Fault::Stop(why) => why,
    })
}

/// Stores what the turns changed, then sends their answers. Where it cannot be stored the turns are undone and said to be.
fn send(desk: &mut Desk, batch: &mut Batch) -> Result<(), String> {
    let stored = desk.keep();
    if let Err(why) = &stored {
        log::line(format_args!("database: {why}; {} calls are undone", batch.len()));
        desk.recover()?;
    }
    for (reply, outcome) in batch.drain(..) {
        // A browser that has gone does not hear its answer.
        let _ = reply.send(if stored.is_ok() { outcome } else { Outcome::NotStored });
    }
    Ok(())
}
