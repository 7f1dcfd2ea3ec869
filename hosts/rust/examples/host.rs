//! A host in one file: its own memory for the tables, a clock, tasks that wait, what they must be told, and a power cut.
//! `cargo run --example host` prints the story; the test below compares it.

use ntsync::{
    CELLS, Clock, Deadline, Handle, Now, Outcome, Owner, Refusal, SNAPSHOT_BYTES, Tables, Ticket, Wait, Waited,
    WakeList, Woken,
};
use std::collections::BTreeMap;
use std::sync::Mutex;

/// The memory that the host lends. It could be mapped, shared or battery-backed as well.
static MEMORY: Mutex<[u64; CELLS]> = Mutex::new([0; CELLS]);

const WORKER: Owner = Owner(1);
const WRITER: Owner = Owner(2);
const READER: Owner = Owner(3);

struct Host<'m> {
    tables: &'m mut Tables,
    wake: WakeList,
    now: Now,
    /// Which task each queued wait is of.
    queued: BTreeMap<Ticket, Owner>,
    story: String,
}

impl Host<'_> {
    fn tell(&mut self, line: &str) {
        self.story += line;
        self.story += "\n";
    }

    fn go_on(&mut self, task: Owner, outcome: Outcome) {
        self.tell(&match outcome {
            Outcome::Served { index, owner_dead: false } => format!("task {task} goes on with object {index}"),
            Outcome::Served { index, owner_dead: true } => format!("task {task} repairs what object {index} guards"),
            Outcome::TimedOut => format!("task {task} ran out of time"),
            Outcome::Interrupted => format!("task {task} was interrupted"),
        });
    }

    /// A task asks. It goes on at once, or the host keeps its ticket.
    fn ask(&mut self, list: &[Handle], task: Owner, deadline: Deadline) -> Result<(), Refusal> {
        match self.tables.wait_any(Wait::new(list, task).until(Clock::Monotonic, deadline, self.now))? {
            Waited::Over(outcome) => self.go_on(task, outcome),
            Waited::Queued(ticket) => {
                self.queued.insert(ticket, task);
                self.tell(&format!("task {task} waits under ticket {ticket}"));
            }
        }
        Ok(())
    }

    /// Each wait that a call ended is told to its task.
    fn resume(&mut self, woken: Vec<Woken>) {
        for Woken { ticket, outcome } in woken {
            let task = self.queued.remove(&ticket).expect("every queued ticket is kept");
            self.go_on(task, outcome);
        }
    }

    fn post(&mut self, sem: Handle) -> Result<(), Refusal> {
        let woken = self.tables.post(sem, 1, &mut self.wake)?.woken.iter().collect();
        self.resume(woken);
        Ok(())
    }

    fn advance(&mut self, now: Now) -> Result<(), Refusal> {
        self.now = now;
        let woken = self.tables.expire(Clock::Monotonic, now, &mut self.wake)?.iter().collect();
        self.resume(woken);
        Ok(())
    }

    /// A task died. Its waits end first, or it could be served once more; then all that it may hold is given up.
    fn bury(&mut self, dead: Owner, mutexes: &[Handle]) -> Result<(), Refusal> {
        self.tell(&format!("task {dead} dies"));
        let tickets: Vec<Ticket> = self.queued.iter().filter(|(_, task)| **task == dead).map(|(&t, _)| t).collect();
        for ticket in tickets {
            let _ = self.tables.cancel(ticket)?; // nobody is left to be told
            self.queued.remove(&ticket);
        }
        for &mutex in mutexes {
            match self.tables.kill_owner(mutex, dead, &mut self.wake) {
                Ok(woken) => {
                    let woken = woken.iter().collect();
                    self.resume(woken);
                }
                Err(Refusal::NotOwner) => {} // it did not hold this one
                Err(other) => return Err(other),
            }
        }
        Ok(())
    }

    /// The power was cut, and a snapshot is all that is left of the tables. Which task has which ticket is stored beside it.
    fn start_again(&mut self, saved: &str) -> Result<(), Refusal> {
        self.tables.init();
        self.tables.restore_in_place(saved)?;
        self.tell(&format!("restored from {} lines", saved.lines().count()));
        Ok(())
    }
}

fn story() -> Result<String, Refusal> {
    let mut memory = MEMORY.lock().expect("no other thread");
    let tables = Tables::over(&mut memory);
    tables.init();
    let (jobs, log) = (tables.create_sem(0, 10)?, tables.create_mutex(Owner::NOBODY, 0)?);
    let mut host = Host { tables, wake: WakeList::new(), now: Now(0), queued: BTreeMap::new(), story: String::new() };

    host.ask(&[jobs], WORKER, Deadline::NEVER)?;
    host.post(jobs)?;
    host.ask(&[log], WRITER, Deadline::NEVER)?;
    host.ask(&[log], READER, Deadline(80))?;
    host.ask(&[jobs], WRITER, Deadline::NEVER)?;
    host.bury(WRITER, &[log])?;
    host.ask(&[jobs], WORKER, Deadline(50))?;

    let mut buffer = vec![0; SNAPSHOT_BYTES];
    let saved = host.tables.snapshot(&mut buffer)?;
    if let Err(refused) = Tables::restore(saved.replace("kind=mutex", "kind=mutes")) {
        host.tell(&format!("a damaged copy: {refused}"));
    }
    host.start_again(saved)?;

    host.advance(Now(50))?;
    if let Err(refusal) = host.tables.unlock(log, WRITER, &mut host.wake) {
        host.tell(&format!("refused: {refusal}"));
    }
    Ok(host.story)
}

fn main() -> Result<(), Refusal> {
    print!("{}", story()?);
    Ok(())
}

#[test]
fn the_story_is_told() {
    let expected = "task 1 waits under ticket 1\ntask 1 goes on with object 0\ntask 2 goes on with object 0\n\
        task 3 waits under ticket 2\ntask 2 waits under ticket 3\ntask 2 dies\ntask 3 repairs what object 0 guards\n\
        task 1 waits under ticket 4\n\
        a damaged copy: the text is no snapshot: the line at byte 59 is not as due there\nrestored from 21 lines\n\
        task 1 ran out of time\nrefused: that owner does not hold the mutex\n";
    assert_eq!(story().as_deref(), Ok(expected));
}
