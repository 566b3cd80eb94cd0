//! The log: lines on standard error, each with its time and level.
//!
//! # Nothing waits for it
//!
//! Standard error may be a terminal that was stopped, or a pipe that nobody reads. Other programs may share
//! it, so it is not made one that never waits. A line goes into a queue of a fixed size, and a thread writes
//! it. Only this thread waits. If the queue is full, lines are left out, and their number is a line as soon
//! as there is room.
//!
//! # Few lines
//!
//! A line of one subject is written once a second at most, and a few lines a second in all. What is held back
//! is counted, and the count is a line a second later, or part of the next line.
//!
//! # No secrets
//!
//! No line has a byte that a client sent, or a password. Bytes that can't be seen are replaced.
//!
//! The queue is made at the start, and no line allocates. So a line is written in a shortage of memory too.

use crate::system::{self, LocalTime};
use std::fmt::{self, Display, Formatter};
use std::io::{self, Write};
use std::str::FromStr;
use std::sync::{Arc, Condvar, Mutex, MutexGuard, PoisonError};
use std::thread;
use std::time::{Duration, Instant, SystemTime, UNIX_EPOCH};

/// The most bytes of a line, with its LF. A longer one is cut.
const LINE: usize = 1024;
/// Lines that may wait for the thread.
const LINES: usize = 16;
/// Bytes of the thread's stack.
const STACK: usize = 1 << 16;
/// The least time from one line of a subject to the next one.
const PAUSE: Duration = Duration::from_secs(1);
/// Lines of all subjects in such a time.
const MOST: u32 = 5;
/// How long the last lines are waited for at the end.
const END: Duration = Duration::from_millis(200);

/// How important a line is, the most important first.
#[derive(Clone, Copy, PartialEq, PartialOrd, Debug)]
pub enum Level {
    Warning,
    Notice,
    Debug,
}

impl Display for Level {
    fn fmt(&self, to: &mut Formatter<'_>) -> fmt::Result {
        to.write_str(match self {
            Level::Warning => "warning",
            Level::Notice => "notice",
            Level::Debug => "debug",
        })
    }
}

impl FromStr for Level {
    type Err = ();

    fn from_str(word: &str) -> Result<Level, ()> {
        [Level::Warning, Level::Notice, Level::Debug].into_iter().find(|it| it.to_string() == word).ok_or(())
    }
}

/// What a line is about. If there are too many lines, those of the first subjects come first.
#[derive(Clone, Copy, PartialEq, Debug)]
pub enum Subject {
    /// Keys were lost.
    Lost,
    /// A device fails.
    Devices,
    /// A client was refused, because there are too many.
    Refused,
    /// A client was closed, because clients take too much memory.
    Memory,
    /// A client was closed, because it does not read its replies.
    Backlog,
    /// The system gave no memory, or no file, for a client.
    Shortage,
    /// The far store fails.
    StoreFails,
    /// The far store is reached again.
    StoreBack,
    /// Devices work again.
    DevicesBack,
    /// Evictions begin, or have ended.
    Evictions,
    /// The map was renewed.
    Renewals,
    /// Commands were slow.
    Slow,
    /// A client was closed, because it is not authenticated.
    Unauthenticated,
    /// A client was closed, because it was silent.
    Silent,
    /// A client has connected.
    Opened,
    /// A client was closed, whatever the reason.
    Closed,
}

/// All subjects, in their order: the level of their lines, and what each line of them tells of, for a count.
const SUBJECTS: [(Subject, Level, &str); 16] = [
    (Subject::Lost, Level::Warning, "losses"),
    (Subject::Devices, Level::Warning, "failures of devices"),
    (Subject::Refused, Level::Warning, "connections were refused"),
    (Subject::Memory, Level::Warning, "clients were closed because of the memory"),
    (Subject::Backlog, Level::Warning, "clients were closed because they do not read"),
    (Subject::Shortage, Level::Warning, "clients got no memory or no file"),
    (Subject::StoreFails, Level::Warning, "failures of the far store"),
    (Subject::StoreBack, Level::Notice, "connections to the far store"),
    (Subject::DevicesBack, Level::Notice, "recoveries of devices"),
    (Subject::Evictions, Level::Notice, "beginnings and ends of evictions"),
    (Subject::Renewals, Level::Notice, "renewals"),
    (Subject::Slow, Level::Notice, "reports of slow commands"),
    (Subject::Unauthenticated, Level::Notice, "clients were closed that are not authenticated"),
    (Subject::Silent, Level::Debug, "clients were closed that were silent"),
    (Subject::Opened, Level::Debug, "clients have connected"),
    (Subject::Closed, Level::Debug, "clients were closed"),
];

/// A line, as far as it has bytes.
#[derive(Clone, Copy)]
struct Line {
    bytes: [u8; LINE],
    length: usize,
}

impl Line {
    const EMPTY: Line = Line { bytes: [0; LINE], length: 0 };

    /// A line with the time of now. What has no room is cut.
    fn new(level: Level, text: fmt::Arguments) -> Line {
        let mut line = Line::EMPTY;
        let mut rest = &mut line.bytes[..LINE - 1];
        // An error says that there is no room for more.
        let _ = write!(rest, "{} {level} ", Time::now()).and_then(|()| rest.write_fmt(text));
        line.length = LINE - 1 - rest.len();
        for byte in &mut line.bytes[..line.length] {
            if *byte < b' ' || *byte == 0x7F {
                *byte = b'?';
            }
        }
        line.bytes[line.length] = b'\n';
        line.length += 1;
        line
    }

    fn of_lost(count: u64) -> Line {
        Line::new(Level::Warning, format_args!("{count} lines of the log are left out: standard error takes none"))
    }
}

/// A time as ISO 8601 has it, with milliseconds and the zone.
struct Time {
    local: LocalTime,
    milliseconds: u32,
}

impl Time {
    fn now() -> Time {
        let since = SystemTime::now().duration_since(UNIX_EPOCH).unwrap_or_default();
        Time { local: system::local_time(since.as_secs() as i64), milliseconds: since.subsec_millis() }
    }
}

impl Display for Time {
    fn fmt(&self, to: &mut Formatter<'_>) -> fmt::Result {
        let LocalTime { year, month, day, hour, minute, second, offset } = self.local;
        let (sign, minutes) = (if offset < 0 { '-' } else { '+' }, offset.unsigned_abs() / 60);
        write!(to, "{year:04}-{month:02}-{day:02}T{hour:02}:{minute:02}:{second:02}.{:03}", self.milliseconds)?;
        write!(to, "{sign}{:02}:{:02}", minutes / 60, minutes % 60)
    }
}

/// Lines that wait, the oldest at `first`.
struct Queue {
    lines: Vec<Line>,
    first: usize,
    count: usize,
    /// Lines that were left out, and of which no line tells yet.
    lost: u64,
    /// The thread writes a line.
    is_writing: bool,
}

impl Queue {
    fn put(&mut self, line: &Line) {
        if self.lost > 0 && self.count + 1 < LINES {
            let lost = Line::of_lost(std::mem::take(&mut self.lost));
            self.put_one(&lost);
        }
        if self.count < LINES {
            self.put_one(line);
        } else {
            self.lost += 1;
        }
    }

    fn put_one(&mut self, line: &Line) {
        let place = (self.first + self.count) % LINES;
        self.lines[place] = *line;
        self.count += 1;
    }

    /// The next line. None if there is none.
    fn take(&mut self) -> Option<Line> {
        if self.count == 0 {
            return (self.lost > 0).then(|| Line::of_lost(std::mem::take(&mut self.lost)));
        }
        let line = self.lines[self.first];
        self.first = (self.first + 1) % LINES;
        self.count -= 1;
        Some(line)
    }

    fn is_done(&self) -> bool {
        self.count == 0 && self.lost == 0 && !self.is_writing
    }
}

/// The queue, and the thread that writes its lines.
struct Writer {
    queue: Mutex<Queue>,
    /// Notified when there is a line, and when one is written.
    changed: Condvar,
}

impl Writer {
    fn queue(&self) -> MutexGuard<'_, Queue> {
        self.queue.lock().unwrap_or_else(PoisonError::into_inner)
    }

    fn put(&self, line: &Line) {
        self.queue().put(line);
        self.changed.notify_all();
    }

    /// The thread: writes each line, for as long as that takes.
    fn run(&self) {
        let mut queue = self.queue();
        loop {
            let Some(line) = queue.take() else {
                queue = self.changed.wait(queue).unwrap_or_else(PoisonError::into_inner);
                continue;
            };
            queue.is_writing = true;
            drop(queue);
            // Nobody can be told that standard error takes no line.
            let _ = io::stderr().write_all(&line.bytes[..line.length]);
            queue = self.queue();
            queue.is_writing = false;
            self.changed.notify_all();
        }
    }

    /// Waits until all lines are written, but not long.
    fn finish(&self) {
        drop(self.changed.wait_timeout_while(self.queue(), END, |it| !it.is_done()));
    }
}

/// What was written of a subject.
#[derive(Clone, Copy)]
struct Written {
    /// When the next line may be written.
    next: Instant,
    /// Lines that were held back since the last one.
    more: u64,
}

/// The log. There is none if no level was asked for: then nothing is written here.
#[derive(Clone)]
pub struct Log {
    level: Level,
    writer: Option<Arc<Writer>>,
    written: [Written; SUBJECTS.len()],
    /// When `left` is `MOST` again, and how many lines may be written until then.
    refill: Instant,
    left: u32,
}

impl Log {
    /// A log of lines of this level, and of those that are more important. An error is returned if its thread
    /// can't be started.
    pub fn new(level: Option<Level>) -> io::Result<Log> {
        let now = Instant::now();
        let written = [Written { next: now, more: 0 }; SUBJECTS.len()];
        let mut log =
            Log { level: level.unwrap_or(Level::Warning), writer: None, written, refill: now + PAUSE, left: MOST };
        if level.is_some() {
            let queue = Queue { lines: vec![Line::EMPTY; LINES], first: 0, count: 0, lost: 0, is_writing: false };
            let writer = Arc::new(Writer { queue: Mutex::new(queue), changed: Condvar::new() });
            let other = writer.clone();
            thread::Builder::new().stack_size(STACK).spawn(move || other.run())?;
            log.writer = Some(writer);
        }
        Ok(log)
    }

    /// Whether there is a log.
    pub fn is_on(&self) -> bool {
        self.writer.is_some()
    }

    /// Writes a line that is never held back: of the start, and of the end.
    pub fn tell(&self, level: Level, text: fmt::Arguments) {
        if let Some(writer) = self.writer.as_ref().filter(|_| level <= self.level) {
            writer.put(&Line::new(level, text));
        }
    }

    /// Writes a line about a subject, or counts it if there were lines enough.
    pub fn line(&mut self, subject: Subject, now: Instant, text: fmt::Arguments) {
        let (_, level, _) = SUBJECTS[subject as usize];
        if !self.is_on() || level > self.level {
            return;
        }
        if !self.may_write(subject, now) {
            self.written[subject as usize].more += 1;
            return;
        }
        match self.begin(subject, now) {
            0 => self.tell(level, text),
            more => self.tell(level, format_args!("{text} (and {more} more before it)")),
        }
    }

    /// Tells how many lines were held back of each subject, at the end.
    pub fn tell_rest(&mut self) {
        for (subject, level, what) in SUBJECTS {
            let more = std::mem::take(&mut self.written[subject as usize].more);
            if more > 0 {
                self.tell(level, format_args!("{what}: {more} more"));
            }
        }
    }

    /// Tells how many lines were held back of each subject, a second after the last line of it.
    pub fn tick(&mut self, now: Instant) {
        for (subject, level, what) in SUBJECTS {
            if self.written[subject as usize].more > 0 && self.may_write(subject, now) {
                let more = self.begin(subject, now);
                self.tell(level, format_args!("{what}: {more} more"));
            }
        }
    }

    /// Whether a line may be written now.
    fn may_write(&mut self, subject: Subject, now: Instant) -> bool {
        if now >= self.refill {
            (self.refill, self.left) = (now + PAUSE, MOST);
        }
        self.left > 0 && now >= self.written[subject as usize].next
    }

    /// Notes that a line is written, and returns how many were held back before it.
    fn begin(&mut self, subject: Subject, now: Instant) -> u64 {
        self.left -= 1;
        let before = std::mem::replace(&mut self.written[subject as usize], Written { next: now + PAUSE, more: 0 });
        before.more
    }

    /// Waits until all lines are written, but not long.
    pub fn finish(&self) {
        self.writer.iter().for_each(|it| it.finish());
    }
}

/// An error of the system in words, without an allocation.
pub struct Why<'a>(pub &'a io::Error);

impl Display for Why<'_> {
    fn fmt(&self, to: &mut Formatter<'_>) -> fmt::Result {
        match self.0.raw_os_error() {
            Some(number) => write!(to, "{} (error {number} of the system)", self.0.kind()),
            None => self.0.kind().fmt(to),
        }
    }
}
