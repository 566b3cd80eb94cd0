//! The far store, and connections to it.
//!
//! The main thread may not wait for a store. So each link has a thread that makes its connections. It
//! connects, logs in, checks that the store answers, leaves the connection for the main thread, and wakes it.
//!
//! These threads are started once, and allocate nothing later. A thread for which the system has no memory
//! would end the process.

use crate::log::Why;
use std::ffi::{OsStr, OsString};
use std::fmt::{self, Display, Formatter};
use std::fs::File;
use std::io::{self, ErrorKind, Read, Write};
use std::net::{SocketAddr, TcpStream, ToSocketAddrs};
use std::os::fd::OwnedFd;
use std::os::unix::ffi::OsStrExt;
use std::os::unix::net::UnixStream;
use std::path::{Path, PathBuf};
use std::sync::{Arc, Condvar, Mutex, MutexGuard, PoisonError};
use std::time::{Duration, Instant};
use std::{mem, thread};

/// The most bytes of a password file that are read.
const PASSWORD: u64 = 4096;
/// The most bytes of a reply's line that are read.
const LINE: usize = 256;
const PING: &[u8] = b"*1\r\n$4\r\nPING\r\n";

/// The far store, and the threads that connect to it.
pub struct Store {
    name: OsString,
    greeter: Arc<Greeter>,
    /// It has input after a connection was made, or could not be made.
    pub wake: UnixStream,
}

/// A link, and the connection that was made for it, or why there is none.
pub type Greeted = (usize, Result<File, Fault>);

/// Why there is no connection.
pub enum Fault {
    System(io::Error),
    /// AUTH was replied `-WRONGPASS` or `-ERR`.
    RefusesPassword,
    /// A command was replied `-NOAUTH`.
    AsksForPassword,
    /// The store has closed the connection.
    Ends,
    /// The store replied another line.
    Replies(Line),
}

/// The line of a reply, as far as it was read.
pub struct Line {
    bytes: [u8; LINE],
    length: usize,
}

/// What a link's thread was asked for, and what it has done.
enum Task {
    None,
    Asked,
    Done(Result<File, Fault>),
}

/// What the threads share.
struct Greeter {
    address: Address,
    /// The AUTH command with the password, if there is one.
    login: Option<Vec<u8>>,
    patience: Duration,
    /// The task of each link.
    tasks: Mutex<Vec<Task>>,
    /// Notified when a connection is asked for.
    asked: Condvar,
    wake: UnixStream,
}

enum Address {
    /// All addresses that the name had at the start.
    Internet(Vec<SocketAddr>),
    Unix(PathBuf),
}

/// The password: the first line of a file, without its LF and a CR before it. An error is returned if the
/// file can't be read, or if the line is empty.
pub fn password(path: &Path) -> io::Result<Vec<u8>> {
    let mut bytes = Vec::new();
    File::open(path)?.take(PASSWORD).read_to_end(&mut bytes)?;
    let line = bytes.split(|it| *it == b'\n').next().unwrap_or_default();
    let line = line.strip_suffix(b"\r").unwrap_or(line);
    if line.is_empty() {
        return Err(io::Error::other("its first line is empty"));
    }
    Ok(line.to_vec())
}

impl Store {
    /// The store at `name`, that is `HOST:PORT` or the path of a Unix socket, and the threads of this many
    /// links. The store may be silent for `patience`. An error is returned if the name has no address, or if
    /// a thread can't be started.
    pub fn new(name: &OsStr, password: Option<Vec<u8>>, patience: Duration, links: usize) -> io::Result<Store> {
        let address = match name.as_bytes() {
            [b'/', ..] => Address::Unix(name.into()),
            _ => Address::Internet(name.to_string_lossy().to_socket_addrs()?.collect()),
        };
        let login = password.map(|it| {
            let length = format!("*2\r\n$4\r\nAUTH\r\n${}\r\n", it.len());
            [length.as_bytes(), &it, b"\r\n"].concat()
        });
        let (wake, other) = UnixStream::pair()?;
        wake.set_nonblocking(true)?;
        let tasks = Mutex::new((0..links).map(|_| Task::None).collect());
        let greeter = Arc::new(Greeter { address, login, patience, tasks, asked: Condvar::new(), wake: other });
        for link in 0..links {
            let greeter = greeter.clone();
            thread::Builder::new().spawn(move || greeter.run(link))?;
        }
        Ok(Store { name: name.into(), greeter, wake })
    }

    /// How long the store may be silent.
    pub fn patience(&self) -> Duration {
        self.greeter.patience
    }

    /// Asks a link's thread for a connection.
    pub fn greet(&self, link: usize) {
        self.greeter.tasks()[link] = Task::Asked;
        self.greeter.asked.notify_all();
    }

    /// The connections that the threads have made since the last call, and those that they could not make.
    pub fn greeted(&self) -> impl Iterator<Item = Greeted> + '_ {
        // This is read first, so that a later connection wakes the main thread again.
        let _ = (&self.wake).read(&mut [0; LINE]);
        let count = self.greeter.tasks().len();
        (0..count).filter_map(|link| self.greeter.tasks()[link].take().map(|made| (link, made)))
    }

    /// The store's address.
    pub fn name(&self) -> impl Display + '_ {
        Path::new(&self.name).display()
    }

    /// Why there is no connection, in words that need no allocation.
    pub fn why<'a>(&self, fault: &'a Fault) -> impl Display + 'a {
        Reason(fault, self.patience())
    }

    /// The text that there is no connection, and why.
    pub fn fault(&self, fault: Fault) -> String {
        let why = match fault {
            Fault::System(fault) if matches!(fault.kind(), ErrorKind::WouldBlock | ErrorKind::TimedOut) => {
                format!("no answer within {} seconds", self.patience().as_secs())
            }
            _ => fault.to_string(),
        };
        format!("far store {}: {why}", self.name.to_string_lossy())
    }
}

impl Task {
    /// The result, if the thread is done.
    fn take(&mut self) -> Option<Result<File, Fault>> {
        match mem::replace(self, Task::None) {
            Task::Done(made) => Some(made),
            other => {
                *self = other;
                None
            }
        }
    }
}

impl Greeter {
    fn tasks(&self) -> MutexGuard<'_, Vec<Task>> {
        self.tasks.lock().unwrap_or_else(PoisonError::into_inner)
    }

    /// The thread of a link: makes a connection whenever one is asked for.
    fn run(&self, link: usize) {
        loop {
            let is_idle = |tasks: &mut Vec<Task>| !matches!(tasks[link], Task::Asked);
            drop(self.asked.wait_while(self.tasks(), is_idle).unwrap_or_else(PoisonError::into_inner));
            let made = self.connect();
            self.tasks()[link] = Task::Done(made);
            // This does not fail while the main thread runs.
            let _ = (&self.wake).write(&[0]);
        }
    }

    /// Makes a connection that is logged in, and on which no reply is pending.
    fn connect(&self) -> Result<File, Fault> {
        let end = Instant::now() + self.patience;
        let mut socket = self.open()?;
        socket.set_write_timeout(Some(self.patience))?;
        if let Some(login) = &self.login {
            socket.write_all(login)?;
            let line = read_line(&mut socket, end)?;
            if line.bytes().starts_with(b"-WRONGPASS") || line.bytes().starts_with(b"-ERR") {
                return Err(Fault::RefusesPassword);
            }
            line.expect(b"+OK\r\n")?;
        }
        socket.write_all(PING)?;
        read_line(&mut socket, end)?.expect(b"+PONG\r\n")?;
        socket.set_nonblocking(true)?;
        Ok(OwnedFd::from(socket).into())
    }

    fn open(&self) -> io::Result<TcpStream> {
        let addresses = match &self.address {
            // A `TcpStream` of std that holds a Unix socket does all that is needed here.
            Address::Unix(path) => return Ok(OwnedFd::from(UnixStream::connect(path)?).into()),
            Address::Internet(addresses) => addresses,
        };
        let mut fault = ErrorKind::NotFound.into();
        for address in addresses {
            match TcpStream::connect_timeout(address, self.patience / addresses.len() as u32) {
                Ok(socket) => return socket.set_nodelay(true).map(|()| socket),
                Err(it) => fault = it,
            }
        }
        Err(fault)
    }
}

/// Reads a line until `end`, and nothing after it. So it is found out if a store sends more.
fn read_line(socket: &mut TcpStream, end: Instant) -> Result<Line, Fault> {
    let mut line = Line { bytes: [0; LINE], length: 0 };
    while !line.bytes().ends_with(b"\r\n") && line.length < LINE {
        let left = end.saturating_duration_since(Instant::now());
        if left.is_zero() {
            return Err(io::Error::from(ErrorKind::TimedOut).into());
        }
        socket.set_read_timeout(Some(left))?;
        let count = socket.read(&mut line.bytes[line.length..][..1])?;
        if count == 0 {
            return Err(Fault::Ends);
        }
        line.length += count;
    }
    Ok(line)
}

impl Line {
    fn bytes(&self) -> &[u8] {
        &self.bytes[..self.length]
    }

    fn expect(self, want: &[u8]) -> Result<(), Fault> {
        match self.bytes() {
            line if line == want => Ok(()),
            line if line.starts_with(b"-NOAUTH") => Err(Fault::AsksForPassword),
            _ => Err(Fault::Replies(self)),
        }
    }
}

/// A fault, and how long the store was waited for.
struct Reason<'a>(&'a Fault, Duration);

impl Display for Reason<'_> {
    fn fmt(&self, to: &mut Formatter<'_>) -> fmt::Result {
        match self.0 {
            Fault::System(fault) if matches!(fault.kind(), ErrorKind::WouldBlock | ErrorKind::TimedOut) => {
                write!(to, "no answer within {} seconds", self.1.as_secs())
            }
            Fault::System(fault) => Why(fault).fmt(to),
            // A line of the store may repeat what it was sent, that is the password.
            Fault::Replies(_) => to.write_str("it replies what no store replies"),
            other => other.fmt(to),
        }
    }
}

impl From<io::Error> for Fault {
    fn from(fault: io::Error) -> Fault {
        Fault::System(fault)
    }
}

impl Display for Fault {
    fn fmt(&self, to: &mut Formatter<'_>) -> fmt::Result {
        match self {
            Fault::System(fault) => fault.fmt(to),
            Fault::RefusesPassword => to.write_str("it refuses the password"),
            Fault::AsksForPassword => to.write_str("it asks for a password"),
            Fault::Ends => to.write_str("it closes the connection"),
            Fault::Replies(line) => write!(to, "it replies {}", line.bytes().trim_ascii_end().escape_ascii()),
        }
    }
}
