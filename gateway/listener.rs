//! Accepts clients: at a port of TCP, or at a Unix socket.

use crate::system;
use std::fs::{self, File};
use std::io::{self, Cursor, ErrorKind, Write};
use std::net::{SocketAddr, TcpStream};
use std::os::fd::OwnedFd;
use std::os::unix::ffi::OsStrExt;
use std::os::unix::fs::FileTypeExt;
use std::os::unix::net::{UnixListener, UnixStream};
use std::path::{Path, PathBuf};

/// The most bytes of a client's address.
const ADDRESS: usize = 64;

/// A socket at which clients connect.
pub struct Listener {
    pub file: OwnedFd,
    /// The path of a Unix socket. None for TCP.
    pub path: Option<PathBuf>,
}

/// A client's address as text, cut if it is longer than 64 bytes.
pub struct Address(Cursor<[u8; ADDRESS]>);

impl Address {
    pub fn bytes(&self) -> &[u8] {
        &self.0.get_ref()[..self.0.position() as usize]
    }

    /// At an error the address is cut.
    fn put(&mut self, socket: &TcpStream, path: Option<&Path>) -> io::Result<()> {
        let Some(path) = path else {
            // The address is built again without the scope of IPv6. A client that has gone has none.
            return match socket.peer_addr() {
                Ok(it) => write!(self.0, "{}", SocketAddr::new(it.ip(), it.port())),
                Err(_) => self.0.write_all(b"?:0"),
            };
        };
        self.0.write_all(path.as_os_str().as_bytes())?;
        self.0.write_all(b":0")
    }
}

impl Listener {
    /// Accepts a connection. Returns it with the client's address as CLIENT LIST of redis-server shows it.
    /// Allocates nothing.
    pub fn accept(&self) -> io::Result<(File, Address)> {
        let socket = TcpStream::from(OwnedFd::from(system::accept(&self.file)?));
        let mut address = Address(Cursor::new([0; ADDRESS]));
        let _ = address.put(&socket, self.path.as_deref());
        Ok((OwnedFd::from(socket).into(), address))
    }
}

/// Listens at a path. Only the owner may connect there.
pub fn listen_at(path: &Path) -> io::Result<UnixListener> {
    // A socket at which nobody listens was left by a gateway that was killed.
    let is_left = fs::metadata(path).is_ok_and(|it| it.file_type().is_socket())
        && UnixStream::connect(path).is_err_and(|it| it.kind() == ErrorKind::ConnectionRefused);
    if is_left {
        fs::remove_file(path)?;
    }
    system::for_owner_alone(|| UnixListener::bind(path))
}
