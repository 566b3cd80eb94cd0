//! The gateway's command line.

use crate::log::Level;
use std::ffi::OsString;
use std::fmt::Display;
use std::net::IpAddr;
use std::ops::RangeInclusive;
use std::path::PathBuf;
use std::str::FromStr;

pub const USAGE: &str = "usage: gateway [--port N] [--bind ADDRESS] [--guarded] [--unix PATH] [--timeout SECONDS] \
    [--auth-timeout SECONDS] [--connections N] [--output-limit BYTES] [--clients-memory BYTES] [--server-pid N] [--log-level warning|notice|debug] [--about TEXT] [--far-resp HOST:PORT|PATH --far-link REQUESTS REPLIES... \
    [--far-password-file FILE] [--far-timeout SECONDS]] --worker REQUESTS REPLIES [--worker REQUESTS REPLIES]...";
const FAR_TIMEOUTS: RangeInclusive<u32> = 1..=3600;
/// The most workers, and the most links. The place of each in a token is a byte.
const MOST: usize = 64;

/// What the command line asks for. Options that it leaves out have their defaults.
pub struct Options {
    /// The port of TCP, 0 for any that is free. None if there is no TCP.
    pub port: Option<u16>,
    /// The IP address to listen at.
    pub bind: IpAddr,
    /// Whether the server asks for a password. Without one only a loopback address is taken.
    pub guarded: bool,
    /// The path of a Unix socket.
    pub unix: Option<PathBuf>,
    /// Seconds after which a silent client is closed; 0 for never.
    pub timeout: u32,
    /// Seconds in which a client has to be authenticated; 0 for any time.
    pub auth_timeout: u32,
    /// The most clients at once.
    pub connections: usize,
    /// Bytes of replies that may wait for a client.
    pub output_limit: usize,
    /// Bytes that all clients may take together: half in the gateway, half in the workers.
    pub clients_memory: usize,
    /// The server's process. Its memory is reported together with the gateway's.
    pub server_pid: Option<u32>,
    /// Which lines the log has. None if there is no log.
    pub log_level: Option<Level>,
    /// What the first line of the log says of the server: its version and its settings.
    pub about: String,
    /// The pipes of each worker: its requests, its replies.
    pub workers: Vec<(PathBuf, PathBuf)>,
    /// The address of the far store.
    pub far_resp: Option<OsString>,
    /// The file whose first line is the store's password.
    pub far_password_file: Option<PathBuf>,
    /// Seconds that the far store may be silent while something is owed.
    pub far_timeout: u32,
    /// The pipes of each link: the device's requests, the replies for it.
    pub far_links: Vec<(PathBuf, PathBuf)>,
}

impl Options {
    /// Reads the words of the command line. An error is a text about the first thing that is wrong.
    pub fn read(mut words: impl Iterator<Item = OsString>) -> Result<Options, String> {
        let mut it = Options {
            port: None,
            bind: IpAddr::from([127, 0, 0, 1]),
            guarded: false,
            unix: None,
            timeout: 0,
            auth_timeout: 10,
            connections: 10_000,
            output_limit: 1 << 26,
            clients_memory: 1 << 26,
            server_pid: None,
            log_level: None,
            about: String::new(),
            workers: Vec::new(),
            far_resp: None,
            far_password_file: None,
            far_timeout: 5,
            far_links: Vec::new(),
        };
        while let Some(name) = words.next() {
            let name = name.to_string_lossy().into_owned();
            let mut value = || words.next().ok_or(format!("{name} lacks its value"));
            match name.as_str() {
                "--port" => it.port = Some(read(&name, value()?)?),
                "--bind" => it.bind = read(&name, value()?)?,
                "--guarded" => it.guarded = true,
                "--unix" => it.unix = Some(value()?.into()),
                "--timeout" => it.timeout = read(&name, value()?)?,
                "--auth-timeout" => it.auth_timeout = read(&name, value()?)?,
                "--connections" => it.connections = read(&name, value()?)?,
                "--output-limit" => it.output_limit = read(&name, value()?)?,
                "--clients-memory" => it.clients_memory = read(&name, value()?)?,
                "--server-pid" => it.server_pid = Some(read(&name, value()?)?),
                "--log-level" => it.log_level = Some(read(&name, value()?)?),
                "--about" => it.about = value()?.to_string_lossy().into_owned(),
                "--worker" => it.workers.push((value()?.into(), value()?.into())),
                "--far-resp" => it.far_resp = Some(address(&name, value()?)?),
                "--far-password-file" => it.far_password_file = Some(value()?.into()),
                "--far-timeout" => it.far_timeout = read(&name, value()?)?,
                "--far-link" => it.far_links.push((value()?.into(), value()?.into())),
                _ => return Err(format!("{name} is no option")),
            }
        }
        match (it.workers.is_empty(), &it.port, &it.unix) {
            (true, ..) => Err("there is no --worker".into()),
            _ if it.workers.len() > MOST => Err(format!("there are more than {MOST} --worker")),
            _ if it.far_links.len() > MOST => Err(format!("there are more than {MOST} --far-link")),
            (_, None, None) => Err("there is neither --port nor --unix".into()),
            _ if !it.bind.is_loopback() && !it.guarded => Err(format!("--bind {} needs --guarded", it.bind)),
            _ if it.far_resp.is_none() && !it.far_links.is_empty() => Err("--far-link needs --far-resp".into()),
            _ if it.far_resp.is_some() && it.far_links.is_empty() => Err("--far-resp needs --far-link".into()),
            _ if !FAR_TIMEOUTS.contains(&it.far_timeout) => Err(refused("--far-timeout", it.far_timeout)),
            _ => Ok(it),
        }
    }
}

fn refused(name: &str, value: impl Display) -> String {
    format!("{name} {value}: no value that it takes")
}

fn read<T: FromStr>(name: &str, value: OsString) -> Result<T, String> {
    let value = value.to_string_lossy();
    value.parse().map_err(|_| refused(name, value))
}

/// Takes `HOST:PORT`, or the path of a Unix socket.
fn address(name: &str, value: OsString) -> Result<OsString, String> {
    let text = value.to_string_lossy();
    let is_pair = |(host, port): (&str, &str)| !host.is_empty() && port.parse::<u16>().is_ok();
    if text.starts_with('/') || text.rsplit_once(':').is_some_and(is_pair) {
        return Ok(value);
    }
    Err(refused(name, text))
}
