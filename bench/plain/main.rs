//! The program `fartable` in its plainest form, to compare it with: the same lines, from one `HashMap`. It takes the same
//! four arguments, and looks at the file alone: no limit on objects, and no check of the lines.

use std::collections::{BTreeMap, HashMap};
use std::env;
use std::fs::File;
use std::io::{self, BufRead, BufReader, BufWriter, Read, Write};

type Table = HashMap<Vec<u8>, Vec<u8>>;

/// Runs one command, and gives the value that the key had.
fn answer(table: &mut Table, line: &[u8]) -> Option<Vec<u8>> {
    let words: Vec<&[u8]> = line.split(|byte| *byte == b' ').collect();
    match words[..] {
        [b"put", key, value] => table.insert(key.to_vec(), value.to_vec()),
        [b"get", key] => table.get(key).cloned(),
        [b"del", key] => table.remove(key),
        [b"putif", key, expected, value] => {
            let held = table.get(key).cloned();
            if held.as_deref() == Some(expected) {
                table.insert(key.to_vec(), value.to_vec());
            }
            held
        }
        [b"putnew", key, value] => {
            let held = table.get(key).cloned();
            if held.is_none() {
                table.insert(key.to_vec(), value.to_vec());
            }
            held
        }
        _ => panic!("no command: {}", String::from_utf8_lossy(line)),
    }
}

fn main() -> io::Result<()> {
    let path = env::args().nth(4).expect("four arguments");
    let input: Box<dyn Read> = match path.as_str() {
        "-" => Box::new(io::stdin()),
        _ => Box::new(File::open(path)?),
    };
    let lines: Vec<Vec<u8>> = BufReader::new(input).split(b'\n').collect::<io::Result<_>>()?;
    let mut table = Table::new();
    let mut replies = Vec::new();
    for line in lines.iter().filter(|line| !line.is_empty()) {
        let reply = answer(&mut table, line);
        replies.extend_from_slice(reply.as_deref().unwrap_or(b"none"));
        replies.push(b'\n');
    }
    let mut out = BufWriter::new(io::stdout().lock());
    out.write_all(b"file 1\n")?;
    out.write_all(&replies)?;
    out.write_all(b"contents\n")?;
    for (key, value) in table.iter().collect::<BTreeMap<_, _>>() {
        out.write_all(key)?;
        out.write_all(b" ")?;
        out.write_all(value)?;
        out.write_all(b"\n")?;
    }
    out.flush()
}
