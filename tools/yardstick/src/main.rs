//! What a plain program takes for the work of a stored site, by rusqlite, for comparison alone: no part of mvd.
//!
//! usage: yardstick rows FILE            reads all states by rising key, with the two digests that a site needs of each
//!        yardstick upserts FILE N KEYS  N upserts over the keys k0, k1 .., each a commit of its own
//!
//! It prints the seconds that went by. Debian has what it takes: cargo, librust-rusqlite-dev, librust-sha2-dev.
use rusqlite::{params, Connection};
use sha2::{Digest, Sha256};
use std::error::Error;
use std::time::{Instant, SystemTime};

/// How far apart the keys of two upserts are.
const STRIDE: u64 = 7919;

fn main() -> Result<(), Box<dyn Error>> {
    let words: Vec<String> = std::env::args().skip(1).collect();
    let words: Vec<&str> = words.iter().map(String::as_str).collect();
    let seconds = match words[..] {
        ["rows", file] => rows(file)?,
        ["upserts", file, count, keys] => upserts(file, count.parse()?, keys.parse()?)?,
        _ => return Err("usage: yardstick rows FILE | yardstick upserts FILE N KEYS".into()),
    };
    println!("{seconds:.6}");
    Ok(())
}

/// Reads all rows, and computes SHA-256 of each key, and of each key with its state.
fn rows(file: &str) -> Result<f64, Box<dyn Error>> {
    let start = Instant::now();
    let db = Connection::open(file)?;
    let mut query = db.prepare("SELECT key, state FROM states2 ORDER BY key")?;
    let mut rows = query.query([])?;
    let mut mixed = [0u8; 32];
    while let Some(row) = rows.next()? {
        let key = row.get_ref(0)?.as_str()?.as_bytes();
        let state = row.get_ref(1)?.as_blob()?;
        let place = Sha256::digest(key);
        let digest = Sha256::new()
            .chain_update([key.len() as u8])
            .chain_update(key)
            .chain_update(state)
            .finalize();
        for (mixed, (a, b)) in mixed.iter_mut().zip(place.iter().zip(digest.iter())) {
            *mixed ^= a ^ b;
        }
    }
    std::hint::black_box(mixed);
    Ok(start.elapsed().as_secs_f64())
}

/// Upserts small states, each in a commit of its own. No run writes what an earlier one wrote, since SQLite skips such a write.
fn upserts(file: &str, count: u64, keys: u64) -> Result<f64, Box<dyn Error>> {
    let db = Connection::open(file)?;
    let mut upsert = db.prepare(
        "INSERT INTO states2 (key, state) VALUES (?1, ?2) ON CONFLICT (key) DO UPDATE SET state = excluded.state",
    )?;
    let run = SystemTime::now().duration_since(SystemTime::UNIX_EPOCH)?.as_nanos();
    let start = Instant::now();
    for n in 0..count {
        let mut state = vec![0u8; 60];
        state[..16].copy_from_slice(&(run + u128::from(n)).to_be_bytes());
        upsert.execute(params![format!("k{}", n * STRIDE % keys), state])?;
    }
    Ok(start.elapsed().as_secs_f64())
}
