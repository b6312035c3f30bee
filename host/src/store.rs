//! The table's blocks in a SQLite database. A commit returns when SQLite has synced it, and a second server on the same database is refused: the
//! lock is taken at the start and kept.

use crate::frames::BLOCK;
use rusqlite::{params, Connection, ErrorCode};
use std::fs;
use std::path::{Path, PathBuf};

pub struct Store {
    connection: Connection,
    path: PathBuf,
}

const FILE: &str = "table.sqlite";

impl Store {
    pub fn exists(folder: &Path) -> bool {
        folder.join(FILE).exists()
    }

    /// Opens the database in this folder, makes what is missing, and keeps everyone else out.
    pub fn open(folder: &Path) -> Result<Store, String> {
        fs::create_dir_all(folder).map_err(|error| format!("{}: {error}", folder.display()))?;
        let path = folder.join(FILE);
        match prepared(&path) {
            Ok(connection) => Ok(Store { connection, path }),
            Err(error) if error.sqlite_error_code() == Some(ErrorCode::DatabaseBusy) => {
                Err(format!("{}: another server has this database open", path.display()))
            }
            Err(error) => Err(format!("{}: {error}", path.display())),
        }
    }

    pub fn path(&self) -> &Path {
        &self.path
    }

    /// The table as it was last stored, or `None` where there is none yet.
    pub fn table(&self) -> Result<Option<Vec<u8>>, String> {
        let rows = self.rows().map_err(|error| format!("{}: {error}", self.path.display()))?;
        let whole = rows.iter().enumerate().all(|(index, (number, bytes))| *number == index as i64 && bytes.len() == BLOCK);
        if !whole {
            return Err(format!("{}: blocks of the table are missing", self.path.display()));
        }
        Ok(Some(rows.into_iter().flat_map(|(_, bytes)| bytes).collect()).filter(|table: &Vec<u8>| !table.is_empty()))
    }

    fn rows(&self) -> rusqlite::Result<Vec<(i64, Vec<u8>)>> {
        let mut select = self.connection.prepare("SELECT number, bytes FROM block ORDER BY number")?;
        let rows = select.query_map([], |row| Ok((row.get(0)?, row.get(1)?)))?;
        rows.collect()
    }

    /// Stores blocks together or not at all. When this returns they are synced.
    pub fn save<'a>(&mut self, blocks: impl Iterator<Item = (u32, &'a [u8])>) -> Result<(), String> {
        self.saved(blocks).map_err(|error| format!("{}: {error}", self.path.display()))
    }

    fn saved<'a>(&mut self, blocks: impl Iterator<Item = (u32, &'a [u8])>) -> rusqlite::Result<()> {
        let transaction = self.connection.transaction()?;
        {
            let mut replace = transaction.prepare_cached("INSERT OR REPLACE INTO block (number, bytes) VALUES (?, ?)")?;
            for (number, bytes) in blocks {
                replace.execute(params![number, bytes])?;
            }
        }
        transaction.commit()
    }
}

/// The lock is taken by the first write and kept until the end. With a write-ahead log and full synchronisation a commit is one write and one sync.
fn prepared(path: &Path) -> rusqlite::Result<Connection> {
    let connection = Connection::open(path)?;
    connection.busy_timeout(std::time::Duration::ZERO)?;
    connection.pragma_update(None, "locking_mode", "EXCLUSIVE")?;
    connection.pragma_update(None, "journal_mode", "WAL")?;
    connection.pragma_update(None, "synchronous", "FULL")?;
    connection.execute_batch(
        "BEGIN IMMEDIATE;
         CREATE TABLE IF NOT EXISTS block (number INTEGER PRIMARY KEY, bytes BLOB NOT NULL CHECK (length(bytes) = 512));
         COMMIT;",
    )?;
    Ok(connection)
}
