//! SQLite with its full-text index FTS5, in memory: as many of its C functions as are needed here.

use std::ffi::{c_char, c_int, c_void, CStr, CString};
use std::ptr;

#[repr(C)]
struct Database {
    _private: [u8; 0],
}

#[repr(C)]
struct Statement {
    _private: [u8; 0],
}

/// What a callback of `sqlite3_exec` would be; none is used.
type Callback = extern "C" fn(*mut c_void, c_int, *mut *mut c_char, *mut *mut c_char) -> c_int;

extern "C" {
    fn sqlite3_open(name: *const c_char, database: *mut *mut Database) -> c_int;
    fn sqlite3_exec(
        database: *mut Database,
        sql: *const c_char,
        callback: Option<Callback>,
        argument: *mut c_void,
        message: *mut *mut c_char,
    ) -> c_int;
    fn sqlite3_prepare_v2(
        database: *mut Database,
        sql: *const c_char,
        bytes: c_int,
        statement: *mut *mut Statement,
        rest: *mut *const c_char,
    ) -> c_int;
    fn sqlite3_bind_int64(statement: *mut Statement, place: c_int, value: i64) -> c_int;
    fn sqlite3_bind_text(
        statement: *mut Statement,
        place: c_int,
        text: *const c_char,
        bytes: c_int,
        destructor: *const c_void,
    ) -> c_int;
    fn sqlite3_step(statement: *mut Statement) -> c_int;
    fn sqlite3_reset(statement: *mut Statement) -> c_int;
    fn sqlite3_column_int64(statement: *mut Statement, column: c_int) -> i64;
    fn sqlite3_finalize(statement: *mut Statement) -> c_int;
    fn sqlite3_close(database: *mut Database) -> c_int;
    fn sqlite3_errmsg(database: *mut Database) -> *const c_char;
}

const OK: c_int = 0;
const ROW: c_int = 100;
const DONE: c_int = 101;

// Why the calls below are sound: the database and its statements live until `Index` is dropped, all
// texts are alive during the calls that read them (a bound text until the statement is reset), and
// nothing is used from two threads.

/// A full-text index of texts, which are not stored.
pub struct Index {
    database: *mut Database,
    insert: *mut Statement,
    select: *mut Statement,
}

impl Index {
    /// An empty index: only row numbers are kept for a term, neither places nor counts, and
    /// neither texts nor their lengths. A transaction is open.
    pub fn new() -> Index {
        let mut database = ptr::null_mut();
        // SAFETY: the name ends in a null byte and the pointer is written to.
        let result = unsafe { sqlite3_open(c":memory:".as_ptr(), &mut database) };
        assert_eq!(result, OK, "SQLite opens no database in memory");
        let mut index = Index {
            database,
            insert: ptr::null_mut(),
            select: ptr::null_mut(),
        };
        index.execute(c"PRAGMA journal_mode = OFF");
        index.execute(
            c"CREATE VIRTUAL TABLE t USING fts5(body, content = '', detail = none, columnsize = 0, tokenize = 'ascii')",
        );
        index.insert = index.prepare(c"INSERT INTO t(rowid, body) VALUES (?, ?)");
        index.select = index.prepare(c"SELECT rowid FROM t WHERE t MATCH ?");
        index.execute(c"BEGIN");
        index
    }

    /// Adds a text under a number.
    pub fn add(&mut self, number: i64, text: &CString) {
        // SAFETY: see above; the text outlives the step, and is forgotten by the reset.
        unsafe {
            sqlite3_bind_int64(self.insert, 1, number);
            self.bind(self.insert, 2, text);
            assert_eq!(sqlite3_step(self.insert), DONE, "{}", self.message());
            sqlite3_reset(self.insert);
        }
    }

    /// Ends the transaction.
    pub fn commit(&mut self) {
        self.execute(c"COMMIT");
    }

    /// Merges all parts of the index into one.
    pub fn optimize(&mut self) {
        self.execute(c"INSERT INTO t(t) VALUES ('optimize')");
    }

    /// Puts the numbers of the texts that match into the list and tells how many there are.
    pub fn list(&mut self, query: &CString, numbers: &mut [u32]) -> usize {
        let mut filled = 0;
        // SAFETY: see above; the query outlives the steps.
        unsafe {
            self.bind(self.select, 1, query);
            loop {
                match sqlite3_step(self.select) {
                    ROW => numbers[filled] = sqlite3_column_int64(self.select, 0) as u32,
                    DONE => break,
                    _ => panic!("{}", self.message()),
                }
                filled += 1;
            }
            sqlite3_reset(self.select);
        }
        filled
    }

    /// Binds a text, which SQLite does not copy.
    ///
    /// # Safety
    /// The text must live until the statement is reset.
    unsafe fn bind(&self, statement: *mut Statement, place: c_int, text: &CString) {
        let bytes = text.as_bytes().len() as c_int;
        let result = sqlite3_bind_text(statement, place, text.as_ptr(), bytes, ptr::null());
        assert_eq!(result, OK, "{}", self.message());
    }

    fn execute(&self, sql: &CStr) {
        // SAFETY: see above; no callback and no message are asked for.
        let result = unsafe {
            let nothing = ptr::null_mut();
            sqlite3_exec(self.database, sql.as_ptr(), None, nothing, ptr::null_mut())
        };
        assert_eq!(result, OK, "{}", self.message());
    }

    fn prepare(&self, sql: &CStr) -> *mut Statement {
        let mut statement = ptr::null_mut();
        // SAFETY: see above; the text ends in a null byte, as the length -1 says.
        let result = unsafe {
            let rest = ptr::null_mut();
            sqlite3_prepare_v2(self.database, sql.as_ptr(), -1, &mut statement, rest)
        };
        assert_eq!(result, OK, "{}", self.message());
        statement
    }

    /// What SQLite says went wrong.
    fn message(&self) -> String {
        // SAFETY: the text is valid until the next call.
        let text = unsafe { CStr::from_ptr(sqlite3_errmsg(self.database)) };
        format!("SQLite: {}", text.to_string_lossy())
    }
}

impl Default for Index {
    fn default() -> Index {
        Index::new()
    }
}

impl Drop for Index {
    fn drop(&mut self) {
        // SAFETY: the statements and the database are not used any more.
        unsafe {
            sqlite3_finalize(self.insert);
            sqlite3_finalize(self.select);
            sqlite3_close(self.database);
        }
    }
}
