//! The joined list by SQLite: tables in memory that are loaded beforehand and can be loaded again,
//! and one prepared SELECT over all look-ups with the given values bound.

mod text;

use second::made_up::Made;
use std::ffi::{c_char, c_int, c_void, CStr, CString};
use std::ptr::{null, null_mut};

const OK: c_int = 0;
const ROW: c_int = 100;
const DONE: c_int = 101;

extern "C" {
    fn sqlite3_libversion() -> *const c_char;
    fn sqlite3_open(name: *const c_char, database: *mut *mut c_void) -> c_int;
    fn sqlite3_close(database: *mut c_void) -> c_int;
    fn sqlite3_errmsg(database: *mut c_void) -> *const c_char;
    fn sqlite3_prepare_v2(
        database: *mut c_void,
        text: *const c_char,
        length: c_int,
        statement: *mut *mut c_void,
        rest: *mut *const c_char,
    ) -> c_int;
    fn sqlite3_bind_int64(statement: *mut c_void, place: c_int, value: i64) -> c_int;
    fn sqlite3_step(statement: *mut c_void) -> c_int;
    fn sqlite3_reset(statement: *mut c_void) -> c_int;
    fn sqlite3_column_int64(statement: *mut c_void, column: c_int) -> i64;
    fn sqlite3_total_changes(database: *mut c_void) -> c_int;
    fn sqlite3_finalize(statement: *mut c_void) -> c_int;
}

/// The version of the library that is linked.
pub fn version() -> String {
    // The text is the library's own, and stays.
    let text = unsafe { CStr::from_ptr(sqlite3_libversion()) };
    text.to_string_lossy().into_owned()
}

/// A prepared statement. Its pointer is sound until it is dropped, and that is before its database is.
struct Statement(*mut c_void);

impl Drop for Statement {
    fn drop(&mut self) {
        // The statement is not used again.
        unsafe { sqlite3_finalize(self.0) };
    }
}

/// A database in memory. Its pointer is sound from `open` until it is dropped.
struct Database(*mut c_void);

impl Database {
    fn open() -> Database {
        let mut database = null_mut();
        // The name is a C text, and the pointer is written before it is used.
        let code = unsafe { sqlite3_open(c":memory:".as_ptr(), &mut database) };
        let database = Database(database);
        database.expect(code, OK, "open");
        database
    }

    fn expect(&self, code: c_int, wanted: c_int, what: &str) {
        if code != wanted {
            // The database is open, and the text is read before the next call.
            let text = unsafe { CStr::from_ptr(sqlite3_errmsg(self.0)) };
            panic!("SQLite: {what}: code {code}, {text:?}");
        }
    }

    fn prepare(&self, text: &str) -> Statement {
        let c_text = CString::new(text).expect("no text here has a zero byte");
        let mut statement = null_mut();
        // The text ends in a zero byte, and the pointer is written before it is used.
        let code =
            unsafe { sqlite3_prepare_v2(self.0, c_text.as_ptr(), -1, &mut statement, &mut null()) };
        self.expect(code, OK, text);
        Statement(statement)
    }

    fn bind(&self, statement: &Statement, place: usize, value: u32) {
        // The statement is this database's, and is not at work.
        let code = unsafe { sqlite3_bind_int64(statement.0, place as c_int, i64::from(value)) };
        self.expect(code, OK, "bind");
    }

    /// Runs a statement without rows once, with these values.
    fn execute(&self, statement: &Statement, values: &[u32]) {
        for (place, value) in values.iter().enumerate() {
            self.bind(statement, place + 1, *value);
        }
        // The statement is this database's, and is reset once it is done.
        let code = unsafe { sqlite3_step(statement.0) };
        self.expect(code, DONE, "step");
        let code = unsafe { sqlite3_reset(statement.0) };
        self.expect(code, OK, "reset");
    }

    fn run(&self, text: &str) {
        self.execute(&self.prepare(text), &[]);
    }

    /// The registers' tables with their rows and indexes.
    fn load(&self, made: &Made) {
        self.run("BEGIN");
        for (number, register) in made.request.registers.iter().enumerate() {
            self.run(&text::table(number, register.columns));
            let insert = self.prepare(&text::insert(number, register.columns));
            for row in &made.rows[number] {
                self.execute(&insert, row);
            }
            for index in text::indexes(number, &register.rules) {
                self.run(&index);
            }
        }
        self.run("COMMIT");
        self.run("ANALYZE");
    }

    /// The rows of the register with this number, to be loaded again.
    fn rows(&self, made: &Made, number: usize) -> Rows {
        let columns = made.request.registers[number].columns;
        Rows {
            clear: self.prepare(&text::clear(number)),
            insert: self.prepare(&text::insert(number, columns)),
            columns,
            rows: made.rows[number].concat(),
        }
    }
}

/// The rows of a register, one behind the other, with the statements that delete them and put one in.
struct Rows {
    clear: Statement,
    insert: Statement,
    columns: usize,
    rows: Vec<u32>,
}

/// The prepared SELECT of a request over its registers' tables, and what loads them again.
pub struct Query {
    select: Statement,
    begin: Statement,
    commit: Statement,
    registers: Vec<Rows>,
    variables: usize,
    // Dropped behind its statements.
    database: Database,
}

impl Query {
    /// Loads the registers, prepares all statements and binds the given values.
    pub fn new(made: &Made) -> Query {
        let database = Database::open();
        database.load(made);
        let select = database.prepare(&text::select(&made.request));
        let givens = made.request.givens.iter().flatten();
        for (place, value) in givens.enumerate() {
            database.bind(&select, place + 1, *value);
        }
        Query {
            select,
            begin: database.prepare("BEGIN"),
            commit: database.prepare("COMMIT"),
            registers: (0..made.rows.len())
                .map(|number| database.rows(made, number))
                .collect(),
            variables: made.request.givens.len(),
            database,
        }
    }

    /// Deletes all rows of all registers and puts them in again, in one transaction.
    pub fn load_again(&mut self) {
        self.database.execute(&self.begin, &[]);
        for register in &self.registers {
            self.database.execute(&register.clear, &[]);
            for row in register.rows.chunks_exact(register.columns) {
                self.database.execute(&register.insert, row);
            }
        }
        self.database.execute(&self.commit, &[]);
    }

    /// How many rows were put in and deleted so far.
    pub fn changes(&self) -> usize {
        // The database is open.
        unsafe { sqlite3_total_changes(self.database.0) as usize }
    }

    /// Runs the SELECT from its reset to its last row: each row takes 16 words of the table, and
    /// the number of rows comes back. Rows beyond the table are read all the same.
    pub fn run(&mut self, table: &mut [u32]) -> usize {
        let mut rows = 0;
        // The statement is this database's, and each column that is read is one of the SELECT's.
        unsafe {
            sqlite3_reset(self.select.0);
            let mut code = sqlite3_step(self.select.0);
            while code == ROW {
                for variable in 0..self.variables {
                    let value = sqlite3_column_int64(self.select.0, variable as c_int);
                    if let Some(word) = table.get_mut(16 * rows + variable) {
                        *word = value as u32;
                    }
                }
                rows += 1;
                code = sqlite3_step(self.select.0);
            }
            self.database.expect(code, DONE, "step");
        }
        rows
    }
}

impl Drop for Database {
    fn drop(&mut self) {
        // Every statement is finalized, and the database is not used again.
        unsafe { sqlite3_close(self.0) };
    }
}
