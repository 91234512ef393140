//! The library called from C through the header, as an implementation like the others: a C program makes the calls.

use std::ffi::OsStr;
use std::fs;
use std::io::{Read, Write};
use std::path::{Path, PathBuf};
use std::process::{Child, Command, Stdio};
use std::sync::{Mutex, OnceLock};

use tests::implementation::{Implementation, Parts};
use tests::{directory, root};

/// The compiler of C, with the standard and the warnings that the header is held to.
pub const C99: [&str; 2] = ["cc", "-std=c99"];

/// Where the tests put what they make.
fn made() -> &'static Path {
    Path::new(env!("CARGO_TARGET_TMPDIR"))
}

/// Compiles a C file of the repository with a compiler and its options, and links it with the library.
pub fn compiled(compiler: &[&str], source: &str) -> PathBuf {
    let program = made().join(format!("{}-{}", compiler[0], source.replace('/', "-")));
    let (include, library) = (root().join("include"), directory("BAARQIDHO_LIB_DIR", "target/lib"));
    let directories = [OsStr::new("-I"), include.as_os_str(), OsStr::new("-I"), made().as_os_str()];
    let said = Command::new(compiler[0])
        .args(&compiler[1..])
        .args(["-Wall", "-Wextra", "-pedantic", "-Werror"])
        .args(directories)
        .arg(root().join(source))
        .args([OsStr::new("-L"), library.as_os_str(), OsStr::new("-lbaarqidho")])
        .args([OsStr::new("-o"), program.as_os_str()])
        .output()
        .expect("cc is there, as for every Rust program");
    assert!(said.status.success(), "{}", String::from_utf8_lossy(&said.stderr));
    program
}

/// The header's text.
pub fn header() -> String {
    fs::read_to_string(root().join("include/baarqidho.h")).expect("the header is there")
}

/// The calls that the header declares, each with the names of its parameters.
pub fn declarations() -> Vec<(String, Vec<String>)> {
    let name_of = |parameter: &str| parameter.rsplit([' ', '*']).next().expect("a name").to_string();
    let declaration = |text: &str| {
        let (call, rest) = text.split_once('(').expect("a call has parameters");
        let (parameters, _) = rest.split_once(");").expect("a declaration ends");
        (call.to_string(), parameters.split(',').map(name_of).collect())
    };
    header().split("\nuint32_t baarqidho_").skip(1).map(declaration).collect()
}

/// The declared calls as macros, with the names of the parameters for arguments.
fn declared() -> String {
    let define = |(call, names): &(String, Vec<String>)| {
        format!("#define {}_DECLARED baarqidho_{call}({})\n", call.to_uppercase(), names.join(", "))
    };
    declarations().iter().map(define).collect()
}

/// The C program, waiting for requests. It ends when its input does, with the tests.
struct Bridge(Child);

impl Bridge {
    fn new() -> Self {
        fs::write(made().join("declared.h"), declared()).expect("the calls can be written");
        let mut command = Command::new(compiled(&C99, "rust/tests/c/bridge.c"));
        Bridge(command.stdin(Stdio::piped()).stdout(Stdio::piped()).spawn().expect("the program starts"))
    }

    fn ask(&mut self, request: &[u8]) {
        self.0.stdin.as_mut().expect("its input").write_all(request).expect("the program takes a request");
    }

    fn bytes(&mut self, bytes: &mut [u8]) {
        self.0.stdout.as_mut().expect("its output").read_exact(bytes).expect("the program replies");
    }

    fn words(&mut self, words: &mut [u32]) {
        let mut bytes = vec![0; 4 * words.len()];
        self.bytes(&mut bytes);
        for (word, bytes) in words.iter_mut().zip(bytes.as_chunks().0) {
            *word = u32::from_ne_bytes(*bytes);
        }
    }

    fn sets(&mut self, sets: &mut [u64]) {
        let mut bytes = vec![0; 8 * sets.len()];
        self.bytes(&mut bytes);
        for (set, bytes) in sets.iter_mut().zip(bytes.as_chunks().0) {
            *set = u64::from_ne_bytes(*bytes);
        }
    }
}

/// A request: the letter of a call and its arguments.
struct Request(Vec<u8>);

impl Request {
    fn new(call: u8) -> Self {
        Request(vec![call])
    }

    fn number(mut self, number: u32) -> Self {
        self.0.extend(number.to_ne_bytes());
        self
    }

    fn bytes(self, bytes: &[u8]) -> Self {
        let mut request = self.number(bytes.len() as u32);
        request.0.extend(bytes);
        request
    }

    fn words(self, words: &[u32]) -> Self {
        let request = self.number(words.len() as u32);
        words.iter().copied().fold(request, Request::number)
    }

    fn times(self, times: &[u16]) -> Self {
        let mut request = self.number(times.len() as u32);
        request.0.extend(times.iter().flat_map(|time| time.to_ne_bytes()));
        request
    }

    fn sets(self, sets: &[u64]) -> Self {
        let mut request = self.number(sets.len() as u32);
        request.0.extend(sets.iter().flat_map(|set| set.to_ne_bytes()));
        request
    }

    /// Makes the call, and then takes from the reply what it wrote.
    fn reply(self, written: impl FnOnce(&mut Bridge)) -> Parts {
        static BRIDGE: OnceLock<Mutex<Bridge>> = OnceLock::new();
        let mut bridge = BRIDGE.get_or_init(|| Mutex::new(Bridge::new())).lock().expect("no call failed before");
        bridge.ask(&self.0);
        let mut parts = [0; 4];
        bridge.words(&mut parts);
        written(&mut bridge);
        parts.into()
    }

    /// Makes the call, which writes into these bytes and these slices of words.
    fn answer<const N: usize>(self, bytes: &mut [u8], words: [&mut [u32]; N]) -> Parts {
        self.reply(|bridge| {
            bridge.bytes(bytes);
            words.into_iter().for_each(|words| bridge.words(words));
        })
    }
}

/// The proved library through the header.
pub static C: Implementation = Implementation {
    name: "C",
    read: |packed, words| Request::new(b'r').bytes(packed).words(words).answer(&mut [], [words]),
    write: |count, words, packed| Request::new(b'w').number(count).words(words).bytes(packed).answer(packed, []),
    check: |count, words, clocks| Request::new(b'c').number(count).words(words).words(clocks).answer(&mut [], [clocks]),
    run: |count, words, log, ticks, marks, values| {
        let plan = Request::new(b'x').number(count).words(words);
        plan.words(log).number(ticks).bytes(marks).words(values).answer(marks, [values])
    },
    long_run: |count, words, log, ticks, marks, values, tallies| {
        let plan = Request::new(b'X').number(count).words(words).words(log).number(ticks);
        plan.bytes(marks).words(values).words(tallies).answer(marks, [values, tallies])
    },
    listing: |packed, text| Request::new(b'l').bytes(packed).bytes(text).answer(text, []),
    load_page: |count, words, times, page| {
        Request::new(b'p').number(count).words(words).times(times).bytes(page).answer(page, [])
    },
    least_part: |count, words, part| Request::new(b'm').number(count).words(words).words(part).answer(&mut [], [part]),
    least_flows: |count, words, flows| {
        Request::new(b'n').number(count).words(words).words(flows).answer(&mut [], [flows])
    },
    fill_rates: |count, words, filled| {
        Request::new(b'f').number(count).words(words).words(filled).answer(&mut [], [filled])
    },
    stored_words: |count, words, ticks| Request::new(b'k').number(count).words(words).number(ticks).answer(&mut [], []),
    store: |count, words, ticks, marks, values, stored| {
        let plan = Request::new(b's').number(count).words(words).number(ticks);
        plan.bytes(marks).words(values).words(stored).answer(&mut [], [stored])
    },
    restore: |count, words, ticks, stored, marks, values| {
        let plan = Request::new(b'S').number(count).words(words).number(ticks);
        plan.words(stored).bytes(marks).words(values).answer(marks, [values])
    },
    felt_inputs: |count, words, sets| {
        Request::new(b'i').number(count).words(words).sets(sets).reply(|bridge| bridge.sets(sets))
    },
};
