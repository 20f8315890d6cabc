//! Times the Rust from sheet to sheet: reading the sheet into its structs or values, its own call, and writing the sheet
//! of the answer. Where our library is linked, it is timed beside it, batch by batch, and the ratio is printed; for import and
//! export so are those by hand in C (`by_hand.rs`), on the same sheets into the same buffers. Plain form
//! and the page are not in the Rust: ours are timed beside our own export of the same sheet, as strict export is, and a measure
//! beside our own conversion. A sheet that a mapping is not defined for is timed up to its refusal.

use std::hint::black_box;
use std::io::Write;
use std::path::Path;
use std::time::Duration;

use crate::answer::Answer;
use crate::by_hand;
use crate::call::{Call, Input, Order, Request};
use crate::compare;
use crate::failure::Failure;
use crate::generator::{block, hex, hex_text, join_lines, Kind, Line};
use crate::library;
use crate::model::Model;
use crate::oracle::Rust;
use crate::refusal::{Number, UNDEFINED};

/// A batch takes so much processor time. Batches are short, so that some of them find a quiet machine.
const BATCH: Duration = Duration::from_millis(4);

/// The calls that are timed: those from sheet to sheet, the page and the measures.
pub const CALLS: [Call; 12] = [
    Call::Import,
    Call::Export,
    Call::StrictExport,
    Call::MeasureImport,
    Call::MeasureExport,
    Call::Plain,
    Call::Page,
    Call::UnderlyingPhysicalType,
    Call::ToStorage,
    Call::ToStorageRecursive,
    Call::InnerDtype,
    Call::GetChild,
];

/// A workload: a schema sheet of a size, or the field sheet that it is imported to.
struct Workload {
    name: &'static str,
    size: usize,
    /// Whether it has a quarter of its size to be held against.
    grows: bool,
    lines: fn(usize) -> Vec<Line>,
}

const WORKLOADS: [Workload; 10] = [
    Workload { name: "one leaf", size: 1, grows: false, lines: |_| vec![line("g", b"peak", "2", None, 0, 0)] },
    Workload { name: "a list", size: 1, grows: false, lines: |_| list_levels(2) },
    Workload { name: "dictionary with extension", size: 1, grows: false, lines: |_| dictionary() },
    Workload { name: "struct of 1,700", size: 1_700, grows: true, lines: |size| group("+s".to_string(), size, 5) },
    Workload { name: "struct of 700, long names", size: 700, grows: true, lines: |size| group("+s".to_string(), size, 30) },
    Workload { name: "union of 2,000 with ids", size: 2_000, grows: true, lines: |size| group(ids(size), size, 1) },
    Workload { name: "32 levels", size: 32, grows: true, lines: list_levels },
    Workload { name: "1,500 metadata pairs", size: 1_500, grows: true, lines: |size| pairs(size, 6, 7) },
    Workload { name: "3,200 metadata pairs", size: 3_200, grows: true, lines: |size| pairs(size, 2, 0) },
    Workload {
        name: "a name of 32,000 bytes",
        size: 32_000,
        grows: true,
        lines: |size| vec![line("g", &vec![b'n'; size], "2", None, 0, 0)],
    },
];

fn line(format: &str, name: &[u8], flags: &str, metadata: Option<&[u8]>, children: usize, dictionary: u8) -> Line {
    let numbers = [children.to_string(), dictionary.to_string()].map(String::into_bytes);
    let [children, dictionary] = numbers;
    vec![hex(format.as_bytes()), hex_text(Some(name)), flags.into(), hex_text(metadata), children, dictionary]
}

fn list_levels(levels: usize) -> Vec<Line> {
    let mut lines = vec![line("+l", b"peak", "2", None, 1, 0); levels - 1];
    lines.push(line("g", b"item", "0", None, 0, 0));
    lines
}

fn dictionary() -> Vec<Line> {
    let pairs = [(b"ARROW:extension:name".to_vec(), b"sweep.trace".to_vec()), (b"unit".to_vec(), b"dB".to_vec())];
    let metadata = block(&pairs, Order::Little);
    vec![line("i", b"trace", "3", Some(&metadata), 0, 1), line("u", b"", "2", None, 0, 0)]
}

/// A struct or union of leaves whose names have so many bytes.
fn group(format: String, size: usize, name: usize) -> Vec<Line> {
    let mut lines = vec![line(&format, b"sweep", "0", None, size, 0)];
    lines.extend((0..size).map(|at| line("g", &text(at, name), "2", None, 0, 0)));
    lines
}

fn ids(size: usize) -> String {
    let ids: Vec<String> = (0..size).map(|id| id.to_string()).collect();
    format!("+us:{}", ids.join(","))
}

/// Pairs in a scattered order, with keys and values of so many bytes.
fn pairs(size: usize, key: usize, value: usize) -> Vec<Line> {
    let pairs: Vec<(Vec<u8>, Vec<u8>)> = (0..size).map(|at| (text(at * 1_009 % size, key), text(at, value))).collect();
    vec![line("g", b"peak", "2", Some(&block(&pairs, Order::Little)), 0, 0)]
}

/// A text of so many bytes, different for each number below 64 squared.
fn text(number: usize, len: usize) -> Vec<u8> {
    let digits = [b'0' + (number / 64) as u8, b'0' + (number % 64) as u8];
    let mut text = vec![b'x'; len.saturating_sub(2)];
    text.extend(&digits[2 - len.min(2)..]);
    text
}

/// Nanoseconds a call, the shortest yet, of the Rust or what stands for it, of our library where it is linked, and by hand in C
/// where there is that.
#[derive(Clone, Copy)]
struct Timed {
    beside: f64,
    ours: Option<f64>,
    by_hand: Option<f64>,
}

/// A sheet that a call is timed on.
struct Trial {
    request: Request,
    sheet: Vec<u8>,
    /// The length of the answer, or the number of the refusal.
    answer: Result<usize, Number>,
    /// The length of what stands beside it: the same, or for what the Rust has not that of our own call.
    beside: usize,
    timed: Timed,
}

/// A line of the table: the whole workload, and a quarter of it.
struct Row {
    name: &'static str,
    whole: Trial,
    quarter: Option<Trial>,
}

/// Prints a table of all workloads for a call, or for all that can be timed. Each is measured in so many rounds; a round
/// goes through all of them, so that a busy time of the machine falls on all alike.
pub fn bench(rust: &Rust, rounds: u64, only: Option<Call>, out: &mut dyn Write) -> Result<(), Failure> {
    if let Some(call) = only.filter(|call| !can_be_timed(*call)) {
        let beside = call_beside(call).name();
        return Err(Failure::Wrong(format!("no library with {} and {beside} is linked", call.name())));
    }
    let calls = CALLS.into_iter().filter(|call| only.is_none_or(|only| only == *call) && can_be_timed(*call));
    let mut rows = Vec::new();
    for call in calls {
        for workload in &WORKLOADS {
            let whole = trial(rust, workload, workload.size, call)?;
            let quarter = workload.grows.then(|| trial(rust, workload, workload.size / 4, call)).transpose()?;
            rows.push(Row { name: workload.name, whole, quarter });
        }
    }
    for _ in 0..rounds {
        for trial in rows.iter_mut().flat_map(|row| [Some(&mut row.whole), row.quarter.as_mut()]).flatten() {
            measure(rust, trial);
        }
    }
    writeln!(out, "{:<26} {:<24}     in    out    ns/call     MB/s   growth  ours", "workload", "call")?;
    for row in &rows {
        writeln!(out, "{:<26} {}", row.name, columns(&row.whole, row.quarter.as_ref()))?;
    }
    writeln!(out, "growth: how many times longer than a quarter of the size takes; MB/s: of the sheet handed in")?;
    if rows.iter().any(|row| row.whole.answer.is_err()) {
        writeln!(out, "no 15: refused with 15, by the Rust with `None`, an error or a panic")?;
    }
    if rows.iter().any(|row| row.whole.request.call == Call::GetChild) {
        writeln!(out, "get_child: the last child of the first line")?;
    }
    for call in CALLS.into_iter().filter(|call| !is_in_rust(*call)) {
        if rows.iter().any(|row| row.whole.request.call == call) {
            let beside = call_beside(call).name();
            writeln!(
                out,
                "{}: not in the Rust; ns/call, MB/s and growth are of our own {beside} of the sheet",
                call.name()
            )?;
        }
    }
    let ratios: Vec<String> = CALLS.into_iter().filter_map(|call| greatest_ratio(&rows, call)).collect();
    if !ratios.is_empty() {
        writeln!(out, "greatest ratio: {}", ratios.join(", "))?;
    }
    let ratios: Vec<String> = CALLS.into_iter().filter_map(|call| greatest_ratio_to_c(&rows, call)).collect();
    if !ratios.is_empty() {
        writeln!(out, "greatest ratio to the C by hand: {}", ratios.join(", "))?;
    }
    Ok(())
}

/// Whether the Rust has the call, whose metadata is little-endian here.
fn is_in_rust(call: Call) -> bool {
    Request::new(call, 0).is_in_rust()
}

/// Our call that what the Rust has not is timed beside: the conversion that is measured, or export.
fn call_beside(call: Call) -> Call {
    call.measured().unwrap_or(Call::Export)
}

/// What the Rust has not needs our library's, and our call to stand beside it.
fn can_be_timed(call: Call) -> bool {
    let is_ours = |call: Call| library::has(Request::new(call, 0));
    is_in_rust(call) || (is_ours(call) && is_ours(call_beside(call)))
}

/// The greatest ratio of our time to what stands beside it, over a call's workloads; nothing where our library is not linked.
fn greatest_ratio(rows: &[Row], call: Call) -> Option<String> {
    greatest(rows, call, |timed| Some(timed.ours? / timed.beside))
}

/// The same, to the call by hand in C.
fn greatest_ratio_to_c(rows: &[Row], call: Call) -> Option<String> {
    greatest(rows, call, |timed| Some(timed.ours? / timed.by_hand?))
}

fn greatest(rows: &[Row], call: Call, ratio: impl Fn(&Timed) -> Option<f64>) -> Option<String> {
    let of_call = rows.iter().map(|row| &row.whole).filter(|trial| trial.request.call == call);
    let ratios = of_call.filter_map(|trial| ratio(&trial.timed));
    ratios.reduce(f64::max).map(|ratio| format!("{} {ratio:.2}", call.name()))
}

/// Writes the sheet of each workload that the call reads into the folder, as a file with the workload's place, from 0, and
/// its name.
pub fn workloads(rust: &Rust, folder: &str, call: Call) -> Result<(), Failure> {
    for (place, workload) in WORKLOADS.iter().enumerate() {
        let path = Path::new(folder).join(format!("{place} {}", workload.name));
        let sheet = sheet(rust, workload, workload.size, call)?;
        std::fs::write(&path, sheet).map_err(|error| Failure::Wrong(format!("{}: {error}", path.display())))?;
    }
    Ok(())
}

/// The sheet of a workload that the call reads: a field sheet is what the Rust imports.
fn sheet(rust: &Rust, workload: &Workload, size: usize, call: Call) -> Result<Vec<u8>, Failure> {
    let schema = join_lines(Kind::Schema, &(workload.lines)(size));
    match call.input() {
        Input::SchemaSheet => Ok(schema),
        _ => match rust.answer(Request::new(Call::Import, 0), &schema) {
            Ok(Answer::Sheet(field)) => Ok(field),
            other => Err(Failure::Found(format!("{}: {other:?}", workload.name))),
        },
    }
}

/// What the call is asked on a sheet: `get_child` for the last child of the first line.
fn request(call: Call, sheet: &[u8]) -> Request {
    let line = sheet.split(|byte| *byte == b'\n').nth(1).unwrap_or_default();
    let children = line.rsplit(|byte| *byte == b' ').next().and_then(|count| std::str::from_utf8(count).ok()?.parse().ok());
    match (call, children) {
        (Call::GetChild, Some(children)) => Request::new(call, u64::saturating_sub(children, 1)),
        _ => Request::new(call, 0),
    }
}

/// The length of the answer to a sheet, which of a measure is what it tells, or the refusal's number.
fn answer_length(rust: &Rust, request: Request, sheet: &[u8]) -> Result<usize, Number> {
    match compare::answer(rust, &Model::new(), request, sheet)? {
        Answer::Sheet(answer) => Ok(answer.len()),
        Answer::Values(length, _) => Ok(length as usize),
    }
}

fn trial(rust: &Rust, workload: &Workload, size: usize, call: Call) -> Result<Trial, Failure> {
    let sheet = sheet(rust, workload, size, call)?;
    let request = request(call, &sheet);
    let answer = answer_length(rust, request, &sheet);
    let beside = match request.is_in_rust() {
        true => answer,
        false => answer_length(rust, Request::new(call_beside(call), 0), &sheet),
    };
    match (answer, beside) {
        (Err(UNDEFINED), _) | (Ok(_), Ok(_)) => {
            let timed = Timed { beside: f64::INFINITY, ours: None, by_hand: None };
            Ok(Trial { request, beside: beside.unwrap_or(0), answer, sheet, timed })
        }
        _ => Err(Failure::Found(format!("{}: {answer:?}", workload.name))),
    }
}

/// A batch of the Rust, or of our own call beside what the Rust has not, and, where they are there, one of ours and one by hand.
fn measure(rust: &Rust, trial: &mut Trial) {
    let (request, sheet) = (trial.request, &trial.sheet[..]);
    // Where it is refused, the buffer has as many bytes as the sheet: no answer of a mapping is longer.
    let room = trial.answer.unwrap_or(sheet.len());
    let mut out = Vec::with_capacity(room);
    let beside = match request.is_in_rust() {
        false => of_ours(Request::new(call_beside(request.call), 0), sheet, trial.beside),
        true => nanoseconds(|| {
            out.clear();
            let done = rust.write(request, black_box(sheet), &mut out);
            black_box(&out);
            black_box(done.is_ok());
        }),
    };
    trial.timed.beside = trial.timed.beside.min(beside);
    if library::has(request) {
        let of_ours = of_ours(request, sheet, room);
        trial.timed.ours = Some(trial.timed.ours.map_or(of_ours, |least| least.min(of_ours)));
    }
    if by_hand::has(request.call) {
        let mut buffer = vec![0; room];
        let of_c = nanoseconds(|| {
            black_box(by_hand::ask(request.call, black_box(sheet), &mut buffer));
        });
        trial.timed.by_hand = Some(trial.timed.by_hand.map_or(of_c, |least| least.min(of_c)));
    }
}

/// A batch of our library, into a buffer of so many bytes.
fn of_ours(request: Request, sheet: &[u8], room: usize) -> f64 {
    let mut buffer = vec![0; room];
    nanoseconds(|| {
        black_box(library::ask(request, black_box(sheet), &mut buffer));
    })
}

/// Nanoseconds a call over a batch.
fn nanoseconds(mut call: impl FnMut()) -> f64 {
    // The first call finds the caches as the last trial left them.
    call();
    let start = processor_time();
    let mut calls = 0u32;
    let mut more = 1;
    while processor_time() - start < BATCH {
        (0..more).for_each(|_| call());
        calls += more;
        // The clock is read seldom, so that it does not count.
        more = (more * 2).min(256);
    }
    (processor_time() - start).as_nanos() as f64 / calls as f64
}

/// The time that this thread has had a processor: other work of the machine does not count.
fn processor_time() -> Duration {
    #[repr(C)]
    struct Timespec {
        seconds: i64,
        nanoseconds: i64,
    }
    const CLOCK_THREAD_CPUTIME_ID: i32 = 3;
    extern "C" {
        fn clock_gettime(clock: i32, time: *mut Timespec) -> i32;
    }
    let mut time = Timespec { seconds: 0, nanoseconds: 0 };
    // SAFETY: the C library of Linux on 64 bits, which the standard library links, writes one such struct.
    let status = unsafe { clock_gettime(CLOCK_THREAD_CPUTIME_ID, &mut time) };
    assert!(status == 0, "no clock of the thread's processor time");
    Duration::new(time.seconds as u64, time.nanoseconds as u32)
}

fn columns(whole: &Trial, quarter: Option<&Trial>) -> String {
    let growth = |time: f64, quarter: Option<f64>| match quarter {
        Some(quarter) => format!("{:.2}", time / quarter),
        None => "-".to_string(),
    };
    let Timed { beside, ours, by_hand } = whole.timed;
    let grows = growth(beside, quarter.map(|quarter| quarter.timed.beside));
    let what = match whole.request.is_in_rust() {
        true => "the Rust".to_string(),
        false => format!("our {}", call_beside(whole.request.call).name()),
    };
    let of_c = match (by_hand, ours) {
        (None, _) => String::new(),
        (Some(by_hand), None) => format!("; C by hand {by_hand:.0} ns"),
        (Some(by_hand), Some(ours)) => format!("; C by hand {by_hand:.0} ns, ours {:.2} of it", ours / by_hand),
    };
    let ours = match ours {
        None => "-".to_string(),
        Some(ours) => {
            let grows = growth(ours, quarter.and_then(|quarter| quarter.timed.ours));
            format!("{ours:.0} ns, growth {grows}, {:.2} of {what}", ours / beside)
        }
    };
    let (call, input) = (whole.request.call.name(), whole.sheet.len());
    let output = whole.answer.map_or_else(|number| format!("no {number}"), |length| length.to_string());
    let speed = input as f64 * 1_000.0 / beside;
    format!("{call:<24} {input:>6} {output:>6} {beside:>10.0} {speed:>8.1} {grows:>8}  {ours}{of_c}")
}
