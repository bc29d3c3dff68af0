//! Times the mending program (target/bin/mend) on a file of 64 MiB, beside a program that reads the file twice and writes it once, in parts of 64 KiB,
//! and mends nothing: this one, called with the word `copy`. Prints a markdown table; docs/PERFORMANCE.md says how it is measured.

use std::collections::BTreeMap;
use std::env;
use std::error::Error;
use std::fs::{self, File};
use std::io::{self, Read, Seek, Write};
use std::path::{Path, PathBuf};
use std::process::{Command, Stdio};
use std::time::Instant;

use draw::Generator;
use olsketina::Layout;

#[path = "../../tests/compare/draw.rs"]
#[allow(dead_code)]
mod draw;
#[path = "../../tests/compare/reference/mod.rs"]
#[allow(dead_code)]
mod reference;

/// The program that is compared with: reads a file to its end, then once more, and writes it.
fn copy(from: &str, to: &str) -> io::Result<()> {
    let (mut file, mut part) = (File::open(from)?, vec![0; 1 << 16]);
    while file.read(&mut part)? > 0 {}
    file.rewind()?;
    let mut copy = File::create(to)?;
    loop {
        match file.read(&mut part)? {
            0 => return Ok(()),
            bytes => copy.write_all(&part[..bytes])?,
        }
    }
}

/// 2,048 columns, 1,024 rows and three channels of int8 without gaps: 64 MiB.
const FRAME: [u32; 7] = [2048, 1024, 3, 0, 65536, 1 << 26, 0];
const DIRTY: usize = 100_000;
const RUNS: usize = 5;
/// What the clean file's median may be at most, of the other program's.
const BAR: f64 = 2.0;

extern "C" {
    /// Stores seconds and microseconds of the user and of the system, then fourteen numbers.
    fn getrusage(who: i32, usage: &mut [i64; 18]) -> i32;
}

/// Milliseconds of processors that the programs which ended have taken.
fn processor() -> f64 {
    const RUSAGE_CHILDREN: i32 = -1;
    let mut usage = [0; 18];
    assert_eq!(unsafe { getrusage(RUSAGE_CHILDREN, &mut usage) }, 0, "no times");
    ((usage[0] + usage[2]) * 1_000_000 + usage[1] + usage[3]) as f64 / 1e3
}

/// A program with its input, the file that it writes, and what it must print and write.
struct Job<'a> {
    name: &'a str,
    program: PathBuf,
    words: Vec<&'a str>,
    input: String,
    written: PathBuf,
    prints: &'a [u8],
    writes: &'a [u8],
    /// Milliseconds that passed, and those of processors.
    times: Vec<[f64; 2]>,
}

impl Job<'_> {
    /// Runs it once, its file not there before; says what is wrong.
    fn run(&mut self, folder: &Path) -> Result<(), Box<dyn Error>> {
        if self.written.exists() {
            fs::remove_file(&self.written)?;
        }
        let used = processor();
        let begun = Instant::now();
        let mut command = Command::new(&self.program);
        let mut child = command.args(&self.words).current_dir(folder).stdin(Stdio::piped()).stdout(Stdio::piped()).spawn()?;
        child.stdin.take().ok_or("no input")?.write_all(self.input.as_bytes())?;
        let output = child.wait_with_output()?;
        self.times.push([begun.elapsed().as_secs_f64() * 1e3, processor() - used]);
        if !output.status.success() || output.stdout != self.prints || fs::read(&self.written)? != self.writes {
            let printed = String::from_utf8_lossy(&output.stdout[..output.stdout.len().min(100)]).into_owned();
            return Err(format!("{}: {}, or not what it must print or write; it printed {printed:?}", self.name, output.status).into());
        }
        Ok(())
    }

    /// The median, of the times that passed and of processors.
    fn median(&self) -> [f64; 2] {
        [0, 1].map(|kind| {
            let mut times: Vec<f64> = self.times.iter().map(|times| times[kind]).collect();
            times.sort_by(f64::total_cmp);
            times[times.len() / 2]
        })
    }
}

/// Old values at padding bytes of the frame, by their positions.
fn dirt(generator: &mut Generator) -> BTreeMap<usize, u8> {
    let mut dirt = BTreeMap::new();
    while dirt.len() < DIRTY {
        let atom = generator.index(FRAME[5] as usize / 32);
        dirt.insert(32 * atom + generator.among(3, 31) as usize, generator.among(1, 255) as u8);
    }
    dirt
}

fn measure(program: PathBuf, folder: &Path) -> Result<(), Box<dyn Error>> {
    let (layout, mut generator) = (Layout::from(FRAME), Generator::new(1));
    let mut clean = vec![0; FRAME[5] as usize];
    layout.pack(&generator.elements(0, draw::element_count(layout)), &mut clean)?;
    let (mut dirty, mut report) = (clean.clone(), String::from("position\told\n"));
    let header = report.clone();
    for (at, old) in dirt(&mut generator) {
        dirty[at] = old;
        report += &format!("{at}\t{old}\n");
    }
    fs::create_dir_all(folder)?;
    fs::write(folder.join("clean"), &clean)?;
    fs::write(folder.join("dirty"), &dirty)?;

    let frame = FRAME.map(|word| word.to_string()).join("\t");
    let [from_clean, from_dirty] = ["clean", "dirty"].map(|name| format!("frame\t{frame}\n{name}\nmended\n"));
    let job = |name, input, prints| Job {
        name,
        program: program.clone(),
        words: vec![],
        input,
        written: folder.join("mended"),
        prints,
        writes: &clean,
        times: vec![],
    };
    let mut jobs = [
        job("mend, clean padding", from_clean, header.as_bytes()),
        job("mend, 100,000 padding bytes dirty", from_dirty, report.as_bytes()),
        Job {
            program: env::current_exe()?,
            words: vec!["copy", "clean", "copied"],
            written: folder.join("copied"),
            ..job("read twice and written once", String::new(), b"")
        },
    ];
    // One run of each first, so that the files are in the cache; then in turn.
    for run in 0..=RUNS {
        for job in &mut jobs {
            job.run(folder)?;
            if run == 0 {
                job.times.clear();
            }
        }
    }
    for name in ["clean", "dirty", "mended", "copied"] {
        fs::remove_file(folder.join(name))?;
    }

    println!("64 MiB, int8, three channels: frame {}, in {}.\n", FRAME.map(|word| word.to_string()).join(" "), folder.display());
    println!("| program | median of {RUNS}, ms | of processors, ms | all runs, ms | to the last row | bar | result |\n|---|---:|---:|---|---:|---:|---|");
    let other = jobs[2].median();
    for (at, job) in jobs.iter().enumerate() {
        let [passed, used] = job.median();
        let all: Vec<String> = job.times.iter().map(|times| format!("{:.1}", times[0])).collect();
        let bar =
            if at == 0 { format!("{BAR:.2} | {}", if passed <= BAR * other[0] { "met" } else { "missed" }) } else { " | ".to_string() };
        println!("| {} | {passed:.1} | {used:.1} | {} | {:.2} | {bar} |", job.name, all.join(", "), passed / other[0]);
    }
    Ok(())
}

/// Without words that cargo gives: nothing, or a folder for the files; or `copy` and two names.
fn main() -> Result<(), Box<dyn Error>> {
    let words: Vec<String> = env::args().skip(1).filter(|word| word != "--bench").collect();
    match words.iter().map(String::as_str).collect::<Vec<_>>()[..] {
        ["copy", from, to] => Ok(copy(from, to)?),
        [] => measured(&PathBuf::from(env!("CARGO_TARGET_TMPDIR")).join("mend")),
        [folder] => measured(Path::new(folder)),
        _ => Err("usage: mend [FOLDER], or mend copy FROM TO".into()),
    }
}

fn measured(folder: &Path) -> Result<(), Box<dyn Error>> {
    let program = Path::new(env!("CARGO_MANIFEST_DIR")).join("../target/bin/mend");
    if !program.exists() {
        return Err(format!("{} is missing: run `tools/build mend` in the repository's folder", program.display()).into());
    }
    measure(program.canonicalize()?, folder)
}
