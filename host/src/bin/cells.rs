//! Packs a file of cells into a file of bytes for any frame or weights, and back. `USAGE` says how.

use olsketina::{Answer, Layout, Weights};
use std::fmt::Display;
use std::{env, fs, process};

const USAGE: &str = "\
usage: cells pack frame W H C PRECISION LINE SURFACE START CELLS BYTES [OVER]
       cells pack weights K C R S PRECISION CELLS BYTES [OVER]
       cells unpack frame W H C PRECISION LINE SURFACE START BYTES CELLS
       cells unpack weights K C R S PRECISION BYTES CELLS

CELLS is a file of cells in raw order, two bytes each, the low one first; BYTES a file of packed bytes. Packing reads CELLS and writes BYTES:
as many bytes as are needed, 0 where the packing leaves them; or, with OVER, the bytes of that file, packed over. Unpacking reads BYTES and
writes CELLS. PRECISION is 0 (int8), 1 (int16) or 2 (fp16). A refusal is printed with its number and sentence, and nothing is written.
Ends with 0 where it was done, 1 where it was refused or a file failed, 2 where it was not called so.";

/// What is printed where the work was not done; none where it was not called as `USAGE` says.
type Failure = Option<String>;
const MISUSED: Failure = None;

fn failed(why: impl Display) -> Failure {
    Some(format!("cells: {why}"))
}

fn read(name: &str) -> Result<Vec<u8>, Failure> {
    fs::read(name).map_err(|error| failed(format!("{name}: {error}")))
}

/// So many zeros.
fn zeros<T: Copy + Default>(count: u64) -> Result<Vec<T>, Failure> {
    let mut all = Vec::new();
    let count = usize::try_from(count).unwrap_or(usize::MAX);
    all.try_reserve_exact(count).map_err(|_| failed(format!("no memory for {count} cells or bytes")))?;
    all.resize(count, T::default());
    Ok(all)
}

/// A setting of so many words, and the words after it.
fn setting<S: From<[u32; N]>, const N: usize>(words: &[String]) -> Result<(S, &[String]), Failure> {
    let (first, rest) = words.split_at_checked(N).ok_or(MISUSED)?;
    let parsed: Vec<u32> = first.iter().filter_map(|word| word.parse().ok()).collect();
    let words: [u32; N] = parsed.try_into().map_err(|_| MISUSED)?;
    Ok((words.into(), rest))
}

/// Packs or unpacks files by the functions of a setting that has so many cells and bytes.
fn convey<S>(
    way: &str, files: &[String], setting: S, sizes: Answer<(u64, u64)>, pack: fn(S, &[i16], &mut [u8]) -> Answer<()>,
    unpack: fn(S, &[u8], &mut [i16]) -> Answer<()>,
) -> Result<(), Failure> {
    let (count, length) = sizes.map_err(failed)?;
    let (to, made) = match (way, files) {
        ("pack", [from, to, over @ ..]) if over.len() <= 1 => {
            let bytes = read(from)?;
            if bytes.len() % 2 != 0 {
                return Err(failed(format!("{from}: {} bytes are no whole cells", bytes.len())));
            }
            let cells: Vec<i16> = bytes.chunks_exact(2).map(|pair| i16::from_le_bytes([pair[0], pair[1]])).collect();
            let mut packed = if let [over] = over { read(over)? } else { zeros(length)? };
            pack(setting, &cells, &mut packed).map_err(failed)?;
            (to, packed)
        }
        ("unpack", [from, to]) => {
            let mut cells: Vec<i16> = zeros(count)?;
            unpack(setting, &read(from)?, &mut cells).map_err(failed)?;
            (to, cells.into_iter().flat_map(i16::to_le_bytes).collect())
        }
        _ => return Err(MISUSED),
    };
    fs::write(to, made).map_err(|error| failed(format!("{to}: {error}")))
}

fn run(words: &[String]) -> Result<(), Failure> {
    let [way, kind, rest @ ..] = words else { return Err(MISUSED) };
    match kind.as_str() {
        "frame" => {
            let (layout, files) = setting::<Layout, 7>(rest)?;
            let cells = || [layout.width, layout.height, layout.channels].into_iter().map(u64::from).product();
            let sizes = layout.extent().map(|extent| (cells(), u64::from(layout.start) + extent));
            convey(way, files, layout, sizes, Layout::pack, Layout::unpack)
        }
        "weights" => {
            let (weights, files) = setting::<Weights, 5>(rest)?;
            let sizes = weights.count().and_then(|count| Ok((count, weights.extent()?)));
            convey(way, files, weights, sizes, Weights::pack, Weights::unpack)
        }
        _ => Err(MISUSED),
    }
}

fn main() {
    let words: Vec<String> = env::args().skip(1).collect();
    if let Err(failure) = run(&words) {
        eprintln!("{}", failure.as_deref().unwrap_or(USAGE));
        process::exit(if failure.is_some() { 1 } else { 2 });
    }
}
