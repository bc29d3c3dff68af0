//! Times the library's calls in one thread and prints markdown tables: beside the plain Rust loops of loops.rs and a memcpy of the same traffic.
//! docs/PERFORMANCE.md says how it is measured.

use std::cell::RefCell;
use std::hint::black_box;
use std::ops::Range;
use std::slice::from_ref;
use std::time::Instant;

use draw::Generator;
use olsketina::{raw, Answer, Atom, Conversion, Counters, Layout, Lookup, Mode, Slope, Table, TableSettings, Walk, Weights};

#[path = "../../tests/compare/draw.rs"]
#[allow(dead_code)]
mod draw;
mod loops;
#[path = "../../tests/compare/reference/mod.rs"]
#[allow(dead_code)]
mod reference;

// ---- measuring

extern "C" {
    /// Stores seconds and nanoseconds.
    fn clock_gettime(clock: i32, time: &mut [i64; 2]) -> i32;
}

/// Nanoseconds that this thread has been running: time in which another program had the processor does not count.
fn thread_time() -> f64 {
    const CLOCK_THREAD_CPUTIME_ID: i32 = 3;
    let mut time = [0; 2];
    assert_eq!(unsafe { clock_gettime(CLOCK_THREAD_CPUTIME_ID, &mut time) }, 0, "no thread clock");
    (1_000_000_000 * time[0] + time[1]) as f64
}

/// What a job gives beside its output.
#[derive(Clone, Copy, PartialEq)]
enum Gives {
    Nothing,
    /// A lookup's samples of each kind.
    Kinds(Counters),
    /// How many components of a painting were held.
    Held(u64),
    /// How many padding bytes were not 0.
    Mended(usize),
}
use Gives::{Held, Kinds, Mended, Nothing};

/// Nanoseconds of the best run and of the median one.
type Times = [f64; 2];

/// Of runs, each with the nanoseconds of the thread and those that passed. Where a run is interrupted, the thread's clock may miss some
/// microseconds of it: such runs do not count, unless they are more than half.
fn times(runs: &[[f64; 2]]) -> Times {
    let whole = |[thread, passed]: &[f64; 2]| *passed <= 1.05 * thread;
    let few = 2 * runs.iter().filter(|run| whole(run)).count() < runs.len();
    let mut times: Vec<f64> = runs.iter().filter(|run| few || whole(run)).map(|run| run[0]).collect();
    times.sort_by(f64::total_cmp);
    [times[0], times[times.len() / 2]]
}

#[derive(Clone, Copy)]
enum Step {
    /// Write zeros where the job writes.
    Clear,
    Run,
}
use Step::{Clear, Run};

/// The tables: their titles, and the untimed steps before each timed run.
const TABLES: [(&str, &[Step]); 3] = [
    ("In turn; buffers: not cleared between repetitions. The bars are judged here.", &[]),
    ("In turn; buffers: cleared before each run (zeros written, not timed).", &[Clear]),
    ("Each after three untimed runs of its own, so that its data are in the caches as far as they fit; buffers: not cleared.", &[Run; 3]),
];

/// One of those that are timed, with buffers of its own: no other brings its data into the caches.
type Contender<'a> = Box<dyn FnMut(Step) + 'a>;

/// The contenders, in the order of the tables' columns; those of walks.
const NAMES: [&str; 3] = ["ours", "Rust loop", "memcpy"];
const WALKS: [&str; 3] = ["walk", "Rust loop", "pack"];
const RUST_LOOP: usize = 1;
const MEMCPY: usize = 2;

/// Buffers begin at a page, so that those of all contenders lie alike: a copy of the contents, after some elements.
fn at_page<T: Copy>(contents: &[T]) -> (Vec<T>, usize) {
    const PAGE: usize = 4096;
    let mut room = vec![contents[0]; contents.len() + PAGE];
    let first = room.as_ptr().align_offset(PAGE);
    room[first..first + contents.len()].copy_from_slice(contents);
    room.truncate(first + contents.len());
    (room, first)
}

fn contender<'a, I: Copy + 'a, O: Copy + Default + 'a>(
    input: &[I], output: &[O], written: &'a [Range<usize>], run: impl Fn(&[I], &mut [O]) -> Answer<Gives> + 'a,
) -> Contender<'a> {
    let ((input, from), (mut output, to)) = (at_page(input), at_page(output));
    Box::new(move |step| {
        let output = &mut output[to..];
        match step {
            Clear => written.iter().for_each(|part| output[part.clone()].fill(O::default())),
            Run => _ = black_box(run(black_box(&input[from..]), black_box(output)).expect("accepted")),
        }
    })
}

/// In each repetition the contenders run in turn, each after the untimed steps `before`.
fn interleave(repetitions: usize, before: &[Step], contenders: &mut [Contender; 3]) -> [Times; 3] {
    const WARM_UP: usize = 3;
    // What reading the clock adds to a measured time.
    let cost = (0..1000).map(|_| -thread_time() + thread_time()).fold(f64::MAX, f64::min);
    let mut runs = [const { Vec::new() }; 3];
    for _ in 0..WARM_UP + repetitions {
        for (contender, runs) in contenders.iter_mut().zip(&mut runs) {
            before.iter().for_each(|&step| contender(step));
            let (begun, begin) = (Instant::now(), thread_time());
            contender(Run);
            let thread = thread_time() - begin - cost;
            let passed = begun.elapsed().as_nanos() as f64 - 2.0 * cost;
            runs.push([thread, passed]);
        }
    }
    runs.map(|runs| times(&runs[WARM_UP..]))
}

struct Row {
    name: String,
    cells: usize,
    gives: Gives,
    /// Of each table, in the order of NAMES.
    times: [[Times; 3]; 3],
    /// What our time may be at most: a multiple of another's.
    bar: Option<(f64, usize)>,
}

/// Compares what calls give and leave, of which the first is the library's and the second the Rust loop's.
fn compared<const N: usize, I: Copy, O: Copy + PartialEq>(
    name: &str, input: &[I], output: &[O], calls: &[impl Fn(&[I], &mut [O]) -> Answer<Gives>; N],
) -> Gives {
    eprintln!("{name}");
    let results = calls.each_ref().map(|call| {
        let mut left = output.to_vec();
        (call(input, &mut left).expect("accepted"), left)
    });
    assert!(results.iter().all(|result| *result == results[1]), "{name}: the library differs from the Rust loop");
    results[0].0
}

fn timed(name: &str, repetitions: usize, cells: usize, gives: Gives, mut contenders: [Contender; 3]) -> Row {
    let times = TABLES.map(|(_, before)| interleave(repetitions, before, &mut contenders));
    Row { name: name.to_string(), cells, gives, times, bar: None }
}

/// Compares what two calls, the library's and the Rust loop's, give and leave; then times them and a memcpy. The time is divided by `cells`;
/// the calls write these parts of the output, and what it holds before shows what they leave.
fn measure<I: Copy, O: Copy + Default + PartialEq>(
    name: &str, repetitions: usize, cells: usize, input: &[I], output: &[O], written: &[Range<usize>],
    calls: [impl Fn(&[I], &mut [O]) -> Answer<Gives>; 2],
) -> Row {
    let gives = compared(name, input, output, &calls);
    let half = (size_of_val(input) + written.iter().map(Range::len).sum::<usize>() * size_of::<O>()) / 2;
    let all = 0..half;
    let [ours, plain] = calls.map(|call| contender(input, output, written, call));
    let copy = contender(&vec![1; half], &vec![2; half], from_ref(&all), |source: &[u8], target: &mut [u8]| {
        target.copy_from_slice(source);
        Ok(Nothing)
    });
    timed(name, repetitions, cells, gives, [ours, plain, copy])
}

// ---- the jobs: for each, the library's call and the Rust loop

const SEED: u64 = 1;
const LEFT: u8 = 0xee;

/// A setting with the elements and bytes that it packs.
type Packed<S> = (S, Vec<i16>, Vec<u8>);

/// Of a precision, so many elements and bytes.
fn packed<S>(setting: S, precision: u32, cells: usize, bytes: usize) -> Packed<S> {
    (setting, Generator::new(SEED).elements(precision, cells), Generator::new(SEED).bytes(bytes))
}

/// Width, height, channels, precision.
fn cube([width, height, channels, precision]: [u32; 4]) -> Packed<Layout> {
    let layout = draw::dense(width, height, channels, precision);
    packed(layout, precision, draw::element_count(layout), draw::buffer_length(layout))
}

/// Kernels, channels, rows, columns, precision.
fn weights(words: [u32; 5]) -> Packed<Weights> {
    let weights = Weights::from(words);
    let [cells, bytes] = [weights.count(), weights.extent()].map(|answer| answer.expect("accepted") as usize);
    packed(weights, weights.precision, cells, bytes)
}

type Call<S, I, O> = fn(S, &[I], &mut [O]) -> Answer<()>;

/// A job that writes its whole output.
fn convey<S: Copy, I: Copy, O: Copy + Default + PartialEq>(
    name: &str, repetitions: usize, cells: usize, setting: S, input: &[I], output: &[O], calls: [Call<S, I, O>; 2],
) -> Row {
    let calls = calls.map(|call| move |from: &[I], to: &mut [O]| call(black_box(setting), from, to).map(|()| Nothing));
    measure(name, repetitions, cells, input, output, from_ref(&(0..output.len())), calls)
}

fn pack<S: Copy>(name: &str, repetitions: usize, (setting, elements, bytes): Packed<S>, calls: [Call<S, i16, u8>; 2]) -> Row {
    convey(name, repetitions, elements.len(), setting, &elements, &vec![LEFT; bytes.len()], calls)
}

fn unpack<S: Copy>(name: &str, repetitions: usize, (setting, elements, bytes): Packed<S>, calls: [Call<S, u8, i16>; 2]) -> Row {
    convey(name, repetitions, elements.len(), setting, &bytes, &vec![0; elements.len()], calls)
}

/// A start and all steps, each atom stored at its position.
fn walked(layout: Layout, elements: &[i16], buffer: &mut [u8]) -> Answer<()> {
    let mut walk = Walk::start(layout, elements, buffer.len())?;
    while let Some(atom) = walk.step(elements) {
        buffer[atom.position as usize..][..Atom::BYTES].copy_from_slice(&atom.bytes);
    }
    Ok(())
}

/// A walk beside a Rust loop in the same order and beside packing; a cell is an atom.
fn walk(name: &str, words: [u32; 4]) -> Row {
    let (layout, elements, bytes) = cube(words);
    let calls = [walked, loops::scan, Layout::pack]
        .map(|call: Call<Layout, i16, u8>| move |from: &[i16], to: &mut [u8]| call(black_box(layout), from, to).map(|()| Nothing));
    let (output, all) = (vec![LEFT; bytes.len()], 0..bytes.len());
    let gives = compared(name, &elements, &output, &calls);
    timed(name, 41, bytes.len() / Atom::BYTES, gives, calls.map(|call| contender(&elements, &output, from_ref(&all), call)))
}

/// The channels of 640×480 and of 1024×64 lie whole pages apart, so that those of an atom meet in the caches; those of 641×480 do not.
fn walks() -> [Row; 4] {
    [
        walk("walk 640×480×32 int8", [640, 480, 32, 0]),
        walk("walk 641×480×32 int8", [641, 480, 32, 0]),
        walk("walk 640×480×3 int8", [640, 480, 3, 0]),
        walk("walk 1024×64×64 int16", [1024, 64, 64, 1]),
    ]
}

const SLOT: u32 = 5;
const ID: u32 = 1;

/// The lines of 64×64 atoms from this column and row on, in every surface; all channels fill their atoms.
fn lines(layout: Layout, [column, row]: [u32; 2], bytes: usize) -> Vec<Range<usize>> {
    let corner = row * layout.line + 32 * column;
    let surfaces = (corner as usize..bytes).step_by(layout.surface as usize);
    surfaces.flat_map(|at| (at..).step_by(layout.line as usize).take(64).map(|at| at..at + 32 * 64)).collect()
}

/// A box of 64×64 over all channels, in a region of 128×128.
fn edit(name: &str, words: [u32; 4]) -> Row {
    let (layout, elements, bytes) = cube(words);
    let mut table = Table::empty(layout);
    table.place(SLOT, ID, [96, 80, 128, 128].into()).expect("accepted");
    let part = [0, 24, 40, layout.channels, 64, 64].into();
    let cells = draw::product(&[layout.channels, 64, 64]);
    let calls = [Table::edit, loops::edit]
        .map(|call| move |from: &[i16], to: &mut [u8]| call(black_box(&table), SLOT, ID, black_box(part), from, to).map(|()| Nothing));
    let written = lines(layout, [96 + 40, 80 + 24], bytes.len());
    measure(name, 1001, cells, &elements[..cells], &vec![LEFT; bytes.len()], &written, calls)
}

/// A region of 64×64, released from a copy of its table; one byte stands for the input that there is not.
fn release(name: &str, words: [u32; 4]) -> Row {
    let (layout, _, bytes) = cube(words);
    let mut table = Table::empty(layout);
    table.place(SLOT, ID, [96, 80, 64, 64].into()).expect("accepted");
    let cells = draw::product(&[layout.channels, 64, 64]);
    let calls = [Table::release, loops::release].map(|call| {
        move |_: &[u8], to: &mut [u8]| {
            let mut table = *black_box(&table);
            let answer = call(&mut table, SLOT, ID, to).map(|()| Nothing);
            black_box(&table);
            answer
        }
    });
    measure(name, 1001, cells, &[0], &vec![LEFT; bytes.len()], &lines(layout, [96, 80], bytes.len()), calls)
}

/// A picture of a format, painted into a region that is its whole cube, of a precision.
fn paint(name: &str, repetitions: usize, [format, width, height, precision]: [u32; 4], shift: u32) -> Row {
    let [_, pixel, ..] = reference::pixels::format(format).expect("a format");
    let image = draw::image(format, width, height, 0, 0, width * pixel);
    let layout = draw::dense(width, height, image.channels, precision);
    let mut table = Table::empty(layout);
    table.place(SLOT, ID, [0, 0, width, height].into()).expect("accepted");
    let conversion = Conversion { offset: 100, scale: 3, shift };
    let pixels = Generator::new(SEED).bytes(draw::pixel_length(image));
    let cells = draw::element_count(layout);
    let calls = [Table::paint, loops::paint].map(|call| {
        move |from: &[u8], to: &mut [u8]| call(black_box(&table), SLOT, ID, black_box(image), black_box(conversion), from, to).map(Held)
    });
    let (bytes, written) = (draw::buffer_length(layout), (image.channels * (1 + precision)) as usize);
    let written: Vec<Range<usize>> = (0..bytes).step_by(32).map(|atom| atom..atom + written).collect();
    measure(name, repetitions, cells, &pixels, &vec![LEFT; bytes], &written, calls)
}

/// A packed cube in parts of 64 KiB, mended; a cell is a byte. Its padding is clean; or one byte in `dirty`, on average, of each is dirty, and each
/// part is copied before it is mended, so that it is dirty each time.
fn mend(name: &str, repetitions: usize, words: [u32; 4], dirty: Option<u64>) -> Row {
    const PART: usize = 1 << 16;
    let (layout, elements, mut file) = cube(words);
    layout.pack(&elements, &mut file).expect("accepted");
    let (length, mut generator) = (file.len(), Generator::new(SEED));
    let calls = [Layout::mend, loops::mend].map(|call| {
        let places = RefCell::new((vec![0; PART], vec![0; PART]));
        move |from: &[u8], to: &mut [u8]| {
            let (positions, olds) = &mut *places.borrow_mut();
            let mut mended = 0;
            for (part, first) in to.chunks_mut(PART).zip((0..).step_by(PART)) {
                if dirty.is_some() {
                    part.copy_from_slice(&from[first..first + part.len()]);
                }
                mended += call(black_box(layout), first as u64, length as u64, part, positions, olds)?;
            }
            Ok(Mended(mended))
        }
    });
    let Some(dirty) = dirty else {
        return measure(name, repetitions, length, &[0], &file, from_ref(&(0..length)), calls);
    };
    file.iter_mut().for_each(|byte| *byte |= if generator.one_in(dirty) { 1 } else { 0 });
    measure(name, repetitions, length, &file, &vec![LEFT; length], from_ref(&(0..length)), calls)
}

fn mends() -> [Row; 4] {
    [
        mend("mend 640×480×3 int8, clean", 41, [640, 480, 3, 0], None),
        mend("mend 640×480×40 int8, clean", 41, [640, 480, 40, 0], None),
        mend("copy and mend 640×480×3 int8, one byte in 600 dirty", 41, [640, 480, 3, 0], Some(600)),
        mend("copy and mend 640×480×3 int8, every byte dirty", 41, [640, 480, 3, 0], Some(1)),
    ]
}

/// The entries of the Y curve, a hundred times; a cell is a whole table. One byte stands for the input that there is not.
fn curve(name: &str) -> Row {
    const TABLES: usize = 100;
    let ours = |entries: &mut [i16; 257]| unsafe { raw::olsketina_camera_y_table(entries) };
    let calls = [ours, loops::curve].map(|call| {
        move |_: &[u8], to: &mut [i16]| {
            to.chunks_exact_mut(257).for_each(|entries| call(entries.try_into().expect("257 entries")));
            Ok(Nothing)
        }
    });
    let count = 257 * TABLES;
    measure(name, 1001, TABLES, &[0], &vec![-1; count], from_ref(&(0..count)), calls)
}

/// Y of 256 steps of 16 from `y_start`; Priority X, OverflowPriority X, UnderflowPriority Y.
fn settings(mode: Mode, select: i32, start: i32, end: i32, y_start: i32) -> Lookup {
    let slope = |scale, shift| Slope { scale, shift };
    let x = TableSettings { select, start, end, below: slope(3, 1), above: slope(-5, 0) };
    let y = TableSettings { select: 4, start: y_start, end: y_start + 4096, below: slope(7, -2), above: slope(2, 4) };
    Lookup { mode, x, y, priority: false, overflow: false, underflow: true }
}

/// A call for each `run` samples. A cell is a sample where one call takes all, else a run.
fn lookup(name: &str, l: &Lookup, samples: &[i32], run: usize) -> Row {
    let [x, y] = [(SEED, 65), (SEED + 1, 257)].map(|(seed, count)| at_page(&Generator::new(seed).any_elements(count)));
    let (xs, ys) = (&x.0[x.1..], &y.0[y.1..]);
    let count = samples.len();
    let calls = [Lookup::run, loops::lookup].map(|call| {
        move |samples: &[i32], outputs: &mut [i32]| {
            let mut kinds = [0; 5];
            let mut runs = samples.chunks(run).zip(outputs.chunks_mut(run));
            runs.try_for_each(|(from, to)| call(black_box(l), xs, ys, from, to, &mut kinds)).map(|()| Kinds(kinds))
        }
    });
    measure(name, 31, if run == count { count } else { count / run }, samples, &vec![-1; count], from_ref(&(0..count)), calls)
}

// ---- the tables

fn print_table(title: &str, names: [&str; 3], rows: &[Row], number: usize) {
    let [ours, others @ ..] = names;
    let columns = names.map(|name| format!(" {name}, ns per cell |")).concat() + &others.map(|name| format!(" {ours} / {name} |")).concat();
    println!("\n{title}\n\n| workload | cells |{columns} bar | result |\n|---|---:|{}---:|---|", "---:|".repeat(5));
    for Row { name, cells, times, bar, .. } in rows {
        print!("| {name} | {cells} |");
        let times = times[number];
        let print = |times: Times, by: Times| print!(" {:.3} ({:.3}) |", times[0] / by[0], times[1] / by[1]);
        times.iter().for_each(|&each| print(each, [*cells as f64; 2]));
        times[1..].iter().for_each(|&other| print(times[0], other));
        let judged = bar.map(|(most, other)| {
            let met = times[0].iter().zip(times[other]).all(|(ours, other)| ours / other <= most);
            format!("{most:.2} × {} | {}", names[other], if met { "met" } else { "missed" })
        });
        println!(" {} |", judged.unwrap_or(" | ".to_string()));
    }
}

const EXPLAINED: &str = "\
One thread, timed by its own running time; release builds; every result was compared with the Rust loop's before timing.
Figures are the best repetition, in brackets the median. A bar is met where both ratios meet it. Interrupted runs do not count, unless
they are more than half. Of lookups in runs of 1 and 64 samples a cell is a run; of the curve a cell is a whole table, of walks an atom, of
mending a byte.

Painting: (d - 100) * 3 over 2^shift to the nearest, shift 2 for int8 and 8 for int16, which holds no component; 1 where a third of them
are held.

Lookup settings: slopes (scale, shift) X below (3, 1), X above (-5, 0), Y below (7, -2), Y above (2, 4);
Priority X, OverflowPriority X, UnderflowPriority Y; table entries drawn from all 16-bit numbers.
- linear: X select 6, 0 to 4096; Y select 4, 2048 to 6144; samples -2048 to 8191
- exponential: X offset 3, start 2048; Y select 4, 0 to 4096; samples -2048 to 6143 (no sample can overflow an exponential X)

Samples of each kind (X only, Y only, underflow, overflow, priority):";

/// The curve that is linked.
const CURVE: &str = if cfg!(feature = "computed-curve") { "curve of 257 entries, computed" } else { "curve of 257 entries, stored" };

/// How many padding bytes each row mends.
fn print_mended(rows: &[Row]) {
    println!("\nPadding bytes that were mended:");
    for row in rows {
        if let Mended(count) = row.gives {
            println!("- {}: {count} of {} bytes", row.name, row.cells);
        }
    }
}

/// With the word `curve`, the curve alone; with `walk`, the walks; with `mend`, mending.
fn main() {
    if std::env::args().any(|word| word == "curve") {
        return print_table("The curve alone.", NAMES, &[curve(CURVE)], 0);
    }
    if std::env::args().any(|word| word == "walk") {
        let walks = walks();
        return TABLES.iter().enumerate().for_each(|(number, (title, _))| print_table(title, WALKS, &walks, number));
    }
    if std::env::args().any(|word| word == "mend") {
        let mends = mends();
        print_mended(&mends);
        return TABLES.iter().enumerate().for_each(|(number, (title, _))| print_table(title, NAMES, &mends, number));
    }
    const ALL: usize = 1_000_000;
    const FEW: usize = 64_000;
    const LOW: i32 = -2048;
    let at_most = |most, other, row| Row { bar: Some((most, other)), ..row };
    let pack_cube = |name, of| pack(name, 41, cube(of), [Layout::pack, loops::pack]);
    let unpack_cube = |name, of| unpack(name, 41, cube(of), [Layout::unpack, loops::unpack]);
    let pack_weights = |name, words| pack(name, 1001, weights(words), [Weights::pack, loops::pack_weights]);
    let unpack_weights = |name, words| unpack(name, 1001, weights(words), [Weights::unpack, loops::unpack_weights]);
    let mut rows = vec![
        at_most(3.0, MEMCPY, pack_cube("pack 640×480×32 int8", [640, 480, 32, 0])),
        pack_cube("pack 640×480×12 int8", [640, 480, 12, 0]),
        pack_cube("pack 640×480×4 int8", [640, 480, 4, 0]),
        at_most(2.2, MEMCPY, pack_cube("pack 640×480×3 int8", [640, 480, 3, 0])),
        at_most(2.5, MEMCPY, pack_cube("pack 1024×64×64 int16", [1024, 64, 64, 1])),
        pack_cube("pack 1024×64×64 fp16", [1024, 64, 64, 2]),
        at_most(3.0, MEMCPY, unpack_cube("unpack 640×480×32 int8", [640, 480, 32, 0])),
        unpack_cube("unpack 1024×64×64 int16", [1024, 64, 64, 1]),
        at_most(6.0, MEMCPY, edit("edit 64×64 over 32 channels int8", [640, 480, 32, 0])),
        edit("edit 64×64 over 32 channels int16", [640, 480, 32, 1]),
        edit("edit 64×64 over 32 channels fp16", [640, 480, 32, 2]),
        release("release 64×64 over 32 channels int8", [640, 480, 32, 0]),
        release("release 64×64 over 32 channels int16", [640, 480, 32, 1]),
        paint("paint 64×48 T_A8B8G8R8 int8", 1001, [12, 64, 48, 0], 2),
        at_most(1.2, RUST_LOOP, paint("paint 640×480 T_A8B8G8R8 int8", 41, [12, 640, 480, 0], 2)),
        at_most(1.2, RUST_LOOP, paint("paint 640×480 T_A8B8G8R8 int8, a third held", 41, [12, 640, 480, 0], 1)),
        paint("paint 640×480 T_A16B16G16R16 int16", 41, [6, 640, 480, 1], 8),
        at_most(9.0, MEMCPY, pack_weights("weights 256×256×3×3 int8", [256, 256, 3, 3, 0])),
        pack_weights("weights 256×256×3×3 int16", [256, 256, 3, 3, 1]),
        pack_weights("weights 256×256×3×3 fp16", [256, 256, 3, 3, 2]),
        pack_weights("weights 256×256×1×1 int8", [256, 256, 1, 1, 0]),
        unpack_weights("unpack weights 256×256×3×3 int8", [256, 256, 3, 3, 0]),
        unpack_weights("unpack weights 256×256×1×1 int8", [256, 256, 1, 1, 0]),
    ];
    let linear = settings(Mode::Linear, 6, 0, 4096, 2048);
    let exponential = settings(Mode::Exponential, 3, 2048, i32::MAX, 0);
    for (mode, s, high) in [("linear", linear, 8191), ("exponential", exponential, 6143)] {
        let mut generator = Generator::new(SEED);
        let random: Vec<i32> = (0..ALL).map(|_| generator.between(LOW.into(), high.into()) as i32).collect();
        let rising: Vec<i32> = (0..ALL).map(|i| LOW + (i * (high - LOW + 1) as usize / ALL) as i32).collect();
        let name = |rest| format!("lookup {mode}, {rest}");
        rows.push(lookup(&name("random, runs of 1"), &s, &random[..FEW], 1));
        rows.push(lookup(&name("random, runs of 64"), &s, &random[..FEW], 64));
        rows.push(at_most(1.5, RUST_LOOP, lookup(&name("random"), &s, &random, ALL)));
        rows.push(at_most(1.5, RUST_LOOP, lookup(&name("rising"), &s, &rising, ALL)));
    }
    rows.push(curve(CURVE));
    rows.extend(mends());
    let walks = walks();
    println!("{EXPLAINED}");
    for row in &rows {
        if let Kinds(kinds) = row.gives {
            println!("- {}: {kinds:?}", row.name);
        }
    }
    println!("\nComponents of a painting that were held:");
    for row in &rows {
        if let Held(count) = row.gives {
            println!("- {}: {count} of {}", row.name, row.cells);
        }
    }
    print_mended(&rows);
    for (number, (title, _)) in TABLES.iter().enumerate() {
        print_table(title, NAMES, &rows, number);
        print_table("Atoms in scan order, timed in the same way.", WALKS, &walks, number);
    }
}
