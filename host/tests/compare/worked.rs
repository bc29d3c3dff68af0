//! The scope paper's worked cases, its sheet and the change requests' cases, through the library alone.

use olsketina::{
    camera, convert, header_text, Answer, Atom, Choice, Conversion, Converted, Counters, Image, Layout, Lookup, Mode, Refusal, Sheet,
    Slope, Table, TableSettings, Walk, Weights,
};

fn refused<T>(number: u32) -> Answer<T> {
    Err(Refusal { number, fault: 0 })
}

#[test]
fn cubes() {
    let frame = Layout::from([3, 2, 40, 0, 128, 256, 0]);
    assert_eq!(frame.position(33, 1, 2), Ok(449));
    assert_eq!(frame.pack(&[1; 240], &mut [0; 480]), Ok(()));
    assert_eq!(frame.pack(&[1; 240], &mut [0; 479]), refused(5));
    assert_eq!(frame.pack(&[], &mut []), refused(6));
    assert_eq!(Layout { surface: 224, ..frame }.check(), Ok(()));
    assert_eq!(Layout { surface: 192, ..frame }.check(), refused(3));

    let mut buffer = [9; 32];
    assert_eq!(Layout::from([1, 1, 1, 1, 32, 32, 0]).pack(&[-2], &mut buffer), Ok(()));
    assert_eq!(buffer[..3], [0xfe, 0xff, 0]);
    let extent = |channels| Layout::from([1, 1, channels, 1, 32, 32, 0]).extent();
    assert_eq!([extent(16), extent(17)], [Ok(32), Ok(64)]);
}

/// The paper's frame, walked; a walk or elements of another kind.
#[test]
fn atoms() {
    let frame = Layout::from([3, 2, 40, 0, 128, 256, 0]);
    let elements: Vec<i16> = (0..240).map(|i| i % 120).collect();
    let mut walk = Walk::start(frame, &elements, 480).expect("accepted");
    let given: Vec<Atom> = walk.atoms(&elements).collect();
    let positions: Vec<u64> = given.iter().map(|atom| atom.position).collect();
    assert_eq!(positions, [0, 32, 64, 128, 160, 192, 256, 288, 320, 384, 416, 448]);
    // Channel c of row h and column w is (6c + 3h + w) mod 120: the last atom has channels 32 to 39 of (1, 2), then padding.
    assert_eq!(given[1].bytes[..4], [1, 7, 13, 19]);
    assert_eq!(given[11].bytes, [[77, 83, 89, 95, 101, 107, 113, 119].as_slice(), &[0; 24]].concat()[..]);
    assert_eq!(Walk::start(frame, &elements, 479), refused(5));
    assert_eq!(Walk::start(frame, &elements, usize::MAX), Ok(walk));
    assert_eq!(Walk::start(frame, &[], 0), refused(6));
    assert_eq!(Walk::start(frame, &[&elements[..239], &[128]].concat(), 480), Err(Refusal { number: 7, fault: 239 }));

    // A missing element is 0.
    assert_eq!(walk.step(&[9]), Some(Atom { position: 0, bytes: std::array::from_fn(|at| if at == 0 { 9 } else { 0 }) }));
    // A sum past 64 bits: none is left, and the walk stays.
    let mut words = *walk.words();
    words[0] = u64::MAX - 31;
    let mut far = Walk::from_words(words);
    assert_eq!((far.step(&elements), far), (None, Walk::from_words(words)));
    words[0] -= 1;
    assert_eq!(Walk::from_words(words).step(&elements).map(|atom| atom.position), Some(u64::MAX - 32));
}

/// Change request K8: the paper's frame with dirt in its padding, beside it in cells and gaps, and behind it; a 16-bit frame.
#[test]
fn padding() {
    let mend = |words: [u32; 7], [first, length]: [u64; 2], part: &mut [u8]| -> Answer<Vec<(u64, u8)>> {
        let (mut positions, mut olds) = (vec![0; part.len()], vec![0; part.len()]);
        let count = Layout::from(words).mend(first, length, part, &mut positions, &mut olds)?;
        Ok(positions.into_iter().zip(olds).take(count).collect())
    };
    // Of the second surface's atoms, at 256, 288, 320 and 384, 416, 448, bytes 8 to 31 are padding; 352 to 383 are a gap.
    let frame = [3, 2, 40, 0, 128, 256, 0];
    let dirt = [(31, 1), (96, 2), (263, 3), (264, 4), (287, 5), (288, 6), (351, 7), (352, 8), (383, 9), (456, 10), (479, 11), (480, 12)];
    let mut file = [0; 500];
    dirt.into_iter().for_each(|(at, old)| file[at as usize] = old);
    let report = vec![(264, 4), (287, 5), (351, 7), (456, 10), (479, 11)];
    let mut mended = file;
    assert_eq!(mend(frame, [0, 500], &mut mended), Ok(report.clone()));
    let changed: Vec<(u64, u8)> =
        (0..).zip(file.into_iter().zip(mended)).filter(|(_, (old, new))| old != new).map(|(at, (old, _))| (at, old)).collect();
    assert_eq!(changed, report);
    assert_eq!(mend(frame, [0, 500], &mut mended), Ok(vec![]));
    assert_eq!(mend(frame, [287, 500], &mut [5, 6]), Ok(vec![(287, 5)]));
    assert_eq!(mend(frame, [479, 480], &mut [11]), Ok(vec![(479, 11)]));
    assert_eq!(mend(frame, [0, 500], &mut [0xee; 500]).map(|report| report.len()), Ok(6 * 24));
    // Channel 16 fills two bytes of the second atom.
    let all: Vec<(u64, u8)> = (34..64).map(|at| (at, 1)).collect();
    assert_eq!(mend([1, 1, 17, 1, 32, 32, 0], [0, 64], &mut [1; 64]), Ok(all));

    assert_eq!(mend(frame, [0, 479], &mut [0; 9]), refused(5));
    assert_eq!(mend(frame, [400, 500], &mut [0; 101]), refused(5));
    assert_eq!([500, 501].map(|first| mend(frame, [first, 500], &mut [])), [Ok(vec![]), refused(5)]);
    assert_eq!([0, 1].map(|more| mend(frame, [u64::MAX - 9, u64::MAX], &mut vec![7; 9 + more])), [Ok(vec![]), refused(5)]);
    let short = |first| Layout::from(frame).mend(first, 500, &mut [1; 9], &mut [0; 9], &mut [0; 8]);
    assert_eq!([264, 492].map(short), [refused(18), refused(5)]);
}

/// Change request K7's patterns of fp16: infinities are taken, NaN is refused wherever it is written, and given wherever it is read.
#[test]
fn nan() {
    let (cell, kernel) = (Layout::from([1, 1, 1, 2, 32, 32, 0]), Weights::from([1, 1, 1, 1, 2]));
    let (mut desk, all) = (Table::empty(cell), [0, 0, 0, 1, 1, 1].into());
    assert_eq!(desk.place(3, 7, [0, 0, 1, 1].into()), Ok(()));
    let nan = refused(26);
    for (pattern, answer) in [(0x7c00_u16, Ok(())), (0xfc00, Ok(())), (0x7c01, nan), (0x7fff, nan), (0xfc01, nan), (0xffff, nan)] {
        let element = [pattern as i16];
        assert_eq!(Walk::start(cell, &element, 32).map(|_| ()), answer, "{pattern:x}");
        let mut left = [[0xee; 128]; 3];
        let [one, other, third] = &mut left;
        assert_eq!(
            [cell.pack(&element, one), desk.edit(3, 7, all, &element, other), kernel.pack(&element, third)],
            [answer; 3],
            "{pattern:x}"
        );
        for buffer in left {
            assert_eq!(buffer[..2], if answer.is_ok() { pattern.to_le_bytes() } else { [0xee; 2] }, "{pattern:x}");
            assert!(answer.is_ok() || buffer == [0xee; 128], "{pattern:x}");
        }
        let mut buffer = [0; 128];
        assert_eq!(Layout { precision: 1, ..cell }.pack(&element, &mut buffer), Ok(()));
        let mut read = [[0]; 3];
        let answers =
            [cell.unpack(&buffer, &mut read[0]), desk.read(3, 7, all, &buffer, &mut read[1]), kernel.unpack(&buffer, &mut read[2])];
        assert_eq!((answers, read), ([Ok(()); 3], [element; 3]), "{pattern:x}");
    }
    // The least index, after every other rule; int8 and int16 as ever.
    let row = |precision| Layout::from([4, 1, 1, precision, 128, 128, 0]);
    let elements = [0x7c00, -0x0400, -0x0001, 0x7fff];
    assert_eq!(row(2).pack(&elements, &mut [0; 128]), Err(Refusal { number: 26, fault: 2 }));
    assert_eq!(row(2).pack(&elements, &mut [0; 127]), refused(5));
    assert_eq!(row(2).pack(&elements[..3], &mut [0; 128]), refused(6));
    assert_eq!(row(1).pack(&elements, &mut [0; 128]), Ok(()));
    assert_eq!(row(0).pack(&elements, &mut [0; 128]), Err(Refusal { number: 7, fault: 0 }));
}

#[test]
fn weights() {
    let int8 = [3, 65, 1, 2, 0];
    let positions = [
        (int8, (65 + 64) * 2 + 1, [1, 64, 0, 1], 388),
        (int8, (2 * 65 + 5) * 2, [2, 5, 0, 0], 133),
        ([17, 1, 1, 1, 1], 16, [16, 0, 0, 0], 32),
    ];
    for (words, index, [k, c, r, s], byte) in positions {
        let weights = Weights::from(words);
        let mut elements = vec![0; weights.count().expect("accepted") as usize];
        elements[index] = 1;
        let mut buffer = [9; 512];
        assert_eq!(weights.pack(&elements, &mut buffer), Ok(()));
        assert_eq!(buffer.iter().position(|&written| written == 1), Some(byte as usize));
        assert_eq!(weights.position(k, c, r, s), Ok(byte));
    }
    let weights = Weights::from(int8);
    assert_eq!((weights.count(), weights.extent()), (Ok(390), Ok(512)));
    let mut buffer = [9; 513];
    assert_eq!(weights.pack(&[1; 390], &mut buffer), Ok(()));
    assert_eq!(buffer[..], [&[1; 390][..], &[0; 122], &[9]].concat());
    assert_eq!(weights.pack(&[1; 390], &mut buffer[..511]), refused(5));
}

/// One sample's answer, and the counters after it.
fn look_up(lookup: &Lookup, xs: &[i16], sample: i32) -> (i32, Counters) {
    let (mut outputs, mut counters) = ([0], [0; 5]);
    assert_eq!(lookup.run(xs, &[0; 257], &[sample], &mut outputs, &mut counters), Ok(()));
    (outputs[0], counters)
}

#[test]
fn lookups() {
    let tens: Vec<i16> = (0..65).map(|i| 10 * i).collect();
    let slope = Slope { scale: 3, shift: 1 };
    let x = TableSettings { select: 2, start: 0, end: 256, below: slope, above: slope };
    // Y is one step wide and far off: it is above the samples' ends or below them with X, and X answers.
    let y = TableSettings { select: -8, start: 200, end: 201, ..TableSettings::default() };
    let linear = Lookup { mode: Mode::Linear, x, y, priority: false, overflow: false, underflow: false };
    let answer = |xs: &[i16], sample| look_up(&linear, xs, sample).0;
    assert_eq!([6, 258, -1, 256].map(|sample| answer(&tens, sample)), [15, 643, -2, 640]);
    let mut bent = tens.clone();
    bent[2] = 7;
    assert_eq!(answer(&bent, 6), 8);

    let y = TableSettings { select: -8, start: 1000, end: 1001, ..TableSettings::default() };
    let answer = |select, sample| {
        let x = TableSettings { select, end: i32::MAX, ..TableSettings::default() };
        look_up(&Lookup { mode: Mode::Exponential, x, y, ..linear }, &tens, sample)
    };
    assert_eq!(answer(0, 6), (25, [1, 0, 0, 0, 0]));
    assert_eq!(answer(0, 0).1, [0, 0, 1, 0, 0]);
    assert_eq!(answer(3, 7).1, [0, 0, 1, 0, 0]);
    assert_eq!(answer(3, 8), (0, [1, 0, 0, 0, 0]));
}

/// The float camera, code 5, is fp16; T_R16_I, code 4, stays int16.
#[test]
fn images() {
    let answer = |format, precision| Image::from([format, 4, 2, 1, precision, 0, 0, 32]).check();
    assert_eq!([answer(5, 1), answer(5, 2), answer(4, 1), answer(4, 2)], [refused(20), Ok(()), Ok(()), refused(20)]);
}

#[test]
fn conversions() {
    let gives = |value, held| Ok(Converted { value, held });
    assert_eq!([convert(100, 128, 3, 2, 0), convert(100, 128, 3, 2, 1)], [gives(-21, false); 2]);
    assert_eq!([convert(255, 0, 1, 0, 0), convert(255, 0, 1, 0, 1)], [gives(127, true), gives(255, false)]);
    // To the nearest, halves away from zero: 130 less 128 over 4 is a half; -81 over 4 is -20.25.
    assert_eq!([126, 127, 129, 130].map(|d| convert(d, 128, 1, 2, 0)), [-1, 0, 0, 1].map(|value| gives(value, false)));
    assert_eq!(convert(101, 128, 3, 2, 0), gives(-20, false));
    // Rounded, then held: 254 over 2 is 127, 255 over 2 is 128.
    assert_eq!([254, 255].map(|d| convert(d, 0, 1, 1, 0)), [gives(127, false), gives(127, true)]);
    assert_eq!([-256, -257].map(|d| convert(d, 0, 1, 1, 0)), [gives(-128, false), gives(-128, true)]);
    assert_eq!([convert(255, 0, 1, 32, 2), convert(255, 0, 1, 32, 0)], [refused(2), refused(16)]);
}

/// A picture of 2×2 of T_A8B8G8R8, X offset 1, into the stall of two columns and rows from (1, 1) of a frame of 4×3, channels 4, int8.
#[test]
fn picture() {
    let frame = Layout::from([4, 3, 4, 0, 128, 384, 0]);
    let mut desk = Table::empty(frame);
    assert_eq!(desk.place(2, 7, [1, 1, 2, 2].into()), Ok(()));
    let image = Image::from([12, 2, 2, 4, 0, 1, 32, 32]);
    let mut pixels = [9; 76];
    pixels[36..44].copy_from_slice(&[0, 1, 127, 128, 129, 255, 100, 200]);
    pixels[68..76].copy_from_slice(&[10, 20, 30, 40, 50, 60, 70, 80]);
    let mut buffer = [0xee; 384];
    let middle = Conversion { offset: 128, scale: 1, shift: 0 };
    assert_eq!(desk.paint(2, 7, image, middle, &pixels, &mut buffer), Ok(0));
    let mut expected = [0xee; 384];
    expected[160..164].copy_from_slice(&[0x80, 0x81, 0xff, 0x00]);
    expected[192..196].copy_from_slice(&[0x01, 0x7f, 0xe4, 0x48]);
    expected[288..292].copy_from_slice(&[0x8a, 0x94, 0x9e, 0xa8]);
    expected[320..324].copy_from_slice(&[0xb2, 0xbc, 0xc6, 0xd0]);
    assert_eq!(buffer, expected);
    assert_eq!(desk.paint(2, 7, image, middle, &pixels[..75], &mut buffer), refused(30));
    assert_eq!(desk.paint(2, 7, Image { format: 8, precision: 2, line: 64, ..image }, middle, &pixels, &mut buffer), refused(29));
    assert_eq!(desk.paint(2, 8, image, middle, &pixels, &mut buffer), refused(25));
    assert_eq!(desk.paint(2, 7, Image { width: 1, ..image }, middle, &pixels, &mut buffer), refused(9));
    assert_eq!(desk.paint(2, 7, image, middle, &pixels, &mut buffer[..383]), refused(5));
    assert_eq!(buffer, expected);

    // Half as much again: 1 is 2, from 85 on all are past 127; of the first pixel two are held, of the second all four.
    let brighter = Conversion { offset: 0, scale: 3, shift: 1 };
    assert_eq!(desk.paint(2, 7, image, brighter, &pixels, &mut buffer), Ok(6));
    expected[160..164].copy_from_slice(&[0, 2, 127, 127]);
    expected[192..196].copy_from_slice(&[127; 4]);
    expected[288..292].copy_from_slice(&[15, 30, 45, 60]);
    expected[320..324].copy_from_slice(&[75, 90, 105, 120]);
    assert_eq!(buffer, expected);
    assert_eq!(desk.paint(2, 7, image, Conversion { offset: 0, scale: 1, shift: 0 }, &pixels, &mut buffer), Ok(4));
}

/// One pixel into a frame of one cell of int16, or of int8: its bytes, and how many were held.
#[test]
fn pixels_of_one_component() {
    let painted = |precision, format, pixel: [u8; 2], [offset, scale, shift]: [i16; 3]| {
        let mut desk = Table::empty([1, 1, 1, precision, 32, 32, 0].into());
        let mut buffer = [0xee; 32];
        assert_eq!(desk.place(0, 1, [0, 0, 1, 1].into()), Ok(()));
        let conversion = Conversion { offset, scale, shift: shift as u32 };
        let held = desk.paint(0, 1, [format, 1, 1, 1, 1, 0, 0, 32].into(), conversion, &pixel, &mut buffer).expect("accepted");
        assert_eq!(buffer[2..], [0xee; 30]);
        ([buffer[0], buffer[1]], held)
    };
    // T_R16_I: FE FF is -2; over 4 that is -0.5, so -1, over 8 it is 0. As T_R16 it is 65534, held to 32767; over 2 it is not.
    assert_eq!(painted(1, 4, [0xfe, 0xff], [0, 1, 0]), ([0xfe, 0xff], 0));
    assert_eq!(painted(1, 4, [0xfe, 0xff], [0, 1, 2]), ([0xff, 0xff], 0));
    assert_eq!(painted(1, 4, [0xfe, 0xff], [0, 1, 3]), ([0x00, 0x00], 0));
    assert_eq!(painted(1, 3, [0xfe, 0xff], [0, 1, 0]), ([0xff, 0x7f], 1));
    assert_eq!(painted(1, 3, [0xfe, 0xff], [0, 1, 1]), ([0xff, 0x7f], 0));
    assert_eq!(painted(1, 3, [0xff, 0xff], [0, 1, 1]), ([0xff, 0x7f], 1));
    // T_R12: of F7 A5 the low twelve bits are 5F7, T_R10 has 1F7.
    assert_eq!(painted(1, 2, [0xf7, 0xa5], [0, 1, 0]), ([0xf7, 0x05], 0));
    assert_eq!(painted(1, 1, [0xf7, 0xa5], [0, 1, 0]), ([0xf7, 0x01], 0));
    // T_R16 into int8: 300 is held to 127, 300 - 428 = -128 is not.
    assert_eq!(painted(0, 3, [0x2c, 0x01], [0, 1, 0]), ([0x7f, 0xee], 1));
    assert_eq!(painted(0, 3, [0x2c, 0x01], [428, 1, 0]), ([0x80, 0xee], 0));
}

#[test]
fn curve() {
    assert_eq!([camera::y_entry(2), camera::y_entry(255)], [1448, 16351]);
    let lookup = Lookup::ready_made(4, [Choice::UNNAMED; 3]).expect("accepted");
    let (mut outputs, mut counters) = ([0; 4], [0; 5]);
    let samples = [256, 257, 4097, -1];
    assert_eq!(lookup.run(&camera::x_table(), &camera::y_table(), &samples, &mut outputs, &mut counters), Ok(()));
    assert_eq!((outputs, counters), ([4096, 4103, 4096, 0], [0, 1, 1, 1, 1]));
    assert_eq!(Lookup::ready_made(23, [Choice::X; 3]), refused(14));
}

/// The paper's sheet with owners' ids and a leave: input and whole output.
#[test]
fn sheet() {
    let input = "frame\t3\t2\t40\t0\t128\t256\t0\nstall\t0\t0\t0\t2\t2\t7\nstall\t1\t1\t0\t2\t1\t8\ncell\t0\t33\t1\t1\t7\n\
        leave\t0\t8\nleave\t0\t7\nstall\t1\t1\t0\t2\t1\t8\n";
    let mut sheet = Sheet::begin();
    let mut output = header_text();
    let mut rest = input.as_bytes();
    while !rest.is_empty() {
        let (read, row) = sheet.feed(rest);
        rest = &rest[read..];
        output.extend(row.expect("a line ended").text());
    }
    assert_eq!(sheet.finish(), None);
    assert_eq!(output, b"line\tanswer\tvalue\n1\t0\t480\n2\t0\t160\n3\t10\t0\n4\t0\t417\n5\t25\t0\n6\t0\t160\n7\t0\t80\n");
}
