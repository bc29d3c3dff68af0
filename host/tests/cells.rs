//! The packer of files, run as a program.

use olsketina::{Layout, Weights};
use std::fs;
use std::path::PathBuf;
use std::process::Command;

/// A folder of its own for each test, at first empty.
struct Folder(PathBuf);

impl Folder {
    fn new(name: &str) -> Folder {
        let folder = PathBuf::from(env!("CARGO_TARGET_TMPDIR")).join(name);
        // What an earlier run left; at the first there is none.
        _ = fs::remove_dir_all(&folder);
        fs::create_dir_all(&folder).expect("a folder");
        Folder(folder)
    }

    fn put(&self, file: &str, bytes: &[u8]) {
        fs::write(self.0.join(file), bytes).expect("written");
    }

    fn get(&self, file: &str) -> Vec<u8> {
        fs::read(self.0.join(file)).expect("written by the program")
    }

    /// Runs the program in it; gives its status and what it says.
    fn cells(&self, words: &str) -> (i32, String) {
        let output = Command::new(env!("CARGO_BIN_EXE_cells")).args(words.split(' ')).current_dir(&self.0).output().expect("runs");
        assert!(output.stdout.is_empty());
        (output.status.code().expect("ends"), String::from_utf8(output.stderr).expect("text").trim_end().to_string())
    }

    /// Packs raw cells, over a dump where there is one, to the bytes that are expected, and back.
    fn trip(&self, setting: &str, raw: &[i16], over: &str, expected: &[u8]) {
        self.put("raw", &as_bytes(raw));
        assert_eq!(self.cells(&format!("pack {setting} raw packed{over}")), (0, String::new()));
        assert_eq!(self.get("packed"), expected, "{setting}");
        assert_eq!(self.cells(&format!("unpack {setting} packed back")), (0, String::new()));
        assert_eq!(self.get("back"), as_bytes(raw), "{setting}");
    }
}

fn as_bytes(cells: &[i16]) -> Vec<u8> {
    cells.iter().flat_map(|cell| cell.to_le_bytes()).collect()
}

/// A frame with gaps, packed, packed over a dump, and back; then a larger one.
#[test]
fn frames() {
    let folder = Folder::new("cells-frames");
    folder.put("dump", &[0xee; 500]);
    let raw: Vec<i16> = (0..240).map(|i| i - 120).collect();
    for (over, length, fill) in [("", 480, 0), (" dump", 500, 0xee)] {
        let mut expected = vec![fill; length];
        assert_eq!(Layout::from([3, 2, 40, 0, 128, 256, 0]).pack(&raw, &mut expected), Ok(()));
        assert_eq!(expected[449], raw[(33 * 2 + 1) * 3 + 2] as u8, "cell (33, 1, 2)");
        folder.trip("frame 3 2 40 0 128 256 0", &raw, over, &expected);
    }
    let raw: Vec<i16> = (0..640 * 480 * 4).map(|i| (i % 65536 - 32768) as i16).collect();
    let mut expected = vec![0; 64 + 9830400];
    assert_eq!(Layout::from([640, 480, 4, 1, 20480, 9830400, 64]).pack(&raw, &mut expected), Ok(()));
    folder.trip("frame 640 480 4 1 20480 9830400 64", &raw, "", &expected);
}

#[test]
fn weights() {
    let raw: Vec<i16> = (0..390).map(|i| i % 100).collect();
    let mut expected = vec![0; 512];
    assert_eq!(Weights::from([3, 65, 1, 2, 0]).pack(&raw, &mut expected), Ok(()));
    assert_eq!(expected[388], raw[(65 + 64) * 2 + 1] as u8, "kernel 1, channel 64, column 1");
    Folder::new("cells-weights").trip("weights 3 65 1 2 0", &raw, "", &expected);
}

/// A dump may hold NaN: unpacking gives it, and packing that again is refused, but for int16.
#[test]
fn nan() {
    let folder = Folder::new("cells-nan");
    let raw = [0x7c00, -0x0400, -0x0001, 0x7c01];
    let mut dump = vec![0; 128];
    assert_eq!(Layout::from([4, 1, 1, 1, 128, 128, 0]).pack(&raw, &mut dump), Ok(()));
    folder.trip("frame 4 1 1 1 128 128 0", &raw, "", &dump);
    folder.put("frame", &dump);
    folder.put("weights", &[as_bytes(&raw), vec![0; 120]].concat());
    for (setting, bytes) in [("frame 4 1 1 2 128 128 0", "frame"), ("weights 4 1 1 1 2", "weights")] {
        assert_eq!(folder.cells(&format!("unpack {setting} {bytes} back")), (0, String::new()));
        assert_eq!(folder.get("back"), as_bytes(&raw), "{setting}");
        let refused = (1, "cells: refused, 26: an fp16 element is NaN (index 2)".to_string());
        assert_eq!(folder.cells(&format!("pack {setting} back out")), refused);
        assert!(!folder.0.join("out").exists());
    }
}

/// Refusals are printed with number and sentence; nothing is written.
#[test]
fn refusals() {
    let folder = Folder::new("cells-refusals");
    folder.put("two", &as_bytes(&[5, 200]));
    folder.put("odd", &[1, 2, 3]);
    let refused = |words: &str, says: &str| assert_eq!(folder.cells(words), (1, format!("cells: {says}")), "{words}");
    refused("pack frame 2 1 1 0 64 64 0 two out", "refused, 7: an int8 element is outside -128 to 127 (index 1)");
    refused("pack weights 2 1 1 1 0 two out", "refused, 7: an int8 element is outside -128 to 127 (index 1)");
    refused("pack frame 3 1 1 1 96 96 0 two out", "refused, 6: the number of elements is not exactly the one that is needed");
    refused("pack frame 2 1 1 1 64 64 0 two out odd", "refused, 5: the buffer or the file is too short");
    refused("unpack weights 2 1 1 1 1 odd out", "refused, 5: the buffer or the file is too short");
    refused("pack frame 2 1 1 1 64 64 1 two out", "refused, 4: the start of the cube is no multiple of 32");
    refused("unpack weights 2 1 33 1 1 odd out", "refused, 1: a size is out of its range");
    refused("pack frame 2 1 1 1 64 64 0 odd out", "odd: 3 bytes are no whole cells");
    let (status, says) = folder.cells("pack frame 2 1 1 1 64 64 0 none out");
    assert!(status == 1 && says.starts_with("cells: none: "), "{says}");
    let misused = ["pack", "pack frame 2 1 1 1 64 64 two out", "pack weights 2 1 1 1 -1 two out", "turn weights 2 1 1 1 1 two out"];
    for words in misused.into_iter().chain(["pack cube 1 two out", "unpack weights 2 1 1 1 1 two out more", ""]) {
        let (status, says) = folder.cells(words);
        assert!(status == 2 && says.starts_with("usage: cells pack frame "), "{words}: {says}");
    }
    assert!(!folder.0.join("out").exists());
}
