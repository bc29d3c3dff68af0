//! Padding made zero again, in a part of a file.

use crate::{raw, valued, Answer, Layout};

impl Layout {
    /// Mends a part of a file that holds a cube from the layout's start on: each padding byte of the part that is not 0 becomes 0 and is
    /// reported, its position in the file in `positions` and what stood there in `olds`, ascending. Gives how many they are; every other byte
    /// stays, and every place past the report. The part's first byte is byte `first` of the file's `length`; `positions` and `olds` have a place
    /// for each of its bytes, or more.
    ///
    /// ```
    /// use olsketina::{Layout, Refusal, INT8};
    ///
    /// let frame = Layout { width: 2, height: 2, channels: 30, precision: INT8, line: 96, surface: 160, start: 0 };
    /// let (mut file, mut report) = ([7; 160], Vec::new());
    /// let (mut positions, mut olds) = ([0; 63], [0; 63]);
    /// for (part, first) in file.chunks_mut(63).zip((0..).step_by(63)) {
    ///     let count = frame.mend(first, 160, part, &mut positions, &mut olds)?;
    ///     report.extend(positions.into_iter().zip(olds).take(count));
    /// }
    /// assert_eq!(report, [30, 31, 62, 63, 126, 127, 158, 159].map(|position| (position, 7)));
    /// assert_eq!(file[60..66], [7, 7, 0, 0, 7, 7]);
    /// # Ok::<(), Refusal>(())
    /// ```
    pub fn mend(self, first: u64, length: u64, part: &mut [u8], positions: &mut [u64], olds: &mut [u8]) -> Answer<usize> {
        let (bytes, n) = (part.as_mut_ptr(), part.len());
        let (at, places, old, values) = (positions.as_mut_ptr(), positions.len(), olds.as_mut_ptr(), olds.len());
        let count = valued(u64::MAX, |count, fault| unsafe {
            raw::olsketina_padding_mend(&self.into(), first, length, bytes, n, at, places, old, values, count, fault)
        })?;
        debug_assert!(count <= n as u64, "no more bytes are reported than there are");
        Ok(count as usize)
    }
}
