//! Images made by hand from their fields, also such as no encoder writes.

/// A loop as it is made: start, end, and the two samples stored for it.
pub type MadeLoop = (u32, u32, [i16; 2]);

/// What an image is made from. Entries repeat the headers of the frames that they speak of, so that it opens.
#[derive(Clone, Debug, PartialEq, Eq)]
pub struct Made {
    pub total: u32,
    pub rate: u32,
    pub block: u32,
    pub gain: u16,
    pub coefficients: [i16; 16],
    /// The frames' bytes, all 8 of the last one too.
    pub frames: Vec<[u8; 8]>,
    /// The newest sample before each block, and the older one.
    pub histories: Vec<[i16; 2]>,
    pub looped: Option<MadeLoop>,
    /// Bytes after the image.
    pub after: Vec<u8>,
}

impl Made {
    /// A silent clip: zero coefficients, histories and frames, at 8,000 Hz.
    pub fn silent(total: u32, block: u32) -> Self {
        let frames = vec![[0; 8]; total.div_ceil(14) as usize];
        let histories = vec![[0; 2]; (8 * frames.len()).div_ceil(block as usize)];
        let coefficients = [0; 16];
        let (rate, gain, looped, after) = (8000, 0, None, vec![]);
        Self { total, rate, block, gain, coefficients, frames, histories, looped, after }
    }

    /// The same with one thing altered, or more.
    pub fn but(&self, alter: impl FnOnce(&mut Self)) -> Self {
        let mut other = self.clone();
        alter(&mut other);
        other
    }

    /// Samples in the last frame.
    fn last_samples(&self) -> usize {
        self.total as usize - 14 * (self.frames.len() - 1)
    }

    /// The bodies, back to back.
    fn bodies(&self) -> Vec<u8> {
        let mut bodies = self.frames.concat();
        bodies.truncate(8 * (self.frames.len() - 1) + 1 + self.last_samples().div_ceil(2));
        bodies
    }

    /// The image.
    pub fn bytes(&self) -> Vec<u8> {
        let nibbles = 16 * (self.frames.len() - 1) + 2 + self.last_samples();
        let at = 56 + 16 * (self.histories.len() + usize::from(self.looped.is_some()));
        let mut image = self.head();
        for (k, history) in self.histories.iter().enumerate() {
            let before = self.block as usize * k;
            let length = (nibbles - 2 * before).min(2 * self.block as usize);
            let header = self.frames[before / 8][0];
            image.extend(entry((at + before) as u32, length as u32, header, history));
        }
        if let Some((start, end, history)) = self.looped {
            image.extend(entry(start, end, self.frames[start as usize / 14][0], &history));
        }
        image.extend(self.bodies());
        image.extend(&self.after);
        image
    }

    fn head(&self) -> Vec<u8> {
        let mut head = b"DSPC".to_vec();
        head.extend([self.total, self.rate, self.block].iter().flat_map(|n| n.to_be_bytes()));
        head.extend(self.coefficients.iter().flat_map(|c| c.to_be_bytes()));
        head.extend(self.gain.to_be_bytes());
        head.extend([0, u8::from(self.looped.is_some())]);
        head.extend((self.histories.len() as u32).to_be_bytes());
        head
    }
}

/// An entry of the table.
fn entry(first: u32, second: u32, header: u8, [newest, older]: &[i16; 2]) -> Vec<u8> {
    let mut bytes = [first, second].map(u32::to_be_bytes).concat();
    bytes.extend([0, header]);
    bytes.extend([newest, older].iter().flat_map(|sample| sample.to_be_bytes()));
    bytes.extend([0, 0]);
    bytes
}
