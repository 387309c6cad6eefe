//! Boot images.

const MAGIC: &[u8; 8] = b"TEMUIMG1";

/// Segments with their addresses, and processes with their first instructions.
pub struct Image<'a> {
    pub segments: Vec<(u32, &'a [u8])>,
    pub processes: Vec<(u32, u32)>,
}

/// The bytes that are left to read.
struct Reader<'a>(&'a [u8]);

impl<'a> Reader<'a> {
    fn bytes(&mut self, count: u32) -> Option<&'a [u8]> {
        let (bytes, rest) = self.0.split_at_checked(count as usize)?;
        self.0 = rest;
        Some(bytes)
    }

    fn word(&mut self) -> Option<u32> {
        self.bytes(4)?.try_into().ok().map(u32::from_le_bytes)
    }

    fn segment(&mut self) -> Option<(u32, &'a [u8])> {
        let (address, length) = (self.word()?, self.word()?);
        Some((address, self.bytes(length)?))
    }

    fn image(&mut self) -> Option<Image<'a>> {
        let (segments, processes) = (self.word()?, self.word()?);
        Some(Image {
            segments: (0..segments).map(|_| self.segment()).collect::<Option<_>>()?,
            processes: (0..processes).map(|_| Some((self.word()?, self.word()?))).collect::<Option<_>>()?,
        })
    }
}

impl<'a> Image<'a> {
    pub fn read(bytes: &'a [u8]) -> Result<Image<'a>, String> {
        let mut reader = Reader(bytes.strip_prefix(MAGIC).ok_or("the file is no image")?);
        let image = reader.image().ok_or("the image is cut short")?;
        if reader.0.is_empty() { Ok(image) } else { Err("bytes follow the image".to_string()) }
    }

    pub fn bytes(&self) -> Vec<u8> {
        let mut bytes = MAGIC.to_vec();
        put(&mut bytes, self.segments.len() as u32, self.processes.len() as u32);
        for (address, segment) in &self.segments {
            put(&mut bytes, *address, segment.len() as u32);
            bytes.extend_from_slice(segment);
        }
        for (process, iptr) in &self.processes {
            put(&mut bytes, *process, *iptr);
        }
        bytes
    }
}

/// Two words, the lowest byte of each first.
fn put(bytes: &mut Vec<u8>, first: u32, second: u32) {
    bytes.extend(first.to_le_bytes());
    bytes.extend(second.to_le_bytes());
}
