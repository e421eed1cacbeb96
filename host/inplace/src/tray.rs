//! Trays: a directory of entries, then the frames that it names. All is big-endian.

const HEADER: usize = 8;
const ENTRY: usize = 8;
const MAX_ENTRIES: usize = 256;
const MAX_TRAY: usize = 65_535;

/// A tray that is well packed.
#[derive(Clone, Copy)]
pub struct Tray<'a> {
    bytes: &'a [u8],
    /// The directory.
    entries: &'a [u8],
    /// The round in which its frames were sent.
    pub round: u32,
}

/// Where a frame lies: its offset in the upper half, its length in the lower.
#[derive(Clone, Copy)]
pub struct Span(u32);

impl Span {
    /// No frame: none lies at the tray's start.
    pub const NONE: Span = Span(0);

    pub fn is_none(self) -> bool {
        self.0 == 0
    }

    /// A frame at the same place without bytes, which is void.
    pub fn emptied(self) -> Span {
        Span(self.0 & !0xffff)
    }

    fn offset(self) -> usize {
        (self.0 >> 16) as usize
    }

    fn length(self) -> usize {
        usize::from(self.0 as u16)
    }
}

impl<'a> Tray<'a> {
    /// Reads a tray; nothing if it is not well packed.
    pub fn read(bytes: &'a [u8]) -> Option<Tray<'a>> {
        let (header, rest) = bytes.split_first_chunk::<HEADER>()?;
        let header = u64::from_be_bytes(*header);
        let (count, zero) = ((header >> 16) as u16 as usize, header as u16);
        if bytes.len() > MAX_TRAY || count > MAX_ENTRIES || zero != 0 {
            return None;
        }
        let tray = Tray {
            bytes,
            entries: rest.get(..ENTRY * count)?,
            round: (header >> 32) as u32,
        };
        tray.is_packed().then_some(tray)
    }

    /// The sender of each entry, and where its frame lies.
    pub fn entries(&self) -> impl Iterator<Item = (u32, Span)> + 'a {
        self.entries.chunks_exact(ENTRY).map(|bytes| {
            let entry = u64::from_be_bytes(bytes.try_into().expect("an entry"));
            ((entry >> 32) as u32, Span(entry as u32))
        })
    }

    /// Whether the frames lie in the order of the entries, without a gap, to the end.
    fn is_packed(&self) -> bool {
        let (mut end, mut apart) = (HEADER + self.entries.len(), 0);
        for (_, frame) in self.entries() {
            apart |= end ^ frame.offset();
            end += frame.length();
        }
        apart == 0 && end == self.bytes.len()
    }

    /// The bytes of a frame.
    #[inline(always)]
    pub fn frame(&self, span: Span) -> &'a [u8] {
        let (offset, length) = (span.offset(), span.length());
        self.bytes.get(offset..offset + length).unwrap_or(&[])
    }
}
