//! block.rs and out.rs.

use crate::flat::Sheet;
use sheet::{NameIndex, limit};

/// Two are equal when their characters are.
#[derive(Clone, Copy, PartialEq, Debug)]
pub enum Block<'s> {
    Namespace(&'s [u8]),
    ExternC,
}

#[derive(Clone, Copy, PartialEq, Debug)]
enum BlockBoundary<'s> {
    Begin(Block<'s>),
    End(Block<'s>),
}

impl BlockBoundary<'_> {
    fn rev(self) -> Self {
        match self {
            BlockBoundary::Begin(block) => BlockBoundary::End(block),
            BlockBoundary::End(block) => BlockBoundary::Begin(block),
        }
    }
}

/// The most boundaries there can be: seven namespaces and `extern "C"` are
/// open, their ends are pending, and as many others are to begin.
const BLOCKS: usize = 3 * (limit::NAMESPACES + 1);

pub struct OutFile<'s, 'b> {
    pub sheet: &'s Sheet,
    bytes: &'b mut [u8],
    /// The text's length, which may be more than fits.
    len: usize,
    namespace: &'s [NameIndex],
    blocks: Vec<BlockBoundary<'s>>,
    section_pending: bool,
    blocks_pending: usize,
}

impl<'s, 'b> OutFile<'s, 'b> {
    pub fn new(sheet: &'s Sheet, bytes: &'b mut [u8]) -> Self {
        OutFile {
            sheet,
            bytes,
            len: 0,
            namespace: &[],
            blocks: Vec::with_capacity(BLOCKS),
            section_pending: false,
            blocks_pending: 0,
        }
    }

    pub fn next_section(&mut self) {
        self.section_pending = true;
    }

    pub fn begin_block(&mut self, block: Block<'s>) {
        self.push_block_boundary(BlockBoundary::Begin(block));
    }

    pub fn end_block(&mut self, block: Block<'s>) {
        self.push_block_boundary(BlockBoundary::End(block));
    }

    pub fn set_namespace(&mut self, namespace: &'s [NameIndex]) {
        for name in self.namespace.iter().rev() {
            self.end_block(Block::Namespace(self.sheet.name(*name)));
        }
        for name in namespace {
            self.begin_block(Block::Namespace(self.sheet.name(*name)));
        }
        self.namespace = namespace;
    }

    #[inline]
    pub fn write(&mut self, b: &[u8]) {
        if !b.is_empty() {
            if self.blocks_pending > 0 {
                self.flush_blocks();
                self.blocks_pending = 0;
            }
            if self.section_pending {
                self.section_pending = false;
                if self.len > 0 {
                    self.push(b"\n");
                }
            }
            self.push(b);
        }
    }

    /// Past the buffer's end only the length grows.
    #[inline]
    fn push(&mut self, b: &[u8]) {
        let end = self.len + b.len();
        if let Some(room) = self.bytes.get_mut(self.len..end) {
            room.copy_from_slice(b);
        }
        self.len = end;
    }

    fn push_block_boundary(&mut self, boundary: BlockBoundary<'s>) {
        if self.blocks_pending > 0 && self.blocks.last() == Some(&boundary.rev()) {
            self.blocks.pop();
            self.blocks_pending -= 1;
        } else {
            self.blocks.push(boundary);
            self.blocks_pending += 1;
        }
    }

    /// Ends the text, and says how long it is.
    pub fn flush(mut self) -> usize {
        self.set_namespace(&[]);
        if self.blocks_pending > 0 {
            self.flush_blocks();
        }
        self.len
    }

    fn flush_blocks(&mut self) {
        self.section_pending = self.len > 0;
        let mut read = self.blocks.len() - self.blocks_pending;
        let mut write = read;

        while read < self.blocks.len() {
            match self.blocks[read] {
                BlockBoundary::Begin(begin_block) => {
                    if self.section_pending {
                        self.push(b"\n");
                        self.section_pending = false;
                    }
                    self.write_common(begin_block);
                    self.push(b" {\n");
                    self.blocks[write] = BlockBoundary::Begin(begin_block);
                    write += 1;
                }
                BlockBoundary::End(end_block) => {
                    write -= 1;
                    assert_eq!(self.blocks[write], BlockBoundary::Begin(end_block));
                    self.push(b"} // ");
                    self.write_common(end_block);
                    self.push(b"\n");
                    self.section_pending = true;
                }
            }
            read += 1;
        }

        self.blocks.truncate(write);
    }

    fn write_common(&mut self, block: Block) {
        match block {
            Block::Namespace(name) => {
                self.push(b"namespace ");
                self.push(name);
            }
            Block::ExternC => self.push(b"extern \"C\""),
        }
    }
}
