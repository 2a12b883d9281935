//! A DMInfo that begins with the mark: an object, big endian in every table.

use crate::buckets::Block;
use crate::encode::Encoder;
use crate::layout::{Layout, Part};
use crate::table::{Column, Header, Text};

/// The DMInfo of StandardStMan or IncrementalStMan as an object.
#[derive(Clone, Debug)]
pub struct InfoObject {
    pub mark: [u8; 4],
    pub header: Header,
    /// The manager's name.
    pub name: Text,
    /// Of StandardStMan alone: offsets and set numbers of the bound columns.
    pub blocks: Option<InfoBlocks>,
    /// Bytes of the DMInfo after the object.
    pub after: Vec<u8>,
}

#[derive(Clone, Debug)]
pub struct InfoBlocks {
    pub offsets: Block,
    pub sets: Block,
}

impl InfoObject {
    /// StandardStMan's, without columns.
    pub fn standard(name: impl Into<Text>) -> Self {
        let none = Block::new(Vec::new());
        let blocks = Some(InfoBlocks { offsets: none.clone(), sets: none });
        Self { header: Header::new("SSM", 2), blocks, ..Self::incremental(name) }
    }

    /// IncrementalStMan's.
    pub fn incremental(name: impl Into<Text>) -> Self {
        Self {
            mark: [0xBE; 4],
            header: Header::new("ISM", 3),
            name: name.into(),
            blocks: None,
            after: Vec::new(),
        }
    }

    /// Of the manager with this kind, if it has a DMInfo.
    pub fn of_kind(kind: &[u8], name: impl Into<Text>) -> Option<Self> {
        match kind {
            b"StandardStMan" => Some(Self::standard(name)),
            b"IncrementalStMan" => Some(Self::incremental(name)),
            _ => None,
        }
    }

    /// Takes over the offsets and set numbers of the bound columns.
    pub fn bind(&mut self, bound: &[&Column]) {
        if let Some(blocks) = &mut self.blocks {
            blocks.offsets.elements = bound.iter().map(|column| column.info.offset).collect();
            blocks.sets.elements = bound.iter().map(|column| column.info.set).collect();
        }
    }

    /// The bytes of the DMInfo behind its length, and where its fields stand;
    /// of the manager at a position.
    pub fn layout(&self, manager: usize) -> Layout {
        let mut out = Encoder::default();
        let of = Part::Info(manager);
        out.of(of, |out| out.field("mark", &self.mark));
        out.object(of, &self.header, |out| {
            out.text("name", &self.name);
            if let Some(blocks) = &self.blocks {
                blocks.offsets.encode(Part::InfoOffsets(manager), out);
                blocks.sets.encode(Part::InfoSets(manager), out);
            }
        });
        out.raw(&self.after);
        out.layout()
    }

    /// The headers of its objects, in file order.
    pub fn headers_mut(&mut self) -> Vec<&mut Header> {
        let mut headers = vec![&mut self.header];
        if let Some(blocks) = &mut self.blocks {
            headers.extend([&mut blocks.offsets.header, &mut blocks.sets.header]);
        }
        headers
    }
}
