//! A stream that is written while the original serves it, so that a record can ask for what the earlier ones left: its
//! bytes, its lines, and the state behind them.

use super::{Request, Served, Stream, RECORD};
use crate::View;

/// Told of each record that was served, with the state before and after it.
pub type Watch<'a> = &'a mut dyn FnMut(&Served, &View, &View);

pub struct Script<'a> {
    stream: Stream,
    watch: Watch<'a>,
    /// How many records it is to have.
    length: usize,
    pub state: View,
    pub records: Vec<u8>,
    pub lines: Vec<u8>,
}

impl<'a> Script<'a> {
    pub fn new(length: usize, watch: Watch<'a>) -> Self {
        let stream = Stream::open();
        Self { state: stream.history.view(), stream, watch, length, records: Vec::new(), lines: Vec::new() }
    }

    /// Whether it has its records.
    pub fn is_full(&self) -> bool {
        self.left() == 0
    }

    pub fn left(&self) -> usize {
        self.length.saturating_sub(self.records.len() / RECORD)
    }

    /// One more record, unless it is full; the value of its reply.
    pub fn ask(&mut self, request: Request) -> u64 {
        if self.is_full() {
            return 0;
        }
        self.put(&request.bytes())
    }

    /// Bytes behind its records.
    pub fn end(&mut self, bytes: &[u8]) {
        for record in bytes.chunks(RECORD) {
            self.put(record);
        }
    }

    fn put(&mut self, record: &[u8]) -> u64 {
        self.records.extend(record);
        let Some(served) = self.stream.serve(record) else { return 0 };
        self.lines.extend(served.line.bytes());
        let before = std::mem::replace(&mut self.state, self.stream.history.view());
        (self.watch)(&served, &before, &self.state);
        served.reply.values[0]
    }
}
