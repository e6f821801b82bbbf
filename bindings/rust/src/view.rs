//! What is in a file: its threads, its frames, and the scopes of each thread, in a frame or merged over frames.

use crate::raw::{self, List, RawFileThread, RawFrame, RawMerged, RawScope, StreamList, ThreadName};
use crate::{told, Fault, Frame, Profiler};

/// What the frames of a file have of one thread.
#[derive(Debug, Clone, PartialEq, Eq)]
pub struct FileThread {
    pub name: String,
    /// When the thread's first scope began, if that is known.
    pub start_ns: Option<i64>,
    pub frames: u64,
    pub scopes: u64,
}

/// A scope of a thread in a frame.
#[derive(Debug, Clone, PartialEq, Eq)]
pub struct FileScope {
    pub id: u32,
    /// The number of scopes that it is nested in.
    pub depth: u64,
    pub start_ns: i64,
    pub stop_ns: i64,
    pub text: String,
}

/// A thread's scopes in a frame, each before its children.
#[derive(Debug, Clone, PartialEq, Eq)]
pub struct FileStream {
    pub name: String,
    pub start_ns: Option<i64>,
    pub scopes: Vec<FileScope>,
}

/// All scopes of a thread with the same path of ids and texts, merged; they are its pieces.
#[derive(Debug, Clone, PartialEq, Eq)]
pub struct MergedScope {
    pub id: u32,
    /// The number of merged scopes that it is nested in.
    pub depth: u64,
    pub pieces: u64,
    /// The start, measured from the start of the merged scope around it or, at the top, as if every frame began when the first did.
    pub start_ns: i64,
    pub total_ns: i64,
    /// The total divided by the number of frames, rounded down.
    pub per_frame_ns: i64,
    /// The duration of the longest piece.
    pub max_ns: i64,
    pub text: String,
}

/// Asks how long a list is, and then for the list.
fn listed<R: Clone + Default>(mut call: impl FnMut(&mut List<R>) -> u32) -> Result<(Vec<R>, Vec<u8>), Fault> {
    let (mut rows, mut bytes) = (Vec::new(), Vec::new());
    for _ in 0..2 {
        let (room, bytes_room) = (rows.len(), bytes.len());
        let mut list = List { rows: rows.as_mut_ptr(), room, bytes: bytes.as_mut_ptr(), bytes_room, num_rows: 0, num_bytes: 0 };
        told(call(&mut list))?;
        rows.resize(list.num_rows as usize, R::default());
        bytes.resize(list.num_bytes as usize, 0);
    }
    Ok((rows, bytes))
}

fn text_at(bytes: &[u8], at: u64, size: u64) -> String {
    String::from_utf8_lossy(&bytes[at as usize..][..size as usize]).into_owned()
}

/// Returns the threads of a file, ordered by start and name.
pub fn file_threads(file: &[u8]) -> Result<Vec<FileThread>, Fault> {
    let (rows, names) = listed(|list: &mut List<RawFileThread>| unsafe {
        raw::puffin_file_threads(file.as_ptr(), file.len(), list)
    })?;
    let thread = |row: &RawFileThread| FileThread {
        name: text_at(&names, row.name_at, row.name_size),
        start_ns: row.has_start.then_some(row.start_ns),
        frames: row.frames,
        scopes: row.scopes,
    };
    Ok(rows.iter().map(thread).collect())
}

/// Asks for a list of merged scopes.
fn merged(call: impl FnMut(&mut List<RawMerged>) -> u32) -> Result<Vec<MergedScope>, Fault> {
    let (rows, texts) = listed(call)?;
    let scope = |row: &RawMerged| MergedScope {
        id: row.id,
        depth: row.depth,
        pieces: row.pieces,
        start_ns: row.start_ns,
        total_ns: row.total_ns,
        per_frame_ns: row.per_frame_ns,
        max_ns: row.max_ns,
        text: text_at(&texts, row.text_at, row.text_size),
    };
    Ok(rows.iter().map(scope).collect())
}

/// Merges the scopes of a thread over the frames of a file: each before its children.
pub fn merge_file(file: &[u8], start_ns: Option<i64>, name: &str) -> Result<Vec<MergedScope>, Fault> {
    let thread = ThreadName::new(name, start_ns);
    merged(|list| unsafe { raw::puffin_merge_file(file.as_ptr(), file.len(), &thread, list) })
}

impl Profiler {
    /// Merges the scopes of a thread over the newest frames of the view, at most so many: each before its children.
    pub fn merge_view(&mut self, frames: usize, start_ns: Option<i64>, name: &str) -> Result<Vec<MergedScope>, Fault> {
        let thread = ThreadName::new(name, start_ns);
        merged(|list| unsafe { raw::puffin_merge_view(&mut self.0, frames, &thread, list) })
    }
}

/// Returns the scopes of a stream.
fn scopes_in(stream: &[u8], long_texts: bool) -> Result<Vec<FileScope>, Fault> {
    let (rows, texts) = listed(|list: &mut List<RawScope>| unsafe {
        raw::puffin_scopes(stream.as_ptr(), stream.len(), long_texts, list)
    })?;
    let scope = |row: &RawScope| FileScope {
        id: row.id,
        depth: row.depth,
        start_ns: row.start_ns,
        stop_ns: row.stop_ns,
        text: text_at(&texts, row.text_at, row.text_size),
    };
    Ok(rows.iter().map(scope).collect())
}

/// The frames of a file, one after the other, each with its streams by thread. A fault ends it.
#[derive(Debug, Clone)]
pub struct FileFrames<'a> {
    file: &'a [u8],
    offset: Option<u64>,
}

impl<'a> FileFrames<'a> {
    pub fn new(file: &'a [u8]) -> FileFrames<'a> {
        FileFrames { file, offset: Some(0) }
    }

    fn read(&mut self, offset: u64) -> Result<Option<(Frame, Vec<FileStream>)>, Fault> {
        let (mut frame, mut next) = (RawFrame::default(), 0);
        let (rows, bytes) = listed(|list| {
            let mut given = StreamList { list: *list, next, frame };
            let answer = unsafe { raw::puffin_frame_streams(self.file.as_ptr(), self.file.len(), offset, &mut given) };
            (*list, next, frame) = (given.list, given.next, given.frame);
            answer
        })?;
        let frame = match frame.told() {
            Some(frame) => frame,
            None => return Ok(None),
        };
        let mut streams = Vec::new();
        for row in &rows {
            let stream = &bytes[row.stream_at as usize..][..row.stream_size as usize];
            streams.push(FileStream {
                name: text_at(&bytes, row.name_at, row.name_size),
                start_ns: row.has_start.then_some(row.start_ns),
                scopes: scopes_in(stream, row.long_texts)?,
            });
        }
        self.offset = Some(next);
        Ok(Some((frame, streams)))
    }
}

impl Iterator for FileFrames<'_> {
    type Item = Result<(Frame, Vec<FileStream>), Fault>;

    fn next(&mut self) -> Option<Self::Item> {
        let offset = self.offset.take()?;
        self.read(offset).transpose()
    }
}
