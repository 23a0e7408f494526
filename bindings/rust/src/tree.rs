//! All boxes of a file, at every level.

use std::fmt::{self, Write};
use std::io::{Read, Seek, SeekFrom};
use std::iter::FusedIterator;
use std::ops::Deref;

use crate::calls::{defaults, read_by};
use crate::rows::bytes_at;
use crate::{fields, raw, Error, Fault, FourCC, ReadBox};

/// The state of a box, or of the place where one should begin.
#[derive(Clone, Copy, Debug, PartialEq, Eq, Hash)]
#[non_exhaustive]
pub enum What {
    /// A whole box; the walk knows no boxes inside.
    Leaf,
    /// A whole box that holds boxes.
    Parent,
    /// A whole box that holds boxes, inside 32 others: the tree doesn't have them.
    TooDeep,
    /// A box that ends after what is around it. If it holds boxes, the tree has those that are present.
    Cut,
    /// A size that is smaller than the header.
    Small,
    /// Fewer bytes than a header has.
    NoHeader,
}

/// The header of a box of a file. Positions and lengths are in bytes.
#[derive(Clone, Copy, Debug, PartialEq, Eq, Hash)]
#[non_exhaustive]
pub struct BoxHeader {
    /// The position in the file at which the header begins.
    pub position: u64,
    /// The length, including the header, as the header states it; if there is no box, what is left of the content.
    pub length: u64,
    /// 8 or 16; if there is no box, what is left of the content.
    pub header_length: u64,
    /// The number of boxes around it.
    pub depth: usize,
    /// The code of the box; four zeros if the file ends before it.
    pub code: FourCC,
    /// The handler of the enclosing media, as an earlier `hdlr` says.
    pub handler: Option<FourCC>,
    /// The state of the box.
    pub what: What,
    /// The number of boxes in the tree before the first one that isn't inside.
    after: usize,
}

/// The boxes of a file, which `tree` and `tree_of` return.
///
/// ```
/// let file = b"\0\0\0\x20moov\0\0\0\x08trak\0\0\0\x10trak\0\0\0\x08mdia";
/// let tree = mp4_box_codec::tree(file)?;
/// let moov = tree.find("moov").unwrap();
/// let codes: Vec<_> = moov.children().map(|it| it.code.to_string()).collect();
/// assert_eq!(codes, ["trak", "trak"]);
/// let mdia = moov.find("trak[1]/mdia").unwrap();
/// assert_eq!((mdia.position, mdia.path()?.as_str()), (24, "moov/trak[1]/mdia"));
/// assert_eq!(tree.iter().count(), 4);
/// # Ok::<(), mp4_box_codec::Error>(())
/// ```
#[derive(Clone, Debug, Default, PartialEq, Eq)]
pub struct Tree {
    boxes: Vec<BoxHeader>,
}

impl Tree {
    /// Returns all boxes, each followed by the boxes inside.
    pub fn iter(&self) -> Boxes<'_> {
        Boxes { tree: self, next: 0, end: self.boxes.len(), is_deep: true }
    }

    /// Returns the boxes at the top level.
    pub fn children(&self) -> Boxes<'_> {
        Boxes { is_deep: false, ..self.iter() }
    }

    /// Returns the first box at a path such as `moov/trak[1]/mdia`, where `trak[1]` is the second `trak`. None if there
    /// is no such box, or the text is not a path.
    pub fn find(&self, path: &str) -> Option<TreeBox<'_>> {
        found(self.children(), path)
    }
}

impl<'t> IntoIterator for &'t Tree {
    type Item = TreeBox<'t>;
    type IntoIter = Boxes<'t>;

    fn into_iter(self) -> Boxes<'t> {
        self.iter()
    }
}

/// Returns the box at a path that begins among the boxes `level`.
fn found<'t>(mut level: Boxes<'t>, path: &str) -> Option<TreeBox<'t>> {
    let mut last = None;
    for part in path.split('/') {
        let (code, number) = match part.strip_suffix(']') {
            Some(front) => {
                let (code, digits) = front.rsplit_once('[')?;
                let is_number = digits.bytes().all(|it| it.is_ascii_digit());
                (code, digits.parse().ok().filter(|_| is_number)?)
            }
            None => (part, 0),
        };
        let it = level.filter(|it| it.code == code && it.what != What::NoHeader).nth(number)?;
        (level, last) = (it.children(), Some(it));
    }
    last
}

/// A box of a tree. Its header has the position, the length and the code.
#[derive(Clone, Copy)]
pub struct TreeBox<'t> {
    tree: &'t Tree,
    index: usize,
}

impl Deref for TreeBox<'_> {
    type Target = BoxHeader;

    fn deref(&self) -> &BoxHeader {
        &self.tree.boxes[self.index]
    }
}

impl fmt::Debug for TreeBox<'_> {
    fn fmt(&self, f: &mut fmt::Formatter<'_>) -> fmt::Result {
        (**self).fmt(f)
    }
}

/// Two boxes are equal if their headers are, wherever their trees are.
impl PartialEq for TreeBox<'_> {
    fn eq(&self, other: &Self) -> bool {
        **self == **other
    }
}

impl Eq for TreeBox<'_> {}

impl<'t> TreeBox<'t> {
    /// Returns the boxes inside, without those inside of them.
    pub fn children(self) -> Boxes<'t> {
        Boxes { tree: self.tree, next: self.index + 1, end: self.after, is_deep: false }
    }

    /// Returns all boxes inside, each followed by those inside of it.
    pub fn descendants(self) -> Boxes<'t> {
        Boxes { is_deep: true, ..self.children() }
    }

    /// Returns the first box at a path that begins inside this box, such as `mdia/mdhd` for a `trak`.
    pub fn find(self, path: &str) -> Option<TreeBox<'t>> {
        found(self.children(), path)
    }

    /// Returns the first box at a path that begins inside this box. If there is none, the error is
    /// `Fault::BoxNotFound`, with the position and the path of this box.
    pub fn require(self, path: &str) -> Result<TreeBox<'t>, Error> {
        match self.find(path) {
            Some(it) => Ok(it),
            None => Err(self.error(Fault::BoxNotFound)),
        }
    }

    /// Returns the box around it.
    pub fn parent(self) -> Option<TreeBox<'t>> {
        let before = self.tree.boxes[..self.index].iter().rposition(|it| it.depth < self.depth)?;
        Some(TreeBox { tree: self.tree, index: before })
    }

    /// Returns the path of the box, with a number after a code that occurs before among the boxes beside it.
    pub fn path(self) -> Result<String, Error> {
        let (mut path, beside) = match self.parent() {
            Some(it) => (it.path()?, it.children()),
            None => (String::new(), self.tree.children()),
        };
        let number = beside.take_while(|it| it.index < self.index).filter(|it| it.code == self.code).count();
        // A character has up to 4 bytes here, a number 20, and there are 3 more.
        path.try_reserve(4 * 4 + 20 + 3)?;
        let slash = if path.is_empty() { "" } else { "/" };
        let written = match number {
            0 => write!(path, "{slash}{}", self.code),
            _ => write!(path, "{slash}{}[{number}]", self.code),
        };
        written.map(|()| path).map_err(|_| Error::OutOfMemory)
    }

    /// Returns the bytes of the box, including its header, from the bytes of the file, if these have them.
    pub fn bytes<'a>(&self, file: &'a [u8]) -> Option<&'a [u8]> {
        bytes_at(file, self.position, self.length)
    }

    /// Reads the bytes of the box, including its header, from a file. An error has the position and the path of the
    /// box if the walk found a fault.
    pub fn bytes_from<F: Read + Seek>(self, file: &mut F) -> Result<Vec<u8>, Error> {
        if let Some(fault) = self.fault() {
            return Err(self.error(fault));
        }
        file.seek(SeekFrom::Start(self.position))?;
        let mut bytes = defaults(usize::try_from(self.length).map_err(|_| Error::OutOfMemory)?)?;
        file.read_exact(&mut bytes)?;
        Ok(bytes)
    }

    /// Returns the fault that the walk found: a box that is cut, a small size, or no header.
    pub fn fault(&self) -> Option<Fault> {
        match self.what {
            What::Leaf | What::Parent | What::TooDeep => None,
            What::Cut => Some(Fault::Cut),
            What::Small => Some(Fault::SmallSize),
            What::NoHeader => Some(Fault::NoHeader),
        }
    }

    /// Reads the box into a struct, from the bytes of the file. An error has the position and the path of the box.
    pub fn read<B: ReadBox>(self, file: &[u8]) -> Result<B, Error> {
        self.placed(self.whole(file).and_then(B::read_box))
    }

    /// Reads the box into a struct, from a file. An error has the position and the path of the box.
    pub fn read_from<B: ReadBox, F: Read + Seek>(self, file: &mut F) -> Result<B, Error> {
        self.placed(self.bytes_from(file).and_then(|bytes| B::read_box(&bytes)))
    }

    /// Returns the fields of the box as the text of a JSON object, as the function `fields` does. An error has the
    /// position and the path of the box.
    pub fn fields(self, file: &[u8]) -> Result<String, Error> {
        self.placed(self.whole(file).and_then(fields))
    }

    /// Returns the bytes of the box, or its fault.
    fn whole<'a>(&self, file: &'a [u8]) -> Result<&'a [u8], Error> {
        match self.fault() {
            Some(fault) => Err(fault.into()),
            None => self.bytes(file).ok_or(Fault::EndOfInput.into()),
        }
    }

    /// Puts the place of the box into an error.
    fn placed<T>(self, found: Result<T, Error>) -> Result<T, Error> {
        match found {
            Err(Error::Fault(fault)) => Err(self.error(fault)),
            found => found,
        }
    }

    /// Returns the error of a fault of this box.
    fn error(self, fault: Fault) -> Error {
        match self.path() {
            Ok(path) => Error::At { position: self.position, path, fault },
            Err(why) => why,
        }
    }
}

/// An iterator over boxes of a tree.
#[derive(Clone, Debug)]
pub struct Boxes<'t> {
    tree: &'t Tree,
    next: usize,
    end: usize,
    is_deep: bool,
}

impl<'t> Iterator for Boxes<'t> {
    type Item = TreeBox<'t>;

    fn next(&mut self) -> Option<TreeBox<'t>> {
        if self.next >= self.end {
            return None;
        }
        let found = TreeBox { tree: self.tree, index: self.next };
        self.next = if self.is_deep { self.next + 1 } else { found.after };
        Some(found)
    }
}

impl FusedIterator for Boxes<'_> {}

/// Returns all boxes of the bytes of a file. It also works for a damaged file: `fault` of a box then has the fault.
pub fn tree(file: &[u8]) -> Result<Tree, Error> {
    let mut walk = Walk::over(file.len() as u64)?;
    while walk.state.wanted > 0 {
        let begin = walk.state.position as usize;
        walk.step(&file[begin..begin + walk.state.wanted as usize])?;
    }
    Ok(walk.tree())
}

/// Returns all boxes of a file. It reads only headers, and the bytes that say where the boxes inside begin.
pub fn tree_of<F: Read + Seek>(file: &mut F) -> Result<Tree, Error> {
    let mut walk = Walk::over(file.seek(SeekFrom::End(0))?)?;
    let mut bytes = [0; MOST];
    while walk.state.wanted > 0 {
        file.seek(SeekFrom::Start(walk.state.position))?;
        let wanted = &mut bytes[..walk.state.wanted as usize];
        file.read_exact(wanted)?;
        walk.step(wanted)?;
    }
    Ok(walk.tree())
}

/// The most bytes that a walk wants at a time.
const MOST: usize = 28;

/// A walk, which wants `wanted` bytes at a position of the file, and the boxes that it found.
struct Walk {
    state: raw::Walk,
    boxes: Vec<BoxHeader>,
}

impl Walk {
    fn over(length: u64) -> Result<Walk, Error> {
        // SAFETY: the memory of the walk is valid, and the call writes all of it.
        let state = read_by(|walk| unsafe { raw::mp4_walk_begin(length, walk) })?;
        Ok(Walk { state, boxes: Vec::new() })
    }

    /// Adds the next box, whose wanted bytes are `bytes`.
    fn step(&mut self, bytes: &[u8]) -> Result<(), Error> {
        let state = &mut self.state;
        // SAFETY: the slice has `bytes.len()` bytes. The walk is as the library left it, since nothing else changes it.
        let it =
            read_by(|found: &mut raw::Box| unsafe { raw::mp4_walk_next(bytes.as_ptr(), bytes.len(), state, found) })?;
        self.boxes.try_reserve(1)?;
        self.boxes.push(BoxHeader {
            position: it.position,
            length: it.length,
            header_length: it.header_length,
            depth: it.depth as usize,
            code: it.code.into(),
            handler: FourCC::known(it.handler),
            what: match it.what {
                0 => What::Leaf,
                1 => What::Parent,
                2 => What::TooDeep,
                3 => What::Cut,
                4 => What::Small,
                _ => What::NoHeader,
            },
            after: 0,
        });
        Ok(())
    }

    /// Returns the tree, in which each box knows where the boxes inside end.
    fn tree(self) -> Tree {
        let mut boxes = self.boxes;
        // For each depth the first box after the one at hand that is no deeper.
        let mut after = [boxes.len(); DEPTHS];
        for index in (0..boxes.len()).rev() {
            let depth = boxes[index].depth.min(DEPTHS - 1);
            boxes[index].after = after[depth];
            // Boxes further inside end at the next box that is no deeper.
            after[depth..].fill(index);
        }
        Tree { boxes }
    }
}

/// A walk enters boxes inside of at most 32 others.
const DEPTHS: usize = 34;

#[cfg(test)]
mod tests {
    use super::tree;

    /// Checks where the boxes inside end: `a` has `b` (with `c`) and `d`, and `e` follows.
    #[test]
    fn ends() {
        let file = b"\0\0\0\x28moov\0\0\0\x10trak\0\0\0\x08mdia\0\0\0\x10trak\0\0\0\x08mdia\0\0\0\x08free";
        let tree = tree(file).unwrap();
        let ends: Vec<_> = tree.iter().map(|it| it.after).collect();
        assert_eq!(ends, [5, 3, 3, 5, 5, 6]);
        let parents: Vec<_> = tree.iter().map(|it| it.parent().map(|it| it.position)).collect();
        assert_eq!(parents, [None, Some(0), Some(8), Some(0), Some(24), None]);
        let inside: Vec<_> = tree.find("moov").unwrap().descendants().map(|it| it.position).collect();
        assert_eq!(inside, [8, 16, 24, 32]);
        for path in ["", "moov/", "/moov", "moov/trak[", "moov/trak[+1]", "moov/trak[]", "moov/trak]", "moov/trak[2]"] {
            assert!(tree.find(path).is_none(), "{path}");
        }
        assert_eq!(tree.find("moov[0]/trak[01]").map(|it| it.position), Some(24));
    }
}
