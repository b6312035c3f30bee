//! The frames between the front and the core: what is asked as bytes, and what is answered read back. A frame is a length and that many bytes,
//! a letter and its fields; numbers are little-endian, and a text is its length and its bytes. Nothing here touches a process.

/// A block of the table.
pub const BLOCK: usize = 512;
/// The longest frame that either side sends.
pub const LONGEST: usize = 131_072;
/// What the core may write: an answer, a cookie, a name, a password.
const OUTPUT: u32 = 16_384;
const COOKIE: u32 = 64;
const USERNAME: u32 = 64;
const PASSWORD: u32 = 128;

/// A block of the table that a call has changed.
#[derive(Debug, PartialEq)]
pub struct Changed {
    pub number: u32,
    pub bytes: Vec<u8>,
}

/// What kind of answer the core gives.
#[derive(Clone, Copy, Debug, PartialEq)]
pub enum Kind {
    None,
    Page,
    Redirect,
    Text,
    Xml,
    Callback,
}

/// What the calls answer and finish give.
#[derive(Debug)]
pub struct Answer {
    pub refusal: u32,
    pub kind: Kind,
    /// A redirect carries a ticket, a text says yes, an XML document tells success.
    pub data: bool,
    pub status: u32,
    pub cookie_cleared: bool,
    pub callback_serial: u32,
    pub output: Vec<u8>,
    pub cookie: Vec<u8>,
    pub changed: Vec<Changed>,
}

/// What the form reader gives.
#[derive(Debug)]
pub struct Form {
    pub refusal: u32,
    pub username: Vec<u8>,
    pub password: Vec<u8>,
}

/// A request as the core takes it.
#[derive(Debug)]
pub struct Request<'a> {
    pub post: bool,
    pub target: &'a [u8],
    pub body: &'a [u8],
    pub cookie: &'a [u8],
}

/// A frame under way: its letter and fields so far.
struct Writer(Vec<u8>);

impl Writer {
    fn new(letter: u8) -> Self {
        Writer(vec![0, 0, 0, 0, letter])
    }
    fn u8(mut self, value: u8) -> Self {
        self.0.push(value);
        self
    }
    fn u32(mut self, value: u32) -> Self {
        self.0.extend(value.to_le_bytes());
        self
    }
    fn u64(mut self, value: u64) -> Self {
        self.0.extend(value.to_le_bytes());
        self
    }
    fn text(mut self, bytes: &[u8]) -> Self {
        self = self.u32(bytes.len() as u32);
        self.0.extend(bytes);
        self
    }
    fn done(mut self) -> Vec<u8> {
        let length = (self.0.len() - 4) as u32;
        self.0[..4].copy_from_slice(&length.to_le_bytes());
        self.0
    }
}

pub fn panel(service: &[u8], callback: &[u8]) -> Vec<u8> {
    Writer::new(b'B').text(service).text(callback).done()
}

pub fn register(blocks: &[u8]) -> Vec<u8> {
    Writer::new(b'G').text(blocks).done()
}

pub fn load(table: &[u8]) -> Vec<u8> {
    Writer::new(b'L').text(table).done()
}

pub fn format(size: u32, time: u64) -> Vec<u8> {
    Writer::new(b'F').u32(size).u8(0).u64(time).done()
}

pub fn housekeep(time: u64) -> Vec<u8> {
    Writer::new(b'K').u64(time).done()
}

pub fn read_form(body: &[u8]) -> Vec<u8> {
    Writer::new(b'R').text(body).u32(USERNAME).u32(PASSWORD).done()
}

pub fn answer(request: &Request, time: u64, verdict: bool, random: &[u8]) -> Vec<u8> {
    Writer::new(b'A')
        .u8(request.post.into())
        .u64(time)
        .u8(verdict.into())
        .u32(OUTPUT)
        .u32(COOKIE)
        .text(request.target)
        .text(request.body)
        .text(request.cookie)
        .text(random)
        .done()
}

pub fn finish(serial: u32, ok: bool, time: u64) -> Vec<u8> {
    Writer::new(b'N').u32(serial).u8(ok.into()).u64(time).u32(OUTPUT).done()
}

pub fn visit(number: u32, time: u64, cookie: &[u8], random: &[u8]) -> Vec<u8> {
    Writer::new(b'V').u32(number).u64(time).u32(OUTPUT).text(cookie).text(random).done()
}

/// The fields of a frame that came, read in order. A field that is not there gives `None`, and so does the end while something is left.
struct Reader<'a>(&'a [u8]);

impl<'a> Reader<'a> {
    fn new(frame: &'a [u8], letter: u8) -> Option<Self> {
        let mut reader = Reader(frame);
        (reader.u8()? == letter).then_some(reader)
    }
    fn take(&mut self, count: usize) -> Option<&'a [u8]> {
        if count > self.0.len() {
            return None;
        }
        let (head, rest) = self.0.split_at(count);
        self.0 = rest;
        Some(head)
    }
    fn u8(&mut self) -> Option<u8> {
        self.take(1).map(|bytes| bytes[0])
    }
    fn u32(&mut self) -> Option<u32> {
        self.take(4)?.try_into().ok().map(u32::from_le_bytes)
    }
    fn text(&mut self) -> Option<Vec<u8>> {
        let length = self.u32()?;
        self.take(length as usize).map(<[u8]>::to_vec)
    }
    fn changed(&mut self) -> Option<Vec<Changed>> {
        let count = self.u32()?;
        (0..count)
            .map(|_| {
                let number = self.u32()?;
                let bytes = self.take(BLOCK)?.to_vec();
                Some(Changed { number, bytes })
            })
            .collect()
    }
    fn end(&self) -> Option<()> {
        self.0.is_empty().then_some(())
    }
}

/// The refusal that load, check and format begin their answers with.
pub fn loaded(frame: &[u8]) -> Option<u32> {
    let mut fields = Reader::new(frame, b'L')?;
    let refusal = fields.u32()?;
    fields.end().map(|()| refusal)
}

/// The refusal of a panel and its block.
pub fn panelled(frame: &[u8]) -> Option<(u32, Vec<u8>)> {
    refused_or_text(frame, b'B')
}

/// The refusal of a register and the first block at fault.
pub fn registered(frame: &[u8]) -> Option<(u32, u32)> {
    let mut fields = Reader::new(frame, b'G')?;
    let answer = (fields.u32()?, fields.u32()?);
    fields.end().map(|()| answer)
}

/// The refusal of a format and the blocks of the new table.
pub fn formatted(frame: &[u8]) -> Option<(u32, Vec<Changed>)> {
    refused_or_changed(frame, b'F')
}

/// What housekeeping gave: an answer with no more than a refusal and the blocks that it changed.
pub fn housekept(frame: &[u8]) -> Option<Answer> {
    let (refusal, changed) = refused_or_changed(frame, b'K')?;
    let (output, cookie) = (Vec::new(), Vec::new());
    Some(Answer { refusal, kind: Kind::None, data: false, status: 0, cookie_cleared: false, callback_serial: 0, output, cookie, changed })
}

fn refused_or_changed(frame: &[u8], letter: u8) -> Option<(u32, Vec<Changed>)> {
    let mut fields = Reader::new(frame, letter)?;
    let answer = (fields.u32()?, fields.changed()?);
    fields.end().map(|()| answer)
}

pub fn form(frame: &[u8]) -> Option<Form> {
    let mut fields = Reader::new(frame, b'R')?;
    let form = Form { refusal: fields.u32()?, username: fields.text()?, password: fields.text()? };
    fields.end().map(|()| form)
}

/// What answer (`A`) and finish (`N`) gave.
pub fn answered(frame: &[u8]) -> Option<Answer> {
    let letter = *frame.first().filter(|letter| b"AN".contains(letter))?;
    let mut fields = Reader::new(frame, letter)?;
    let answer = Answer {
        refusal: fields.u32()?,
        kind: match fields.u8()? {
            0 => Kind::None,
            1 => Kind::Page,
            2 => Kind::Redirect,
            3 => Kind::Text,
            4 => Kind::Xml,
            5 => Kind::Callback,
            _ => return None,
        },
        data: fields.u8()? == 1,
        status: fields.u32()?,
        cookie_cleared: fields.u8()? == 1,
        callback_serial: fields.u32()?,
        output: fields.text()?,
        cookie: fields.text()?,
        changed: fields.changed()?,
    };
    fields.end().map(|()| answer)
}

/// The refusal of a visit and what was told.
pub fn visited(frame: &[u8]) -> Option<(u32, Vec<u8>)> {
    refused_or_text(frame, b'V')
}

fn refused_or_text(frame: &[u8], letter: u8) -> Option<(u32, Vec<u8>)> {
    let mut fields = Reader::new(frame, letter)?;
    let answer = (fields.u32()?, fields.text()?);
    fields.end().map(|()| answer)
}

/// The reason in the core's last frame, where this is it.
pub fn reason(frame: &[u8]) -> Option<String> {
    let mut fields = Reader::new(frame, b'X')?;
    let text = fields.text()?;
    fields.end().map(|()| String::from_utf8_lossy(&text).into_owned())
}

#[cfg(test)]
mod tests {
    use super::*;

    #[test]
    fn a_frame_has_its_length_its_letter_and_its_fields() {
        assert_eq!(format(4608, 1), b"\x0e\0\0\0F\0\x12\0\0\0\x01\0\0\0\0\0\0\0");
        assert_eq!(read_form(b"ab"), b"\x0f\0\0\0R\x02\0\0\0ab\x40\0\0\0\x80\0\0\0");
    }

    #[test]
    fn a_cut_frame_and_one_with_something_left_are_not_read() {
        let whole = b"V\x09\0\0\0\x02\0\0\0ab";
        assert_eq!(visited(whole), Some((9, b"ab".to_vec())));
        for cut in 0..whole.len() {
            assert_eq!(visited(&whole[..cut]), None);
        }
        assert_eq!(visited(b"V\x09\0\0\0\x02\0\0\0abc"), None);
        assert_eq!(visited(b"W\x09\0\0\0\x02\0\0\0ab"), None);
    }

    #[test]
    fn changed_blocks_are_read_with_their_numbers() {
        let mut frame = b"F\0\0\0\0\x01\0\0\0\x07\0\0\0".to_vec();
        frame.extend([5; BLOCK]);
        assert_eq!(formatted(&frame), Some((0, vec![Changed { number: 7, bytes: vec![5; BLOCK] }])));
        frame.pop();
        assert_eq!(formatted(&frame), None);
    }
}
