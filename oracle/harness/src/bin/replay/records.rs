//! Pictures and run questions as bytes. A picture is its height, width and codel width, a byte each,
//! and a byte for each pixel's colour. A run question is a picture, the limit in four bytes, the
//! mode, the stack's room and the output's room, a byte each, the input's length in two, and the input.
//! In front of a picture stands the edition that builds its table, in front of a run question also the
//! one that runs it, a byte each.
use harness::editions::{Editions, PAGE, RUST};
use harness::machine::Room;
use harness::picture::Picture;
use harness::question::Question;

/// A picture whose table is asked for.
pub struct Asked {
    pub edition: u32,
    pub picture: Picture,
}

/// A run that is asked for.
pub struct Job {
    pub editions: Editions,
    pub question: Question,
}

impl Asked {
    pub fn record(&self) -> Vec<u8> {
        [vec![byte(self.edition)], picture_record(&self.picture)].concat()
    }
}

impl Job {
    pub fn record(&self) -> Vec<u8> {
        let Editions { build, run } = self.editions;
        [vec![byte(build), byte(run)], question_record(&self.question)].concat()
    }
}

fn picture_record(p: &Picture) -> Vec<u8> {
    [vec![byte(p.height), byte(p.width), byte(p.codel)], p.colours.clone()].concat()
}

fn question_record(q: &Question) -> Vec<u8> {
    let limit = u32::try_from(q.limit).expect("a limit fits four bytes");
    let length = u16::try_from(q.input.len()).expect("an input's length fits two bytes");
    let Room { stack, outputs } = q.room;
    let rest = [q.is_abstract as u8, byte(stack), byte(outputs)];
    let numbers = [&limit.to_le_bytes()[..], &rest, &length.to_le_bytes()].concat();
    [picture_record(&q.picture), numbers, q.input.clone()].concat()
}

fn byte<N: TryInto<u8>>(number: N) -> u8 {
    number.try_into().ok().expect("a number fits a byte")
}

/// All records of a file.
pub fn read_all<'a, T>(
    bytes: &'a [u8],
    read: fn(&mut Reader<'a>) -> Option<T>,
) -> Result<Vec<T>, String> {
    let (mut reader, mut all) = (Reader(bytes), vec![]);
    while !reader.0.is_empty() {
        all.push(
            read(&mut reader).ok_or(format!("record {} is cut, or of no edition", all.len()))?,
        );
    }
    Ok(all)
}

/// What is left of the records.
pub struct Reader<'a>(&'a [u8]);

impl<'a> Reader<'a> {
    pub fn asked(&mut self) -> Option<Asked> {
        Some(Asked { edition: self.edition()?, picture: self.picture()? })
    }

    pub fn job(&mut self) -> Option<Job> {
        let editions = Editions { build: self.edition()?, run: self.edition()? };
        Some(Job { editions, question: self.question()? })
    }

    fn edition(&mut self) -> Option<u32> {
        let [edition] = self.numbers()?.map(u32::from);
        [RUST, PAGE].contains(&edition).then_some(edition)
    }

    fn picture(&mut self) -> Option<Picture> {
        let [height, width, codel] = self.numbers()?.map(u32::from);
        let colours = self.take((height * width) as usize)?.to_vec();
        Some(Picture { height, width, codel, colours })
    }

    fn question(&mut self) -> Option<Question> {
        let picture = self.picture()?;
        let limit = u32::from_le_bytes(self.numbers()?) as u64;
        let [mode, stack, outputs] = self.numbers()?.map(usize::from);
        let length = u16::from_le_bytes(self.numbers()?) as usize;
        let (room, input) = (Room { stack, outputs }, self.take(length)?.to_vec());
        Some(Question { picture, limit, is_abstract: mode == 1, room, input })
    }

    fn numbers<const N: usize>(&mut self) -> Option<[u8; N]> {
        self.take(N)?.try_into().ok()
    }

    fn take(&mut self, count: usize) -> Option<&'a [u8]> {
        let (taken, rest) = self.0.split_at_checked(count)?;
        self.0 = rest;
        Some(taken)
    }
}
