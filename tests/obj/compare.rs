//! One text: the answer, the part file and each lent buffer before and after, beside the plain reader's; and what the check says of the file.
use crate::back;
use crate::seen::Seen;
use common::gablemadder;
use common::guard::{self, Guarded};
use common::obj_reader::{self as reader, Part, JOB};
use common::random::Random;
use common::sample::{self, GOOD_FLAGS};
use common::scratch::Scratch;
use common::shapes::pick;
use common::tally::Tally;

/// Of longer files one in so many is read back.
const LONG: usize = 100_000;
const SHARE: u64 = 4;

pub struct Compare {
    pub tally: Tally,
    pub seen: Seen,
    pub calls: u64,
    random: Random,
    text: Scratch<u8>,
    job: Scratch<u8>,
    out: Scratch<u8>,
    written: Guarded<usize>,
}

impl Compare {
    pub fn new(seed: u64) -> Compare {
        Compare {
            tally: Tally::default(),
            seen: Seen::wanted(),
            calls: 0,
            random: Random(seed),
            text: Scratch::named("text"),
            job: Scratch::named("job"),
            out: Scratch::named("out"),
            written: Guarded::new("written"),
        }
    }

    /// The plain reader's answer to the text where job and buffer are good: 0, 14, 15 or 3.
    pub fn check(&mut self, text: &[u8], what: impl FnOnce() -> String) -> u32 {
        self.text.hold(text, &mut self.random);
        guard::checks(text);
        let read = reader::read(text);
        let (answer, result) = match &read {
            Err(number) => (*number, self.any(Err(*number))),
            Ok(part) => (part.refusal(JOB, usize::MAX), self.accepted(part)),
        };
        self.seen.text(text, read.as_ref().ok());
        self.tally.check_input(text, result, what);
        answer
    }

    /// With a job and a buffer that are good; then with others.
    fn accepted(&mut self, part: &Part) -> Result<(), String> {
        if part.refusal(JOB, usize::MAX) != 0 {
            return self.any(Ok(part));
        }
        let more = pick(&mut self.random, &[0, 0, 1, 7, 300]);
        let job = self.good_job();
        self.call(Ok(part), &job, part.size() + more)?;
        if self.random.below(SHARE) == 0 || part.size() < LONG {
            self.back(part)?;
        }
        let some = self.random.below(part.size() as u64) as usize;
        let less = pick(&mut self.random, &[1, 1, 1, 2, 144, part.size(), part.size() - some]);
        let job = self.good_job();
        self.call(Ok(part), &job, part.size() - less)?;
        self.any(Ok(part))
    }

    /// With any job and buffer, most often a job of another length.
    fn any(&mut self, want: Result<&Part, u32>) -> Result<(), String> {
        let size = want.map_or(200, Part::size).min(LONG);
        let length = pick(&mut self.random, &[127, 129, 0, 1, 256, JOB, JOB]);
        let job: Vec<u8> = (0..length).map(|_| self.random.next() as u8).collect();
        let some = self.random.below(size as u64 + 1) as usize;
        let room = pick(&mut self.random, &[0, some, size - 1, size, size + 9]);
        self.call(want, &job, room)?;
        match want {
            Ok(part) if part.refusal(length, room) == 0 => self.back(part),
            _ => Ok(()),
        }
    }

    fn back(&mut self, part: &Part) -> Result<(), String> {
        let number = back::read_back(&self.out.cells()[..part.size()], part)?;
        self.seen.checked(number);
        Ok(())
    }

    fn good_job(&mut self) -> Vec<u8> {
        let (process, flags) = (self.random.below(5) as u32, pick(&mut self.random, &GOOD_FLAGS));
        sample::job(process, flags, b"Nylon 12")
    }

    /// A call over junk, and all that it has to leave.
    fn call(&mut self, want: Result<&Part, u32>, job: &[u8], room: usize) -> Result<(), String> {
        let kind = self.random.below(4) as usize;
        self.job.hold(job, &mut self.random);
        self.out.lend(room, kind, 128, &mut self.random);
        let before = self.random.next() as usize;
        self.written.lend(1, self.random.below(4) != 0);
        self.written[0] = before;
        self.calls += 1;
        let ours = gablemadder::obj(self.text.cells(), self.job.cells(), self.out.cells(), &mut self.written[0]);
        let theirs = want.map_or_else(|number| number, |part| part.refusal(job.len(), room));
        self.seen.answer(theirs);
        if let Ok(part) = want {
            self.seen.call(job.len(), room, part);
        }
        let place = format!("job of {} bytes, {room} lent", job.len());
        if ours != theirs {
            return Err(format!("{place}: {ours} for {theirs}"));
        }
        if !self.text.is_unchanged() || !self.job.is_unchanged() {
            return Err(format!("{place}: answers {ours} and changes the text or the job"));
        }
        match want {
            Ok(part) if theirs == 0 => self.is_file(part, job).map_err(|why| format!("{place}: {why}")),
            _ if self.out.is_unchanged() && self.written[0] == before => Ok(()),
            _ => Err(format!("{place}: answers {ours} and changes `out` or `written`")),
        }
    }

    /// The part file in the first bytes, those after them unchanged.
    fn is_file(&mut self, part: &Part, job: &[u8]) -> Result<(), String> {
        let n = part.size();
        if self.written[0] != n {
            return Err(format!("says {} bytes for {n}", self.written[0]));
        }
        if !self.out.is_unchanged_past(n) {
            return Err(format!("changes bytes past the {n} of the file"));
        }
        let file = part.file(job);
        match self.out.cells()[..n].iter().zip(&file).position(|(a, b)| a != b) {
            Some(at) => Err(format!("another byte at {at} of {n}")),
            None => Ok(()),
        }
    }
}
