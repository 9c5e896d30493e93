//! The words of an answer, for callers that know which answers a call has.
use super::decode::Reader;
use super::{ANSWER_WORDS, Answer, Begun, Refusal, Report, Stages, Wanted, unexpected};

/// What the library wrote. A method that gives an option gives none where it is
/// another answer. All is read in line, so that nothing is copied on the way to
/// where it will stand.
#[derive(Debug)]
pub struct Answered {
    pub words: [u64; ANSWER_WORDS],
}

impl Answered {
    /// Before the call.
    pub const EMPTY: Self = Self {
        words: [0; ANSWER_WORDS],
    };

    pub fn tag(&self) -> u64 {
        self.words[0]
    }

    pub fn answer(&self, lists: &[u64]) -> Option<Answer> {
        Answer::from_words(&self.words, lists)
    }

    /// The refusal.
    ///
    /// # Panics
    /// Where it is another answer, which the call has not.
    #[cold]
    pub fn refusal(&self) -> Refusal {
        let refusal = self.tagged(0).and_then(|mut r| r.refusal());
        refusal.unwrap_or_else(|| unexpected(self))
    }

    #[inline(always)]
    pub fn begun(&self) -> Option<Begun> {
        self.tagged(2)?.begun()
    }

    #[inline(always)]
    pub fn plan_begun(&self) -> Option<(Begun, Stages)> {
        let mut r = self.tagged(3)?;
        Some((r.begun()?, r.stages()?))
    }

    #[inline(always)]
    pub fn report(&self) -> Option<Report> {
        self.tagged(4)?.report()
    }

    pub fn is_no_report(&self) -> bool {
        self.tag() == 5
    }

    /// The token to ask the backend for.
    #[inline(always)]
    pub fn token(&self) -> Option<u64> {
        self.tagged(6)?.word()
    }

    /// Where completed bytes start, and how many they are.
    #[inline(always)]
    pub fn bytes(&self) -> Option<(u64, u64)> {
        let mut r = self.tagged(8)?;
        Some((r.word()?, r.word()?))
    }

    /// A report and its place.
    #[inline(always)]
    pub fn report_at(&self) -> Option<(u64, Report)> {
        let mut r = self.tagged(12)?;
        Some((r.word()?, r.report()?))
    }

    #[inline(always)]
    pub fn wanted(&self) -> Option<Option<Wanted>> {
        self.tagged(13)?.wanted()
    }

    /// What follows the tag, where it is this one.
    #[inline(always)]
    fn tagged(&self, tag: u64) -> Option<Reader<'_>> {
        let mut r = Reader(&self.words);
        (r.word()? == tag).then_some(r)
    }
}
