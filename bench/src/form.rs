//! The bytes of jobs, answers, spreads and files, in both forms (docs/FORMATS.md). In form 2 a head says how many words it has,
//! so that later words can follow: one that is not there counts as 0.

use crate::job::*;
use crate::spread_calls::{Call, Report, MEMORY as CALL_MEMORY, MINUS, SOUND_MINUS, SOUND_PLUS, VECTORS};
use std::convert::TryInto;

#[derive(Clone, Copy, Debug, PartialEq)]
pub enum Form {
    One,
    Two,
}

/// Words of a head in form 1, its first included. Form 2 has one more, the count, between that and the others.
const JOB_1: usize = 29;
const ANSWER_1: usize = 13;
const SPREADS_1: usize = 24;

/// Where the options of form 1 start in a job and in a call of spreads, and how many they are. These places stay: later options
/// stand at the end of a head of form 2, in a call of spreads at the same places as in a job.
const OPTIONS_AT: usize = 4;
const OPTIONS_1: usize = 17;

/// Words that are known here, the count of form 2 left aside.
const JOB_KNOWN: usize = JOB_1 + OPTIONS - OPTIONS_1;
const ANSWER_KNOWN: usize = ANSWER_1 + 1;

/// Where a call of spreads has the number of its tolerances. Words from there to the later options are a job's alone.
const TOLERANCES_AT: usize = SPREADS_1;

/// How many words a head of form 2 can have.
const MOST_HEAD: usize = 64;

const JOBS: [&[u8; 8]; 2] = [b"SAVJOBS1", b"SAVJOBS2"];
const ANSWERS: [&[u8; 8]; 2] = [b"SAVANSW1", b"SAVANSW2"];
const SPREADS: [&[u8; 8]; 2] = [b"SAVSPRD1", b"SAVSPRD2"];
const CALLS: [&[u8; 8]; 2] = [b"SAVCALL1", b"SAVCALL2"];
const SOUND: &[u8; 8] = b"SAVSOUN2";

/// The form that a file's first word names, out of the two magics.
fn form_of(b: &[u8], magics: [&[u8; 8]; 2]) -> Option<Form> {
    let first = b.get(..8)?;
    match magics.iter().position(|m| &m[..] == first) {
        Some(0) => Some(Form::One),
        Some(_) => Some(Form::Two),
        None => None,
    }
}

fn word(b: &[u8], i: usize) -> Option<u64> {
    let at = i.checked_mul(8)?;
    Some(u64::from_le_bytes(b.get(at..at.checked_add(8)?)?.try_into().unwrap()))
}

/// A head's words at their places of form 1, where it has `old` words, as many as are known, and how many words it takes up.
fn head(b: &[u8], form: Form, old: usize, known: usize) -> Option<(Vec<u64>, usize)> {
    let count = match form {
        Form::One => old,
        Form::Two => word(b, 1)? as usize,
    };
    if count < 2 || count > MOST_HEAD {
        return None;
    }
    let mut words = (0..count).map(|i| word(b, i)).collect::<Option<Vec<u64>>>()?;
    if form == Form::Two {
        words.remove(1);
    }
    if words.iter().skip(known).any(|w| *w != 0) {
        return None;
    }
    words.resize(known, 0);
    Some((words, count))
}

/// A head laid out: in form 2 the count of its words comes second.
fn laid(form: Form, mut words: Vec<u64>) -> Vec<u8> {
    if form == Form::Two {
        words.insert(1, words.len() as u64 + 1);
    }
    words.iter().flat_map(|x| x.to_le_bytes().to_vec()).collect()
}

/// A part's size goes to its first word.
fn sized(mut out: Vec<u8>) -> Vec<u8> {
    let size = out.len() as u64;
    out[..8].copy_from_slice(&size.to_le_bytes());
    out
}

/// Bytes, filled up with zeros to whole words.
fn padded(out: &mut Vec<u8>, part: &[u8]) {
    out.extend_from_slice(part);
    out.resize((out.len() + 7) / 8 * 8, 0);
}

/// Two parts, each filled up to whole words, from a word on.
fn two_parts(b: &[u8], from: usize, first: u64, second: u64) -> Option<(Vec<u8>, Vec<u8>)> {
    let end = |at: usize, length: u64| at.checked_add(usize::try_from(length).ok()?);
    let start = from * 8;
    let middle = end(start, first)?;
    let next = middle.checked_add(7)? / 8 * 8;
    Some((b.get(start..middle)?.to_vec(), b.get(next..end(next, second)?)?.to_vec()))
}

/// The options among the known words of the head of a job or a call of spreads.
fn options(head: &[u64]) -> Options {
    let mut words = [0; OPTIONS];
    words[..OPTIONS_1].copy_from_slice(&head[OPTIONS_AT..OPTIONS_AT + OPTIONS_1]);
    words[OPTIONS_1..].copy_from_slice(&head[JOB_1..]);
    Options::of_words(words)
}

/// The words of a head with the later options behind them, as far as one is set. Form 1 has no place for one that is.
fn with_later(mut words: Vec<u64>, old: usize, options: &Options, form: Form) -> Vec<u64> {
    words.resize(JOB_1, 0);
    words.extend_from_slice(&options.words()[OPTIONS_1..]);
    while words.len() > old && words[words.len() - 1] == 0 {
        words.pop();
    }
    assert!(form == Form::Two || words.len() == old, "form 1 has no place for a later word");
    words
}

impl Job {
    /// The job's bytes: size first, then numbers, sheet and points.
    pub fn bytes(&self, form: Form) -> Vec<u8> {
        let mut w: Vec<u64> = vec![0, self.transient as u64, self.nodes, self.sources];
        w.extend_from_slice(&self.options.words()[..OPTIONS_1]);
        w.extend_from_slice(&[self.sheet.len() as u64, self.points.len() as u64]);
        w.extend(self.lengths.iter().map(|l| *l as u64));
        let mut out = laid(form, with_later(w, JOB_1, &self.options, form));
        padded(&mut out, &self.sheet);
        padded(&mut out, &self.points);
        sized(out)
    }

    /// Reads a job that takes up all of `b`.
    fn read(b: &[u8], form: Form) -> Option<Job> {
        let (w, count) = head(b, form, JOB_1, JOB_KNOWN)?;
        let (sheet, points) = two_parts(b, count, w[21], w[22])?;
        let mut lengths = [0; 6];
        for (l, length) in lengths.iter_mut().zip(&w[23..]) {
            *l = *length as usize;
        }
        let options = options(&w);
        Some(Job { transient: w[1] == 1, nodes: w[2], sources: w[3], options, sheet, points, lengths })
    }
}

/// A NaN's payload and sign are nobody's promise: one NaN stands for all.
pub fn plain(x: f64) -> u64 {
    if x.is_nan() {
        0x7ff8_0000_0000_0000
    } else {
        x.to_bits()
    }
}

/// The buffers that an answer has, in its order.
const ANSWERED: [usize; 5] = [BASE, SYSTEM, VECTOR, MEMORY, ROWS];

impl Answer {
    /// The answer's bytes: size first, numbers, then what stands in each buffer.
    pub fn bytes(&self, job: &Job, form: Form) -> Vec<u8> {
        let mut w: Vec<u64> = vec![0, self.refusal, self.place, self.verdict, self.dc_verdict, self.passes, self.rows];
        w.push(plain(self.end));
        let n = job.nodes.wrapping_add(job.sources) as usize;
        let lengths = if self.refusal != 0 {
            [0; 5]
        } else {
            [n * (n + 1), n * (n + 1), n, job.sheet.len() / RECORD, self.rows as usize * (n + 1)]
        };
        w.extend(lengths.iter().map(|l| *l as u64));
        if form == Form::Two {
            w.extend(self.behind);
        }
        let mut out = laid(form, w);
        for (length, buffer) in lengths.iter().zip(ANSWERED) {
            out.extend(self.buffers[buffer][..*length].iter().flat_map(|x| plain(*x).to_le_bytes().to_vec()));
        }
        sized(out)
    }

    /// Reads an answer that takes up all of `b`; floats beyond those written stay as lent.
    fn read(b: &[u8], job: &Job, form: Form) -> Option<Answer> {
        // a word that is not known cannot be held against anything
        if form == Form::Two && !(ANSWER_1 + 1..=ANSWER_KNOWN + 1).contains(&(word(b, 1)? as usize)) {
            return None;
        }
        let (w, mut at) = head(b, form, ANSWER_1, ANSWER_KNOWN)?;
        let mut answer = Answer::refused(job, w[1], w[2]);
        // what is not there is not told
        answer.behind = if at > ANSWER_1 + 1 { Some(w[ANSWER_1]) } else { None };
        answer.verdict = w[3];
        answer.dc_verdict = w[4];
        answer.passes = w[5];
        answer.rows = w[6];
        answer.end = f64::from_bits(w[7]);
        for (buffer, count) in ANSWERED.iter().zip(&w[8..ANSWER_1]) {
            let floats = answer.buffers[*buffer].get_mut(..usize::try_from(*count).ok()?)?;
            for float in floats {
                *float = f64::from_bits(word(b, at)?);
                at += 1;
            }
        }
        Some(answer)
    }
}

impl Call {
    /// Reads a file of spreads; None where it is none.
    pub fn read(b: &[u8]) -> Option<Call> {
        let (w, count) = head(b, form_of(b, SPREADS)?, SPREADS_1, JOB_KNOWN)?;
        if w[TOLERANCES_AT + 1..JOB_1].iter().any(|word| *word != 0) {
            return None;
        }
        let (sheets, points) = two_parts(b, count, w[21], w[22])?;
        let behind = count * 8 + (sheets.len() + 7) / 8 * 8 + (points.len() + 7) / 8 * 8;
        let length = usize::try_from(w[TOLERANCES_AT]).ok()?.checked_mul(8)?;
        let floats = b.get(behind..behind.checked_add(length)?)?;
        let mut call = Call {
            jobs: w[1] as usize,
            nodes: w[2],
            sources: w[3],
            unknown: w[23],
            options: options(&w),
            sheets,
            points,
            tolerances: floats.chunks_exact(8).map(|f| f64::from_le_bytes(f.try_into().unwrap())).collect(),
            ..Call::empty()
        };
        call.fit();
        Some(call)
    }

    /// The bytes of a file of spreads: numbers, sheets, points and tolerances.
    pub fn bytes(&self, form: Form) -> Vec<u8> {
        let mut w = vec![u64::from_le_bytes(*SPREADS[form as usize]), self.jobs as u64, self.nodes, self.sources];
        w.extend_from_slice(&self.options.words()[..OPTIONS_1]);
        w.extend_from_slice(&[self.sheets.len() as u64, self.points.len() as u64, self.unknown]);
        w.push(self.tolerances.len() as u64);
        let mut out = laid(form, with_later(w, SPREADS_1, &self.options, form));
        padded(&mut out, &self.sheets);
        padded(&mut out, &self.points);
        out.extend(self.tolerances.iter().flat_map(|t| t.to_le_bytes()));
        out
    }
}

/// A report's numbers and buffers, as a file has them: of all jobs, and of a sound call a second time of the sound ones alone.
struct Told<'a> {
    /// Floats and words lent, and floats and words that the call needs.
    lent: ([usize; 5], [usize; 6]),
    needed: ([usize; 5], [usize; 6]),
    /// Jobs that count, smallest and largest, and where they stand.
    jobs: u64,
    values: [f64; 2],
    places: [u64; 2],
    vectors: &'a [f64],
    words: [&'a [u64]; 6],
}

impl Told<'_> {
    /// Size first, what the call lent, the answer's numbers, then how much of each buffer is scratch or written, and what is
    /// written. A refused call writes nothing.
    fn bytes(&self, refusal: u64, form: Form) -> Vec<u8> {
        let (floats, words) = if refusal != 0 { ([0; 5], [0; 6]) } else { self.needed };
        let mut w: Vec<u64> = vec![0];
        w.extend(self.lent.0.iter().chain(&self.lent.1).map(|l| *l as u64));
        w.extend([refusal, self.jobs, plain(self.values[0]), plain(self.values[1]), self.places[0], self.places[1]]);
        // the three matrices are scratch alike
        w.extend([floats[0], floats[CALL_MEMORY], floats[VECTORS]].iter().chain(&words).map(|l| *l as u64));
        let mut out = laid(form, w);
        out.extend(self.vectors[..floats[VECTORS]].iter().flat_map(|x| plain(*x).to_le_bytes()));
        for (length, buffer) in words.iter().zip(self.words) {
            out.extend(buffer[..*length].iter().flat_map(|x| x.to_le_bytes()));
        }
        sized(out)
    }
}

impl Report {
    /// The report's bytes; of a sound call with causes for numbers.
    pub fn bytes(&self, call: &Call, form: Form) -> Vec<u8> {
        let a = &self.answer;
        let first = |list: [usize; 8]| -> [usize; 6] { list[..MINUS + 1].try_into().unwrap() };
        let (floats, words) = call.needed();
        let mut lists = self.words.iter().map(|l| &l[..]);
        let told = Told {
            lent: (call.floats, first(call.words)),
            needed: (floats, first(words)),
            jobs: a.settled,
            values: [a.smallest, a.largest],
            places: [a.smallest_at, a.largest_at],
            vectors: &self.floats[VECTORS],
            words: [(); 6].map(|_| lists.next().unwrap()),
        };
        told.bytes(a.refusal, form)
    }

    /// What a sound call tells of its sound jobs: the same form, and of the buffers the two rows of the sum alone.
    pub fn sound_bytes(&self, call: &Call) -> Vec<u8> {
        let a = &self.answer;
        let rows = |list: [usize; 8]| [0, 0, 0, 0, list[SOUND_PLUS], list[SOUND_MINUS]];
        let told = Told {
            lent: ([0; 5], rows(call.words)),
            needed: ([0; 5], rows(call.needed().1)),
            jobs: a.sound,
            values: [a.sound_smallest, a.sound_largest],
            places: [a.sound_smallest_at, a.sound_largest_at],
            vectors: &[],
            words: [&[], &[], &[], &[], &self.words[SOUND_PLUS], &self.words[SOUND_MINUS]],
        };
        told.bytes(a.refusal, Form::Two)
    }
}

/// A file of calls of spreads, each followed by its report: magic, number of calls, largest call and largest report in bytes.
pub fn calls_file(form: Form, list: &[(Call, Report)]) -> Vec<u8> {
    let parts = list.iter().map(|(call, report)| (call.bytes(form), report.bytes(call, form))).collect();
    file_of(CALLS[form as usize], parts)
}

/// A file of calls of sound spreads, each followed by its two reports, which count together.
pub fn sound_file(list: &[(Call, Report)]) -> Vec<u8> {
    let reports = |(call, report): &(Call, Report)| [report.bytes(call, Form::Two), report.sound_bytes(call)].concat();
    file_of(SOUND, list.iter().map(|pair| (pair.0.bytes(Form::Two), reports(pair))).collect())
}

/// A file of jobs: magic, number of jobs, largest job and largest answer in bytes, then each job, with its answer where there
/// is one. Either all have one or none.
pub fn file(form: Form, list: &[(Job, Option<Answer>)]) -> Vec<u8> {
    let answered = list.iter().any(|(_, answer)| answer.is_some());
    let magics = if answered { ANSWERS } else { JOBS };
    let bytes = |(job, answer): &(Job, Option<Answer>)| {
        (job.bytes(form), answer.as_ref().map_or(Vec::new(), |a| a.bytes(job, form)))
    };
    file_of(magics[form as usize], list.iter().map(bytes).collect())
}

/// A file's head and its parts in turn.
fn file_of(magic: &[u8; 8], parts: Vec<(Vec<u8>, Vec<u8>)>) -> Vec<u8> {
    let largest = |of: fn(&(Vec<u8>, Vec<u8>)) -> usize| parts.iter().map(of).max().unwrap_or(0);
    let mut out = magic.to_vec();
    for x in [parts.len(), largest(|p| p.0.len()), largest(|p| p.1.len())] {
        out.extend_from_slice(&(x as u64).to_le_bytes());
    }
    for (first, second) in parts {
        out.extend_from_slice(&first);
        out.extend_from_slice(&second);
    }
    out
}

/// Reads a file of jobs, or of jobs and answers, of either form.
pub fn read_file(b: &[u8]) -> Result<Vec<(Job, Option<Answer>)>, String> {
    let (form, answered) = match (form_of(b, JOBS), form_of(b, ANSWERS)) {
        (Some(form), _) => (form, false),
        (_, Some(form)) => (form, true),
        _ => return Err("neither a file of jobs nor of answers".to_string()),
    };
    let mut rest = b.get(32..).ok_or("the file ends inside its head")?;
    let mut part = |what: &str, place: u64| {
        let size = word(rest, 0).and_then(|size| usize::try_from(size).ok()).unwrap_or(usize::MAX);
        if size > rest.len() {
            return Err(format!("the file ends inside {} {}", what, place));
        }
        let (first, after) = rest.split_at(size);
        rest = after;
        Ok(first)
    };
    let mut list = Vec::new();
    for place in 0..word(b, 1).unwrap_or(0) {
        let unreadable = |what: &str| format!("{} {} cannot be read", what, place);
        let job = Job::read(part("job", place)?, form).ok_or_else(|| unreadable("job"))?;
        let mut answer = None;
        if answered {
            let bytes = part("answer", place)?;
            answer = Some(Answer::read(bytes, &job, form).ok_or_else(|| unreadable("answer"))?);
        }
        list.push((job, answer));
    }
    Ok(list)
}

#[cfg(test)]
mod tests {
    use super::*;
    use crate::{generate, model, spread_calls};

    /// Random jobs with answers, damaged ones among them; the lists are short enough for a replay.
    fn list() -> Vec<(Job, Option<Answer>)> {
        let jobs = (0..200).map(|place| generate::job(7, place).0);
        let answer = |job: &Job| model::run(job, &crate::sides::OURS, model::Wrong::Nothing);
        jobs.map(|job| (job.clone(), Some(answer(&job)))).collect()
    }

    fn without_answers(list: &[(Job, Option<Answer>)]) -> Vec<(Job, Option<Answer>)> {
        list.iter().map(|(job, _)| (job.clone(), None)).collect()
    }

    /// The second word onwards of a head in form 2, changed; the part is the whole of `b`.
    fn with_word(b: &[u8], i: usize, x: u64) -> Vec<u8> {
        let mut out = b.to_vec();
        out[8 * i..8 * i + 8].copy_from_slice(&x.to_le_bytes());
        out
    }

    /// A head of form 2 with words added at its end, or taken away; what says the part's size stays.
    fn regrown(b: &[u8], to: usize, fill: u64) -> Vec<u8> {
        let count = word(b, 1).unwrap() as usize;
        let mut words: Vec<u64> = (0..count).map(|i| word(b, i).unwrap()).collect();
        words.resize(to, fill);
        words[1] = to as u64;
        let mut out: Vec<u8> = words.iter().flat_map(|x| x.to_le_bytes().to_vec()).collect();
        out.extend_from_slice(&b[8 * count..]);
        out
    }

    fn resized(b: &[u8], to: usize, fill: u64) -> Vec<u8> {
        sized(regrown(b, to, fill))
    }

    #[test]
    fn both_forms_say_the_same() {
        let list = list();
        for list in [without_answers(&list), list] {
            let one = file(Form::One, &list);
            let read = read_file(&one).unwrap();
            let two = file(Form::Two, &read);
            assert_ne!(one, two);
            let again = read_file(&two).unwrap();
            assert_eq!(file(Form::Two, &again), two);
            assert_eq!(file(Form::One, &again), one);
        }
    }

    #[test]
    fn the_places_of_form_2_are_those_of_form_1_and_one_more() {
        for (job, answer) in list() {
            let answer = answer.unwrap();
            let pairs = [
                (job.bytes(Form::One), job.bytes(Form::Two), JOB_1, JOB_1),
                (answer.bytes(&job, Form::One), answer.bytes(&job, Form::Two), ANSWER_1, ANSWER_KNOWN),
            ];
            for (one, two, old, written) in pairs {
                assert_eq!(word(&one, 0), Some(one.len() as u64));
                assert_eq!(word(&two, 0), Some(two.len() as u64));
                assert_eq!(word(&two, 1), Some(written as u64 + 1));
                assert_eq!(two[16..8 * old + 8], one[8..8 * old]);
                assert_eq!(two[8 * written + 8..], one[8 * old..]);
            }
        }
    }

    #[test]
    fn later_options_stand_at_the_end_and_are_0_where_absent() {
        let (mut job, _) = list().swap_remove(0);
        let mut words = job.options.words();
        for (i, w) in words.iter_mut().enumerate().skip(OPTIONS_1) {
            *w = i as u64;
        }
        job.options = Options::of_words(words);
        let two = job.bytes(Form::Two);
        assert_eq!(Job::read(&two, Form::Two).unwrap().options.words(), words);
        for (i, w) in words.iter_mut().enumerate().skip(OPTIONS_1) {
            assert_eq!(word(&two, JOB_1 + 1 + i - OPTIONS_1), Some(*w));
            *w = 0;
        }
        assert_eq!(Job::read(&resized(&two, JOB_1 + 1, 0), Form::Two).unwrap().options.words(), words);
    }

    #[test]
    fn the_option_is_word_30_of_jobs_and_spreads_and_the_diode_word_14_of_answers() {
        let (mut job, answer) = list().into_iter().find(|(_, a)| a.as_ref().unwrap().behind != Some(0)).unwrap();
        job.options.catchup = 1 << 63;
        assert_eq!(word(&job.bytes(Form::Two), 30), Some(1 << 63));
        let mut call = spread_calls::call(7, 0);
        call.options.catchup = 77;
        assert_eq!(word(&call.bytes(Form::Two), 30), Some(77));
        assert_eq!(Call::read(&call.bytes(Form::Two)).unwrap().options.catchup, 77);
        let answer = answer.unwrap();
        let two = answer.bytes(&job, Form::Two);
        assert_eq!(word(&two, 14), answer.behind);
        assert_eq!(Answer::read(&two, &job, Form::Two).unwrap().behind, answer.behind);
        // one that does not tell it
        let untold = Answer { behind: None, ..answer.clone() }.bytes(&job, Form::Two);
        assert_eq!((word(&untold, 1), untold.len() + 8), (Some(14), two.len()));
        assert_eq!(Answer::read(&untold, &job, Form::Two).unwrap().behind, None);
        assert_eq!(Answer::read(&answer.bytes(&job, Form::One), &job, Form::One).unwrap().behind, None);
    }

    #[test]
    fn the_option_for_patterns_is_word_31_of_jobs_and_spreads() {
        let (mut job, _) = list().swap_remove(0);
        let mut call = spread_calls::call(7, 0);
        for (catchup, first) in [(0, 1), (5, 1 << 63), (u64::MAX, 2), (1, u64::MAX)] {
            (job.options.catchup, job.options.pattern_first) = (catchup, first);
            (call.options.catchup, call.options.pattern_first) = (catchup, first);
            let (two, calls) = (job.bytes(Form::Two), call.bytes(Form::Two));
            for bytes in [&two, &calls] {
                assert_eq!((word(bytes, 1), word(bytes, 30), word(bytes, 31)), (Some(32), Some(catchup), Some(first)));
            }
            let options = |b: &[u8]| Job::read(b, Form::Two).map(|j| (j.options.catchup, j.options.pattern_first));
            let of_call = |b: &[u8]| Call::read(b).map(|c| (c.options.catchup, c.options.pattern_first));
            assert_eq!((options(&two), of_call(&calls)), (Some((catchup, first)), Some((catchup, first))));
            // a head of 31 words has it off, one of 30 both
            assert_eq!(options(&resized(&two, 31, 0)), Some((catchup, 0)));
            assert_eq!(of_call(&regrown(&calls, 31, 0)), Some((catchup, 0)));
            assert_eq!(options(&resized(&two, 30, 0)), Some((0, 0)));
            assert_eq!(of_call(&regrown(&calls, 30, 0)), Some((0, 0)));
            assert_eq!(of_call(&regrown(&calls, 24, 0)), Some((0, 0)));
            // and behind it nothing is known
            assert_eq!(options(&resized(&two, 64, 0)), Some((catchup, first)));
            assert_eq!((options(&resized(&two, 33, 1)), of_call(&regrown(&calls, 33, 1))), (None, None));
            // a count that goes past the end
            assert!(options(&two[..8 * 31]).is_none() && of_call(&calls[..8 * 31]).is_none());
        }
        // off it takes no word
        job.options.pattern_first = 0;
        assert_eq!(word(&job.bytes(Form::Two), 1), Some(31));
        job.options.catchup = 0;
        assert_eq!(word(&job.bytes(Form::Two), 1), Some(30));
    }

    #[test]
    #[should_panic(expected = "form 1 has no place")]
    fn form_1_has_no_option_for_patterns() {
        let mut call = spread_calls::call(7, 0);
        call.options.pattern_first = 1;
        call.tolerances.clear();
        call.bytes(Form::One);
    }

    #[test]
    fn tolerances_stand_behind_the_points() {
        for place in 0..200 {
            let call = spread_calls::sound_call(7, place);
            if call.jobs >= 1000 || call.unknowns() >= 100 {
                continue;
            }
            let bytes = call.bytes(Form::Two);
            let read = Call::read(&bytes).unwrap();
            assert_eq!((&read.sheets, &read.points), (&call.sheets, &call.points));
            let bits = |c: &Call| c.tolerances.iter().map(|t| t.to_bits()).collect::<Vec<u64>>();
            assert_eq!((bits(&read), read.options.catchup), (bits(&call), call.options.catchup));
            assert_eq!(read.bytes(Form::Two), bytes);
            if !call.tolerances.is_empty() {
                assert_eq!(word(&bytes, 25), Some(call.tolerances.len() as u64));
                assert!(Call::read(&bytes[..bytes.len() - 8]).is_none());
                for count in [call.tolerances.len() as u64 + 1, 1 << 61, u64::MAX] {
                    assert!(Call::read(&with_word(&bytes, 25, count)).is_none());
                }
            }
            // what a job has there a call has not
            let grown = regrown(&bytes, 31, 0);
            for i in 26..30 {
                assert!(Call::read(&with_word(&grown, i, 1)).is_none());
            }
            assert!(Call::read(&grown).is_some());
        }
    }

    #[test]
    #[should_panic(expected = "form 1 has no place")]
    fn form_1_has_no_option() {
        let (mut job, _) = list().swap_remove(0);
        job.options.catchup = 1;
        job.bytes(Form::One);
    }

    #[test]
    fn a_head_can_grow_by_zeros_and_shrink() {
        for (job, _) in list().iter().take(50) {
            let (one, two) = (job.bytes(Form::One), job.bytes(Form::Two));
            for to in [JOB_KNOWN + 2, 40, 64] {
                let read = Job::read(&resized(&two, to, 0), Form::Two).unwrap();
                assert_eq!(read.bytes(Form::One), one);
            }
        }
        // a head of two words: a DC job without anything, which the engine refuses
        let none = Job::read(&[16u64.to_le_bytes(), 2u64.to_le_bytes()].concat(), Form::Two).unwrap();
        assert_eq!((none.transient, none.nodes, none.sources, none.lengths), (false, 0, 0, [0; 6]));
        assert_eq!(none.options.words(), [0; OPTIONS]);
        assert!(none.sheet.is_empty() && none.points.is_empty());
        // words from 23 of form 1 on are not there: nothing is lent
        let (job, _) = &list()[0];
        let cut = Job::read(&resized(&job.bytes(Form::Two), 24, 0), Form::Two).unwrap();
        assert_eq!((cut.lengths, &cut.sheet, &cut.points), ([0; 6], &job.sheet, &job.points));
    }

    #[test]
    fn damaged_heads_are_refused() {
        let (job, answer) = list().into_iter().find(|(_, a)| a.as_ref().unwrap().refusal == 0).unwrap();
        let (two, answer) = (job.bytes(Form::Two), answer.unwrap().bytes(&job, Form::Two));
        assert!(Job::read(&two, Form::Two).is_some() && Answer::read(&answer, &job, Form::Two).is_some());
        for count in [0, 1, 65, 1 << 32, u64::MAX] {
            assert!(Job::read(&with_word(&two, 1, count), Form::Two).is_none());
            assert!(Answer::read(&with_word(&answer, 1, count), &job, Form::Two).is_none());
        }
        // a word that is there and unknown
        assert!(Job::read(&resized(&two, JOB_KNOWN + 2, 1), Form::Two).is_none());
        assert!(Job::read(&with_word(&resized(&two, 64, 0), 63, 1 << 63), Form::Two).is_none());
        for to in [ANSWER_1, ANSWER_KNOWN + 2, 64] {
            assert!(Answer::read(&resized(&answer, to, 0), &job, Form::Two).is_none());
        }
        // a head or a part past the end
        assert!(Job::read(&two[..8 * 29], Form::Two).is_none());
        assert!(Job::read(&two[..two.len() - 8], Form::Two).is_none());
        assert!(Answer::read(&answer[..answer.len() - 8], &job, Form::Two).is_none());
        for (i, x) in [(22, u64::MAX), (23, u64::MAX - 7), (22, two.len() as u64)] {
            assert!(Job::read(&with_word(&two, i, x), Form::Two).is_none());
        }
        // more floats than were lent
        assert!(Answer::read(&with_word(&answer, 9, 1 << 40), &job, Form::Two).is_none());
    }

    #[test]
    fn damaged_files_are_refused() {
        let list = list();
        for form in [Form::One, Form::Two] {
            let whole = file(form, &list[..3]);
            for length in [0, 7, 8, 31, 32, 39, 40, 100, whole.len() / 2, whole.len() - 8] {
                assert!(read_file(&whole[..length]).is_err(), "{:?} cut to {}", form, length);
            }
            assert!(read_file(&with_word(&whole, 0, 0)).is_err());
            assert!(read_file(&with_word(&whole, 1, 4)).is_err());
            for size in [0, 7, 8, u64::MAX] {
                assert!(read_file(&with_word(&whole, 4, size)).is_err());
            }
        }
    }

    #[test]
    fn spreads_of_both_forms() {
        for call in (0..40).map(|place| spread_calls::call(7, place)).filter(|c| c.jobs < 1000 && c.unknowns() < 100) {
            let (one, two) = (call.bytes(Form::One), call.bytes(Form::Two));
            for bytes in [&one, &two] {
                let read = Call::read(bytes).unwrap();
                assert_eq!((&read.sheets, &read.points), (&call.sheets, &call.points));
                assert_eq!(read.bytes(Form::One), one);
                assert!(Call::read(&bytes[..100]).is_none());
                assert!(Call::read(&with_word(bytes, 0, 0)).is_none());
            }
            for count in [0, 1, 65, u64::MAX] {
                assert!(Call::read(&with_word(&two, 1, count)).is_none());
            }
            assert_eq!(Call::read(&regrown(&two, 64, 0)).unwrap().bytes(Form::One), one);
            assert!(Call::read(&regrown(&two, JOB_KNOWN + 2, 1)).is_none());
            assert_eq!(Call::read(&regrown(&two, 24, 0)).unwrap().unknown, 0);
        }
    }
}
