use crate::{library, Event, Refusal, Report, Rule, STATE_WORDS};
use core::fmt;

/// A running rule: 13,220 bytes that point nowhere. It may be copied and kept anywhere.
#[derive(Clone, PartialEq, Eq)]
pub struct State(library::State);

impl State {
    /// A state of the rule with no points. A rule that was checked meets no refusal here.
    pub fn start(rule: &Rule) -> Result<State, Refusal> {
        let started = library::start(rule.file());
        match started.number {
            0 => Ok(State(started.state)),
            number => Err(Refusal::of(number, started.place)),
        }
    }

    /// Takes an event and writes what it settles to the front of `buffer`; words past that stay. Refusals are 8 to 16, and
    /// leave state and buffer as they were.
    pub fn take<'b>(&mut self, event: &Event, buffer: &'b mut [u32]) -> Result<Report<'b>, Refusal> {
        self.take_words(event.words(), buffer)
    }

    /// Takes an event that is given as its words: time, row count m, m relations, m rows of 4 words with unused columns 0.
    pub fn take_words<'b>(&mut self, event: &[u32], buffer: &'b mut [u32]) -> Result<Report<'b>, Refusal> {
        let taken = library::take(&mut self.0, event, buffer);
        answer(taken, buffer)
    }

    /// Takes a clock notice: a time and no point. What it settles is reported as by an event; "next" is settled by events alone.
    /// Refusals are 8, 11, 13, 15 and 16, and leave state and buffer as they were.
    ///
    /// A program gives a notice a minute while no event comes. Its time may be the latest known again; a later event below it is
    /// refused by 11, so the events that are there are taken first.
    pub fn notice<'b>(&mut self, time: u32, buffer: &'b mut [u32]) -> Result<Report<'b>, Refusal> {
        let taken = library::notice(&mut self.0, time, buffer);
        answer(taken, buffer)
    }

    /// Saves the state as an image to the front of `buffer`, and gives the image; words past it stay. It needs at most 3,816
    /// words. Refusals are 8 and 19, and leave the buffer as it was.
    ///
    /// The image has the rule in it, and is all that [`State::restore`] asks. What a state holds has one image, so that two
    /// states hold the same where their images are the same.
    ///
    /// ```
    /// use yokemango::{Event, Refusal, Rule, State, MAX_IMAGE_WORDS};
    ///
    /// # fn main() -> Result<(), Box<dyn std::error::Error>> {
    /// let rule = Rule::check(include_bytes!("../../examples/leak.rule"))?;
    /// let mut state = State::start(&rule)?;
    /// state.take(&Event::new(&rule, 100).with(0, &[7])?, &mut [0; 3])?;
    ///
    /// // version, points, latest known time, entries, times; node 0 at point 0 has the value 7; the time; 92 bytes of rule
    /// let mut buffer = [0; MAX_IMAGE_WORDS];
    /// let image = state.save(&mut buffer)?;
    /// assert_eq!(image[..13], [1, 1, 100, 1, 1, 0, 0, 0, 7, 0, 0, 0, 100]);
    /// assert_eq!(image.len(), 13 + 92 / 4);
    ///
    /// // the battery is changed, and the leak is reported as though nothing had happened
    /// let mut state = State::restore(image)?;
    /// let mut report = [0; 7];
    /// assert!(state.notice(161, &mut report)?.points().next().unwrap().rows().eq([[7]]));
    ///
    /// // a damaged word, a word too few and a buffer too short are refused
    /// let mut damaged = image.to_vec();
    /// damaged[3] = 2;
    /// assert_eq!(State::restore(&damaged).err(), Some(Refusal::Image));
    /// assert_eq!(State::restore(&image[..35]).err(), Some(Refusal::Image));
    /// assert_eq!(state.save(&mut [0; 4]).err(), Some(Refusal::Room { needed: 29 }));
    /// # Ok(())
    /// # }
    /// ```
    pub fn save<'b>(&self, buffer: &'b mut [u32]) -> Result<&'b [u32], Refusal> {
        let saved = library::save(&self.0, buffer);
        match saved.number {
            0 => Ok(&buffer[..saved.words as usize]),
            number => Err(Refusal::of(number, saved.place)),
        }
    }

    /// Reads an image in. It is given with no word more or less than [`State::save`] gave; the refusal is 18.
    ///
    /// No call on the state meets 8, and saving it gives the same image back. Where this monitor saved the image, calls are
    /// answered as though it had gone on all the time. An image of other origin harms nothing, and what is reported then may be
    /// what no log gave. A damaged word isn't always seen: a unit puts a check sum beside what it keeps.
    ///
    /// Words that hold nothing are 0 in the state, and needn't be in the one that was saved, so that `==` may tell the two apart;
    /// no answer does.
    pub fn restore(image: &[u32]) -> Result<State, Refusal> {
        let mut state = library::of_words(&[0; STATE_WORDS]);
        let restored = library::restore(&mut state, image);
        match restored.number {
            0 => Ok(State(state)),
            number => Err(Refusal::of(number, restored.place)),
        }
    }

    /// The points taken so far.
    pub fn points(&self) -> u32 {
        self.0.points
    }

    /// The latest known time, of a point or a notice; 0 before any.
    pub fn latest(&self) -> u32 {
        self.0.latest
    }

    /// The kept entries: at most 512.
    pub fn kept(&self) -> u32 {
        library::figures(&self.0).kept
    }

    /// The points that are taken and not yet reported: at most 32. The refusal is 8.
    pub fn open_points(&self) -> Result<u32, Refusal> {
        let figures = library::figures(&self.0);
        match figures.number {
            0 => Ok(figures.open_points),
            number => Err(Refusal::of(number, 0)),
        }
    }

    /// The state's words, as they stand in memory.
    pub fn words(&self) -> &[u32; STATE_WORDS] {
        library::words(&self.0)
    }

    /// A state of these words, whatever they are. Where they aren't those of a well-formed state, a call meets refusal 8.
    pub fn from_words(words: &[u32; STATE_WORDS]) -> State {
        State(library::of_words(words))
    }
}

/// The report at the front of the buffer, or the refusal.
fn answer(taken: library::Taken, buffer: &[u32]) -> Result<Report<'_>, Refusal> {
    match taken.number {
        0 => Ok(Report::written(&buffer[..taken.words as usize])),
        number => Err(Refusal::of(number, taken.place)),
    }
}

impl fmt::Debug for State {
    fn fmt(&self, out: &mut fmt::Formatter) -> fmt::Result {
        out.debug_struct("State").field("points", &self.points()).field("latest", &self.latest()).field("kept", &self.kept()).finish_non_exhaustive()
    }
}

#[cfg(test)]
mod tests {
    use super::State;
    use crate::{Event, Refusal, Rule, MAX_IMAGE_WORDS, MAX_REPORT_WORDS, STATE_WORDS};

    const LEAK: &[u8] = include_bytes!("../../examples/leak.rule");

    #[test]
    fn kept_is_as_the_scope_has_it() {
        let rule = Rule::check(LEAK).unwrap();
        let mut state = State::start(&rule).unwrap();
        let mut buffer = [0; MAX_REPORT_WORDS];
        let events = [(100, &[(0, 7), (0, 9)][..], 2), (130, &[(1, 9)], 3), (161, &[(1, 7)], 2), (191, &[(0, 9)], 2)];
        for (time, rows, kept) in events {
            let mut event = Event::new(&rule, time);
            rows.iter().for_each(|(relation, value)| event.push(*relation, &[*value]).unwrap());
            state.take(&event, &mut buffer).unwrap();
            assert_eq!(state.kept(), kept);
        }
        assert_eq!((state.points(), state.open_points()), (4, Ok(2)));
    }

    #[test]
    fn a_notice_moves_the_latest_time_and_no_point() {
        let rule = Rule::check(LEAK).unwrap();
        let mut state = State::start(&rule).unwrap();
        assert_eq!((state.points(), state.latest()), (0, 0));
        state.take(&Event::new(&rule, 100).with(0, &[7]).unwrap(), &mut [0; 3]).unwrap();
        assert_eq!((state.points(), state.latest(), state.open_points()), (1, 100, Ok(1)));
        assert!(state.notice(160, &mut [0; 3]).unwrap().is_empty());
        assert_eq!((state.points(), state.latest(), state.open_points()), (1, 160, Ok(1)));
        assert_eq!(state.notice(161, &mut [0; 7]).unwrap().total_rows(), 1);
        assert_eq!((state.points(), state.latest(), state.open_points(), state.kept()), (1, 161, Ok(0), 0));
    }

    #[test]
    fn a_refusal_leaves_state_and_buffer() {
        let rule = Rule::check(LEAK).unwrap();
        let mut state = State::start(&rule).unwrap();
        let before = state.clone();
        let mut buffer = [5; 2];
        assert_eq!(state.take(&Event::new(&rule, 1), &mut buffer).err(), Some(Refusal::Short { needed: 3 }));
        assert_eq!(state.take_words(&[1], &mut buffer).err(), Some(Refusal::Event));
        assert_eq!(state.take_words(&[1, 1, 2, 0, 0, 0, 0], &mut buffer).err(), Some(Refusal::Row { row: 0 }));
        assert_eq!(state.notice(1, &mut buffer).err(), Some(Refusal::Short { needed: 3 }));
        assert!(state == before && buffer == [5; 2]);
    }

    #[test]
    fn an_image_read_in_is_the_state() {
        let rule = Rule::check(LEAK).unwrap();
        let mut state = State::start(&rule).unwrap();
        let mut buffer = [0; MAX_IMAGE_WORDS];
        assert_eq!(state.save(&mut buffer).map(<[u32]>::len), Ok(5 + 23));
        assert!(State::restore(&buffer[..28]).unwrap() == state);
        state.take(&Event::new(&rule, 100).with(0, &[9]).unwrap().with(0, &[7]).unwrap(), &mut [0; 3]).unwrap();
        let image = state.save(&mut buffer).unwrap();
        assert_eq!(image[..20], [1, 1, 100, 2, 1, 0, 0, 0, 0, 0, 0, 7, 0, 0, 0, 9, 0, 0, 0, 100]);
        assert!(State::restore(image).unwrap() == state);

        // once entries are gone, their words stand behind the count: the states differ there, and their images don't
        state.notice(161, &mut [0; 8]).unwrap();
        let image = state.save(&mut buffer).unwrap();
        let again = State::restore(image).unwrap();
        assert!(again != state && (again.points(), again.latest(), again.kept()) == (1, 161, 0));
        assert_eq!(again.save(&mut [0; MAX_IMAGE_WORDS]), Ok(image));
    }

    #[test]
    fn a_refused_image_is_told_and_a_short_buffer_stays() {
        let rule = Rule::check(LEAK).unwrap();
        let state = State::start(&rule).unwrap();
        let mut short = [5; 27];
        assert_eq!(state.save(&mut short).err(), Some(Refusal::Room { needed: 28 }));
        assert_eq!(State::from_words(&[0; STATE_WORDS]).save(&mut short).err(), Some(Refusal::State));
        assert_eq!(short, [5; 27]);
        let mut long = [5; 30];
        state.save(&mut long).unwrap();
        assert_eq!(long[28..], [5, 5]);
        for words in [&long[..], &long[..29], &long[..27], &long[..4], &[]] {
            assert_eq!(State::restore(words).err(), Some(Refusal::Image));
        }
        // another version, a time that no point has, a rule that checking refuses
        for at in [0, 4, 5] {
            let mut other = long;
            other[at] += 1;
            assert_eq!(State::restore(&other[..28]).err(), Some(Refusal::Image));
        }
    }

    #[test]
    fn words_of_a_state_are_a_state() {
        let rule = Rule::check(LEAK).unwrap();
        let mut state = State::start(&rule).unwrap();
        state.take(&Event::new(&rule, 1).with(0, &[7]).unwrap(), &mut [0; 3]).unwrap();
        let mut again = State::from_words(state.words());
        assert!(again == state);
        assert!(again.take(&Event::new(&rule, 2), &mut [0; 3]).is_ok());
        let mut nothing = State::from_words(&[0; STATE_WORDS]);
        assert_eq!(nothing.take(&Event::new(&rule, 2), &mut [0; 3]).err(), Some(Refusal::State));
        assert_eq!(nothing.notice(2, &mut [0; 3]).err(), Some(Refusal::State));
        assert_eq!(nothing.open_points(), Err(Refusal::State));
    }
}
