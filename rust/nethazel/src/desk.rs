use crate::bytes;
use crate::ffi::{self, Changed, DeskRecord};
use crate::seat::rule;
use crate::{Board, Catalogue, Example, FromBytesError, OptionsLeft, Refusal, Seat, Turns};

/// A desk: eight seats numbered 0 to 7, one for each clinic, over one catalogue.
///
/// A `Desk` is a value. It owns its board and keeps its catalogue, so both are the same from call to call, which is what the
/// proofs of the desk ask for. Desks share the numbers of a catalogue, which nobody writes, and nothing else: a clone is
/// another desk, and may go to another thread. A refused call leaves a desk as it was.
///
/// A seat's states, with the calls on the arrows:
///
/// ```text
///             enter               turns: the last step
///   closed ----------> at work -----------------------> ready
///     ^                 |   ^                             | |
///     |      leave      |   +-------- choose, relax ------+ |
///     +-----------------+-----------------------------------+
///                                leave
/// ```
///
/// In the calls any number is taken; one that names no seat, feature or option is refused.
#[derive(Clone, Debug, PartialEq, Eq)]
pub struct Desk {
    record: DeskRecord,
    board: Board,
    catalogue: Catalogue,
}

impl Desk {
    /// How many bytes [`to_bytes`](Desk::to_bytes) gives.
    ///
    /// ```
    /// assert_eq!(nethazel::Desk::BYTES, 20 + 8 * 102 + 1 + 32_768);
    /// ```
    pub const BYTES: usize = bytes::LENGTH;

    /// A desk for the catalogue: all seats closed, the next turn begins at seat 0. The desk keeps a clone of the catalogue,
    /// which shares its numbers.
    ///
    /// # Errors
    ///
    /// The catalogue's first fault, 10 to 18.
    ///
    /// ```
    /// use nethazel::{Catalogue, Desk, Refusal};
    ///
    /// assert!(Desk::open(&Catalogue::new(&[3, 3, 2])).is_ok());
    /// assert_eq!(Desk::open(&Catalogue::new(&[])), Err(Refusal::FeatureCount));
    /// let twice = Catalogue::new(&[3, 3, 2]).rule(&[1, 1], &[[0, 0]]);
    /// assert_eq!(Desk::open(&twice), Err(Refusal::FeatureTwice));
    ///
    /// let catalogue = Catalogue::new(&[3, 3, 2]);
    /// let desk = Desk::open(&catalogue)?;
    /// assert_eq!(desk.catalogue().sizes().as_ptr(), catalogue.sizes().as_ptr());
    /// # Ok::<(), Refusal>(())
    /// ```
    pub fn open(catalogue: &Catalogue) -> Result<Desk, Refusal> {
        let mut board = Board::new();
        let opened = ffi::open(board.bytes_mut(), catalogue);
        Refusal::done(opened.number)?;
        Ok(Desk {
            record: opened.desk,
            board,
            catalogue: catalogue.clone(),
        })
    }

    /// A clinic enters its closed seat, which gets a job.
    ///
    /// # Errors
    ///
    /// 30 for a seat above 7, 32 for one that is open.
    ///
    /// ```
    /// # use nethazel::{Catalogue, Desk, Refusal};
    /// # let mut desk = Desk::open(&Catalogue::new(&[3, 3, 2]))?;
    /// desk.enter(3)?;
    /// assert_eq!(desk.enter(3), Err(Refusal::SeatOpen));
    /// assert_eq!(desk.enter(8), Err(Refusal::SeatAbove7));
    /// # Ok::<(), Refusal>(())
    /// ```
    pub fn enter(&mut self, seat: usize) -> Result<(), Refusal> {
        let entered = ffi::enter(self.record, self.board.bytes_mut(), &self.catalogue, seat);
        self.changed(entered)
    }

    /// A clinic leaves its seat, ready or at work: it is closed then.
    ///
    /// # Errors
    ///
    /// 30 for a seat above 7, 31 for a closed one.
    ///
    /// ```
    /// # use nethazel::{Catalogue, Desk, Refusal};
    /// # let mut desk = Desk::open(&Catalogue::new(&[3, 3, 2]))?;
    /// desk.enter(3)?;
    /// desk.leave(3)?;
    /// assert_eq!(desk.leave(3), Err(Refusal::SeatClosed));
    /// # Ok::<(), Refusal>(())
    /// ```
    pub fn leave(&mut self, seat: usize) -> Result<(), Refusal> {
        let left = ffi::leave(self.record, self.board.bytes_mut(), &self.catalogue, seat);
        self.changed(left)
    }

    /// Chooses an option for a feature that has no choice, in a ready seat, which gets a job.
    ///
    /// # Errors
    ///
    /// 30, 31 and 33 for a seat that is not ready, 34 and 35 for what is not in the catalogue, 36 for a feature that has a
    /// choice, 37 for an option that is not left.
    ///
    /// ```
    /// # use nethazel::{Catalogue, Desk, Refusal};
    /// # let mut desk = Desk::open(&Catalogue::new(&[3, 3, 2]))?;
    /// # desk.enter(3)?;
    /// # desk.turns(u16::MAX)?;
    /// desk.choose(3, 2, 0)?;
    /// assert_eq!(desk.choose(3, 2, 0), Err(Refusal::SeatAtWork));
    /// desk.turns(u16::MAX)?;
    /// assert_eq!(desk.choose(3, 2, 0), Err(Refusal::FeatureHasChoice));
    /// # Ok::<(), Refusal>(())
    /// ```
    pub fn choose(&mut self, seat: usize, feature: usize, option: usize) -> Result<(), Refusal> {
        let chosen = ffi::choose(
            self.record,
            self.board.bytes_mut(),
            &self.catalogue,
            seat,
            feature,
            option,
        );
        self.changed(chosen)
    }

    /// Drops a feature's choice, in a ready seat, which gets a job.
    ///
    /// # Errors
    ///
    /// 30, 31 and 33 for a seat that is not ready, 34 for a feature that is not in the catalogue, 38 for one that has no
    /// choice.
    ///
    /// ```
    /// # use nethazel::{Catalogue, Desk, Refusal};
    /// # let mut desk = Desk::open(&Catalogue::new(&[3, 3, 2]))?;
    /// # desk.enter(3)?;
    /// # desk.turns(u16::MAX)?;
    /// # desk.choose(3, 2, 0)?;
    /// # desk.turns(u16::MAX)?;
    /// assert_eq!(desk.relax(3, 0), Err(Refusal::FeatureHasNoChoice));
    /// desk.relax(3, 2)?;
    /// assert_eq!(desk.seat(3)?.choice(2), None);
    /// # Ok::<(), Refusal>(())
    /// ```
    pub fn relax(&mut self, seat: usize, feature: usize) -> Result<(), Refusal> {
        let relaxed = ffi::relax(
            self.record,
            self.board.bytes_mut(),
            &self.catalogue,
            seat,
            feature,
        );
        self.changed(relaxed)
    }

    /// The options left of a feature, in a ready seat: exactly those that some build has which satisfies every rule and
    /// every choice in force.
    ///
    /// # Errors
    ///
    /// 30, 31 and 33 for a seat that is not ready, 34 for a feature that is not in the catalogue.
    ///
    /// ```
    /// # use nethazel::{Catalogue, Desk, Refusal};
    /// # let mut desk = Desk::open(&Catalogue::new(&[3, 3, 2]))?;
    /// # desk.enter(3)?;
    /// # desk.turns(u16::MAX)?;
    /// for option in desk.options(3, 0)? {
    ///     println!("option {option} of feature 0 is left");
    /// }
    /// assert_eq!(desk.options(3, 3), Err(Refusal::FeatureMissing));
    /// # Ok::<(), Refusal>(())
    /// ```
    pub fn options(&self, seat: usize, feature: usize) -> Result<OptionsLeft, Refusal> {
        let left = ffi::options(
            self.record,
            self.board.bytes(),
            &self.catalogue,
            seat,
            feature,
        );
        OptionsLeft::answered(left)
    }

    /// What could replace a feature's choice, in a ready seat: exactly the options that some build has which satisfies every
    /// rule and every other choice in force. The option in force always counts. Once the choice is dropped, these are the
    /// options left of the feature.
    ///
    /// # Errors
    ///
    /// 30, 31 and 33 for a seat that is not ready, 34 for a feature that is not in the catalogue, 38 for one that has no
    /// choice.
    ///
    /// ```
    /// use nethazel::{Catalogue, Desk, Refusal};
    ///
    /// // The first feature's option 0 goes with option 0 of the second alone; option 1 with 1 and 2.
    /// let mut desk = Desk::open(&Catalogue::new(&[2, 3]).rule(&[0, 1], &[[0, 0], [1, 1], [1, 2]]))?;
    /// desk.enter(3)?;
    /// desk.turns(u16::MAX)?;
    /// desk.choose(3, 0, 1)?;
    /// desk.turns(u16::MAX)?;
    /// desk.choose(3, 1, 2)?;
    /// desk.turns(u16::MAX)?;
    /// assert_eq!(desk.options(3, 1)?.to_string(), "2");
    /// assert_eq!(desk.alternatives(3, 1)?.to_string(), "1,2"); // not 0: option 1 of feature 0 stays
    /// desk.relax(3, 1)?;
    /// desk.turns(u16::MAX)?;
    /// assert_eq!(desk.options(3, 1)?.to_string(), "1,2");
    /// assert_eq!(desk.alternatives(3, 1), Err(Refusal::FeatureHasNoChoice));
    /// # Ok::<(), Refusal>(())
    /// ```
    pub fn alternatives(&self, seat: usize, feature: usize) -> Result<OptionsLeft, Refusal> {
        let left = ffi::alternatives(
            self.record,
            self.board.bytes(),
            &self.catalogue,
            seat,
            feature,
        );
        OptionsLeft::answered(left)
    }

    /// The example for an option that is left, in a ready seat: the first build in dictionary order with the option at the
    /// feature, as it stands on the board.
    ///
    /// # Errors
    ///
    /// 30, 31 and 33 for a seat that is not ready, 34 and 35 for what is not in the catalogue, 37 for an option that is not
    /// left.
    ///
    /// ```
    /// # use nethazel::{Catalogue, Desk, Refusal};
    /// # let mut desk = Desk::open(&Catalogue::new(&[3, 3, 2]))?;
    /// # desk.enter(3)?;
    /// # desk.turns(u16::MAX)?;
    /// assert!(desk.example(3, 1, 2)?.options().eq([0, 2, 0]));
    /// # Ok::<(), Refusal>(())
    /// ```
    pub fn example(
        &self,
        seat: usize,
        feature: usize,
        option: usize,
    ) -> Result<Example<'_>, Refusal> {
        let at = ffi::example(
            self.record,
            self.board.bytes(),
            &self.catalogue,
            seat,
            feature,
            option,
        );
        Refusal::done(at.number)?;
        let bytes = &self.board.bytes()[at.from..][..at.length];
        Ok(Example {
            bytes: bytes.try_into().expect("an example has sixteen bytes"),
            features: self.catalogue.features(),
        })
    }

    /// The rule that the search of a seat last ran into, at work or ready: the last one that an option tried in this job
    /// broke. Of an option that breaks several it is the lowest-numbered; rules are counted from 0 through the whole rule list,
    /// in the order in which the catalogue got them. `None` where no rule was broken yet, and once the seat is ready.
    ///
    /// # Errors
    ///
    /// 30 for a seat above 7, 31 for a closed one.
    ///
    /// ```
    /// use nethazel::{Catalogue, Desk, Refusal};
    ///
    /// let mut desk = Desk::open(
    ///     &Catalogue::new(&[3, 3, 2])
    ///         .rule(&[0, 1], &[[0, 1], [1, 0], [1, 2], [2, 1]])
    ///         .rule(&[1, 2], &[[0, 0], [1, 1], [2, 0], [2, 1]]),
    /// )?;
    /// desk.enter(3)?;
    /// desk.turns(1)?; // option 0 of feature 0, alone
    /// assert_eq!(desk.ran_into(3)?, None);
    /// desk.turns(1)?; // with option 0 of feature 1
    /// assert_eq!(desk.ran_into(3)?, Some(0));
    /// desk.turns(2)?; // with its option 1, then with option 0 of feature 2
    /// assert_eq!(desk.ran_into(3)?, Some(1));
    /// desk.turns(u16::MAX)?;
    /// assert_eq!(desk.ran_into(3)?, None); // ready
    /// assert_eq!(desk.ran_into(0), Err(Refusal::SeatClosed));
    /// # Ok::<(), Refusal>(())
    /// ```
    pub fn ran_into(&self, seat: usize) -> Result<Option<usize>, Refusal> {
        let ran = ffi::ran_into(self.record, self.board.bytes(), &self.catalogue, seat);
        Refusal::done(ran.number)?;
        Ok(rule(ran.rule))
    }

    /// Makes `turns` turns, or fewer when no seat is at work. A turn gives one waiting seat one step of its search, around
    /// the ring; a seat whose job takes K steps is ready after at most 8×K turns.
    ///
    /// # Errors
    ///
    /// None that a `Desk` can meet: a turn is refused only for its board, catalogue and desk (1 to 20).
    ///
    /// ```
    /// # use nethazel::{Catalogue, Desk, Refusal};
    /// # let mut desk = Desk::open(&Catalogue::new(&[3, 3, 2]))?;
    /// desk.enter(0)?;
    /// desk.enter(1)?;
    /// while desk.turns(1000)?.working {
    ///     // A host may serve its clinics here.
    /// }
    /// assert_eq!(desk.options(1, 0)?.count(), 3);
    /// # Ok::<(), Refusal>(())
    /// ```
    pub fn turns(&mut self, turns: u16) -> Result<Turns, Refusal> {
        let turned = ffi::turns(self.record, self.board.bytes_mut(), &self.catalogue, turns);
        Refusal::done(turned.number)?;
        self.record = turned.desk;
        Ok(Turns {
            made: turned.made,
            working: turned.working != 0,
        })
    }

    /// A clinic's record, to look at in any state.
    ///
    /// # Errors
    ///
    /// 30 for a seat above 7.
    ///
    /// ```
    /// # use nethazel::{Catalogue, Desk, Refusal, State};
    /// # let desk = Desk::open(&Catalogue::new(&[3, 3, 2]))?;
    /// assert_eq!(desk.seat(7)?.state(), State::Closed);
    /// assert_eq!(desk.seat(8), Err(Refusal::SeatAbove7));
    /// # Ok::<(), Refusal>(())
    /// ```
    pub fn seat(&self, seat: usize) -> Result<Seat<'_>, Refusal> {
        self.record
            .seats
            .get(seat)
            .map(Seat)
            .ok_or(Refusal::SeatAbove7)
    }

    /// The seats at work, rising: those that wait for turns.
    ///
    /// ```
    /// # let mut desk = nethazel::Desk::open(&nethazel::Catalogue::new(&[3, 3, 2]))?;
    /// desk.enter(6)?;
    /// desk.enter(1)?;
    /// assert!(desk.at_work().eq([1, 6]));
    /// # Ok::<(), nethazel::Refusal>(())
    /// ```
    pub fn at_work(&self) -> impl Iterator<Item = usize> + '_ {
        let seats = self.record.seats.iter().map(Seat).enumerate();
        let waiting = seats.filter(|(_, seat)| seat.is_at_work());
        waiting.map(|(number, _)| number)
    }

    /// Whether a seat is at work. A desk on which none is needs no turns until the next enter, choose or relax, so a host of
    /// many desks passes it over.
    ///
    /// ```
    /// # let mut desk = nethazel::Desk::open(&nethazel::Catalogue::new(&[3, 3, 2]))?;
    /// assert!(!desk.is_working());
    /// desk.enter(3)?;
    /// assert!(desk.is_working());
    /// # Ok::<(), nethazel::Refusal>(())
    /// ```
    pub fn is_working(&self) -> bool {
        self.at_work().next().is_some()
    }

    /// The seat where the next turn begins to look for one at work.
    ///
    /// ```
    /// # let mut desk = nethazel::Desk::open(&nethazel::Catalogue::new(&[3, 3, 2]))?;
    /// desk.enter(3)?;
    /// desk.turns(1)?;
    /// assert_eq!(desk.next_seat(), 4);
    /// # Ok::<(), nethazel::Refusal>(())
    /// ```
    pub fn next_seat(&self) -> usize {
        usize::from(self.record.next)
    }

    /// The board, for reading.
    ///
    /// ```
    /// # let desk = nethazel::Desk::open(&nethazel::Catalogue::new(&[3, 3, 2]))?;
    /// assert_eq!(desk.board().bytes()[0], 255);
    /// # Ok::<(), nethazel::Refusal>(())
    /// ```
    pub fn board(&self) -> &Board {
        &self.board
    }

    /// The catalogue that the desk was opened or put together with.
    ///
    /// ```
    /// # let desk = nethazel::Desk::open(&nethazel::Catalogue::new(&[3, 3, 2]))?;
    /// assert_eq!(desk.catalogue().sizes(), [3, 3, 2]);
    /// # Ok::<(), nethazel::Refusal>(())
    /// ```
    pub fn catalogue(&self) -> &Catalogue {
        &self.catalogue
    }

    /// The desk as bytes, to be kept, or moved to another machine and there [put together](Desk::from_bytes) with the same
    /// catalogue; also in the middle of a search, which then goes on where it stood.
    ///
    /// The form is that of the layout whose number it has. Numbers of more than one byte are little-endian.
    ///
    /// ```text
    ///  bytes
    ///      8   the mark of a desk: the letters nethazel
    ///      4   the layout, nethazel::LAYOUT
    ///      8   the catalogue's fingerprint
    ///  8×102   the seats from 0 on, each:
    ///            1   its state: 0 closed, 1 ready, 2 at work
    ///            4   its place: feature, option, depth, next; 0 if it is not at work
    ///            1   the rule that its search last ran into; 255 for none, and if it is not at work
    ///           16   its choices; 255 for none
    ///           32   its masks of options left, two bytes each
    ///           16   its trial build; 255 for none
    ///           32   its masks of alternatives, two bytes each
    ///      1   the seat where the next turn begins
    /// 32,768   the board
    /// ```
    ///
    /// The catalogue is not among them, only its fingerprint: FNV-1a of 64 bits over how many sizes there are (8 bytes), the
    /// sizes (1 byte each), how many numbers the rule list has (8 bytes), and those numbers (2 bytes each). So a desk is not
    /// put together with another catalogue by mistake. A fingerprint is no signature: who means to can make another catalogue,
    /// or another desk, with the same one.
    ///
    /// ```
    /// use nethazel::{Catalogue, Desk};
    ///
    /// let desk = Desk::open(&Catalogue::new(&[3, 3, 2]))?;
    /// let bytes = desk.to_bytes();
    /// assert_eq!(bytes.len(), Desk::BYTES);
    /// assert_eq!(bytes[..8], *b"nethazel");
    /// assert_eq!(bytes[8..12], nethazel::LAYOUT.to_le_bytes());
    /// # Ok::<(), nethazel::Refusal>(())
    /// ```
    pub fn to_bytes(&self) -> Vec<u8> {
        bytes::write(&self.record, &self.board, &self.catalogue)
    }

    /// The desk that [`to_bytes`](Desk::to_bytes) took apart, with the catalogue that it had: the fingerprints are compared. The
    /// archive checks the catalogue, and that the record fits it.
    ///
    /// What the board holds is not checked, and a fingerprint is no signature. With bytes that were made up or changed every
    /// call still ends, is safe and answers by the numbers that are there; but that such a desk shows exactly what fits, and is
    /// ready in time (promises 2 and 3 of the README), is not claimed. A host that takes bytes from others has to know that
    /// they are theirs, by a signature say.
    ///
    /// The record is kept as the archive hands it back: where bytes of it that have no meaning in a seat's state were
    /// changed, they are as a desk has them again.
    ///
    /// # Errors
    ///
    /// The first of these: no mark of a desk, another layout, another length, another catalogue, or what the archive refuses:
    /// the catalogue's first fault, 10 to 18, or 20 where the record doesn't fit the catalogue.
    ///
    /// ```
    /// use nethazel::{Catalogue, Desk};
    ///
    /// let catalogue = Catalogue::new(&[3, 3, 2]);
    /// let mut here = Desk::open(&catalogue)?;
    /// here.enter(3)?;
    /// here.turns(7)?; // in the middle of its search
    /// let mut there = Desk::from_bytes(&catalogue, &here.to_bytes())?;
    /// there.turns(u16::MAX)?;
    /// assert_eq!(there.options(3, 0)?.count(), 3);
    /// # Ok::<(), Box<dyn std::error::Error>>(())
    /// ```
    pub fn from_bytes(catalogue: &Catalogue, bytes: &[u8]) -> Result<Desk, FromBytesError> {
        let (record, mut board) = bytes::read(bytes, catalogue)?;
        let together = ffi::put_together(record, board.bytes_mut(), catalogue);
        Refusal::done(together.number)?;
        Ok(Desk {
            record: together.desk,
            board,
            catalogue: catalogue.clone(),
        })
    }

    fn changed(&mut self, changed: Changed) -> Result<(), Refusal> {
        Refusal::done(changed.number)?;
        self.record = changed.desk;
        Ok(())
    }
}
