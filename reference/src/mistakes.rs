//! Deliberate mistakes, to show that a comparison with this implementation
//! catches them. Only a build with the feature `mistakes` can make one: the one
//! that the environment variable MISTAKE names.

/// A mistake, by its name.
#[derive(Clone, Copy, PartialEq, Eq, Debug)]
pub enum Mistake {
    /// Passing an abstractor does not lift W.
    WaitingNotLifted,
    /// A copied abstractor takes from W though Y has some.
    TakesFromWFirst,
    /// 8 is found before 11.
    OutgrownAfterTheRule,
    /// Removal lowers no index.
    RemovalKeepsIndices,
    /// The place of 8 is the first of W.
    PlaceOfTheFirst,
    /// Lifting changes indices bound inside the moved term.
    LiftsBoundIndices,
    /// A state of 8,191 bytes is outgrown.
    StateLimit,
    /// A buffer that is too short gets the start of the result.
    ShortBufferWritten,
    /// A substitution lifts K by one less.
    SubstitutionLiftsLess,
    /// A substitution is refused if there is no use.
    SubstitutionNeedsAUse,
    /// A substitution leaves K and U of later items as they are.
    UsesInItemsForgotten,
    /// A substitution does not drop the pair.
    PairKept,
    /// A substitution is measured before the pair is dropped too.
    MeasuredOnTheWay,
    /// A page's cells have their blanks on the right.
    CellsLeftAligned,
    /// A page has an index in hexadecimal, so that 10 is an applicator's A.
    HexadecimalIndex,
    /// A page has 17 cells in a line of 72 columns.
    SeventeenCells,
    /// A page's last line has no blanks after its last cell.
    LastLineNotFilled,
    /// A page's last line has no line feed.
    LastLineFeedMissing,
    /// A buffer as long as the page is too short.
    ExactBufferRefused,
    /// 14 is found before the term's own refusals in printing.
    ShortBufferFirst,
    /// A page of more bytes than a term may have is outgrown.
    PageOutgrown,
    /// A string with a K or U of more than one byte is counted as no term.
    LongPartsNotCounted,
    /// No string with a byte fd is counted.
    FdNotCounted,
    /// A term with an index beyond scope is counted as refused 3.
    BeyondScopeCountedAs3,
    /// The last two counts are exchanged.
    CountsExchanged,
    /// Of a count, the low 32 bits alone are answered.
    CountsIn32Bits,
    /// 15 begins at length 9, and length 8 has counts of 0.
    EightNotRefused,
    /// Of a length to count, the low 32 bits alone are read.
    LengthIn32Bits,
    /// 15 comes with the counts of length 7.
    CountsWith15,
    /// Steps take pairs alone.
    PairsOnly,
    /// In a local step an abstractor takes the first applicator that waits,
    /// and not the last, so that unmatched ones may stand between.
    FirstWaitingTaken,
    /// In removals and substitutions an applicator takes the nearest abstractor
    /// after it, so that unmatched applicators may stand between.
    NearestAbstractorTaken,
    /// Removals and substitutions lower indices between the two items too.
    BetweenLowered,
    /// K is not lifted by the abstractors between the two items.
    LiftWithoutTheBetween,
    /// In a local step an abstractor inside an item may take an applicator
    /// before that item.
    PartnerOutsideTheTrain,
    /// In a local step an abstractor of the body may take an applicator of the
    /// frame.
    PartnerInTheFrame,
    /// In a local step an abstractor of the body may take an applicator of W.
    PartnerInW,
    /// A set's file is checked before the heads after it are read.
    FilesBeforeHeads,
    /// Of a set's refused files the last is named.
    LastRefusedNamed,
    /// The comparisons of a set's refused file are added to those of the files
    /// before it.
    RefusedAddsToThoseBefore,
    /// The empty set is accepted.
    EmptySetAccepted,
    /// The place of 16 is the set's length.
    PlaceOfTheEnd,
    /// 16 comes with the field's number.
    FieldNumberWith16,
    /// A set's fields after the first may have any tag.
    LaterTagsNotTested,
    /// One or two bytes after a set's last field are ignored.
    ShortRestIgnored,
    /// A field of no bytes is no file of a set.
    EmptyFilesSkipped,
    /// A set's file goes on to the set's end.
    FileNotCutOff,
    /// The place of a refused file counts in the set.
    PlaceInTheSet,
    /// A set's files are numbered from 1.
    FilesFromOne,
    /// An accepted set has the comparisons of its last file.
    ComparisonsOfTheLast,
    /// An accepted set has the degree of its last file.
    DegreeOfTheLast,
    /// A set of 65,535 bytes is too long.
    SetLimit,
    /// A set's first head does not count in its length.
    FirstHeadNotMeasured,
    /// A set's heads are tested before its length.
    SetLengthAfterHeads,
    /// A place past the body is found before an unknown kind.
    PlaceBeforeKind,
    /// A step at a terminal that is not the byte wanted is refused for having no
    /// partner.
    PartnerBeforeByte,
    /// The side of a step is the other one.
    SidesExchanged,
    /// A side's steps are numbered from 1.
    StepsFromOne,
    /// Of those that wait the last is not counted.
    OneLessWaits,
    /// Those that wait in the text around a K or U are counted too.
    OuterWaitingCounted,
    /// The bodies of 12 are those before the steps.
    BodiesBeforeSteps,
    /// The left body of 12 is given as the right one.
    BodiesExchanged,
    /// The lengths of the bodies of 12 are given right before left.
    LengthsExchanged,
    /// The place of the difference is that of the byte after it.
    DifferenceOneTooFar,
    /// The place of the difference is that of the last differing byte.
    LastDifference,
    /// A buffer as long as its body is too short.
    ExactBodiesRefused,
    /// The left body is written though only the right buffer is too short.
    LeftWrittenWith14,
    /// 14 comes with the place of the 12.
    PlaceWith14,
    /// 14 comes with the lengths of the bodies and the difference.
    LengthsWith14,
    /// The groups of lines put among a text's own come after all of the text's.
    NewGroupsLast,
    /// Lines put among a text's own lift indices that stay inside too.
    InsideLifted,
    /// Lines put among a text's own lift no index.
    OutsideNotLifted,
    /// Lines put among a text's own move the places of the steps after them by
    /// their bytes.
    PlacesMoved,
    /// The group of an abstractor made a pair comes before those of its U.
    GroupOfPairBeforeU,
    /// The place of new groups counts a text's pairs, and no applicator inside
    /// them.
    InnerApplicatorsForgotten,
}

use Mistake::*;

pub const MISTAKES: [Mistake; 75] = [
    WaitingNotLifted,
    TakesFromWFirst,
    OutgrownAfterTheRule,
    RemovalKeepsIndices,
    PlaceOfTheFirst,
    LiftsBoundIndices,
    StateLimit,
    ShortBufferWritten,
    SubstitutionLiftsLess,
    SubstitutionNeedsAUse,
    UsesInItemsForgotten,
    PairKept,
    MeasuredOnTheWay,
    CellsLeftAligned,
    HexadecimalIndex,
    SeventeenCells,
    LastLineNotFilled,
    LastLineFeedMissing,
    ExactBufferRefused,
    ShortBufferFirst,
    PageOutgrown,
    LongPartsNotCounted,
    FdNotCounted,
    BeyondScopeCountedAs3,
    CountsExchanged,
    CountsIn32Bits,
    EightNotRefused,
    LengthIn32Bits,
    CountsWith15,
    PairsOnly,
    FirstWaitingTaken,
    NearestAbstractorTaken,
    BetweenLowered,
    LiftWithoutTheBetween,
    PartnerOutsideTheTrain,
    PartnerInTheFrame,
    PartnerInW,
    FilesBeforeHeads,
    LastRefusedNamed,
    RefusedAddsToThoseBefore,
    EmptySetAccepted,
    PlaceOfTheEnd,
    FieldNumberWith16,
    LaterTagsNotTested,
    ShortRestIgnored,
    EmptyFilesSkipped,
    FileNotCutOff,
    PlaceInTheSet,
    FilesFromOne,
    ComparisonsOfTheLast,
    DegreeOfTheLast,
    SetLimit,
    FirstHeadNotMeasured,
    SetLengthAfterHeads,
    PlaceBeforeKind,
    PartnerBeforeByte,
    SidesExchanged,
    StepsFromOne,
    OneLessWaits,
    OuterWaitingCounted,
    BodiesBeforeSteps,
    BodiesExchanged,
    LengthsExchanged,
    DifferenceOneTooFar,
    LastDifference,
    ExactBodiesRefused,
    LeftWrittenWith14,
    PlaceWith14,
    LengthsWith14,
    NewGroupsLast,
    InsideLifted,
    OutsideNotLifted,
    PlacesMoved,
    GroupOfPairBeforeU,
    InnerApplicatorsForgotten,
];

#[cfg(not(feature = "mistakes"))]
pub const fn made(_: Mistake) -> bool {
    false
}

/// Does this work with no mistake.
#[cfg(not(feature = "mistakes"))]
pub fn set_aside<T>(work: impl FnOnce() -> T) -> T {
    work()
}

#[cfg(feature = "mistakes")]
pub use chosen::{made, set_aside};

#[cfg(feature = "mistakes")]
mod chosen {
    use super::{Mistake, MISTAKES};
    use std::cell::Cell;
    use std::sync::OnceLock;

    static CHOSEN: OnceLock<Option<Mistake>> = OnceLock::new();
    thread_local! {
        static ASIDE: Cell<bool> = const { Cell::new(false) };
    }

    pub fn made(mistake: Mistake) -> bool {
        let chosen = CHOSEN.get_or_init(|| {
            let name = std::env::var("MISTAKE").ok()?;
            let found = MISTAKES.into_iter().find(|m| format!("{m:?}") == name);
            Some(found.expect("MISTAKE names a mistake"))
        });
        *chosen == Some(mistake) && !ASIDE.with(Cell::get)
    }

    pub fn set_aside<T>(work: impl FnOnce() -> T) -> T {
        ASIDE.with(|aside| aside.set(true));
        let result = work();
        ASIDE.with(|aside| aside.set(false));
        result
    }
}
