//! Mistakes that the model can be told to make, to see that the comparison finds them.

macro_rules! faults {
    ($($name:ident $text:literal)*) => {
        #[derive(Clone, Copy, Debug, PartialEq, Eq)]
        pub enum Fault { $($name),* }

        impl Fault {
            pub const ALL: &'static [Fault] = &[$(Fault::$name),*];

            pub fn text(self) -> &'static str {
                match self { $(Fault::$name => $text),* }
            }
        }
    };
}

// The first six are document 01's 'Errors that look right'.
faults! {
    DuplicateCounted "an ordered duplicate's bytes are counted"
    DuplicateKept "an unordered duplicate is kept twice"
    OldBeforeSize "the old SSN is tested before the size"
    RestartAtB "an ordered set is complete where the unordered scan finds a run"
    PlainTsns "TSNs are compared as plain numbers"
    LengthsCut "lengths are cut to 16 bits"
    GapOfTwo "a block is extended at its end plus 2 too"
    GapTooShort "the gap report skips 65,535"
    PopAnywhere "pop does not ask whether the TSN is first"
    AllInOnePiece "the piece reader hands out all that is left"
    LastIdentifier "a set's identifier is that of its last arrival"
    SkipDropsComplete "an ordered skip drops complete sets"
    HalfWayBefore "at half way one is before the other"
    SkipKeepsBytes "an unordered skip does not lower the byte count"
    LogKept "the log's places are not emptied"
    RoomOneLess "the 512th fragment is turned away"
    ReadMoves "a whole read moves on to the message's end"
    FinishedSsn "a finished unordered message has its B's SSN"
    SetsByArrival "a new SSN set goes last"
    RestCleared "what stands behind the held records is cleared"
    EmptyWithoutPiece "an empty message has no piece"
    LogCountTrusted "a log count above 64 goes unnoticed"
    IndexAtCount "the entry at the count is looked up"
    PaddingRefused "bytes after the length are refused, as by the Rust"
    ExpectedStays "a take leaves the expected SSN"
    ScanGoesOn "the scan does not forget its start at a break"
    PairsCutOff "a FORWARD TSN's length need not be whole pairs"
    HalfPairTaken "a pair that the part ends within is taken, with zeros"
    EveryPairTaken "pairs that name another stream are taken"
    PairsReversed "pairs are taken in reverse order"
    PointAtCumulative "a new point at the cumulative TSN is applied"
    EmptyRead "DATA without data is read, as by the Rust"
    EmptyWritten "DATA without data is written, as by the Rust"
    EmptyShort "a DATA length of 16 is told as one below 16"
    RoomBeforeEmpty "the room is tested before DATA without data"
    ReadFolded "an identifier without a name is read as 58, as by the Rust"
    WrittenFolded "an identifier without a name is written as 58, as by the Rust"
    QueueFolded "the TSN queue holds 58 for an identifier without a name"
    HandFolded "the message in hand has 58 for an identifier without a name"
    IdentifierCut "a fragment's identifier is cut to 16 bits"
    SumBigEndian "a packet's checksum stands highest byte first"
    SumWithField "a packet is summed with its checksum as it stands"
    SumNotTurned "a checksum is not complemented at its end"
    NotRounded "a chunk's length is not rounded up to 4, read or written"
    NextPastEnd "rounding goes past the packet's end"
    BytesLeftEnd "one to three bytes left are the packet's end"
    PlaceLast "a place is judged after the chunk there: 11 after 1 and 2"
    BytesPadded "a chunk's bytes come with its padding"
    PaddedWithOnes "padding is not written as zeros"
    RoomBeforeChunks "the room is tested before the chunks that are lent"
    OppositeLater "a number half way round is told as later, and its TSN stored"
    OppositeLogged "a TSN opposite to the cumulative one is refused with 17 and logged"
    HeldBeforeOpposite "a TSN that is held is tested before 17"
    RoomBeforeOpposite "the room is tested before 17"
    CanPushNotOpposite "can_push says no to a TSN opposite to the cumulative one"
    OppositePopped "pop_up_to drops an opposite TSN"
    SkipStopsAtOpposite "an unordered skip stops at an opposite TSN, as the Rust's"
    CausesNotRounded "the next cause is not at the length rounded up to 4, as by the Rust"
    CauseBytesLeftEnd "one to three bytes where a cause should start end the list, as by the Rust"
    InnerNotFollowed "enclosed chunks are not followed, as by the Rust"
    AbortNotFollowed "an enclosed ABORT is not followed"
    DepthNotCounted "the causes of an enclosed chunk have the depth of the cause that holds it"
    StartOfCause "where a cause starts is told, not where its value does"
    InnerLast "the causes of an enclosed chunk come after those of the outer one"
    PastTheChunk "cause bytes past an enclosed chunk are read as causes"
    EmptyValueHolds "an empty value of code 6 is refused as a chunk of no bytes"
    RoomBeforeCauses "the room of the lists is tested before the causes"
    PastUnreached "a bounded skip carries the expected SSN past a set that its point does not reach"
    UnreachedDropped "a bounded skip drops incomplete sets that its point does not reach"
    FirstIsBegun "no TSN is missing before a set's first, B or not"
    ReachedByFirst "a point reaches a complete set with its first TSN"
    ExpectedBack "a bounded skip carries the expected SSN back"
    OwnSetIgnored "the set of a bounded skip's own SSN plays no part in how far it applies"
    LaterIgnored "TSNs held from a bounded skip's SSN on play no part in how far it applies"
    PartByLast "a set ends a part of a bounded skip by its last TSN"
    LowestPart "a bounded skip applies to the lowest SSN that may end a part"
    HeldSentAgain "a TSN in flight is pushed again, as by the Rust"
    RoomBeforeHeld "the room is tested before a TSN that is in flight"
    FlightSumTrusted "a byte count of the in-flight queue that is not the sum goes unnoticed"
    MessagesLeft "the numbers of messages do not move with their records"
    StillSentAgain "a chunk that is acknowledged or abandoned stays marked to be sent again"
    AbandonedNotAcked "an abandoned chunk is not acknowledged"
    AbandonedSentAgain "abandoned chunks are marked to be sent again"
    MessageCut "a message's number is cut to 32 bits"
}

/// Which mistake is made, if any.
#[derive(Clone, Copy, Debug, Default, PartialEq, Eq)]
pub struct Wrong(pub Option<Fault>);

impl Wrong {
    pub fn is(self, fault: Fault) -> bool {
        self.0 == Some(fault)
    }

    /// An identifier: where this mistake is made, 58 for every number without a name.
    pub fn told(self, fault: Fault, identifier: u32) -> u32 {
        if self.is(fault) && ![50, 51, 53, 56, 57].contains(&identifier) { 58 } else { identifier }
    }
}
