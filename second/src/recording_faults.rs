//! The faults of the reader, the writer, the replay and the text format of `recording`, one for each mutant.

use crate::wrongs::wrongs;

wrongs! {
    // The reader: which refusal, and in which order.
    KindAfterLength, "kind-after-length", "17 before 16";
    KindFirst, "kind-first", "16 before 15";
    LengthBeforeCut, "length-before-cut", "17 before 15";
    CutLast, "cut-last", "16 and 17 before 15";
    LeastEight, "least-8", "a length of 8 is taken";
    LeastTen, "least-10", "a length of 9 is refused";
    MostEighteen, "most-18", "a length of 18 is taken";
    MostSixteen, "most-16", "a length of 17 is refused";
    FiveLeft, "five-left", "four bytes left are cut";
    ThreeLeft, "three-left", "three bytes left are not cut: the kind ends in 0";
    WholeFollows, "whole-follows", "the length field itself counts as following it";
    OneMoreFollows, "one-more-follows", "one byte more than the length says has to follow";
    SurplusEnds, "surplus-ends", "fewer than four bytes left end the recording";
    EmptyIsCut, "empty-is-cut", "a recording of no bytes is cut";
    KindThirtyThree, "kind-33", "kind 33 is taken too";
    KindThirtyOne, "kind-31", "kind 31 is taken too";
    KindLowByte, "kind-low-byte", "the kind's second byte is not looked at";
    LengthBigEndian, "length-big-endian", "the length is big-endian";
    CounterBigEndian, "counter-big-endian", "the counter is big-endian";
    IdentBigEndian, "ident-big-endian", "the bus identifier is big-endian";
    DlcFromLength, "dlc-from-length", "the DLC is the payload's length, whatever its byte says";
    PayloadByDlc, "payload-by-dlc", "the payload is cut to the DLC";
    // What is answered of a fault.
    OffsetOfLength, "offset-after-length", "the offset is past the length field";
    OffsetOfHeader, "offset-after-header", "the offset is past length and kind";
    OffsetOfLast, "offset-of-last", "the offset is that of the record before the fault";
    OffsetZero, "offset-0", "the offset of a fault is always 0";
    OffsetInRecords, "offset-in-records", "the offset counts records";
    OffsetWhenDone, "offset-when-done", "with reply 0 the offset is the number of bytes read";
    FaultLosesDeliveries, "fault-loses-deliveries", "a record at fault takes back the deliveries before it";
    FaultTicks, "fault-ticks", "a record at fault is ticked to before it is refused";
    SkipsUnknown, "skips-unknown", "a record of unknown kind is passed over";
    // Ticks and hearing.
    NotModulo, "not-modulo", "a counter below the node's makes no ticks";
    Distance, "distance", "the ticks are the distance of the counters";
    ToTheCounter, "to-the-counter", "as many ticks as the record's counter";
    OneTickMore, "one-tick-more", "one tick too many before a frame that comes later than the last";
    OneTickLess, "one-tick-less", "one tick too few before a frame that comes later than the last";
    EqualIsARound, "equal-is-a-round", "an equal counter is 65,536 ticks";
    HearsFirst, "hears-first", "a frame is heard before the ticks to it";
    BeginsAtFirst, "begins-at-first", "the node's counter begins at the first record's";
    TicksAfterLast, "ticks-after-last", "65,536 ticks follow the last record";
    OneTickAfterLast, "one-tick-after-last", "one tick follows the last record";
    RefusedEnds, "refused-ends", "the replay ends at a refused frame";
    RefusedNotTicked, "refused-not-ticked", "no ticks before a frame that is refused";
    RefusedAnswers, "refused-answers", "the reply of a refused frame is answered";
    TicksByCounter, "ticks-by-counter", "a delivery has the counter's 16 bits as its tick";
    PlainTickLater, "plain-tick-later", "a plain delivery has the tick after the one it was heard at";
    PlainTickBefore, "plain-tick-before", "a plain delivery has the tick of the record before it";
    PlainLost, "plain-lost", "plain deliveries are left out";
    OnlyLastOfTick, "only-last-of-tick", "of several deliveries of a tick the last alone is told";
    DeliveriesBackwards, "deliveries-backwards", "the last delivery first";
    // Settings.
    FaultsFirst, "faults-first", "a record at fault is answered before refused settings";
    EmptyNeedsNone, "empty-needs-none", "settings are not judged where the recording is empty";
    NoSettings, "no-settings", "an empty list of settings is refused";
    RefusedSettingSkipped, "refused-setting-skipped", "a refused setting is passed over";
    LastRefusal, "last-refusal", "the last refused setting answers";
    RefusalIsBad, "refusal-is-bad", "every refused setting answers 1";
    PositionOfSetting, "position-of-setting", "a refused setting's number stands for the offset";
    SendSlotsRefused, "send-slots-refused", "a send slot is refused";
    SendSlotsLeftOut, "send-slots-left-out", "send slots are not set up";
    NodeStays, "node-stays", "a replay begins with the node that the one before left";
    // The writer.
    ShortFirst, "short-first", "11 before 17";
    NineBytes, "writes-9-bytes", "a payload of 9 bytes is written";
    SevenBytes, "refuses-8-bytes", "a payload of 8 bytes is refused";
    RoomForMore, "room-for-more", "an output as long as the record is too short";
    RefusalWrites, "refusal-writes", "a refusal writes what there is room for";
    PastRecord, "past-record", "the bytes past the record are overwritten";
    WrittenFollows, "written-follows", "the number written is the length field's";
    LengthCountsItself, "length-counts-itself", "the length field counts itself";
    LengthOfPayload, "length-of-payload", "the length field is the payload's length";
    DlcOfPayload, "dlc-of-payload", "the DLC is written as the payload's length";
    WritesLegalIdents, "legal-idents", "of the bus identifier 29 bits are written";
    WritesDlcOfEight, "dlc-of-eight", "a DLC above 8 is written as 8";
    // The list of settings.
    SettingsStay, "settings-stay", "the line `settings` leaves the list as it is";
    NumberFromOne, "number-from-one", "settings are numbered from 1";
    ThirtyTwo, "thirty-two", "33 settings are too many for the list";
    FortyOne, "forty-one", "41 settings are taken";
}
