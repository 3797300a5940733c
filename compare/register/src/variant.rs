//! Deliberately wrong protocols, "wrong by a hair". Tests switch them on to show that the
//! simulator's checks can fail; everything else runs `Variant::Right`.

#[derive(Clone, Copy, Debug, PartialEq, Eq)]
pub enum Variant {
    /// The rules as they are.
    Right,
    /// Client: the (t + 1)th largest time in place of the largest.
    SmallerTime,
    /// Client: a stamp of an earlier write sequence is counted.
    StaleStamp,
    /// Client: a read settles on n − t − 1 rows.
    FewRows,
    /// Client: a second value with the same stamp from one server is counted too.
    ValueTwice,
    /// Client: a second ack from one server is counted too.
    AckTwice,
    /// Client: the block of a value is not compared with its digest.
    NoDigest,
    /// Client: a read settles on n − t rows with one stamp, whatever their lists.
    StampAlone,
    /// Client: a read whose blocks disagree stays open.
    DisagreementOpen,
    /// Client and server: the k lowest blocks of a group are decoded, and no others looked at.
    LowestAlone,
    /// Client and server: the padding of a group's blocks is not looked at.
    AnyPadding,
    /// Server: a frame above the open sequence opens that sequence, before acceptance.
    EarlyOpen,
    /// Server: ready without comparing blocks or digests with the fresh encoding.
    NoCompare,
    /// Server: ready where the blocks of a group agree, without comparing the digests of the fresh encoding.
    AgreementAlone,
    /// Server: ready at n − 2t echoes of a group.
    FewEchoes,
    /// Server: complete at q readies of a group.
    FewReadies,
    /// Server: frames of equal digest lists are a group, whatever their times.
    ListAlone,
    /// Server: frames of equal times are a group, whatever their digest lists.
    TimeAlone,
    /// Server: a write is accepted with the time of the received kind 3, where one came.
    SentTime,
    /// Server: a listener gets no value when its noted stamp is smaller.
    NoListeners,
    /// Server: an accepted write replaces a larger stamp.
    StampFalls,
    /// Server: kind 3 is not echoed after the own ready.
    LateSendSilent,
    /// Server: t reports suffice.
    FewReports,
    /// Server: it counts itself beside t reports of others.
    CountsItself,
    /// Server: an own time of one less than the incoming time suffices.
    OwnTimeLess,
    /// Server: the new time, one more than the incoming one, has to be vouched.
    NewTimeVouched,
    /// Server: one write is accepted in a step.
    OneAcceptance,
    /// Server: only the write that a frame names is looked at.
    NamedAlone,
    /// Server: the scan goes on after an acceptance, and does not begin anew.
    OnePass,
    /// Server: reports go to servers only.
    ClientsNotTold,
    /// Server: reports go to the owner of the write alone, of the clients.
    OwnerTold,
    /// Server: the incoming time is reported.
    IncomingReported,
    /// Server and client: the latest report of a server is kept.
    LatestReport,
    /// Client: a reply counts once t servers have reported its time or more.
    FewReportsCount,
    /// Client: a reply counts at once.
    CountsAtOnce,
    /// Client: the largest of all replies is taken, once n − t of them count.
    LargestOfAll,
    /// Client: a report lifts no count.
    NoRecount,
    /// Client: a report has to name the client as its owner.
    ReportOwner,
}

impl Variant {
    pub const WRONG: [Variant; 37] = [
        Variant::SmallerTime,
        Variant::StaleStamp,
        Variant::FewRows,
        Variant::ValueTwice,
        Variant::AckTwice,
        Variant::NoDigest,
        Variant::StampAlone,
        Variant::DisagreementOpen,
        Variant::LowestAlone,
        Variant::AnyPadding,
        Variant::EarlyOpen,
        Variant::NoCompare,
        Variant::AgreementAlone,
        Variant::FewEchoes,
        Variant::FewReadies,
        Variant::ListAlone,
        Variant::TimeAlone,
        Variant::SentTime,
        Variant::NoListeners,
        Variant::StampFalls,
        Variant::LateSendSilent,
        Variant::FewReports,
        Variant::CountsItself,
        Variant::OwnTimeLess,
        Variant::NewTimeVouched,
        Variant::OneAcceptance,
        Variant::NamedAlone,
        Variant::OnePass,
        Variant::ClientsNotTold,
        Variant::OwnerTold,
        Variant::IncomingReported,
        Variant::LatestReport,
        Variant::FewReportsCount,
        Variant::CountsAtOnce,
        Variant::LargestOfAll,
        Variant::NoRecount,
        Variant::ReportOwner,
    ];
}
