//! The deliberately broken readings of documents 01 and 02 that `reckon` can be switched to.

use crate::call::Call;
use crate::closure;
use crate::merged::merged;
use crate::reckon::{self, Reckoned};
use crate::scenes::families;
use crate::shrink::shrink;
use crate::versus::{self, By};

#[derive(Clone, Copy, Debug, PartialEq, Eq)]
pub enum Mutant {
    InstanceMappedBeforeValues,
    OneMapForAllScopes,
    IsWithValueTakesDefault,
    PlainFieldTakesDefault,
    PlainInterfaceTakesDefault,
    FirstOfEqualFields,
    DefaultSharesInstanceMap,
    ExternDeclaredPerId,
    MarksPastTheEndKept,
    DefNotReplaced,
    NestedRootsFirst,
    RoutesRemappedWhereTheyStand,
    RootlessBeforeBody,
    DepthBeforeMap,
    RepeatedNameOverwritesWithNothing,
    NestedAssociationsKept,
    IsOutsideBodyDropped,
    NodesLimitAfterExtern,
    BasesWithoutEnd,
    UnresolvedBasesDoNotCount,
    FirstFileOfBase,
    FileBeforeTheLast,
    NewestWithAPick,
    DanglingPickPassedOver,
    IdChargedBeforeCopy,
    FieldChargedBeforeValue,
    RowChargedBeforeNodesLimit,
    ExternChargedBeforeLookup,
    RoutesChargedAfterBody,
    RecordChargedBeforeRootless,
    InstanceEntryChargedAfterBody,
    BodyScopeBeforeValues,
    ClonedIdsNotCharged,
    UnwrittenAssociationsNotCharged,
    OverwritingStoreNotCharged,
    PayloadDefaultOpensNoScope,
    IndexAmongDefaults,
    SixInTheInstancesDocument,
    IsToNothingTakesNone,
    IsDefaultInInstanceScope,
    FirstDefaultOfRepeatedName,
    FirstUrlMarked,
    LastUrlMarked,
    UrlsOfTheBaseMarked,
    NoMark,
    NoMarkByBody,
    FilesMarkedAsTheRoot,
    MarkedSheetsAccepted,
    PicksByExternIdAlone,
    BasesCountedPerDocument,
    FetchedDepthFirst,
    FetchedAtOnce,
    FetchedInLibraryOrder,
    FileWithoutPickPassedOver,
    FilesExternsPlain,
    NoMarkInFiles,
    OneLevelOfFiles,
    UnfetchedFilesWalked,
    UnresolvedBasesOfFilesDoNotCount,
}

/// Mutants that the comparison with the original must notice, with what each does wrong.
pub const ALL: &[(Mutant, &str)] = &[
    (Mutant::InstanceMappedBeforeValues, "an instance is mapped before its values, to the next output id"),
    (Mutant::OneMapForAllScopes, "one map for all scopes of a document"),
    (Mutant::IsWithValueTakesDefault, "an IS takes the default although its target has a value"),
    (
        Mutant::PlainFieldTakesDefault,
        "a plain node's field by IS to nothing takes the value of the node's own interface",
    ),
    (Mutant::PlainInterfaceTakesDefault, "a plain node's interface by IS to nothing keeps its own value"),
    (Mutant::FirstOfEqualFields, "the first of two equal fields is given"),
    (Mutant::DefaultSharesInstanceMap, "a default scope uses the map of the instance's scope"),
    (Mutant::ExternDeclaredPerId, "an extern is declared once per id, whatever the document"),
    (Mutant::MarksPastTheEndKept, "marks past the last entry are kept"),
    (Mutant::DefNotReplaced, "the instance's DEF name is not taken over"),
    (Mutant::NestedRootsFirst, "a nested instance's roots and routes come before the outer's"),
    (Mutant::RoutesRemappedWhereTheyStand, "body routes are remapped where they stand, not after the body"),
    (Mutant::RootlessBeforeBody, "7 is given before the body is copied"),
    (Mutant::DepthBeforeMap, "depth is tested before the map"),
    (Mutant::RepeatedNameOverwritesWithNothing, "a repeated interface name without a value clears the earlier one"),
    (Mutant::NestedAssociationsKept, "a nested instance's associations are kept behind the outer's"),
    (Mutant::IsOutsideBodyDropped, "an IS outside a body is dropped"),
    (Mutant::NodesLimitAfterExtern, "4 comes before 8"),
    (Mutant::BasesWithoutEnd, "bases past the 64th are looked for too"),
    (Mutant::UnresolvedBasesDoNotCount, "bases without a file do not count toward the 64"),
    (Mutant::FirstFileOfBase, "the library's first file of a base is taken"),
    (Mutant::FileBeforeTheLast, "of three or more files with one base the one before the last is taken"),
    (Mutant::NewestWithAPick, "a file without the wanted Proto is passed over for an older one of its base"),
    (Mutant::DanglingPickPassedOver, "without a fragment a dangling Proto statement is passed over"),
];

/// Mutants of what the original doesn't show (charges, scopes, places, the default that an IS to nothing takes, marks, externs of files):
/// frames must notice them.
pub const FRAMES_ONLY: &[(Mutant, &str)] = &[
    (Mutant::IdChargedBeforeCopy, "an id is charged before its node is copied"),
    (Mutant::FieldChargedBeforeValue, "a field is charged before its value is copied"),
    (Mutant::RowChargedBeforeNodesLimit, "a plain copy is charged before 8 is tested"),
    (Mutant::ExternChargedBeforeLookup, "an extern is charged before 4 is tested"),
    (Mutant::RoutesChargedAfterBody, "body routes are charged when they are remapped"),
    (Mutant::RecordChargedBeforeRootless, "the record is charged before 7"),
    (Mutant::InstanceEntryChargedAfterBody, "an instance's map entry is charged after the body, not at its root"),
    (Mutant::BodyScopeBeforeValues, "the body scope is opened before the values"),
    (Mutant::ClonedIdsNotCharged, "the ids of a value that an IS takes are not charged"),
    (Mutant::UnwrittenAssociationsNotCharged, "associations outside bodies are not charged"),
    (Mutant::OverwritingStoreNotCharged, "a store that overwrites is not charged"),
    (Mutant::PayloadDefaultOpensNoScope, "a default without nodes opens no scope"),
    (Mutant::IndexAmongDefaults, "a default scope's index counts only interfaces with a default"),
    (Mutant::SixInTheInstancesDocument, "6 gives the instance's document, not the PROTO's"),
    (Mutant::IsToNothingTakesNone, "an IS to nothing takes no default"),
    (Mutant::IsDefaultInInstanceScope, "the default that an IS takes is copied in the instance's own scope"),
    (Mutant::FirstDefaultOfRepeatedName, "of a repeated interface name an IS takes the first entry's default for each"),
    (Mutant::FirstUrlMarked, "the first url of an extern with a pick is marked"),
    (Mutant::LastUrlMarked, "the last url of an extern with a pick is marked"),
    (Mutant::UrlsOfTheBaseMarked, "every url of the picked file's base is marked"),
    (Mutant::NoMark, "no url is marked"),
    (Mutant::NoMarkByBody, "no url is marked where a body's statement declares the extern"),
    (Mutant::FilesMarkedAsTheRoot, "a file's extern is marked as the root's of the same id"),
    (Mutant::MarkedSheetsAccepted, "a sheet with a marked url is accepted"),
    (Mutant::PicksByExternIdAlone, "picks are kept by the extern id alone, whatever the document"),
    (Mutant::BasesCountedPerDocument, "the 64 bases are counted anew for each document"),
    (Mutant::FetchedDepthFirst, "the fetched documents are walked depth first"),
    (Mutant::FetchedAtOnce, "a fetched document is walked at once, before the root's next url"),
    (Mutant::FetchedInLibraryOrder, "the fetched documents are walked in the library's order"),
    (Mutant::FileWithoutPickPassedOver, "a file that is fetched without a pick is not walked"),
    (Mutant::FilesExternsPlain, "an ExternProto node of a file is copied as a plain node although it has a pick"),
    (Mutant::NoMarkInFiles, "no url of a file's extern is marked"),
    (Mutant::OneLevelOfFiles, "the files that a file fetches are not walked"),
    (Mutant::UnfetchedFilesWalked, "files that nothing fetches are walked too"),
    (Mutant::UnresolvedBasesOfFilesDoNotCount, "a file's bases without a file do not count toward the 64"),
];

/// Of these, the mutants of wish 12.
pub const OF_WISH_12: &[Mutant] = &[
    Mutant::PicksByExternIdAlone,
    Mutant::BasesCountedPerDocument,
    Mutant::FetchedDepthFirst,
    Mutant::FetchedAtOnce,
    Mutant::FetchedInLibraryOrder,
    Mutant::FileWithoutPickPassedOver,
    Mutant::FilesExternsPlain,
    Mutant::NoMarkInFiles,
    Mutant::OneLevelOfFiles,
    Mutant::UnfetchedFilesWalked,
    Mutant::UnresolvedBasesOfFilesDoNotCount,
];

/// The mutant of a name, as `compare mutants` prints it.
pub fn named(name: &str) -> Result<Mutant, String> {
    let found = ALL.iter().chain(FRAMES_ONLY).find(|(mutant, _)| format!("{mutant:?}") == name);
    found.map(|(mutant, _)| *mutant).ok_or(format!("no such mutant: {name}"))
}

/// What the comparison with the original saw of a mutant.
#[derive(Default)]
struct Notice {
    cases: u64,
    /// Accepted answers that break demand 3.
    broken: u64,
    smallest: Option<Call>,
}

/// Whether the original answers a call, as it is or as one document.
fn answers(truth: &Reckoned) -> bool {
    match versus::by(truth) {
        By::Original => true,
        By::OneDocument => !truth.bound.takes_default(),
        By::Nothing | By::Absent => false,
    }
}

/// How a mutant's answer parts from the original's, where that answers.
fn parts(mutant: Mutant, call: &Call, truth: &Reckoned) -> Option<String> {
    let answer = reckon::expand(call, Some(mutant));
    // Where nothing changes there is nothing to notice.
    if !answers(truth) || versus::stands_before(&answer) || answer == truth.answer {
        return None;
    }
    let asked = if truth.linked { merged(call)? } else { call.clone() };
    versus::as_original(&asked, &answer).err()
}

/// Every mutant over all families and `count` random cases. The number of mutants that nothing noticed.
pub fn run(count: u64, seed: u64) -> u64 {
    let mut notices: Vec<Notice> = ALL.iter().map(|_| Notice::default()).collect();
    let mut compared = 0;
    for number in 0..families::total() + count {
        let call = versus::case(seed, number);
        let truth = reckon::reckon(&call, None);
        if !answers(&truth) {
            continue;
        }
        compared += 1;
        for ((mutant, _), notice) in ALL.iter().zip(&mut notices) {
            if parts(*mutant, &call, &truth).is_some() {
                notice.cases += 1;
                let answer = reckon::expand(&call, Some(*mutant));
                notice.broken += answer.is_ok_and(|e| closure::check(&call, &e).is_err()) as u64;
                if notice.smallest.as_ref().is_none_or(|c| call.size() < c.size()) {
                    notice.smallest = Some(call.clone());
                }
            }
        }
    }
    let mut missed = 0;
    for ((mutant, wrong), notice) in ALL.iter().zip(&notices) {
        match &notice.smallest {
            Some(call) => {
                let what = |c: &Call| parts(*mutant, c, &reckon::reckon(c, None));
                let call = shrink(call, |c| what(c).is_some());
                println!("{mutant:?}: {wrong}");
                println!("  noticed in {} of {compared} cases, demand 3 broken in {}", notice.cases, notice.broken);
                println!("  smallest, {} rows: {}", call.size(), what(&call).unwrap());
                print!("{}", versus::show(&call));
            }
            None => {
                missed += 1;
                println!("{mutant:?}: {wrong}: NOT NOTICED in {compared} cases");
            }
        }
    }
    println!("{} mutants, {missed} not noticed", ALL.len());
    missed
}
