//! Single faults that can be built into the checker, the writer or the reader, to test
//! that the comparison would notice them. The exact rules are a type of their own whose
//! answer is always "no fault", so they hold none of this code.

/// The limit of variables before Req 02; some faults keep to it.
pub const OLD_VARIABLES: u32 = 64;

/// The rules to follow: document 01's, or those with one fault.
pub trait Rules: Copy {
    fn has(self, fault: Fault) -> bool;
}

/// No fault.
#[derive(Clone, Copy, Debug)]
pub struct Exact;

impl Rules for Exact {
    #[inline(always)]
    fn has(self, _: Fault) -> bool {
        false
    }
}

/// One fault.
#[derive(Clone, Copy, Debug)]
pub struct Broken(pub Fault);

impl Rules for Broken {
    fn has(self, fault: Fault) -> bool {
        self.0 == fault
    }
}

macro_rules! faults {
    ($($party:ident: { $($name:ident: $text:literal,)* })*) => {
        #[derive(Clone, Copy, Debug, PartialEq, Eq)]
        pub enum Fault {
            $($($name,)*)*
        }

        impl Fault {
            $(pub const $party: &[Fault] = &[$(Fault::$name,)*];)*

            pub fn text(self) -> &'static str {
                match self {
                    $($(Fault::$name => $text,)*)*
                }
            }
        }
    };
}

faults! {
    CHECKER: {
        // Areas and header.
        AreaKeptOnRefusal: "the area keeps its old words on refusal",
        AreaTailKept: "the area keeps its old words past the last term",
        AreaOneShort: "an area one word too short is taken",
        AreaOfTerms: "an area of T words is taken",
        SetsWrittenClose: "the sets in the area start one word apart",
        LongerFileTaken: "bytes after the last record are taken",
        LimitBeforeVersion: "3 comes before 2",
        LengthBeforeLimit: "the exact length comes before 3",
        AreaBeforeLength: "4 comes before the exact length",
        LimitOfVariablesOff: "257 variables are taken",
        LimitOfVariablesOld: "65 variables are refused",
        LimitOfTermsOff: "1,025 terms are taken",
        LimitOfLinksOff: "2,049 links are taken",
        LimitOfContextsOff: "257 contexts are taken",
        LastRecordCounts: "the last bad record of a section counts",
        // Links, symbols, variables.
        LinkToItselfTaken: "a link's next may be itself",
        LastLinkRefused: "a link's next may not be L",
        LinkPastEndTaken: "a link's next may be L + 1",
        VariablesBeforeSymbols: "variables are judged before symbols",
        ArgumentSortsUnread: "the sorts in a symbol's list are not judged",
        VariableSortTwoTaken: "a variable may have sort 2",
        // Terms.
        TermOfItself: "a term may refer to itself",
        UnusedFieldTaken: "a variable term's second field is not judged",
        ReservedSymbolTaken: "symbol 9 is taken",
        ArgumentsPastCountUnread: "arguments past the symbol's count are not judged by 7",
        SpareArgumentTaken: "one argument too many is taken",
        ArgumentSortsIgnored: "argument sorts are not compared",
        BodySortUnread: "a quantifier's body may be an item",
        TruthQuantifierRefused: "a quantifier may bind items only",
        EmptyLetTaken: "a let may have no variable",
        RepeatsTaken: "a let or context may list a variable twice",
        SpareBoundTaken: "one bound term too many is taken",
        PairSortsIgnored: "sorts of variables and bound terms are not compared",
        DuplicatesTaken: "equal terms are taken",
        DuplicatesByStart: "lists of equal terms are compared by start",
        QuantifiersAlike: "for-all and exists count as equal terms",
        SetsReadClose: "a set's words are read at stride 1",
        VariablesFolded: "variable 65 is put into word 1, and so on",
        QuantifierBindsNothing: "a quantifier's variable stays free",
        LetBindsItsBounds: "a let's bound terms stand inside its variables",
        ChoiceBodySortUnread: "a choice's body may be an item",
        TruthChoiceRefused: "a choice may bind items only",
        ChoiceIsTruth: "a choice is truth, whatever its variable's sort",
        ChoiceEqualsExists: "a choice and an exists count as equal terms",
        ChoiceBindsNothing: "a choice's variable stays free",
        // Contexts.
        FixingFieldTaken: "a fixing context's second field is not judged",
        ParentOfItself: "a context may be its own parent",
        UnsettledReplacementTaken: "11 is left out",
        OnlyFirstReplacementSettled: "11 looks at the first replacing term only",
        FirstWordSettled: "settled looks at variables 1 to 64 only",
        FixingHidesNothing: "fixing a variable leaves its outer replacement",
        ReplacedInTurn: "variables are replaced one after another",
        OuterReplacementWins: "the entry nearest the empty context wins",
        OwnTermMoves: "a variable replaced by itself is moved",
        UnsettledChoiceTaken: "11 does not look at choices",
        // Steps.
        LastContextRefused: "a step's context may not be C",
        LastTermRefused: "a step's right side may not be T",
        PremiseOfItself: "a step may be its own premise",
        ReflPremisesTaken: "REFL may have premises",
        SparePremiseOfTransTaken: "TRANS may have three premises",
        CongCountIsBadStep: "a wrong premise count of CONG is 12",
        LetCountIsBadStep: "a wrong premise count of LET is 12",
        ContextsByValue: "contexts are compared by value",
        ReflFailureIsSide: "a failing REFL is 14",
        ReflUnsettledTaken: "REFL takes equal sides that are not settled",
        ReflWithoutImages: "REFL does not take a variable to its image",
        CongSymbolsDiffer: "CONG takes two symbols",
        CongPremiseMissing: "CONG takes too few premises",
        CongContextsDiffer: "CONG takes premises of another context",
        CongRightUnread: "CONG does not compare right sides",
        TransFirstContextUnread: "TRANS takes a first premise of another context",
        TransSecondContextUnread: "TRANS takes a second premise of another context",
        TransMiddlesDiffer: "TRANS takes two middles",
        TransMiddleUnsettled: "TRANS takes an unsettled middle",
        SideBeforeRule: "14 comes before 13",
        BindKindsDiffer: "BIND takes for-all to exists",
        BindBodyUnread: "BIND does not compare the right body",
        BindReplacesMore: "BIND's context may replace more variables",
        BindFixesAny: "BIND's context may fix another variable",
        BindWithoutFixing: "BIND's context need not fix the new variable",
        BindParentUnread: "BIND's fixing context may have any parent",
        BindSameNameRefused: "BIND may not keep the variable",
        BindNameInBody: "BIND's printed side looks at the body",
        BindAllImagesRead: "BIND's side looks at the images of all variables",
        BindNameUnread: "BIND's printed side is left out",
        BindImagesFirstWord: "BIND's side about images looks at variables 1 to 64 only",
        BindImagesUnread: "BIND's side about images is left out",
        BindChoiceRefused: "BIND takes no choice",
        BindChoiceMeetsQuantifier: "BIND takes a choice to a quantifier, or one to a choice",
        LetVariablesByStart: "LET compares the variables by list start",
        LetOrderIgnored: "LET compares variables and terms as sets",
        LetBoundContextsDiffer: "LET takes bound premises of another context",
        LetBoundsUnread: "LET does not compare bound terms",
        LetReplacementsUnread: "LET does not compare the replacing terms",
        LetRightUnread: "LET does not compare the right side",
        LetParentUnread: "LET's context may have any parent",
        SkoForAllWithoutNot: "rule 7 takes the choice in the body itself",
        SkoExistsWithNot: "rule 6 takes the choice in the negated body",
        SkoNegatesAnother: "rule 7 does not look under the choice's not",
        SkoAnySymbolNegates: "any symbol of one argument stands for rule 7's not",
        SkoOfAnyBody: "SKO takes a choice in any body",
        SkoOfAnotherVariable: "SKO takes a choice of another variable",
        SkoTakesAnyTerm: "SKO takes a replacing term that is no choice",
        SkoTakesEitherQuantifier: "rules 6 and 7 take either quantifier",
        SkoTakesChoice: "rule 6 takes a choice away",
        SkoReplacesMore: "SKO's context may replace more variables",
        SkoReplacesAnother: "SKO's context may replace another variable",
        SkoContextUnread: "SKO does not look at what the premise's context replaces",
        SkoParentUnread: "SKO's context may have any parent",
        SkoBodyUnread: "SKO does not compare the body",
        SkoRightUnread: "SKO does not compare the right side",
        SkoCountIsFalse: "a wrong premise count of SKO is 13",
        SkoSparePremiseTaken: "SKO may have more premises",
        SkoFailureIsSide: "a failing SKO is 14",
        // REFL for whole terms.
        WholeTermsRefused: "REFL takes no whole terms",
        WholeCaptureTaken: "a binder on the right may take a variable of an image",
        WholeCaptureFirstWord: "a binder on the right may take variables 65 and above of an image",
        WholeBindersKept: "a binder stays crossed behind its body",
        WholeHiddenForgotten: "what a binder hides stays hidden behind its body",
        WholeLeftNotHidden: "a nearer binder on the left hides none",
        WholeRightNotHidden: "a nearer binder on the right hides none",
        WholeSortsUnread: "the sorts of two binders are not compared",
        WholeKindsUnread: "for-all meets exists",
        WholeChoiceMeetsQuantifier: "a choice meets a quantifier",
        WholeChoicesDiffer: "a choice meets no other",
        WholeChoiceNotCrossed: "a choice's variable is replaced in its body",
        WholeSymbolsUnread: "symbols are not compared",
        WholeLetCountsUnread: "lets of different numbers of variables meet",
        WholeLetOrderTurned: "the variables of a right let are paired from the last",
        WholeBoundsInside: "a let's bound terms stand inside its variables",
        WholeBoundReplaced: "a variable bound inside left is replaced too",
        WholeImagesReplaced: "a variable that is an image is replaced again",
        WholeImagesRenamed: "names inside an image may change",
        WholeSharedTermSkipped: "a closed term against itself is one pair",
        WholeDifferenceUncounted: "the pair that differs is not counted",
        WholeLimitShort: "4,096 pairs are spent",
        WholeLimitLong: "4,097 pairs are not spent",
        SpentAfterRule: "13 comes before 21",
        SpentIsRule: "a spent walk is 13",
        OldFormsCounted: "REFL's first two forms take one pair",
        OldFormsClear: "REFL's first two forms set the count to 0",
        FirstWalkCounts: "the first walk's pairs are answered",
        WalksAdded: "the pairs of all walks are answered",
        // Free variables that no entry mentions.
        StrayUnread: "22 is left out",
        StrayLeftUnread: "22 does not look at the left side",
        StrayRightUnread: "22 does not look at the right side",
        StrayFirstWord: "22 looks at variables 1 to 64 only",
        StrayInReflOnly: "22 looks at REFL only",
        EmptyContextNeverStray: "22 does not look at steps in the empty context",
        StrayInEmptyContextOnly: "22 looks at steps in the empty context only",
        StrayBeforeStep: "22 comes before 12",
        SpentBeforeStray: "21 comes before 22",
        RuleBeforeStray: "21 and 13 come before 22",
        SideBeforeStray: "21, 13 and 14 come before 22",
        FixedUnmentioned: "a fixing entry does not mention its variable",
        FixingEndsMention: "a fixing entry ends an outer mention of its variable",
        ReplacedUnmentioned: "a replacing entry does not mention its variables",
        FirstReplacedMentioned: "a replacing entry mentions its first variable only",
        OwnTermUnmentioned: "a variable replaced by itself is not mentioned",
        ReplacementsMention: "the variables inside a replacement are mentioned",
        OwnEntryMentions: "only the context's own entry mentions variables",
        AnyContextMentions: "every context of the file mentions variables",
        // Claim.
        ClaimBeforeSteps: "15 comes before the steps",
        ClaimInAnyContext: "the last step may have any context",
        ClaimedLeftUnread: "the claimed left is not compared",
        ClaimedRightUnread: "the claimed right is not compared",
        NoStepsTaken: "a file without steps is taken",
    }
    // CONG's count of links.
    WALK: {
        CongPremisesUncounted: "the links of the premises are not counted",
        CongRightWalkedTwice: "the right side's list is walked twice",
        CongEndsAtSharedLink: "the walk ends where left and right go on at the same link",
        CongLengthsFirst: "lists of other lengths are told before the walk",
        CongLastPositionUncounted: "the links at which the test fails are not counted",
    }
    WRITER: {
        OutputOneShort: "an output one byte too short is taken",
        OutputOfOldLimit: "an output for 64 variables is taken",
        WordsOfOldLimit: "words for 64 variables are taken",
        SetsOfTerms: "sets of one word a term are taken",
        RenamedPastOldLimit: "a 65th variable is full",
        ScratchKept: "the scratch areas keep their old words",
        OutputTailKept: "the output keeps its old bytes after the file",
        RightUnread: "a right word that is not 0 is taken",
        ClaimBeforeBare: "15 comes before 18",
        FullBeforeOpen: "16 comes before 17",
        OpenTaken: "an open rule is taken",
        OpenFirstWord: "open looks at variables 1 to 64 only",
        LimitOneShort: "a section at its limit is full",
        OnlyOldTermsLookedUp: "terms written before are not looked up",
        ListOfFoundTerm: "the arguments of a term that is there are written again",
        NewVariableIsItem: "a new variable is always an item",
        NewLinkFirst: "the link of the new variable's term comes first",
        LetInTurn: "a let's bound terms see its variables before them",
        LetListCopied: "the let's list of variables is written again",
        ResultsAfterBody: "the links of a let's results come after its body",
        ImagesKept: "a binder's images stay after it",
        LastArgumentFirst: "arguments are visited from the last",
        // Names that are kept.
        AlwaysKeeps: "names are kept where all are to be renamed",
        AlwaysRenames: "all are renamed where names are to be kept",
        KeptThoughBoundAgain: "a variable that two records bind is kept",
        KeptThoughListed: "a variable that a let lists is kept",
        BindersOfReached: "only binders that the left reaches are counted",
        ListedOfReached: "only lets that the left reaches are looked at",
        FirstListedCounts: "only a let's first variable is looked at",
        ForAllsCounted: "only for-alls are counted",
        ExistsCounted: "only exists are counted",
        ChoicesUncounted: "choices are not counted",
        ChoicesNotKept: "a choice is always renamed",
        ChoicesKept: "a choice is never renamed",
        ChoicesNotVisited: "a choice is taken to itself",
        BindersOfGrowingFile: "binders that the writer has appended are counted too",
        KeptFirstTimeOnly: "a record visited again is renamed",
        KeptFirstWord: "only variables 1 to 64 are kept",
        KeptTermNotLookedUp: "a kept variable's term is appended, there or not",
        KeptResultNotLookedUp: "the result of a kept name is appended, there or not",
        KeptNotFixed: "a kept variable is not fixed",
        KeptNotReplaced: "a kept variable is not replaced by itself",
    }
    READER: {
        // Areas and declarations.
        ReadSetsOneShort: "sets one word too short are taken",
        ReadSetsOfTerms: "sets of one word a term are taken",
        NamesOfOldLimit: "v65 and above are unknown",
        RepeatsFolded: "a let's repeats are told by one word of 64 bits",
        ReadScratchKept: "the scratch areas keep their old words",
        ReadTailKept: "the output keeps its old bytes after the job",
        ReadOutputKept: "the output keeps its old bytes on refusal",
        LeftUnread: "a left word that is not 0 is taken",
        // Lexemes.
        CommentPassesReturn: "a comment does not end at byte 13",
        FormFeedIsWhite: "byte 12 is white space",
        SlashIsNoSymbolCharacter: "a slash is no symbol character",
        DigitStartsName: "a name may start with a digit",
        WordsMayNotGrow: "a word in a name's place is refused at its first byte",
        SortWordWhole: "a wrong sort word is refused at its first byte",
        EndIsLastByte: "a text that stops too soon is refused at its last byte",
        RestUnread: "what follows the formula is not read",
        // Names.
        LeadingZeroTaken: "a number may start with 0",
        NumbersWrap: "numbers of names wrap around",
        VariableAsHead: "a variable after a bracket is 8",
        SymbolBound: "a symbol in a variable's place is 8",
        UnknownAfterUnread: "19 anywhere comes before 20",
        // Grammar, sorts and limits.
        EmptyBindersTaken: "a quantifier may list no variable",
        FewArgumentsAreTyping: "too few arguments of a connective are 8",
        TypingBeforeUnknown: "8 comes before a later 20",
        FullBeforeTyping: "16 comes before 8",
        ItemFormulaTaken: "a formula may be an item",
        SpareReadArgumentTaken: "more arguments than declared are taken",
        MissingReadArgumentTaken: "fewer arguments than declared are taken",
        LetRepeatsTaken: "a let may list a variable twice",
        BinderRepeatsRefused: "a quantifier may not list a variable twice",
        BinderSortUnread: "a quantifier's sort words are not compared",
        ReadBodySortUnread: "a quantifier's body may be an item",
        BoundSortsUnread: "sorts of a let's variables and terms are not compared",
        EqualSortsUnread: "the sides of = may differ in sort",
        TermLimitOneShort: "1,024 terms are full",
        LinkLimitOnePast: "2,049 links fit",
        // Records.
        OneEquality: "equality on items is symbol 7",
        NestedFromTheRight: "a quantifier's first variable is the innermost",
        BinderGetsTerm: "a quantifier's variable gets a term",
        ApplicationsNotShared: "equal applications are written again",
        LetsNotShared: "equal lets are written again",
        BoundsBeforeVariables: "a let's bound terms are listed before its variables",
    }
}
