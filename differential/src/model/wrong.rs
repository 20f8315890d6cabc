//! Deliberately wrong readings of document 01, of #103, of big-endian metadata, of the page, of the measures and of strict export, each a
//! switch of the plain reading. A generator is good if its sheets tell each of them from the Rust, or those of what the Rust has not from
//! the right one.

macro_rules! wrong_readings {
    ($($variant:ident $what:literal)*) => {
        #[derive(Debug, Clone, Copy, PartialEq, Eq)]
        pub enum Wrong { $($variant),* }

        /// All of them, with what each says.
        pub const WRONG_READINGS: &[(Wrong, &str)] = &[$((Wrong::$variant, $what)),*];
    };
}

wrong_readings! {
    // The form of both sheets.
    LongSheetTaken "65,536 bytes are taken"
    LongestSheetRefused "65,535 bytes are refused"
    OpenHeadingIs2 "a heading without byte 10 is 2"
    HeadingAloneIs1 "the heading alone is 1"
    HeadingTrimmed "spaces after the heading are taken"
    LastLineOpen "the last line may lack byte 10"
    LeftOverTaken "lines left over are taken"
    LevelsFirst "3 before missing or left-over lines"
    Levels33 "33 levels pass"
    Levels31 "32 levels are refused"
    DictionaryOnSameLevel "a dictionary's subtree is on its line's level"
    MinusZeroTaken "-0 is taken"
    PlusTaken "a plus is taken"
    SpareZerosTaken "spare zeros are taken"
    UppercaseTaken "uppercase hexadecimal is taken"
    OddDigitTaken "an odd hexadecimal digit is dropped"
    EmptyTextColumn "an empty column is the empty text"
    DoubleSpaceTaken "two spaces split as one"
    LeastFlagsRefused "flags -2^63 are refused"
    FlagsWrap "flags past 63 bits wrap"
    DictionaryTwoTaken "dictionary 2 is taken as 1"
    ZeroByteInName "byte 00 in a schema's name is taken"
    ZeroByteInFormat "byte 00 in a schema's format is taken"
    SchemaUtf8IsForm "a schema's text that is not UTF-8 is 2"
    // Field sheets.
    FirstLineBare "the first line may be bare"
    BareNamed "a bare line may have a name"
    ChildBare "a field's line may be bare"
    EqualKeysTaken "equal keys are taken in a field sheet"
    KeysUnordered "keys in any order are taken"
    EmptySideDash "an empty side of a pair may be -"
    UnitFour "unit 4 is taken"
    IndexTen "index type 10 is taken"
    FlagTwo "sorted, ordered or mode 2 is taken"
    KindUnchecked "kind 42 is taken as Unknown"
    UnusedNumber "an unused q is ignored"
    UnusedText "an unused more is ignored"
    NullExtensionName "an extension's name may be ~"
    FieldUtf8Is5 "a field's text that is not UTF-8 is 5"
    FieldUtf8Untested "a field's texts may be any bytes"
    EmptyIdsRefused "a union whose ids are - is 2"
    IdMinusZero "the id -0 is taken in a field sheet"
    IdsNumberFields "a field sheet's ids are as many as the fields"
    InnerLineDeeper "an extension's inner line is one level deeper"
    InnerExtensionLevel "an extension in an extension is on its level"
    ListChildrenFree "a list may have any number of children"
    // Import.
    NullableByDivision "nullable is (flags / 2) & 1"
    OrderedByRemainder "ordered is the remainder by 2 equal to 1"
    SortedByDivision "sorted is (flags / 4) & 1"
    NullNameIs4 "a null name is 4"
    NullFormatIsEmpty "a null format reads as empty"
    FirstEqualKey "the first of equal keys wins"
    FirstExtensionName "the first of equal extension names wins"
    LoneMetadataKept "extension metadata without a name stays a pair"
    ExtensionPrefixReserved "all keys after ARROW:extension: are reserved"
    EmptyExtensionName "an empty extension name makes no extension"
    NegativeCountIs11 "a negative count is 11"
    NoPairsAreSome "a count of 0 gives Some of nothing"
    BytesPastPairsIs11 "bytes past the last pair are 11"
    EmptyBlockIsNone "metadata - is none"
    TextBeforeExtent "a text is tested before its extent"
    ValueExtentBeforeKey "the value's extent is tested before the key's text"
    BlockTextUntested "the block's texts are not tested"
    BigEndian "the block's lengths are big-endian"
    ImportKeepsOrder "pairs keep the block's order"
    KeysByLength "pairs are ordered by length first"
    MetadataBeforeType "metadata is read before the children"
    NameBeforeMetadata "the name is tested before the metadata"
    NameUntested "the name is not tested for UTF-8"
    LeafChildrenVisited "a leaf's children are visited"
    SecondChildVisited "a list's second child is visited"
    DictionaryChildrenVisited "a dictionary line's children are visited"
    ValuesBeforeIndex "the dictionary comes before its index format"
    ValuesMetadataDropped "the values' metadata is not read"
    WideIndexTaken "a dictionary index of 128 bits is taken"
    EmptyIndexIs6 "an index format that is no type is 6"
    ExtensionLostOnDictionary "a dictionary line makes no extension"
    ChildBeforeSize "+w looks for its child before its size"
    FieldsBeforeIds "a union reads its fields before its ids"
    IdsMatched "a union's ids must be as many as its fields"
    NoIdsTaken "a union without ids is taken"
    NullableFromMap "sorted is read as nullable"
    // Formats.
    EmptyZoneSome "tss: has the empty zone"
    ZoneToColon "a zone ends at the next colon"
    ZoneOptional "tss is taken"
    NameWithColon "a fixed name may end in a colon"
    // Fixed names by length and first byte (#103).
    LastNameLost "tin is no fixed name"
    FirstOfItsCell "a format is the first fixed name of its length and first byte"
    FirstByteAlone "a format is the name that its first byte is, whatever follows"
    EmptyFormatIsNull "an empty format is n"
    SizePlusRefused "a size has no plus"
    SizeZerosRefused "a size has no spare zeros"
    SizeWraps "a size wraps at 2^64"
    SizeSigned "a size is below 2^63"
    SizeMinusZero "a size may be -0"
    IdPlusRefused "an id has no plus"
    IdMinusZeroRefused "the id -0 is refused in a format"
    IdLeastRefused "the id -2^31 is refused"
    IdWraps "an id wraps at 32 bits"
    Width128Only "a decimal's width is 128 or 32, 64, 256"
    WidthByText "a decimal's width is compared as text"
    WidthIgnored "a decimal's width is ignored"
    NumbersBeforeParts "d reads its numbers before it counts its parts"
    EmptyPartsDropped "empty parts of a decimal do not count"
    FourParts "a decimal's fourth part is ignored"
    TwoPartsOnly "a decimal with a width is 8"
    // UTF-8.
    Utf8Overlong2 "c0 and c1 begin a character"
    Utf8OverlongE0 "e0 80 begins a character"
    Utf8Surrogates "ed a0 begins a character"
    Utf8OverlongF0 "f0 80 begins a character"
    Utf8PastF4 "f4 90 begins a character"
    Utf8F5 "f5 begins a character"
    Utf8Cut "the last character may be cut short"
    Utf8Loose "any byte continues a character"
    // Export.
    OwnNameFirst "a line's name is tested before its children"
    ZeroInZone "byte 00 in a zone passes"
    ZeroInExtension "byte 00 in an extension's name is 14"
    TimeUnitsFree "Time32 in microseconds has a format"
    IntervalFree "MonthDayMillis has a format"
    NoFieldsNoIds "a union without ids over no fields is taken"
    EmptyIdsNumbered "ids - are numbered as none are"
    InnerExtensionKeys "the innermost extension's keys are written"
    PairsOverKeys "reserved pairs win over the extension"
    EmptyMoreWritten "an extension without metadata writes an empty one"
    KeysAtEnd "the reserved keys come last in the block"
    ValuesUnderExtension "a dictionary under an extension keeps its values"
    ValuesNotNullable "the values' line is not nullable"
    ValuesNameNull "the values' name is null"
    SortedLostInExtension "sorted does not pass through an extension"
    OrderedThroughExtension "ordered passes through an extension"
    EmptyPairsWritten "Some of nothing is written as a block"
    NoZoneNoColon "no zone is written without a colon"
    WidthAlways "a decimal is written with width 128"
    // Plain form.
    PlainZone "an empty zone stays"
    PlainPairs "pairs of nothing stay"
    PlainIds "ids that are none stay"
    PlainInnermost "the innermost extension stays"
    PlainNested "an extension in an extension stays"
    PlainDictionary "a dictionary under an extension stays"
    PlainIndexOrdered "the index type keeps q"
    PlainTopOnly "lines below the first stay as they are"
    PlainValues "a dictionary's values stay as they are"
    // Mappings.
    DayTimeUnderlying "DayTime is underlyingly Int32"
    UnderlyingValues "underlying looks at a dictionary's values"
    UnknownUnderlying "Unknown has no underlying type"
    UnknownPhysical "Unknown is physically Null"
    PhysicalByInteger "a primitive's place is that of IntegerType"
    PhysicalStopsAtExtension "an extension has no physical type"
    StorageOnce "to_storage takes off one extension"
    StorageValues "to_storage_recursive leaves a dictionary's values"
    StorageUnion "to_storage_recursive goes through unions"
    InnerThroughExtension "inner_dtype sees through extensions"
    InnerOfMap "a map has an inner type"
    ChildNotThroughExtension "get_child does not see through extensions"
    ChildOfDictionary "a dictionary has child 0"
    ChildIndexIgnored "a list has every child"
    DictionaryNotInUnion "contains_dictionary does not look into unions"
    DictionaryNotInExtension "contains_dictionary does not see through extensions"
    ExtensionNotNested "an extension is not nested"
    Decimal256Zero "Int256 converts to precision 0"
    PlaceTen "place 10 of IntegerType converts"
    WithDtypePlain "a changed type makes pairs of nothing None"
    // The buffer.
    BufferFirst "16 comes before 4 to 15"
    BufferExact "a buffer of the sheet's length is 16"
    RefusalLeavesBytes "a refusal leaves the buffer"
    RestZeroed "bytes past the length become zeros"
    LengthOn16 "16 comes with the length that is needed"
    // Big-endian metadata (#104).
    OrderNotRead "import reads every block little-endian"
    CountReadLittle "import reads a big-endian block's count little-endian"
    LengthsReadLittle "import reads a big-endian block's lengths little-endian"
    ValueLengthReadLittle "import reads the length of a big-endian block's value little-endian"
    CountSignAtEnd "the sign of a big-endian count is that of its last byte"
    LengthSignAtEnd "the sign of a big-endian length is that of its last byte"
    OrderNotWritten "export writes every block little-endian"
    CountWrittenLittle "export writes a big-endian block's count little-endian"
    LengthsWrittenLittle "export writes a big-endian block's lengths little-endian"
    KeysReversed "the bytes of a big-endian block's keys are turned round"
    OrderOfFirstLine "the order is that of the first line's block alone"
    OrderNotOfValues "the order is not that of the blocks in a dictionary's values"
    // The page.
    PageHeading "the heading becomes a line of the page"
    PageLevelZero "a page counts its levels from 0"
    PageLevelLeft "a page's level is left-justified"
    PageInnerDeeper "a page shows an extension's inner line one level deeper"
    PageInnerExtension "a page shows an extension in an extension on its level"
    PageKindSpelling "a page spells UInt as Uint"
    PageBareNot "a page shows a bare line as not nullable"
    PageBareName "a page shows the name of a bare line as ~"
    PageEmptyName "a page shows an empty name as -"
    PageNameText "a page shows a name's text, not its hexadecimal"
    PagePlusAt24 "a name of 24 bytes has a + on its page"
    PagePlusLacks "a name that was cut has no + on its page"
    PageWholeCharacters "a page cuts a name before the character that the cut would part"
    PageTrimmed "a page's lines do not end in spaces"
    PageLastOpen "a page's last line lacks byte 10"
    PageExportable "a field that cannot be exported has no page"
    // The measures (#105).
    MeasureLeafChildren "a measure counts a leaf's children"
    MeasureFurtherChildren "a measure counts a list's further children"
    MeasureDictionaryChildren "a measure counts the children of a line with a dictionary"
    MeasureValuesNotImported "import's measure does not count a dictionary's values"
    MeasureExtensionTwice "a measure counts an extension made by metadata twice"
    MeasureExtensionNot "a measure does not count extensions"
    MeasureInnerNot "a measure does not count an extension's inner line"
    MeasureInnerExtensionNot "a measure does not count an extension in an extension"
    MeasureInnerDictionaryNot "a measure does not count a dictionary in an extension"
    MeasureValuesInExtension "a measure counts the values of a dictionary in an extension"
    MeasureValuesInTwo "a measure counts the values of a dictionary in two extensions"
    MeasureValuesNotExported "export's measure does not count a dictionary's values"
    MeasureLinesWritten "export's measure counts the lines that are written"
    MeasureEveryLine "a measure counts every line of the sheet"
    MeasureHeadingLine "a measure counts the heading as a line"
    MeasureNoHeading "a measure's length is without the heading"
    MeasureFitsNothing "a measure's length is what fits into no buffer, 0"
    MeasureLengthWraps "a measure's length goes round at 65,536"
    MeasureLengthCut "a measure's length is at most 65,535"
    MeasureLongIs1 "a measure over 65,535 is 1"
    MeasureGives16 "a measure is 16, as of a conversion without a buffer"
    MeasureCountsKept "a measure that is refused keeps its counts"
    MeasureOrderIgnored "a measure reads every block little-endian"
    // Strict export (#106).
    StrictUntested "strict export is the present export"
    StrictVisitedOnly "strict export tests the lines that export visits"
    StrictValuesPass "strict export does not test a dictionary's values, and what is below them"
    StrictFirstLineOnly "strict export tests the first line alone"
    StrictFirstLinePasses "strict export tests all lines but the first"
    StrictLastLine "the last line with a cause decides"
    StrictChildrenFirst "a line is tested after those below it"
    StrictKeysFirst "all lines are tested for keys, then for indices"
    StrictIndicesFirst "all lines are tested for indices, then for keys"
    StrictIndexFirst "18 before 17 on one line"
    StrictKeyIs18 "a reserved key is 18"
    StrictIndexIs17 "an index of 128 bits is 17"
    StrictBeforeLines "17 and 18 before 2, as lines are read"
    StrictBeforeLevels "17 and 18 before 3"
    StrictNoFormatFirst "12 before 17 and 18"
    StrictIdsFirst "13 before 17 and 18"
    StrictZeroFirst "14 before 17 and 18"
    StrictRoomFirst "16 before 17 and 18"
    StrictNameOnly "ARROW:extension:name alone is reserved"
    StrictMetadataOnly "ARROW:extension:metadata alone is reserved"
    StrictKeyPrefix "all keys after ARROW:extension: are refused"
    StrictKeyLonger "a key that begins with a reserved one is refused"
    StrictKeyShorter "a key that a reserved one begins with is refused"
    StrictKeyAnyCase "a reserved key in other letters' case is refused"
    StrictValueToo "a value that is a reserved key is refused"
    StrictFirstPair "a line's first pair alone is tested"
    StrictLastPair "a line's last pair alone is tested"
    StrictEmptyValuePasses "a reserved key without a value passes"
    StrictLoneMetadataPasses "ARROW:extension:metadata without a name beside it passes"
    StrictExtensionKeysPass "a reserved key on an extension's line passes"
    StrictOverwrittenPasses "a reserved key passes where export writes over it"
    StrictEqualPairPasses "a reserved key passes where export writes an equal pair over it"
    StrictInnerDictionaryPasses "an index of 128 bits passes directly in an extension"
    StrictWideTypeToo "Int128 and UInt128 as types are 18"
    StrictPlace4Passes "an index Int128 passes"
    StrictPlace9Passes "an index UInt128 passes"
    StrictPlace3Too "an index Int64 is 18"
    StrictPlace8Too "an index UInt64 is 18"
    StrictOrderIgnored "strict export writes every block little-endian"
    StrictBigUntested "big-endian strict export does not test"
    StrictLongIs1 "strict export of more than 65,535 bytes is 1"
}

impl Wrong {
    /// Whether it is one of #103.
    pub fn is_of_fixed_names(self) -> bool {
        self.is_within(Wrong::LastNameLost, Wrong::EmptyFormatIsNull)
    }

    /// Whether it is one of big-endian metadata.
    pub fn is_of_order(self) -> bool {
        self.is_within(Wrong::OrderNotRead, Wrong::OrderNotOfValues)
    }

    /// Whether it is one of the page.
    pub fn is_of_page(self) -> bool {
        self.is_within(Wrong::PageHeading, Wrong::PageExportable)
    }

    /// Whether it is one of the measures.
    pub fn is_of_measures(self) -> bool {
        self.is_within(Wrong::MeasureLeafChildren, Wrong::MeasureOrderIgnored)
    }

    /// Whether it is about measures over 65,535 bytes, which only long sheets tell.
    pub fn is_of_long_measures(self) -> bool {
        self.is_within(Wrong::MeasureLengthWraps, Wrong::MeasureLongIs1)
    }

    /// Whether it is one of strict export.
    pub fn is_of_strict_export(self) -> bool {
        self.is_within(Wrong::StrictUntested, Wrong::StrictLongIs1)
    }

    /// Whether it stands from the one to the other.
    fn is_within(self, first: Wrong, last: Wrong) -> bool {
        (first as usize..=last as usize).contains(&(self as usize))
    }
}
