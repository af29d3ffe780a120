//! The tables of structures: which tags may stand where, how often, with what payload.

use crate::tags::Tags;
use crate::values::Kind;

/// The tables by context: a name, then the entries. An entry is `TAG.. LEAST:MOST KIND BELOW`, where M means no
/// greatest count, or the name of an earlier group or context, whose rows stand there. Under Leaf no standard tag
/// has a row; under Unchecked nothing is looked at.
const TABLES: &str = "\
Leaf
Unchecked
NOTES NOTE 0:M Text Note; SNOTE 0:M ToSnote Leaf
CITES SOUR 0:M ToSour Cite
MEDIA OBJE 0:M ToObje Unchecked
PIECES NPFX GIVN NICK SPFX SURN NSFX 0:M Text Leaf
DETAIL DATE 0:1 DateValue DateMore; SDATE 0:1 DateValue DateMore; PLAC 0:1 Text Unchecked; ADDR 0:1 Text Unchecked; \
    PHON EMAIL FAX WWW 0:M Text Leaf; AGNC RELI CAUS 0:1 Text Leaf; RESN 0:1 ResnList Leaf; ASSO 0:M ToIndi Asso; \
    NOTES; CITES; MEDIA; UID 0:M Text Leaf
ENDING SUBM 0:M ToSubm Leaf; REFN 0:M Text Typed; UID 0:M Text Leaf; EXID 0:M Text Typed; NOTES; CITES; MEDIA; \
    NO 0:M EnumAny NonEvent; CHAN 0:1 Nothing Chan; CREA 0:1 Nothing Crea
File HEAD 1:1 Nothing Head; FAM 0:M Nothing Fam; INDI 0:M Nothing Indi; OBJE REPO SNOTE SOUR SUBM 0:M Free Unchecked
Head GEDC 1:1 Nothing Gedc; SCHMA 0:1 Nothing Schma; SOUR 0:1 Text HeadSour; DEST 0:1 Text Leaf; \
    DATE 0:1 DateExact DateTime; SUBM 0:1 ToSubm Leaf; COPR LANG 0:1 Text Leaf; PLAC 0:1 Nothing HeadPlac; \
    NOTE 0:1 Text Note; SNOTE 0:1 ToSnote Leaf
Gedc VERS 1:1 Version Leaf
Schma TAG 0:M Text Leaf
HeadSour VERS NAME 0:1 Text Leaf; CORP 0:1 Text Unchecked; DATA 0:1 Text HeadData
HeadData DATE 0:1 DateExact DateTime; COPR 0:1 Text Leaf
HeadPlac FORM 1:1 Text Leaf
DateTime TIME 0:1 Time Leaf
DateMore TIME 0:1 Time Leaf; PHRASE 0:1 Text Leaf
Phrase PHRASE 0:1 Text Leaf
Typed TYPE 0:1 Text Leaf
Indi RESN 0:1 ResnList Leaf; SEX 0:1 SexEnum Leaf; NAME 0:M Name NameMore; \
    CAST DSCR EDUC NATI OCCU PROP RELI RESI SSN TITL 0:M Text IndiFact; NCHI NMR 0:M Integer IndiFact; \
    IDNO FACT 0:M Text IndiNamed; \
    BAPM BARM BASM BLES BURI CENS CHRA CONF CREM DEAT EMIG FCOM GRAD IMMI NATU ORDN PROB RETI WILL 0:M EventFlag \
    IndiFact; \
    BIRT CHR 0:M EventFlag IndiBirth; ADOP 0:M EventFlag IndiAdop; EVEN 0:M Text IndiNamed; \
    BAPL CONL ENDL INIL SLGC 0:M Free Unchecked; FAMC 0:M ToFam IndiFamc; FAMS 0:M ToFam Notes; ASSO 0:M ToIndi Asso; \
    ALIA 0:M ToIndi Phrase; ANCI DESI 0:M ToSubm Leaf; ENDING
IndiFact TYPE 0:1 Text Leaf; DETAIL; AGE 0:1 Age Phrase
IndiNamed TYPE 1:1 Text Leaf; DETAIL; AGE 0:1 Age Phrase
IndiBirth IndiFact; FAMC 0:1 ToFam Leaf
IndiAdop IndiFact; FAMC 0:1 ToFam AdopFamc
AdopFamc ADOP 0:1 EnumAny Phrase
IndiFamc PEDI 0:1 PediEnum Phrase; STAT 0:1 StatEnum Phrase; NOTES
Notes NOTES
NameMore TYPE 0:1 NameTypeEnum Phrase; PIECES; TRAN 0:M Name NameTran; NOTES; CITES
NameTran LANG 1:1 Text Leaf; PIECES
Fam RESN 0:1 ResnList Leaf; NCHI 0:M Integer FamFact; RESI 0:M Text FamFact; FACT 0:M Text FamNamed; \
    ANUL CENS DIV DIVF ENGA MARB MARC MARL MARR MARS 0:M EventFlag FamFact; EVEN 0:M Text FamNamed; \
    HUSB WIFE 0:1 ToIndi Phrase; CHIL 0:M ToIndi Phrase; SLGS 0:M Free Unchecked; ASSO 0:M ToIndi Asso; ENDING
FamFact TYPE 0:1 Text Leaf; DETAIL; HUSB WIFE 0:1 Nothing FamAge
FamNamed TYPE 1:1 Text Leaf; DETAIL; HUSB WIFE 0:1 Nothing FamAge
FamAge AGE 1:1 Age Phrase
NonEvent DATE 0:1 DatePeriod Phrase; NOTES; CITES
Chan DATE 1:1 DateExact DateTime; NOTES
Crea DATE 1:1 DateExact DateTime
Asso PHRASE 0:1 Text Leaf; ROLE 1:1 EnumAny Phrase; NOTES; CITES
Cite PAGE 0:1 Text Leaf; DATA 0:1 Nothing CiteData; EVEN 0:1 EnumAny Unchecked; QUAY 0:1 EnumAny Leaf; NOTES; MEDIA
CiteData DATE 0:1 DateValue DateMore; TEXT 0:M Text Unchecked
Note MIME LANG 0:1 Text Leaf; TRAN 0:M Text Unchecked; CITES";

/// The number of the context that nothing is looked at in.
pub const UNCHECKED: u8 = 1;

/// What a tag means in a context.
#[derive(Clone, Copy)]
pub struct Row {
    pub kind: Kind,
    /// The number of the context of what stands below.
    pub below: u8,
    /// The row's place in its context.
    pub place: u8,
}

/// The rows of a context. Counts are told by sets of rows, with a bit for each place.
pub struct Context {
    /// The number of the row of each tag, by the tag's number; 0 if it has none.
    pub row_of: [u16; 256],
    /// The rows whose tag must come.
    pub required: u128,
    /// The rows whose tag may come only once.
    pub single: u128,
}

/// All tables, read from their text at the program's start.
pub struct Tables {
    pub tags: Tags,
    /// All rows by number; the first stands for no row.
    pub rows: Vec<Row>,
    pub contexts: Vec<Context>,
    /// The number of the context of the header and of records.
    pub file: u8,
}

/// A row as it is read: its tag, its counts, its meaning.
#[derive(Clone, Copy)]
struct Entry {
    tag: u8,
    counts: &'static str,
    kind: Kind,
    below: u8,
}

impl Tables {
    pub fn new() -> Tables {
        let no_row = Row { kind: Kind::Free, below: UNCHECKED, place: 0 };
        let mut tables = Tables { tags: Tags::new(), rows: vec![no_row], contexts: Vec::new(), file: 0 };
        let texts = TABLES.lines().map(|line| line.split_once(' ').unwrap_or((line, "")));
        let (names, texts): (Vec<&str>, Vec<&str>) = texts.unzip();
        tables.file = number_of(&names, "File") as u8;
        let mut lists: Vec<Vec<Entry>> = Vec::new();
        for text in texts {
            let mut list = Vec::new();
            for part in text.split("; ").filter(|part| !part.is_empty()) {
                let words: Vec<&str> = part.split_whitespace().collect();
                match words[..] {
                    [name] => list.extend_from_slice(&lists[number_of(&names, name)]),
                    [ref tag_names @ .., counts, kind, below] => {
                        let (kind, below) = (Kind::of_word(kind), number_of(&names, below) as u8);
                        let tags = tag_names.iter().map(|name| tables.tags.add(name));
                        list.extend(tags.map(|tag| Entry { tag, counts, kind, below }));
                    }
                    _ => {}
                }
            }
            tables.add_context(&list);
            lists.push(list);
        }
        tables
    }

    fn add_context(&mut self, list: &[Entry]) {
        let mut context = Context { row_of: [0; 256], required: 0, single: 0 };
        for (place, &Entry { tag, counts, kind, below }) in list.iter().enumerate() {
            context.row_of[usize::from(tag)] = self.rows.len() as u16;
            context.required |= u128::from(counts == "1:1") << place;
            context.single |= u128::from(counts.ends_with(":1")) << place;
            self.rows.push(Row { kind, below, place: place as u8 });
        }
        self.contexts.push(context);
    }
}

/// The place of a name among the names.
fn number_of(names: &[&str], name: &str) -> usize {
    names.iter().position(|other| *other == name).expect("the tables name their own contexts alone")
}
