//! The reader of vectors: what it reads, what it takes for an error, and that
//! differences are told. The second program stands in for the library.

use crate::boundary::{CAnswer, CSession, Harvester, Spelling, Stepper, Subject};
use crate::harvest::{self, Harvest};
use crate::reference::{Access, Regime};
use crate::session::Session;
use crate::stepwise;
use crate::vectors::{File, Party, Second};
use std::fs;

/// A walk and a session over the tables of the worked cases (RULES 12).
const GOOD: &str = "\
# Two cases.
case 3 walk
note P2, P11  and a refusal
memory 0x10000 0
bytes 0 03100040
bytes 0x1000 03200040
bytes 0x2010 03300040
bytes 0x3018 c3530080000008
regime start=0 length=0x10000 address=0x40000000 root0=0x40000000 t0=16 disabled0=0 root1=0x40000000 t1=16 disabled1=1 code=5 ha=1 hd=1 wxn=0 attributes=ffffffffffffffff
access 0x403abc 4 0 write
answer ok output=0x80005abc attribute=0xff shareability=3 ng=0 level=3 af=1 dirty=1 may=1 reads=4
visited 4 0x40000000 0x40001000 0x40002010 0x40003018
change 0x3018 4357
access 0xffff000000403abc 4 1 probe-read
answer refused 6
visited 0
access 0x402abc 4 1 read
answer fault code=7 level=3 may=0 reads=4
visited 4 0x40000000 0x40001000 0x40002010 0x40003010
end

case 0x4 session
memory 0x4000 0
bytes 0 03100040
bytes 0x1000 03200040
bytes 0x2010 03300040
bytes 0x3018 c3530080000008
access 0x403abc 4 0 read
answer refused 9
set
regime start=0 length=0x4000 address=0x40000000 root0=0x40000000 t0=16 disabled0=0 root1=0x40000000 t1=16 disabled1=1 code=5 ha=1 hd=1 wxn=0 attributes=ffffffffffffffff
answer accepted
access 0x403abc 4 0 read
answer ok output=0x80005abc attribute=0xff shareability=3 ng=0 level=3 af=1 dirty=0 may=1 reads=4
change 0x3019 57
store 0x40003018 0x122
answer accepted
change 0x3018 2201
change 0x301b 00000000
store 0x40003019 0
answer refused 8
access 0x403abc 4 0 read
answer ok output=0x80005abc attribute=0xff shareability=3 ng=0 level=3 af=0 dirty=0 may=1 reads=0
drop
answer accepted
access 0x403abc 4 0 read
answer fault code=7 level=3 may=0 reads=4
end
";

/// A walk a descriptor at a time: P1 without a memory, P2 with one, and a
/// refusal.
const STEPWISE: &str = "\
case 1 stepwise
note P1
regime start=1 length=2 address=3 root0=0x40000000 t0=16 disabled0=0 root1=0x40000000 t1=16 disabled1=1 code=5 ha=1 hd=1 wxn=0 attributes=ffffffffffffffff
access 0x403abc 4 0 read
ask 0x40000000
feed 0x40001003
ask 0x40001000
feed 0x40002003
ask 0x40002010
feed 0x40003003
ask 0x40003018
feed 0x80000800053c3
answer ok output=0x80005abc attribute=0xff shareability=3 ng=0 level=3 af=1 dirty=0 may=1 reads=4
update 0x40003018 0x80000800053c3 0x80000800057c3
late 3
late unreachable
end
case 2 stepwise
memory 0x3000 0
bytes 4 40001003
bytes 0x1004 40010003
regime start=0 length=0x3000 address=0x40000000 root0=0x40000000 t0=16 disabled0=0 root1=0x40000000 t1=16 disabled1=1 code=5 ha=1 hd=1 wxn=0 attributes=ffffffffffffffff ee=1
access 0x403abc 4 0 write
ask 0x40000000
feed 0x40001003
ask 0x40001000
feed 0x40010003
ask 0x40010010
feed unreachable
answer fault code=22 level=2 may=0 reads=3
late unreachable
end
case 3 stepwise
memory 0x1000 0
bytes 0x8 050400c0
regime start=0 length=0x1000 address=0x40000000 root0=0x40000000 t0=34 disabled0=0 root1=0x40000000 t1=16 disabled1=1 code=5 ha=1 hd=1 wxn=0 attributes=ffffffffffffffff
access 0x200000 4 1 write
ask 0x40000008
feed 0xc0000405
answer ok output=0xc0000000 attribute=0xff shareability=0 ng=0 level=2 af=0 dirty=0 may=1 reads=1
late 0
late unreachable
end
";

const NAME: &str = "made.txt";
/// What is reported where no party differs.
const SAME: &str = "made.txt: 2 cases, 11 calls, 0 differences";

fn open(text: &str) -> Result<File, String> {
    File::new(NAME, text.as_bytes())
}

/// The good text with the first place of some words changed, and the number
/// of the line where that is.
fn edited(old: &str, new: &str) -> (String, usize) {
    let at = GOOD.find(old).unwrap_or_else(|| panic!("no {old:?}"));
    let line = GOOD[..at].matches('\n').count() + 1;
    (GOOD.replacen(old, new, 1), line)
}

/// That words are an error, told at a line counted from the edited one.
fn refuses_behind(old: &str, new: &str, lines: usize, what: &str) {
    let (text, line) = edited(old, new);
    let line = line + lines;
    match open(&text) {
        Ok(_) => panic!("{new:?} can be read"),
        Err(told) => assert_eq!(told, format!("{NAME}:{line}: {what}"), "{new:?}"),
    }
}

fn refuses(old: &str, new: &str, what: &str) {
    refuses_behind(old, new, 0, what);
}

#[test]
fn good_cases_are_held() {
    let file = open(GOOD).unwrap();
    assert_eq!([file.cases[0].number, file.cases[1].number], [3, 4]);
    let notes = [file.cases[0].note.as_deref(), file.cases[1].note.as_deref()];
    assert_eq!(notes, [Some("P2, P11  and a refusal"), None]);
    assert_eq!(file.hold(&Second).to_string(), SAME);
}

/// The files of the folder `vectors` by name, and the cases that each has.
const SHIPPED: [(&str, usize); 7] = [
    ("after-q01.txt", 160),
    ("after-q02.txt", 134),
    ("after-q04.txt", 270),
    ("after-q06.txt", 143),
    ("after-q07.txt", 141),
    ("after-q09.txt", 128),
    ("after-q10.txt", 220),
];

#[test]
fn shipped_files_are_held() {
    let folder = concat!(env!("CARGO_MANIFEST_DIR"), "/vectors");
    let entries = fs::read_dir(folder).unwrap();
    let names = entries.map(|entry| entry.unwrap().file_name().into_string().unwrap());
    let mut names: Vec<_> = names.filter(|name| name.ends_with(".txt")).collect();
    names.sort();
    assert_eq!(names, SHIPPED.map(|(name, _)| name));
    for (name, cases) in SHIPPED {
        let file = File::open(&format!("{folder}/{name}")).unwrap_or_else(|told| panic!("{told}"));
        assert_eq!(file.cases.len(), cases, "{name}");
        assert_eq!(file.hold(&Second).differences, [""; 0]);
    }
}

/// Bit 61 of the root's first entry, and HPD by its setting or left out.
#[test]
fn hpd_may_be_left_out() {
    let granted = GOOD.lines().find(|line| line.starts_with("answer ok"));
    let denied = "answer fault code=15 level=3 may=0 reads=4";
    let taking = GOOD.replacen("bytes 0 03100040", "bytes 0 0310004000000020", 1);
    for (setting, counts) in [("", true), (" hpd0=0", true), (" hpd0=1", false)] {
        let mut text = taking.replacen("t0=16", &format!("t0=16{setting}"), 1);
        if counts {
            text = text.replacen(granted.unwrap(), denied, 1);
            text = text.replacen("change 0x3018 4357\n", "", 1);
        }
        let report = open(&text).unwrap().hold(&Second).to_string();
        assert_eq!(report, SAME, "{setting:?}");
    }
    let twice = "setting `hpd0` a second time";
    refuses("start=0", "hpd0=0 start=0 hpd0=0", twice);
    let odd = "setting `hpd1`: `2` is no FLAG: 0 or 1";
    refuses("start=0", "hpd1=2 start=0", odd);
}

/// The walks over tables that stand highest byte first, and EE by its setting
/// or left out.
#[test]
fn ee_may_be_left_out() {
    let report = |text: &str| open(text).unwrap().hold(&Second).to_string();
    for setting in ["wxn=0", "wxn=0 ee=0"] {
        assert_eq!(report(&GOOD.replace("wxn=0", setting)), SAME, "{setting}");
    }
    let mut text = GOOD.to_string();
    for (old, new) in [
        ("bytes 0 03100040", "bytes 4 40001003"),
        ("bytes 0x1000 03200040", "bytes 0x1004 40002003"),
        ("bytes 0x2010 03300040", "bytes 0x2014 40003003"),
        ("bytes 0x3018 c3530080000008", "bytes 0x3019 080000800053c3"),
        ("change 0x3018 4357", "change 0x301e 5743"),
    ] {
        text = text.replacen(old, new, 1);
    }
    assert_eq!(report(&text.replacen("wxn=0", "wxn=0 ee=1", 1)), SAME);
    assert_ne!(report(&text), SAME);
    let twice = "setting `ee` a second time";
    refuses("start=0", "ee=1 start=0 ee=1", twice);
    let odd = "setting `ee`: `2` is no FLAG: 0 or 1";
    refuses("start=0", "ee=2 start=0", odd);
}

/// The granule by its setting or left out; with 16 KiB the pool's length is
/// one granule, and its first table is another.
#[test]
fn the_granule_may_be_left_out() {
    let report = |text: &str| open(text).unwrap().hold(&Second).to_string();
    for setting in ["wxn=0", "wxn=0 granule=4"] {
        assert_eq!(report(&GOOD.replace("wxn=0", setting)), SAME, "{setting}");
    }
    for setting in ["wxn=0 granule=16", "wxn=0 granule=64"] {
        assert_ne!(report(&GOOD.replace("wxn=0", setting)), SAME, "{setting}");
    }
    let twice = "setting `granule` a second time";
    refuses("start=0", "granule=4 start=0 granule=4", twice);
    for word in ["0", "1", "8", "32", "65536", "4k"] {
        let odd = format!("setting `granule`: `{word}` is no granule: 4, 16 or 64");
        refuses("start=0", &format!("granule={word} start=0"), &odd);
    }
}

/// What is reported where no party differs over walks a descriptor at a time.
const SAME_STEPS: &str = "made.txt: 3 cases, 16 calls, 0 differences";

/// That an edit of a text is told in a case, by these words, for each party.
fn edit_differs(text: &str, old: &str, new: &str, case: u32, words: &str) {
    assert!(text.contains(old), "{old}");
    let file = open(&text.replacen(old, new, 1)).unwrap_or_else(|told| panic!("{told}"));
    let report = file.hold(&Second);
    assert_eq!(report.differences.len(), 2, "{new:?}: {report}");
    let told = &report.differences[0];
    assert!(told.contains(&format!(", case {case}:")), "{told}");
    assert!(told.contains(words), "{new:?}: {told}");
}

fn step_differs(old: &str, new: &str, case: u32, words: &str) {
    edit_differs(STEPWISE, old, new, case, words);
}

#[test]
fn walks_a_descriptor_at_a_time_are_held() {
    let report = open(STEPWISE).unwrap().hold(&Second).to_string();
    assert_eq!(report, SAME_STEPS);
    let asked = "expected: ask 0x40001008";
    step_differs("ask 0x40001000", "ask 0x40001008", 1, asked);
    step_differs("feed 0x40001003", "feed 0x40001002", 1, "came: None");
    let other = "expected: Some(Update";
    step_differs("57c3\nlate", "57c7\nlate", 1, other);
    step_differs(
        "update 0x40003018 0x80000800053c3 0x80000800057c3\n",
        "",
        1,
        "expected: None",
    );
    step_differs("af=1 dirty=0", "af=0 dirty=0", 1, "expected: CAnswer");
    step_differs("code=22", "code=21", 2, "the plain walk: CAnswer");
    // What the pool holds is another value, or none.
    let fed = "0x40001000 is not fed with what the pool holds";
    step_differs("bytes 0x1004 40010003", "bytes 0x1000 40010003", 2, fed);
    step_differs(
        "bytes 0x8 050400c0",
        "bytes 0x8 050400c1",
        3,
        "0x40000008 is not fed",
    );
}

/// That an edit of those walks cannot be read, in these words at the end.
fn step_refuses(old: &str, new: &str, what: &str) {
    assert!(STEPWISE.contains(old), "{old}");
    let told = open(&STEPWISE.replacen(old, new, 1)).err();
    let told = told.unwrap_or_else(|| panic!("{new:?} can be read"));
    assert!(told.ends_with(what), "{new:?}: {told}");
}

#[test]
fn lines_of_a_walk_a_descriptor_at_a_time_are_checked() {
    step_refuses(
        "feed 0x40001003",
        "feed none",
        "`none` is no NUMBER below 2^64",
    );
    step_refuses("feed 0x40001003\n", "", "due is `feed`");
    step_refuses("ask 0x40000000\n", "", "due is `answer`");
    step_refuses("answer ok", "answer accepted", "no answer to this call");
    step_refuses(
        "update 0x40003018",
        "update",
        "2 words after `update`, not 3",
    );
    step_refuses("late 3\nlate unreachable\n", "", "due is `late`");
    step_refuses("late 3", "late", "0 words after `late`, not 1");
    step_refuses("late 3\n", "late 3\nupdate 1 2 3\n", "due is `end`");
}

/// Whatever is cut off, the rest is no file, unless whole cases are left.
#[test]
fn a_walk_a_descriptor_at_a_time_cut_short_is_an_error() {
    let ends: Vec<usize> = STEPWISE
        .match_indices("end\n")
        .map(|end| end.0 + 4)
        .collect();
    for length in 1..STEPWISE.len() {
        let whole = ends.contains(&length);
        assert_eq!(open(&STEPWISE[..length]).is_ok(), whole, "{length} bytes");
    }
}

/// A plain harvest of 9 pages with room for more, one that is refused, and one
/// in a session.
const HARVESTS: &str = "\
case 1 harvest
memory 0x2000 0
bytes 0x1000 430400c0000008
bytes 0x1040 430400c1000008
regime start=0x1000 length=0x1000 address=0x40000000 root0=0x40000000 t0=36 disabled0=0 root1=0x40000000 t1=36 disabled1=1 code=5 ha=1 hd=1 wxn=0 attributes=ffffffffffffffff
harvest 0 9 4 0xa5
answer accepted
map 0 0000
end
case 2 harvest
memory 0x1000 0
regime start=0 length=0x1000 address=0x40000000 root0=0x40000000 t0=36 disabled0=0 root1=0x40000000 t1=36 disabled1=1 code=5 ha=1 hd=1 wxn=0 attributes=ffffffffffffffff
harvest 0x10000 1 0 0
answer refused 10
end
case 3 session
memory 0x4000 0
bytes 0 03100040
bytes 0x1000 03200040
bytes 0x2010 03300040
bytes 0x3018 4357008000000800
harvest 0x400 9 2 0xff
answer refused 9
set
regime start=0 length=0x4000 address=0x40000000 root0=0x40000000 t0=16 disabled0=0 root1=0x40000000 t1=16 disabled1=1 code=5 ha=1 hd=1 wxn=0 attributes=ffffffffffffffff
answer accepted
harvest 0x400 9 3 0xff
answer accepted
map 0 0800
change 0x3018 c3
end
";

/// What is reported where no party differs over harvests.
const SAME_HARVESTS: &str = "made.txt: 3 cases, 5 calls, 0 differences";

fn harvest_differs(old: &str, new: &str, case: u32, words: &str) {
    edit_differs(HARVESTS, old, new, case, words);
}

#[test]
fn harvests_are_held() {
    let report = open(HARVESTS).unwrap().hold(&Second).to_string();
    assert_eq!(report, SAME_HARVESTS);
    let map = "bytes of the map differ: 1, the first at offset";
    harvest_differs("map 0 0000\n", "map 0 00\n", 1, map);
    harvest_differs("map 0 0000\n", "map 0 000000\n", 1, map);
    harvest_differs("map 0 0800\n", "map 0 0900\n", 3, map);
    harvest_differs("map 0 0000\n", "", 1, "of the map differ: 2,");
    harvest_differs("length=0x1000", "length=0", 1, "came: refused 1");
    harvest_differs("refused 10", "refused 11", 2, "came: refused 10");
    harvest_differs("refused 9", "accepted", 3, "came: refused 9");
    harvest_differs("change 0x3018 c3\n", "", 3, "of the memory differ: 1,");
    harvest_differs(
        "change 0x3018 c3\n",
        "change 0x3018 c3\nchange 0 00\n",
        3,
        "offset 0x0",
    );
}

/// That an edit of the harvests cannot be read, in these words at the end.
fn harvest_refuses(old: &str, new: &str, what: &str) {
    assert!(HARVESTS.contains(old), "{old}");
    let told = open(&HARVESTS.replacen(old, new, 1)).err();
    let told = told.unwrap_or_else(|| panic!("{new:?} can be read"));
    assert!(told.ends_with(what), "{new:?}: {told}");
}

#[test]
fn lines_of_a_harvest_are_checked() {
    harvest_refuses("0 9 4 0xa5", "0 9 4", "3 words after `harvest`, not 4");
    harvest_refuses("9 4 0xa5", "9 4 0x1a5", "too large for its field");
    harvest_refuses(
        "9 4 0xa5",
        "9 0x4000001 0",
        "a map of more than 67108864 bytes",
    );
    harvest_refuses("map 0 0000", "map 3 0000", "bytes outside the map");
    harvest_refuses("map 0 0000", "map 5 00", "bytes outside the map");
    harvest_refuses(
        "map 0 0000",
        "map 0 0000\nmap 1 00",
        "a byte of another map of this call",
    );
    harvest_refuses(
        "map 0 0800\nchange 0x3018 c3",
        "change 0x3018 c3\nmap 0 0800",
        "due is `set`, `access`, `store`, `drop`, `harvest`, `end`",
    );
    harvest_refuses("answer refused 10\n", "", "due is `answer`");
    harvest_refuses("answer refused 10", "answer ok", "no answer to this call");
    harvest_refuses("harvest 0 9", "access 0 9", "due is `harvest`");
    harvest_refuses(
        "refused 10\n",
        "refused 10\nharvest 0 1 1 0\n",
        "due is `end`",
    );
    let after_a_set = "answer accepted\nmap 0 00\nharvest 0x400 9 3";
    harvest_refuses(
        "answer accepted\nharvest 0x400 9 3",
        after_a_set,
        "`harvest`, `end`",
    );
}

/// Whatever is cut off, the rest is no file, unless whole cases are left.
#[test]
fn a_harvest_cut_short_is_an_error() {
    let ends = HARVESTS.match_indices("end\n");
    let ends: Vec<usize> = ends.map(|end| end.0 + 4).collect();
    for length in 1..HARVESTS.len() {
        let whole = ends.contains(&length);
        assert_eq!(open(&HARVESTS[..length]).is_ok(), whole, "{length} bytes");
    }
}

// ------------------------------------------------------------------- errors

#[test]
fn files_that_cannot_be_read_are_errors() {
    let missing = concat!(env!("CARGO_MANIFEST_DIR"), "/vectors/none.txt");
    let told = File::open(missing).err().unwrap();
    assert!(told.starts_with(&format!("{missing}: ")), "{told}");

    let of = |bytes: &[u8]| File::new(NAME, bytes).err();
    let none = |line| format!("{NAME}:{line}: the file ends: there is no case");
    assert_eq!(of(b""), Some(none(1)));
    assert_eq!(of(b"# Nothing.\n\n"), Some(none(3)));
    let strange = format!("{NAME}:2: a byte that is not ASCII");
    assert_eq!(of(b"# Odd\nnote \xC3\xA4\n"), Some(strange));
    let cut = format!("{NAME}:2: the last line does not end with a newline");
    assert_eq!(of(b"\ncase 1 walk"), Some(cut));
}

/// Whatever is cut off, the rest is no file, unless whole cases are left.
#[test]
fn a_file_cut_short_is_an_error() {
    let first_case = GOOD.find("\ncase 0x4").unwrap();
    for length in 0..GOOD.len() {
        let whole = length == first_case || length == first_case + 1;
        assert_eq!(open(&GOOD[..length]).is_ok(), whole, "{length} bytes");
    }
}

#[test]
fn blanks_that_separate_nothing_are_errors() {
    let what = "a blank that stands between no two words";
    refuses("memory 0x10000 0\n", "memory 0x10000  0\n", what);
    refuses("memory 0x10000 0\n", "memory 0x10000 0 \n", what);
    refuses("memory 0x10000 0\n", " memory 0x10000 0\n", what);
    refuses("end\n", "end \n", what);
    refuses("end\n", " \nend\n", what);
    refuses("note P2, P11  and a refusal", "note ", what);
}

#[test]
fn lines_out_of_place_are_errors() {
    let odd = |word, due: &str| format!("`{word}` is unknown or out of its place: due is {due}");
    refuses("case 3", "cases 3", &odd("cases", "`case`"));
    refuses("case 3", "end\ncase 3", &odd("end", "`case`"));
    refuses("memory", "note\nmemory", &odd("note", "`memory`"));
    refuses("memory 0x10000 0\n", "", &odd("bytes", "`memory`"));
    refuses("regime", "harvest", &odd("harvest", "`regime`"));
    refuses("answer ok", "visited ok", &odd("visited", "`answer`"));
    refuses("visited 0\n", "", &odd("access", "`visited`"));
    refuses("end\n\n", "", &odd("case", "`access`, `end`"));
    refuses("end\n", "end\r\n", &odd("end\\r", "`access`, `end`"));
    let calls = "`set`, `access`, `store`, `drop`, `harvest`, `end`";
    refuses("set\n", "", &odd("regime", calls));
    refuses("drop\n", "switch 1 0 0\n", &odd("switch", calls));
    refuses("drop\n", "visited 0\ndrop\n", &odd("visited", calls));
    refuses_behind("set\n", "set\nset\n", 1, &odd("set", "`regime`"));
}

#[test]
fn unknown_words_are_errors() {
    let kind = "unknown kind of case `two-stage`";
    refuses("case 3 walk", "case 3 two-stage", kind);
    let what = "unknown kind of access `load`";
    refuses("4 0 write", "4 0 load", what);
    let what = |sort| format!("`{sort}` is no answer to this call");
    refuses("answer ok", "answer yes", &what("yes"));
    refuses("answer refused 6", "answer accepted", &what("accepted"));
    refuses("answer accepted", "answer ok", &what("ok"));
    refuses_behind(
        "drop\nanswer accepted",
        "drop\nanswer refused 9",
        1,
        &what("refused"),
    );
}

#[test]
fn settings_are_checked() {
    refuses("start=0", "start=0 asid=0", "unknown setting `asid`");
    refuses(
        "start=0",
        "start=0 start=0",
        "setting `start` a second time",
    );
    refuses("start=0 ", "", "setting `start` is missing");
    refuses("start=0", "start", "`start` is no SETTING");
    refuses(
        "start=0",
        "start=",
        "setting `start`: `` is no NUMBER below 2^64",
    );
    refuses(" reads=4", "", "setting `reads` is missing");
    refuses("fault code", "fault af", "unknown setting `af`");
    refuses(
        "code=7",
        "code=65536",
        "setting `code`: `65536` is too large for its field",
    );
    refuses(
        "t0=16",
        "t0=256",
        "setting `t0`: `256` is too large for its field",
    );
    refuses("ha=1", "ha=2", "setting `ha`: `2` is no FLAG: 0 or 1");
    refuses(
        "may=1",
        "may=yes",
        "setting `may`: `yes` is no FLAG: 0 or 1",
    );
    let seven = "setting `attributes`: `ffffffffffffff` has 7 bytes, not 8";
    refuses("attributes=ff", "attributes=", seven);
}

#[test]
fn forms_are_checked() {
    let what = |word| format!("`{word}` is no NUMBER below 2^64");
    let beyond = "18446744073709551616";
    for word in ["0X3", "0x", "0xA", "+3", "-3", "3h", "a", beyond] {
        refuses("case 3", &format!("case {word}"), &what(word));
    }
    for word in ["0", "031", "0G", "AB", "0x03"] {
        refuses(
            "bytes 0 03100040",
            &format!("bytes 0 {word}"),
            &format!("`{word}` is no HEX"),
        );
    }
    refuses("4 0 write", "4 2 write", "`2` is no FLAG: 0 or 1");
    refuses(
        "0x10000 0\n",
        "0x10000 256\n",
        "`256` is too large for its field",
    );
    refuses(
        "refused 6",
        "refused 256",
        "`256` is too large for its field",
    );
    refuses("refused 6", "refused 0", "no refusal has the number 0");
    refuses(
        "0x10000 0\n",
        "0x4000001 0\n",
        "a memory of more than 67108864 bytes",
    );
}

#[test]
fn words_are_counted() {
    let what =
        |count, first: &str, wanted: &str| format!("{count} words after `{first}`, not {wanted}");
    refuses("case 3 walk", "case 3", &what(1, "case", "2"));
    refuses("note P2, P11  and a refusal", "note", &what(0, "note", "1"));
    refuses(
        "memory 0x10000 0",
        "memory 0x10000",
        &what(1, "memory", "2"),
    );
    refuses(
        "bytes 0 03100040",
        "bytes 0 03100040 00",
        &what(3, "bytes", "2"),
    );
    refuses("4 0 write", "4 0 write 1", &what(5, "access", "4"));
    refuses(
        "answer refused 6",
        "answer refused",
        &what(1, "answer", "2"),
    );
    refuses(
        "answer refused 6",
        "answer",
        &what(0, "answer", "one or more"),
    );
    refuses(
        "answer accepted",
        "answer accepted 1",
        &what(2, "answer", "1"),
    );
    refuses("visited 0", "visited", &what(0, "visited", "one or more"));
    refuses("visited 0", "visited 1", "0 addresses, not 1");
    refuses("set\n", "set 1\n", &what(1, "set", "0"));
    refuses("0x40003018 0x122", "0x40003018", &what(1, "store", "2"));
    refuses("drop\n", "drop all\n", &what(1, "drop", "0"));
    refuses("end\n", "end 3\n", &what(1, "end", "0"));
}

#[test]
fn bytes_and_changes_are_checked() {
    let outside = "bytes outside the memory";
    refuses("bytes 0 03100040", "bytes 0xfffd 03100040", outside);
    refuses("bytes 0 03100040", "bytes 0x10001 03", outside);
    refuses("bytes 0 03100040", "bytes 0xffffffffffffffff 03", outside);
    refuses("change 0x3018 4357", "change 0xffff 4357", outside);
    let twice = "a byte of another change of this call";
    refuses_behind(
        "change 0x3018 4357",
        "change 0x3018 4357\nchange 0x3019 57",
        1,
        twice,
    );
    refuses_behind(
        "change 0x3018 4357",
        "change 0x3019 57\nchange 0x3018 4357",
        1,
        twice,
    );
}

#[test]
fn a_case_has_a_call() {
    let text = "case 1 session\nmemory 0 0\nend\n";
    let told = open(text).err();
    assert_eq!(told, Some(format!("{NAME}:3: a case without a call")));
}

// -------------------------------------------------------------- differences

/// That an edit makes the second program differ at a line counted from the
/// edited one, with these words; and so once for each party.
fn differs(old: &str, new: &str, back: usize, words: &[&str]) {
    let (text, line) = edited(old, new);
    let file = open(&text).unwrap_or_else(|told| panic!("{told}"));
    let report = file.hold(&Second);
    assert_eq!(report.differences.len(), 2, "{new:?}: {report}");
    let told = &report.differences[0];
    let place = format!("DIFFERENCE at {NAME}:{}, case ", line - back);
    assert!(told.starts_with(&place), "{new:?}: {told}");
    for words in words {
        assert!(told.contains(words), "{new:?}: {told}");
    }
    let tail = ": 2 cases, 11 calls, 2 differences";
    assert!(report.to_string().ends_with(tail), "{report}");
}

/// What is told of a wrong answer in the walks.
const TOLD: &[&str] = &[
    "case 3: second program\n",
    "\n  note: P2",
    "\n  call: Access",
    "\n  expected: CAnswer",
    "\n  came: CAnswer",
];

#[test]
fn each_field_of_a_success_counts() {
    for (old, new) in [
        ("output=0x80005abc", "output=0x80005abd"),
        ("attribute=0xff", "attribute=0xfe"),
        ("shareability=3", "shareability=2"),
        ("ng=0", "ng=1"),
        ("level=3", "level=2"),
        ("af=1", "af=0"),
        ("dirty=1", "dirty=0"),
        ("may=1", "may=0"),
        ("reads=4", "reads=3"),
    ] {
        differs(old, new, 1, TOLD);
    }
}

#[test]
fn each_field_of_a_fault_counts() {
    let old = "code=7 level=3 may=0 reads=4";
    for (field, wrong) in [
        ("code=7", "code=6"),
        ("level=3", "level=2"),
        ("may=0", "may=1"),
        ("reads=4", "reads=0"),
    ] {
        differs(old, &old.replace(field, wrong), 1, TOLD);
    }
}

#[test]
fn refusals_count() {
    let told = ["expected: refused 7", "came: refused 6"];
    differs("refused 6", "refused 7", 1, &told);
    differs("refused 9", "refused 1", 1, &["case 4", "came: refused 9"]);
    let told = ["expected: refused 13", "came: accepted"];
    differs("answer accepted", "answer refused 13", 2, &told);
    let told = ["expected: accepted", "came: refused 8"];
    differs("answer refused 8", "answer accepted", 1, &told);
}

#[test]
fn each_byte_counts() {
    let first = |offset, wanted, came| {
        format!("at offset {offset:#x}: expected {wanted:#04x}, came {came:#04x}")
    };
    differs(
        "change 0x3018 4357\n",
        "",
        3,
        &["differ: 2,", &first(0x3018, 0xC3, 0x43)],
    );
    differs(
        "change 0x3018 4357",
        "change 0x3018 4356",
        3,
        &[&first(0x3019, 0x56, 0x57)],
    );
    let more = "change 0x3018 4357\nchange 0xffff 01";
    differs(
        "change 0x3018 4357",
        more,
        3,
        &["differ: 1,", &first(0xFFFF, 1, 0)],
    );
    differs(
        "change 0x301b 00000000\n",
        "",
        3,
        &[&first(0x301B, 0x80, 0)],
    );
    let after_a_drop = "drop\nanswer accepted\nchange 0 00";
    differs("drop\nanswer accepted", after_a_drop, 0, &[&first(0, 0, 3)]);
}

#[test]
fn the_visited_list_counts() {
    let told = ["expected: visited 4 0x40000000 0x40001000 0x40002010 0x40003010"];
    differs(
        "0x40002010 0x40003018\nchange",
        "0x40002010 0x40003010\nchange",
        2,
        &told,
    );
    let told = [
        "came: visited 4 0x40000000",
        "expected: 3 visited; came: 4 reads",
    ];
    differs("visited 4 0x40000000 ", "visited 3 ", 2, &told);
    let told = ["came: visited 0\n", "expected: 1 visited; came: 0 reads"];
    differs("visited 0", "visited 1 0x40000000", 2, &told);
}

// ------------------------------------------------------------- other parties

/// The second program without its list of addresses, and with a slip.
#[derive(Clone)]
struct Slips<S> {
    session: Session,
    slip: S,
}

/// What a slip makes of an answer and of the memory.
trait Slip: Fn(&mut CAnswer, &mut [u8]) + Copy {}
impl<S: Fn(&mut CAnswer, &mut [u8]) + Copy> Slip for S {}

impl<S: Slip> Party for Slips<S> {
    const NAME: &'static str = "library";
    type Session = Slips<S>;

    fn walk(
        &self,
        memory: &mut [u8],
        regime: &Regime,
        access: &Access,
        spelling: Spelling,
    ) -> (CAnswer, Option<Vec<u64>>) {
        let (mut answer, _) = Second.walk(memory, regime, access, spelling);
        (self.slip)(&mut answer, memory);
        (answer, None)
    }

    fn fresh(&self, _: u64) -> Result<Self, String> {
        Ok(self.clone())
    }

    fn stepper(&self) -> impl Stepper {
        stepwise::Second
    }

    fn harvester(&self) -> impl Harvester {
        harvest::Second
    }
}

impl<S: Slip> Subject for Slips<S> {
    fn set_regime(&mut self, memory: &mut [u8], regime: &Regime, spelling: Spelling) -> u8 {
        Subject::set_regime(&mut self.session, memory, regime, spelling)
    }

    fn access(&mut self, memory: &mut [u8], access: &Access, spelling: Spelling) -> CAnswer {
        let mut answer = Subject::access(&mut self.session, memory, access, spelling);
        (self.slip)(&mut answer, memory);
        answer
    }

    fn store(&mut self, memory: &mut [u8], address: u64, value: u64) -> u8 {
        self.session.store(memory, address, value).unwrap_or(0)
    }

    fn invalidate_all(&mut self) {
        self.session.drop_all();
    }

    fn harvest(&mut self, memory: &mut [u8], asked: &Harvest, map: &mut [u8]) -> u8 {
        self.session.harvest(memory, asked, map).unwrap_or(0)
    }

    fn put(&mut self, bytes: &CSession) {
        self.session = bytes.read();
    }
}

/// The lines of the good text in which a slip of the library is told.
fn lines_told(slip: impl Slip) -> Vec<usize> {
    let file = open(GOOD).unwrap();
    let session = Session::FRESH;
    let report = file.hold(&Slips { session, slip });
    let line = |told: &String| {
        assert!(told.contains(": library\n"), "{told}");
        let place = told.strip_prefix(&format!("DIFFERENCE at {NAME}:"));
        let number = place.unwrap().split(',').next().unwrap();
        number.parse().unwrap()
    };
    report.differences.iter().map(line).collect()
}

#[test]
fn slips_of_the_library_are_told() {
    assert_eq!(lines_told(|_, _| {}), []);
    // Each walk by itself; of a session the first call.
    assert_eq!(
        lines_told(|answer, _| answer.spare[3] = 1),
        [10, 14, 17, 28]
    );
    assert_eq!(lines_told(|_, memory| memory[0x3FFF] = 1), [10, 14, 17, 28]);
    let uncounted = |answer: &mut CAnswer, _: &mut [u8]| answer.reads = 0;
    assert_eq!(lines_told(uncounted), [10, 17, 33]);
}

#[test]
fn a_wrong_fresh_session_is_told() {
    struct Unfit;

    impl Party for Unfit {
        const NAME: &'static str = "library";
        type Session = Session;

        fn walk(
            &self,
            memory: &mut [u8],
            regime: &Regime,
            access: &Access,
            spelling: Spelling,
        ) -> (CAnswer, Option<Vec<u64>>) {
            Second.walk(memory, regime, access, spelling)
        }

        fn fresh(&self, _: u64) -> Result<Session, String> {
            Err("byte 7 of the session".to_string())
        }

        fn stepper(&self) -> impl Stepper {
            stepwise::Second
        }

        fn harvester(&self) -> impl Harvester {
            harvest::Second
        }
    }

    let file = open(GOOD).unwrap();
    let report = file.hold(&Unfit);
    assert_eq!(report.differences.len(), 1);
    assert!(report.differences[0].ends_with("\n  byte 7 of the session"));
}
