//! The jobs that crates/merge_jobs plays and what it must print, and crates/merge's one job. Each
//! job stands beside the answer that it is for; a job that comes to another stops the making.

use crate::images::{self, bad, good};
use crate::program::{Disk, NAMES, Outcome, PLACED, run};
use std::collections::BTreeMap;
use std::fs;
use std::io;
use std::path::Path;

/// A job's text, in which `N.out` is its own output and each char one byte; its answer, with the
/// position of the file and the place, if there is one; what N.out holds before it.
struct Case {
    text: String,
    answer: String,
    before: Option<Vec<u8>>,
}

struct Cases(Vec<Case>);

impl Cases {
    /// The number that the next case will have.
    fn next(&self) -> usize {
        self.0.len()
    }

    /// A refusal of an image or of the job leaves what is there, so there has to be something. A
    /// merge finds no file, and neither does a job whose output is elsewhere and fails.
    fn add(&mut self, answer: &str, text: String) {
        let n = self.next();
        let stays = !answer.starts_with("OK") && answer != "IO 0";
        let before = stays.then(|| format!("what stood here before job {n}\n").into_bytes());
        let text = text.replace("N.out", &format!("{n}.out"));
        self.0.push(Case { text, answer: answer.into(), before });
    }

    /// The same with a file at N.out before it.
    fn over(&mut self, before: &[u8], answer: &str, text: String) {
        self.add(answer, text);
        self.0.last_mut().unwrap().before = Some(before.to_vec());
    }

    /// A refused file at a position, with good files before it.
    fn refused(&mut self, name: &str, position: usize, file: &str) {
        self.add(&format!("{name} {position}"), behind(position, file));
    }

    /// The same, where a place is told.
    fn placed(&mut self, name: &str, position: usize, place: u32, file: &str) {
        self.add(&format!("{name} {position} at {place}"), behind(position, file));
    }

    fn no_job(&mut self, text: &str) {
        self.add("JOB 0", text.into());
    }
}

/// The text of a good job; the inputs are parted by spaces.
fn job(lg_k: u8, ins: &str) -> String {
    let ins: String = ins.split(' ').map(|path| format!("in={path}\n")).collect();
    format!("lgk={lg_k}\n{ins}out=N.out\n")
}

/// A good job but for the file at this position.
fn behind(position: usize, file: &str) -> String {
    let before = &["three", "risen", "six"][..position - 1];
    job(4, &[before, &[file]].concat().join(" "))
}

/// The same file by a path of so many bytes.
fn longer(path: &str, len: usize) -> String {
    let more = len - path.len();
    format!("{}{}{path}", "./".repeat(more / 2), "/".repeat(more % 2))
}

/// A job of so many bytes in which nothing but that could be wrong.
fn of_length(len: usize, n: usize) -> String {
    let (head, tail) = ("lgk=4\n", format!("out={n}.out\n"));
    let mut room = len - head.len() - tail.len();
    let mut ins = String::new();
    while room > 0 {
        let line = room.min(204);
        ins += &format!("in={}\n", longer("three", line - 4));
        room -= line;
    }
    format!("{head}{ins}{tail}")
}

fn merges(cases: &mut Cases, images: &Disk) {
    // Document 01's example.
    cases.add("OK", job(4, EXAMPLE_INS));
    // One image; 64, of which the last one alone has its register; one twice, which changes nothing.
    cases.add("OK", job(4, "six"));
    let many = ["three", "four", "six", "aux", "finer-5", "empty", "empty-6"];
    let many: Vec<&str> = many.into_iter().cycle().take(63).chain(["last"]).collect();
    cases.add("OK", job(4, &many.join(" ")));
    cases.add("OK", job(4, "edges-8 edges-8"));
    // Nothing seen. Values on all edges, in the other kinds too: the same answer.
    cases.add("OK", job(4, "empty-4 empty-6 empty"));
    cases.add("OK", job(4, "edges-4"));
    cases.add("OK", job(4, "edges-6"));
    // All kinds, in two orders.
    cases.add("OK", job(4, "aux six risen three last"));
    cases.add("OK", job(4, "last three risen six aux"));
    // Kind 4: exceptions, told in three ways, and beside them words with a slot and no value, which are wrong; cur_min 2 and 63.
    cases.add("OK", job(4, "aux"));
    cases.add("OK", job(4, "aux-second"));
    cases.add("OK", job(4, "aux-modulo"));
    cases.placed("AUX_LOW", 1, 0, "aux-valueless");
    cases.add("OK", job(4, "risen"));
    cases.add("OK", job(4, "top"));
    // Bytes that are not read: of the header, and behind the image up to the 40,000th. A shorter file
    // behind a longer one does not see its bytes.
    cases.add("OK", job(4, "not-read second-none"));
    cases.add("OK", job(4, "tail-4 tail-6 tail-8"));
    cases.add("OK", job(4, "exact six"));
    // Finer sources: several slots meet in one; an exception is looked up by its own slot.
    cases.add("OK", job(4, "finer-5"));
    cases.add("OK", job(4, "finer-5-aux three"));
    cases.add("OK", job(5, "finer-5 finer-5-aux"));
    cases.add("OK", job(4, "wide-4 wide-6 wide-8 edges-6"));
    cases.add("OK", job(10, "wide-6 wide-11 wide-8"));
    // The largest target and the largest table, in both forms.
    cases.add("OK", job(12, "wide-4 wide-6 wide-8"));
    cases.add("OK", job(12, "most"));
    cases.add("OK", job(12, "wide-4 most-second"));
    // Paths: the first and the last byte that may be; 200 bytes; in a folder and with `=`, by which
    // the next job finds what this one has written.
    cases.add("OK", job(4, "!~"));
    let out = longer(&format!("{}.out", cases.next()), 200);
    cases.add("OK", format!("lgk=4\nin={}\nout={out}\n", longer("six", 200)));
    cases.add("OK", "lgk=4\nin=folder/three\nin=last\nout=folder/a=b=\n".into());
    cases.add("OK", job(4, "folder/a=b= aux"));
    // The output is an input; it replaces a longer file whole.
    cases.over(images.read("aux").unwrap(), "OK", job(4, "three N.out last"));
    cases.over(&[b'x'; 300], "OK", job(4, "three"));
}

fn refusals(cases: &mut Cases, images: &Disk) {
    for (name, position, file) in [
        ("IO", 1, "missing"),
        ("IO", 3, "missing"),
        ("IO", 1, "folder"),
        ("IO", 2, "folder"),
        ("LONG", 1, "long"),
        ("LONG", 2, "long"),
        ("SHORT", 1, "bytes-39"),
        ("SHORT", 2, "nothing"),
        ("SHORT", 1, "bytes-40"),
        // Behind the same image uncut, so that the missing byte is not taken from there.
        ("SHORT", 2, "cut-8"),
        ("SHORT", 1, "cut-6"),
        ("SHORT", 3, "cut-4"),
        ("SHORT", 1, "cut-second"),
        ("HEADER", 1, "header-0"),
        ("HEADER", 2, "header-1"),
        ("HEADER", 1, "header-2"),
        ("MODE", 1, "mode-list"),
        ("MODE", 2, "mode-18"),
        ("LGK", 1, "lgk-3"),
        ("LGK", 2, "lgk-22"),
        ("LARGE", 1, "large-13"),
        ("LARGE", 2, "large-21"),
        ("COUNTS", 1, "counts-num"),
        ("COUNTS", 2, "counts-aux"),
        ("COUNTS", 3, "counts-min"),
        ("COUNTS", 1, "counts-min-8"),
        ("COUNTS", 2, "counts-aux-6"),
        ("LGARR", 1, "lgarr-23"),
        ("LGARR", 2, "lgarr-255"),
        ("VALUE", 1, "value-64"),
        ("VALUE", 2, "value-nibble"),
    ] {
        cases.refused(name, position, file);
    }
    for (name, position, place, file) in [
        // No word; no nibble.
        ("AUX_MATCH", 1, 0, "aux-none"),
        ("AUX_MATCH", 2, 0, "aux-more"),
        ("AUX_TWICE", 3, 1, "aux-twice"),
        ("AUX_LOW", 1, 0, "aux-low"),
        ("AUX_EMPTY", 2, 0, "aux-empty"),
        ("AUX_COUNT", 4, 0, "aux-count"),
    ] {
        cases.placed(name, position, place, file);
    }
    for (name, position, file) in [
        ("SPARE", 1, "spare-1"),
        ("SPARE", 2, "spare-128"),
        ("TALLY", 1, "tally-8"),
        ("TALLY", 2, "tally-none"),
        ("TALLY", 3, "tally-full"),
        // Two things wrong in one file: the earlier check answers.
        ("LONG", 1, "long-header"),
        ("HEADER", 1, "header-large"),
        ("LARGE", 1, "large-counts"),
        ("COUNTS", 1, "counts-short"),
    ] {
        cases.refused(name, position, file);
    }
    cases.placed("AUX_MATCH", 1, 0, "aux-tally");
    // The target is finer than a source, which comes after all of opening.
    cases.add("FINER 1", job(5, "three"));
    cases.add("FINER 2", job(12, "most wide-11"));
    cases.add("TALLY 1", job(5, "tally-8"));
    // The first of two bad files answers, though IO comes before TALLY in one. Refused behind 63 others.
    cases.add("TALLY 1", job(4, "tally-8 missing"));
    cases.add("MODE 64", job(4, &format!("{}mode-list", "six ".repeat(63))));
    // The output is an input, and a later input is refused: it stays as it is.
    cases.over(images.read("aux").unwrap(), "AUX_MATCH 2 at 0", job(4, "N.out aux-none"));
}

/// What is wrong with exception words, and where: each answer beside one that is a byte away, which
/// may be OK.
fn exceptions(cases: &mut Cases) {
    for good in ["aux-16", "list", "list-value-15", "list-slot-27"] {
        cases.add("OK", job(4, good));
    }
    for (name, position, place, file) in [
        // Its last word has a slot and no value.
        ("AUX_LOW", 1, 7, "spread"),
        // The compact form: a word's value, its slot; a nibble.
        ("AUX_LOW", 1, 2, "list-value-0"),
        ("AUX_LOW", 2, 2, "list-value-1"),
        ("AUX_LOW", 3, 2, "list-value-14"),
        ("AUX_TWICE", 2, 3, "list-slot-16"),
        ("AUX_MATCH", 1, 10, "list-slot-10"),
        ("AUX_MATCH", 3, 11, "list-slot-12"),
        ("AUX_MATCH", 2, 5, "list-nibble-5"),
        ("AUX_MATCH", 1, 3, "list-no-nibble-3"),
        // One word with two things wrong; two words, of which the earlier answers.
        ("AUX_TWICE", 1, 3, "list-twice-and-low"),
        ("AUX_LOW", 2, 1, "list-low-then-twice"),
        ("AUX_TWICE", 3, 1, "list-twice-then-empty"),
        ("AUX_EMPTY", 4, 1, "list-empty-then-twice"),
        // The second form, whose empty words are counted in the place; the last word has a slot and no value unless an earlier
        // one answers: the count; a word of no value, and an entry more; a word's value, its slot; no words.
        ("AUX_LOW", 1, 7, "spread-count-3"),
        ("AUX_LOW", 2, 7, "spread-count-5"),
        ("AUX_LOW", 3, 6, "spread-fewer"),
        ("AUX_COUNT", 1, 0, "spread-more"),
        ("AUX_LOW", 3, 6, "spread-value-14"),
        ("AUX_TWICE", 2, 6, "spread-slot-11"),
        ("AUX_LOW", 1, 7, "spread-slot-2"),
        ("AUX_MATCH", 2, 0, "spread-none"),
        // An entry more than the count asks for: judged before it is counted.
        ("AUX_COUNT", 3, 0, "over"),
        ("AUX_TWICE", 1, 6, "over-slot-16"),
        ("AUX_LOW", 2, 6, "over-value-14"),
        // The last of 8,192 words, the last of 4,096 slots.
        ("AUX_TWICE", 1, 8191, "most-twice"),
        ("AUX_MATCH", 2, 4095, "most-nibble"),
    ] {
        cases.placed(name, position, place, file);
    }
}

/// Lists and sets of coupons are no images of registers: the program does not read them.
fn coupons(cases: &mut Cases) {
    cases.refused("SHORT", 1, "coupon-list");
    cases.refused("HEADER", 2, "coupon-list-40");
    cases.refused("HEADER", 3, "coupon-set");
}

/// Words with a slot and no value are entries, twice or too low; the zero word beside each is none.
fn valueless(cases: &mut Cases) {
    cases.add("OK", job(4, "zero"));
    cases.add("OK", job(4, "beside-zero"));
    for (name, position, place, file) in [
        // The second form with zero words between, and an entry fewer by one more of them.
        ("AUX_COUNT", 1, 0, "zero-count-3"),
        ("AUX_COUNT", 2, 0, "zero-count-5"),
        ("AUX_COUNT", 3, 0, "zero-fewer"),
        ("AUX_MATCH", 1, 2, "zero-slot-2"),
        // Its last word, whatever the count: of a slot that is there, of one that is not.
        ("AUX_TWICE", 1, 7, "last-slot-16"),
        ("AUX_TWICE", 2, 7, "last-slot-27"),
        ("AUX_LOW", 3, 7, "last-slot-12"),
        ("AUX_LOW", 1, 7, "last-slot-15"),
        // The compact form.
        ("AUX_EMPTY", 1, 3, "list-zero"),
        ("AUX_TWICE", 2, 3, "list-0-slot-16"),
        ("AUX_LOW", 3, 3, "list-0-slot-11"),
        // Two words wrong, of which the earlier answers.
        ("AUX_LOW", 1, 0, "list-0-then-twice"),
        ("AUX_TWICE", 2, 1, "list-twice-then-0"),
        ("AUX_EMPTY", 3, 1, "list-zero-then-0"),
        ("AUX_TWICE", 4, 1, "list-0-then-zero"),
        // Where the Rust answers otherwise.
        ("AUX_LOW", 1, 1, "beside-1"),
        ("AUX_LOW", 2, 1, "beside-1-count-2"),
        ("AUX_TWICE", 3, 1, "beside-16"),
        ("AUX_LOW", 1, 0, "alone-1"),
        ("AUX_LOW", 2, 0, "alone-16"),
        // The last of 8,192 words; zero there is most-second, above.
        ("AUX_LOW", 1, 8191, "most-last"),
        ("AUX_TWICE", 2, 8191, "most-4096"),
    ] {
        cases.placed(name, position, place, file);
    }
}

/// The output can't be written: its folder is missing; it is a folder; it is a device, which takes
/// no byte and is not to be replaced by a file, as a second run shows.
fn outputs(cases: &mut Cases) {
    for out in ["missing/all", "folder", "/dev/full", "/dev/full"] {
        cases.add("IO 0", format!("lgk=4\nin=three\nout={out}\n"));
    }
    // The folder is still there. A refused input comes before the output.
    cases.add("OK", job(4, "folder/three"));
    cases.add("SPARE 1", "lgk=4\nin=spare-1\nout=missing/all\n".into());
}

fn texts(cases: &mut Cases) {
    for text in [
        "",
        // The end of a line: none at last; one too many; text behind; CR LF.
        "lgk=4\nin=three\nout=N.out",
        "lgk=4\nin=three\nout=N.out\n\n",
        "lgk=4\nin=three\nout=N.out\nx",
        "lgk=4\r\nin=three\r\nout=N.out\r\n",
        // lgk; 260 is 4 modulo 256.
        "lgk=3\nin=three\nout=N.out\n",
        "lgk=13\nin=three\nout=N.out\n",
        "lgk=04\nin=three\nout=N.out\n",
        "lgk=+4\nin=three\nout=N.out\n",
        "lgk=\nin=three\nout=N.out\n",
        "lgk=4 \nin=three\nout=N.out\n",
        "lgk=260\nin=three\nout=N.out\n",
        // Lines missing, twice, in another order, of another key, with nothing said.
        "in=three\nout=N.out\n",
        "lgk=4\nout=N.out\n",
        "lgk=4\nin=three\n",
        "lgk=4\nlgk=4\nin=three\nout=N.out\n",
        "lgk=4\nout=N.out\nin=three\n",
        "lgk=4\nin=three\nkind=8\nout=N.out\n",
        "lgk=4\nin=\nout=N.out\n",
        "lgk=4\nin=three\nout=\n",
        // Bytes that no path has: 32, 127, 128, 0 and 9. A path does not end at 0.
        "lgk=4\nin=th ree\nout=N.out\n",
        "lgk=4\nin=three\u{7f}\nout=N.out\n",
        "lgk=4\nin=three\u{80}\nout=N.out\n",
        "lgk=4\nin=three\0\nout=N.out\n",
        "lgk=4\nin=\tthree\nout=N.out\n",
        // The job is judged before any file: the missing one does not answer.
        "lgk=4\nin=missing\nout=\n",
    ] {
        cases.no_job(text);
    }
    // 64 inputs are fine (above), 65 are not.
    cases.no_job(&job(4, &["three"; 65].join(" ")));
    // A path of 200 bytes is one, though no file has it; of 201 not.
    cases.add("IO 1", job(4, &"x".repeat(200)));
    cases.no_job(&job(4, &longer("three", 201)));
    // 4,096 bytes are fine, one more is not.
    let n = cases.next();
    cases.add("OK", of_length(4096, n));
    cases.no_job(&of_length(4097, n + 1));
}

const EXAMPLE_INS: &str = "empty three";

/// What document 01 prints of its example.
const EXAMPLE: &str = "\
answer=OK
files=2
lgk=4
zeros=15
max=5
kxq0n=32279363584
kxq1n=0
";

/// What the driver shows of a file.
fn shown(file: Option<&[u8]>) -> String {
    let Some(bytes) = file else { return "output=none\n".into() };
    let next = |sum: u64, byte: &u8| (sum * 257 + *byte as u64) % 4_294_967_291;
    format!("bytes={}\nsum={}\n", bytes.len(), bytes.iter().fold(1, next))
}

/// Puts the files into a folder.
pub fn lay_out(folder: &Path, disk: &Disk) -> io::Result<()> {
    for (name, bytes) in &disk.0 {
        let path = folder.join(name);
        fs::create_dir_all(path.parent().unwrap())?;
        fs::write(path, bytes)?;
    }
    Ok(())
}

/// Makes the files of both crates in folders of their names; says how many jobs have each answer.
pub fn write(folder: &Path) -> io::Result<String> {
    let images: Vec<_> =
        [good(), bad(), images::exceptions(), images::coupons(), images::valueless()].concat();
    let images = images.into_iter().map(|(name, image)| (name.to_string(), image));
    let images = Disk(images.collect());
    let mut cases = Cases(Vec::new());
    merges(&mut cases, &images);
    refusals(&mut cases, &images);
    outputs(&mut cases);
    texts(&mut cases);
    exceptions(&mut cases);
    coupons(&mut cases);
    valueless(&mut cases);

    let mut disk = images.clone();
    for (n, case) in cases.0.iter().enumerate() {
        disk.0.insert(format!("{n}.job"), case.text.chars().map(|c| c as u8).collect());
        if let Some(before) = &case.before {
            disk.0.insert(format!("{n}.out"), before.clone());
        }
    }
    lay_out(&folder.join("merge_jobs/data"), &disk)?;

    let mut stdout = String::new();
    let mut answers: BTreeMap<u8, u32> = BTreeMap::new();
    for (n, case) in cases.0.iter().enumerate() {
        let text = disk.0[&format!("{n}.job")].clone();
        let outcome = run(&mut disk, &text);
        let (no, answer) = match &outcome {
            Outcome::Refused { no, place, file } if PLACED.contains(no) => {
                (*no, format!("{} {file} at {place}", NAMES[*no as usize]))
            }
            Outcome::Refused { no, file, .. } => (*no, format!("{} {file}", NAMES[*no as usize])),
            Outcome::Merged { .. } => (0, "OK".into()),
        };
        assert_eq!(answer, case.answer, "job {n}: {}", case.text);
        *answers.entry(no).or_default() += 1;
        let out = shown(disk.read(&format!("{n}.out")));
        stdout += &format!("job={n}\n{outcome}{out}");
    }
    fs::write(folder.join("merge_jobs/stdout"), &stdout)?;
    assert!(stdout.starts_with(&format!("job=0\n{EXAMPLE}bytes=")), "document 01's example");

    example(&folder.join("merge"), &images)?;
    let answers = answers.iter().map(|(no, times)| format!("{times} {}", NAMES[*no as usize]));
    Ok(format!("{} jobs: {}", cases.next(), answers.collect::<Vec<_>>().join(", ")))
}

/// Document 01's example as the one job of crates/merge.
fn example(folder: &Path, images: &Disk) -> io::Result<()> {
    let names = EXAMPLE_INS.split(' ');
    let files = names.map(|name| (format!("{name}.img"), images.0[name].clone()));
    lay_out(&folder.join("data"), &Disk(files.collect()))?;
    fs::write(folder.join("stdin"), "lgk=4\nin=empty.img\nin=three.img\nout=all.img\n")?;
    fs::write(folder.join("stdout"), EXAMPLE)
}
