//! The library, the reference (same algorithm) and the hashed side in one run: times and ratios.

use harness::generate::backward_chain_text;
use harness::random::Random;
use harness::reference::{
    self, Refusal, Window, BYTE_EDITION, CELLS, ISO_8859_1, ISO_8859_15, LINE_BYTES, LISTING_BYTES, ORDER_WORDS, PAIRS,
    SET_WORD, TEXT_BYTES, TEXT_EDITION, WORDS,
};
use harness::side::{Side, HASHED, LIBRARY, SIDES};
use std::ffi::OsString;
use std::hint::black_box;
use std::process::{Command, Stdio};
use std::time::Duration;

/// Bytes before all other code, a multiple of 16. Where a loop lies in the processor's lines of code can double its time,
/// so harness/run builds a program with each of several paddings.
const PADDING: usize = match option_env!("HEATHDAPPLE_PADDING") {
    None => 0,
    Some(padding) => match usize::from_str_radix(padding, 10) {
        Ok(padding) => padding,
        Err(_) => panic!("HEATHDAPPLE_PADDING is a number"),
    },
};

std::arch::global_asm!(
    ".pushsection .text.padding, \"axR\", @progbits",
    ".p2align 4",
    ".skip {padding}, 0xCC",
    ".popsection",
    padding = const PADDING,
);

/// Processor time of this thread, which other load on the machine disturbs less than time on the wall.
fn now() -> Duration {
    #[repr(C)]
    struct Timespec {
        seconds: i64,
        nanoseconds: i64,
    }
    extern "C" {
        fn clock_gettime(clock: i32, time: *mut Timespec) -> i32;
    }
    const CLOCK_THREAD_CPUTIME_ID: i32 = 3;
    let mut time = Timespec { seconds: 0, nanoseconds: 0 };
    let failed = unsafe { clock_gettime(CLOCK_THREAD_CPUTIME_ID, &mut time) };
    assert_eq!(failed, 0, "the thread's clock is read");
    Duration::new(time.seconds as u64, time.nanoseconds as u32)
}

const SAMPLE: Duration = Duration::from_millis(4);
const ROUNDS: usize = 5;
const PROCESSES: usize = 5;

fn median(times: &[f64]) -> f64 {
    let mut sorted = times.to_vec();
    sorted.sort_by(f64::total_cmp);
    sorted[sorted.len() / 2]
}

/// What the three times of a table's rows are of, and of which two its ratios are.
struct Columns {
    names: [&'static str; 3],
    ratios: [(&'static str, [usize; 2]); 2],
}

const BY_SIDE: Columns =
    Columns { names: ["library", "reference", "hashed"], ratios: [("lib/ref", [0, 1]), ("lib/hash", [0, 2])] };
/// The library's plain call, the same by an order, and the plain call of the hashed side.
const BY_ORDER: Columns =
    Columns { names: ["plain", "by order", "hashed"], ratios: [("plain/by", [0, 1]), ("by/hash", [1, 2])] };

fn heading(title: &str) {
    println!("heading\t{title}");
}

/// The heading of a table of calls by order.
fn order_heading(title: &str) {
    println!("order heading\t{title}");
}

/// One row of the sides.
fn row<B: Clone + PartialEq, A: PartialEq>(name: &str, buffers: B, call: impl Fn(&Side, &mut B) -> Result<A, Refusal>) {
    row_of(name, buffers, |which, buffers| call(&SIDES[which], buffers));
}

/// One row of a plain call and the same by an order.
fn order_row<B: Clone + PartialEq, A: PartialEq>(
    name: &str,
    buffers: B,
    plain: impl Fn(&Side, &mut B) -> Result<A, Refusal>,
    by_order: impl Fn(&Side, &mut B) -> Result<A, Refusal>,
) {
    row_of(name, buffers, |which, buffers| match which {
        0 => plain(&LIBRARY, buffers),
        1 => by_order(&LIBRARY, buffers),
        _ => plain(&HASHED, buffers),
    });
}

/// One row: the three answers and buffers are compared, then the calls are timed.
fn row_of<B: Clone + PartialEq, A: PartialEq>(
    name: &str,
    buffers: B,
    call: impl Fn(usize, &mut B) -> Result<A, Refusal>,
) {
    let mut kept = buffers.clone();
    let [first, second, third] = [0, 1, 2].map(|which| {
        let mut buffers = buffers.clone();
        (call(which, &mut buffers), buffers)
    });
    assert!(first.0.is_ok() && first == second && second == third, "{name}: the answers agree");
    time(name, &mut |which| {
        let answer = call(which, &mut kept);
        let _ = black_box((answer, &mut kept));
    });
}

/// Times three calls, which take turns, and prints the medians.
fn time(name: &str, call: &mut dyn FnMut(usize)) {
    let mut repeats = [1u32; 3];
    let mut slowest = Duration::ZERO;
    let mut times = [const { Vec::new() }; 3];
    for which in 0..times.len() {
        let begun = now();
        call(which);
        let time = now() - begun;
        slowest = slowest.max(time);
        repeats[which] = (SAMPLE.as_nanos() / time.as_nanos().max(1)).clamp(1, 1_000_000) as u32;
        times[which].push(time.as_secs_f64());
    }
    // A call of a good part of a second is timed once in each process.
    if slowest < Duration::from_millis(300) {
        times = [const { Vec::new() }; 3];
        for round in 0..ROUNDS {
            for turn in 0..times.len() {
                let which = (round + turn) % times.len();
                let begun = now();
                for _ in 0..repeats[which] {
                    call(which);
                }
                times[which].push((now() - begun).as_secs_f64() / f64::from(repeats[which]));
            }
        }
    }
    let [first, second, third] = [0, 1, 2].map(|which| median(&times[which]));
    println!("row\t{name}\t{first:e}\t{second:e}\t{third:e}");
}

// The table over all processes.

fn time_shown(seconds: f64) -> String {
    match seconds {
        s if s < 1e-6 => format!("{:.0} ns", s * 1e9),
        s if s < 1e-3 => format!("{:.2} us", s * 1e6),
        s if s < 1.0 => format!("{:.2} ms", s * 1e3),
        s => format!("{s:.2} s"),
    }
}

fn ratio_shown(ratio: f64) -> String {
    match ratio {
        r if r < 10.0 => format!("{r:.2}"),
        r if r < 100.0 => format!("{r:.1}"),
        r => format!("{r:.0}"),
    }
}

/// The median of the ratios, and the lowest and highest.
fn ratios_shown(one: &[f64], other: &[f64]) -> [String; 2] {
    let ratios: Vec<f64> = one.iter().zip(other).map(|(one, other)| one / other).collect();
    let low = ratios.iter().copied().fold(f64::MAX, f64::min);
    let high = ratios.iter().copied().fold(0.0, f64::max);
    [ratio_shown(median(&ratios)), format!("({} to {})", ratio_shown(low), ratio_shown(high))]
}

/// A row of a table in Markdown, the columns in line.
fn print_row([name, fields @ ..]: [&str; 8]) {
    print!("| {name:<56} |");
    for (field, width) in fields.iter().zip([9, 9, 9, 8, 14, 8, 14]) {
        print!(" {field:>width$} |");
    }
    println!();
}

fn print_table(runs: &[String]) {
    let runs: Vec<Vec<&str>> = runs.iter().map(|run| run.lines().collect()).collect();
    let mut columns = &BY_SIDE;
    for (place, line) in runs[0].iter().enumerate() {
        let fields: Vec<&str> = line.split('\t').collect();
        if fields[0] != "row" {
            columns = if fields[0] == "heading" { &BY_SIDE } else { &BY_ORDER };
            let ([a, b, c], [(one, _), (other, _)]) = (columns.names, columns.ratios);
            println!();
            print_row([fields[1], a, b, c, one, "(runs)", other, "(runs)"]);
            print_row(["---", "--:", "--:", "--:", "--:", "--:", "--:", "--:"]);
            continue;
        }
        let times = [2, 3, 4].map(|field| -> Vec<f64> {
            let field_of = |run: &Vec<&str>| run[place].split('\t').nth(field).and_then(|time| time.parse().ok());
            runs.iter().map(|run| field_of(run).expect("a time")).collect()
        });
        let [first, second, third] = [0, 1, 2].map(|which| time_shown(median(&times[which])));
        let [[a, a_runs], [b, b_runs]] =
            columns.ratios.map(|(_, [one, other])| ratios_shown(&times[one], &times[other]));
        print_row([fields[1], &first, &second, &third, &a, &a_runs, &b, &b_runs]);
    }
}

fn main() {
    let mut programs: Vec<OsString> = std::env::args_os().skip(1).collect();
    if programs == ["once"] {
        return measure();
    }
    if programs.is_empty() {
        let own = std::env::current_exe().expect("the path of this program");
        programs = vec![own.into(); PROCESSES];
    }
    println!("library: libheathdapple.a by the Rust package. reference: the same algorithm in plain Rust (linear scans, walks");
    println!("by scanning), but for UTF-8, which is the standard library's. hashed: a HashMap from character to meaning, built");
    println!("anew by each call; it has no attributes table and no byte table of its own, there the column is the reference again.");
    println!("Tables of calls by order: the library's plain call, its call by an order, the plain call of hashed.");
    println!("Release build. Buffers that a call fills are filled once before the first call and not cleared between");
    println!("calls, on every side. Processor time of a call. One process for each program that is named (harness/run names {PROCESSES},");
    println!("each with its code at another place); in each the sides take turns, {ROUNDS} rounds and their median. Shown: the median of");
    println!("the processes, of times and of ratios, and the lowest and highest ratio of a process. Before timing, the three calls'");
    println!("answers and buffers were compared.");
    let mut runs = Vec::new();
    for program in programs {
        let output = Command::new(&program).arg("once").stderr(Stdio::inherit()).output().expect("a process");
        assert!(output.status.success(), "a process failed");
        runs.push(String::from_utf8(output.stdout).expect("rows"));
    }
    print_table(&runs);
}

// Inputs.

fn definition_character(k: usize) -> u32 {
    0x4000 + k as u32
}

/// Definitions in turn by `char` and `glyph`, one for each of some characters.
fn definitions_of(characters: &[u32]) -> String {
    let word = |k: usize| if k.is_multiple_of(2) { "char" } else { "glyph" };
    let line = |(k, character): (usize, &u32)| format!("{} \\u{character:04X} {}\n", word(k), 1 + k % 8);
    characters.iter().enumerate().map(line).collect()
}

fn definition_characters(count: usize) -> Vec<u32> {
    (0..count).map(definition_character).collect()
}

fn definitions(count: usize) -> String {
    definitions_of(&definition_characters(count))
}

/// Definitions of which the last three are a base character, a stand-in and `?`.
fn definitions_to_fall_to(count: usize) -> String {
    definitions(count - 3) + "char e 15\nchar - 36\nchar ? 1456\n"
}

/// 1,024 `char` lines of 64 bytes each.
fn padded() -> String {
    (0..PAIRS)
        .map(|k| format!("{:<63}\n", format!("char \\u{:04X} 12345678 # padded to the limit", definition_character(k))))
        .collect()
}

/// 65,536 bytes: a chain of 1,023 aliases from U+0400, then the same lines as often as they fit.
fn long_chain_and(lines: &str) -> String {
    let link = |k: u32| char::from_u32(0x400 + k).expect("a scalar");
    let last = PAIRS as u32 - 1;
    let mut text = format!("char {} 1\n", link(last));
    for k in (0..last).rev() {
        text += &format!("alias {} {}\n", link(k), link(k + 1));
    }
    while text.len() + lines.len() <= TEXT_BYTES {
        text += lines;
    }
    text
}

/// Lines of eight conditions, each of which walks all of the chain.
fn conditions_on_chain() -> String {
    long_chain_and(&format!("{}ifNotGlyph \u{400} char a 1\n", "ifGlyph \u{400} ".repeat(7)))
}

/// The fewest bytes for eight such walks: they open a block, which is closed at once.
fn worst() -> String {
    long_chain_and(&format!("{}ifGlyph \u{400}\nendIf\n", "ifGlyph \u{400} ".repeat(7)))
}

/// Eight nested blocks with 1,024 definitions inside, which are taken.
fn blocks_taken() -> String {
    "ifNotGlyph a\n".repeat(8) + &definitions(PAIRS) + &"endIf\n".repeat(8)
}

/// As many blocks as fit inside seven others, each of two halves with a definition; nothing is taken.
fn blocks_not_taken() -> String {
    let (front, end) = ("ifGlyph a\n".repeat(7), "endIf\n".repeat(7));
    let block = "ifGlyph b\nchar a 12\nelse\nchar a 13\nendIf\n";
    front.clone() + &block.repeat((TEXT_BYTES - front.len() - end.len()) / block.len()) + &end
}

/// Lines of 1,024 bytes with eight conditions, of which the first fails.
fn failing_conditions() -> String {
    let conditions = format!("{}char a 1", "ifGlyph \\U0010FFFF ".repeat(8));
    let line = format!("{conditions:<width$}\n", width = LINE_BYTES);
    line.repeat(TEXT_BYTES / line.len())
}

fn table(text: &str) -> Vec<u32> {
    let mut words = vec![0; WORDS];
    reference::compile(TEXT_EDITION, ISO_8859_1, text.as_bytes(), &mut words).expect("an accepted text");
    words
}

/// A page of which three in four characters are defined, at any place, and the others are not.
fn mixed_page(length: usize, count: usize) -> Vec<u32> {
    let mut random = Random::new(length as u64);
    (0..length)
        .map(|_| {
            if random.percent(75) {
                definition_character(random.below(count))
            } else {
                random.between(0x100, 0x3FF) as u32
            }
        })
        .collect()
}

/// Characters that may be defined.
fn definable() -> impl Iterator<Item = u32> {
    let of_rows = |character| reference::braille_cell(character).or(reference::private_byte(character)).is_some();
    (0x100..0x11_0000).filter(move |character| reference::scalar(*character) && !of_rows(*character))
}

/// Characters with gaps between them, so that others fall everywhere between.
fn spread(count: usize) -> Vec<u32> {
    definable().step_by(60_000 / count).take(count).collect()
}

/// A page of characters that are all different, in any order: of those defined each, or as many as make three in four,
/// and others for the rest.
fn different_page(length: usize, defined: &[u32]) -> Vec<u32> {
    let mut random = Random::new(length as u64);
    let others = definable().filter(|character| !defined.contains(character));
    let mut page = defined.to_vec();
    random.shuffle(&mut page);
    page.truncate(3 * length / 4);
    page.extend(others.take(length - page.len()));
    random.shuffle(&mut page);
    page
}

/// A page of characters that are not defined: by turns of a base, of a stand-in, and of neither.
fn falling_page(length: usize) -> Vec<u32> {
    [0xE9, 0x2013, 0x3FFF].into_iter().cycle().take(length).collect()
}

/// A status strip of 40 characters, a menu of 40 and a line of text of 80 on a page of 2,000.
const STRIP_MENU_TEXT: [Window; 3] =
    [Window { start: 1920, width: 40 }, Window { start: 0, width: 40 }, Window { start: 960, width: 80 }];

// Rows.

/// A table and its count of definitions, also as it is shown.
type Size<'a> = (&'a str, &'a [u32], usize);

fn compile_row(name: &str, text: &str) {
    assert!(text.len() <= TEXT_BYTES);
    row(name, vec![0xA5A5_A5A5; WORDS], |side, words| {
        (side.compile)(TEXT_EDITION, ISO_8859_1, black_box(text.as_bytes()), words)
    });
}

fn page_row(name: &str, words: &[u32], characters: &[u32]) {
    let buffer = vec![0xA5; characters.len()];
    row(name, [buffer.clone(), buffer], |side, [cells, rules]| {
        (side.page)(black_box(words), black_box(characters), cells, rules)
    });
}

/// Buffers that just hold all windows.
fn buffers_for(windows: &[Window]) -> [Vec<u8>; 2] {
    let buffer = vec![0xA5; windows.iter().map(|window| window.width).sum()];
    [buffer.clone(), buffer]
}

fn windows_row(name: &str, words: &[u32], characters: &[u32], windows: &[Window]) {
    row(name, buffers_for(windows), |side, [cells, rules]| {
        (side.windows)(black_box(words), black_box(characters), black_box(windows), cells, rules)
    });
}

fn page_by_window_row(name: &str, words: &[u32], characters: &[u32], windows: &[Window]) {
    row(name, buffers_for(windows), |side, [cells, rules]| {
        side.page_by_window(black_box(words), black_box(characters), black_box(windows), cells, rules)
    });
}

fn order_of(words: &[u32]) -> Vec<u32> {
    let mut order = vec![0; ORDER_WORDS];
    reference::order(words, &mut order).expect("a table");
    order
}

fn page_by_row(name: &str, words: &[u32], characters: &[u32]) {
    let (order, buffer) = (order_of(words), vec![0xA5; characters.len()]);
    order_row(
        name,
        [buffer.clone(), buffer],
        |side, [cells, rules]| (side.page)(black_box(words), black_box(characters), cells, rules),
        |side, [cells, rules]| (side.page_by)(black_box(words), black_box(&order), black_box(characters), cells, rules),
    );
}

fn look_up_by_row(name: &str, words: &[u32], character: u32) {
    let order = order_of(words);
    order_row(
        name,
        (),
        |side, ()| (side.look_up)(black_box(words), black_box(character)),
        |side, ()| (side.look_up_by)(black_box(words), black_box(&order), black_box(character)),
    );
}

fn look_up_row(name: &str, words: &[u32], character: u32) {
    row(name, (), |side, ()| (side.look_up)(black_box(words), black_box(character)));
}

/// Fills a buffer by 256 single calls.
fn one_by_one<T>(buffer: &mut [T; CELLS], call: impl Fn(u8) -> Result<T, Refusal>) -> Result<(), Refusal> {
    for (place, byte) in buffer.iter_mut().zip(0..=255) {
        *place = call(byte)?;
    }
    Ok(())
}

fn compile_rows(chain_text: &str, forward_chain_text: &str) {
    heading("compile");
    compile_row("1 definition", &definitions(1));
    compile_row("32 definitions", &definitions(32));
    compile_row("1,024 definitions", &definitions(PAIRS));
    compile_row("1,024 char lines padded to 65,536 bytes", &padded());
    compile_row("65,536 empty lines", &"\n".repeat(TEXT_BYTES));
    compile_row("64 full lines of 8 conditions, empty table", &failing_conditions());
    compile_row("1,024 definitions in 8 nested blocks, taken", &blocks_taken());
    compile_row("65,536 bytes of blocks in 7 nested ones, not taken", &blocks_not_taken());
    compile_row("chain of 1,000 aliases, targets said later", forward_chain_text);
    compile_row("chain of 1,000 aliases, targets said earlier", chain_text);
    compile_row("chain of 1,023 aliases, then 8 conditions a line", &conditions_on_chain());
    compile_row("worst: chain of 1,023 aliases, blocks of 8 conditions", &worst());
}

fn typed_rows(sizes: [Size; 2]) {
    heading("typed and entries (with their check)");
    for (name, words, _) in sizes {
        row(&format!("typed, one call, {name} definitions"), (), |side, ()| (side.typed)(black_box(words), 1));
        row(&format!("typed, 256 single calls, {name} definitions"), [0; CELLS], |side, entries| {
            one_by_one(entries, |cell| side.entry(black_box(words), cell))
        });
        row(&format!("entries, {name} definitions"), [0; CELLS], |side, entries| {
            (side.entries)(black_box(words), entries)
        });
    }
}

fn list_rows(sizes: [Size; 2]) {
    heading("list (with its check)");
    for (name, words, _) in sizes {
        row(&format!("{name} definitions"), vec![0xA5; LISTING_BYTES], |side, bytes| {
            (side.list)(black_box(words), bytes)
        });
    }
}

fn attribute_rows() {
    let text: String =
        reference::NAMES.iter().enumerate().map(|(dot, (name, _))| format!("dot {} ={name}\n", dot + 1)).collect();
    let text = text.as_bytes();
    heading("attribute_cell and attribute_cells, 8 lines");
    row("attribute_cell, one call", (), |side, ()| (side.attribute_cell)(black_box(text), 0x5A));
    row("attribute_cell, 256 single calls", [0; CELLS], |side, cells| {
        one_by_one(cells, |byte| (side.attribute_cell)(black_box(text), byte))
    });
    row("attribute_cells", [0; CELLS], |side, cells| (side.attribute_cells)(black_box(text), cells));
}

/// A byte line for every byte, in turn with the word and without it.
fn byte_lines() -> String {
    let word = |byte: u8| if byte.is_multiple_of(2) { "byte " } else { "" };
    (0..=255).map(|byte| format!("{}\\x{byte:02X} {}\n", word(byte), 1 + byte % 8)).collect()
}

fn byte_rows() {
    let text = byte_lines();
    let text = text.as_bytes();
    heading("byte tables, 256 byte lines");
    row("compile, edition 1", (), |side, ()| (side.compile)(BYTE_EDITION, ISO_8859_1, black_box(text), &mut []));
    row("byte_cells", [0; CELLS], |side, cells| (side.byte_cells)(ISO_8859_1, black_box(text), cells));
    row("byte_cells, ISO 8859-15", [0; CELLS], |side, cells| (side.byte_cells)(ISO_8859_15, black_box(text), cells));
}

fn check_rows(small: &[u32], large: &[u32], chain: &[u32], forward_chain: &[u32]) {
    heading("check alone (an empty page)");
    page_row("1 definition", &table(&definitions(1)), &[]);
    page_row("32 definitions", small, &[]);
    page_row("1,024 definitions", large, &[]);
    page_row("chain of 1,000 aliases, targets said later", forward_chain, &[]);
    page_row("chain of 1,000 aliases, targets said earlier", chain, &[]);
}

/// Rows of single lookups.
fn each_look_up(row: fn(&str, &[u32], u32), sizes: [Size; 2], forward_chain: &[u32]) {
    for (name, words, count) in sizes {
        row(&format!("{name} definitions, hit at the first"), words, definition_character(0));
        row(&format!("{name} definitions, hit at the last"), words, definition_character(count - 1));
        row(&format!("{name} definitions, miss"), words, 0x3FFF);
    }
    row("chain of 1,000 aliases, from its head", forward_chain, 0x400);
}

fn look_up_rows(sizes: [Size; 2], forward_chain: &[u32]) {
    heading("look_up (with its check)");
    each_look_up(look_up_row, sizes, forward_chain);
}

fn order_rows() {
    heading("order of 1,024 definitions (with the check)");
    let rising = definition_characters(PAIRS);
    let falling = rising.iter().rev().copied().collect();
    let mut random = rising.clone();
    Random::new(1).shuffle(&mut random);
    for (name, characters) in [("rising", rising), ("falling", falling), ("random", random)] {
        let words = table(&definitions_of(&characters));
        row(&format!("order, {name} characters"), vec![0xA5A5_A5A5; ORDER_WORDS], |side, order| {
            (side.order)(black_box(&words), order)
        });
        look_up_row(&format!("the check and one look_up, {name} characters"), &words, characters[0]);
    }
}

fn look_up_by_rows(sizes: [Size; 2], forward_chain: &[u32]) {
    order_heading("look_up and look_up_by (with their checks)");
    each_look_up(look_up_by_row, sizes, forward_chain);
}

fn page_by_rows(sizes: [Size; 2], forward_chain: &[u32]) {
    order_heading("page and page_by (with their checks)");
    for (name, words, count) in sizes {
        let mut apart = spread(count);
        Random::new(2).shuffle(&mut apart);
        let spread_words = table(&definitions_of(&apart));
        for (shown, length) in [("100", 100), ("100,000", 100_000)] {
            let different = different_page(length, &definition_characters(count));
            page_by_row(&format!("{shown} usual characters, {name} definitions"), words, &mixed_page(length, count));
            page_by_row(&format!("{shown} different characters, {name} definitions"), words, &different);
            let different = different_page(length, &apart);
            page_by_row(&format!("{shown} different characters, {name} spread"), &spread_words, &different);
        }
    }
    page_by_row("100 characters, each the head of a chain of 1,000", forward_chain, &[0x400; 100]);
}

fn page_rows(sizes: [Size; 2], forward_chain: &[u32]) {
    heading("page (with its check)");
    for (name, words, count) in sizes {
        page_row(&format!("100 characters, {name} definitions"), words, &mixed_page(100, count));
        page_row(&format!("100,000 characters, {name} definitions"), words, &mixed_page(100_000, count));
    }
    page_row("100 characters, each the head of a chain of 1,000", forward_chain, &[0x400; 100]);
}

fn windows_rows(sizes: [Size; 2]) {
    heading("windows (with their check)");
    let ones: Vec<Window> = (0..1000).map(|k| Window { start: 2 * k, width: 1 }).collect();
    let empty = vec![Window { start: 2000, width: 0 }; 100_000];
    for (name, words, count) in sizes {
        let page = mixed_page(2000, count);
        windows_row(&format!("3 windows of a page of 2,000, {name} definitions"), words, &page, &STRIP_MENU_TEXT);
        page_by_window_row(&format!("the same by 3 page calls, {name} definitions"), words, &page, &STRIP_MENU_TEXT);
        windows_row(&format!("1,000 windows of one character, {name} definitions"), words, &page, &ones);
        page_by_window_row(&format!("the same by 1,000 page calls, {name} definitions"), words, &page, &ones);
        windows_row(&format!("100,000 empty windows, {name} definitions"), words, &page, &empty);
    }
}

fn falling_rows(sizes: [Size; 2]) {
    heading("page of characters that fall to rule 5 and below");
    for (name, _, count) in sizes {
        let words = table(&definitions_to_fall_to(count));
        page_row(&format!("100 characters, {name} definitions"), &words, &falling_page(100));
        page_row(&format!("100,000 characters, {name} definitions"), &words, &falling_page(100_000));
    }
}

/// Every private-row character in turn, none of them defined.
fn private_rows(small: &[u32]) {
    heading("page of private-row characters");
    let page: Vec<u32> = (0xF000..=0xF0FF).cycle().take(100_000).collect();
    for (name, set) in [("ISO 8859-1", ISO_8859_1), ("ISO 8859-15", ISO_8859_15)] {
        let mut words = small.to_vec();
        words[SET_WORD] = set;
        page_row(&format!("100,000 characters, 32 definitions, {name}"), &words, &page);
    }
}

/// Every character of a table of aliases into the braille row in turn.
fn braille_rows() {
    heading("page of aliases into the braille row");
    let alias = |k| format!("alias \\u{:04X} \\u{:04X}\n", definition_character(k), 0x2800 + k);
    let page: Vec<u32> = (0..32).map(definition_character).cycle().take(100_000).collect();
    page_row("100,000 characters, 32 definitions", &table(&(0..32).map(alias).collect::<String>()), &page);
}

fn measure() {
    let chain_text = backward_chain_text(1000);
    let forward_chain_text: String = chain_text.lines().rev().map(|line| format!("{line}\n")).collect();
    let [small, large] = [32, PAIRS].map(|count| table(&definitions(count)));
    let [chain, forward_chain] = [&chain_text, &forward_chain_text].map(|text| table(text));
    let sizes: [Size; 2] = [("32", &small, 32), ("1,024", &large, PAIRS)];
    compile_rows(&chain_text, &forward_chain_text);
    check_rows(&small, &large, &chain, &forward_chain);
    look_up_rows(sizes, &forward_chain);
    page_rows(sizes, &forward_chain);
    order_rows();
    look_up_by_rows(sizes, &forward_chain);
    page_by_rows(sizes, &forward_chain);
    windows_rows(sizes);
    falling_rows(sizes);
    private_rows(&small);
    braille_rows();
    typed_rows(sizes);
    list_rows(sizes);
    attribute_rows();
    byte_rows();
}
