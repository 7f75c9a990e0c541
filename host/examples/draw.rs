//! Draws a list as SVG: reads calls as in a trace from standard input, makes them, and writes the list that they leave to standard output.
//!
//! The lines are `U D K C LEN` (a buffer of LEN words, then set up), `N key value` (insert), `F key` (find), `A key` (finish), `T` (take)
//! and `S` (sweep), as `crates/replay` reads them. A refused call is no error; a line that is none of these is.
//!
//! The standing cells stand in key order from left to right, and in rows by their dimensions. Link d leads to a cell of dimension d, and no
//! cell between the two ends has a dimension of d or less (docs/REFERENCE.md, *How cells hang together*). So a line that goes down from
//! its cell (or up, from a cell that is owed from) to row d and then right meets no cell and no other line.

use mdlist_host::{find, words_needed, List, Refusal};
use std::fmt::Write;
use std::io::Read;
use std::process::ExitCode;

/// What a word holds before set up, as in a trace.
const UNSET: u32 = 2_779_096_485;
/// The longest buffer of a trace.
const LONGEST: u32 = 90_134;

enum Call {
    SetUp { d: u32, k: u32, c: u32, len: u32 },
    Insert(u32, u32),
    Find(u32),
    Finish(u32),
    Take,
    Sweep,
}

/// A number without sign or leading zeros.
fn number(text: &str) -> Option<u32> {
    text.parse().ok().filter(|n: &u32| n.to_string() == text)
}

fn call(line: &str) -> Option<Call> {
    let fields: Vec<&str> = line.split(' ').collect();
    Some(match fields[..] {
        ["U", d, k, c, len] => {
            let len = number(len).filter(|n| *n <= LONGEST)?;
            Call::SetUp { d: number(d)?, k: number(k)?, c: number(c)?, len }
        }
        ["N", key, value] => Call::Insert(number(key)?, number(value)?),
        ["F", key] => Call::Find(number(key)?),
        ["A", key] => Call::Finish(number(key)?),
        ["T"] => Call::Take,
        ["S"] => Call::Sweep,
        _ => return None,
    })
}

/// Makes a call and says what it answered.
fn make(call: &Call, words: &mut Vec<u32>) -> Result<String, Refusal> {
    if let Call::SetUp { d, k, c, len } = *call {
        *words = vec![UNSET; len as usize];
        return List::set_up(d, k, c, words).map(|_| "a fresh list".into());
    }
    let mut list = List::new(words);
    match *call {
        Call::SetUp { .. } => unreachable!("made above"),
        Call::Insert(key, value) => list.insert(key, value).map(|looked| format!("inserted, cells looked at: {looked}")),
        Call::Find(key) => list.find(key).map(|f| format!("value {}, cells looked at: {}", f.value, f.looked)),
        Call::Finish(key) => list.finish(key).map(|moved| format!("links moved: {moved}")),
        Call::Take => list.take().map(|t| format!("took key {}, value {}, passed {}", t.key, t.value, t.passed)),
        Call::Sweep => list.sweep().map(|freed| format!("cells freed: {freed}")),
    }
}

/// A standing cell: docs/REFERENCE.md, *The words*.
struct Cell {
    number: u32,
    key: u32,
    value: u32,
    live: bool,
    owed: u32,
    low: usize,
    high: usize,
    coordinates: Vec<u32>,
    links: Vec<u32>,
    dimension: usize,
    /// The first and the last path word that name the cell.
    path: Option<(usize, usize)>,
    position: bool,
}

/// A list as read from its words.
struct Reading {
    d: usize,
    k: u32,
    c: u32,
    b: u32,
    /// The standing cells in key order.
    cells: Vec<Cell>,
    /// The free cells in the order of the chain.
    free: Vec<u32>,
}

fn cell_words(words: &[u32], d: usize, x: u32) -> &[u32] {
    let size = 6 + d;
    &words[5 + d + x as usize * size..][..size]
}

/// The coordinates of a key: its d digits in base b, the most significant first.
fn digits(key: u32, b: u32, d: usize) -> Vec<u32> {
    let mut digits: Vec<u32> = (0..d as u32)
        .scan(key, |rest, _| {
            let digit = *rest % b;
            *rest /= b;
            Some(digit)
        })
        .collect();
    digits.reverse();
    digits
}

fn read_cell(words: &[u32], d: usize, x: u32) -> Cell {
    let w = cell_words(words, d, x);
    let path = &words[5..5 + d];
    let named = |i: &usize| path[*i] == x;
    Cell {
        number: x,
        key: w[0],
        value: w[1],
        live: w[2] == 1,
        owed: w[3],
        low: w[4] as usize,
        high: w[5] as usize,
        coordinates: digits(w[0], words[3], d),
        links: w[6..].to_vec(),
        dimension: 0,
        path: (0..d).find(named).zip((0..d).rev().find(named)).filter(|_| w[2] != 0),
        position: path[d - 1] == x,
    }
}

/// How many coordinates two cells share.
fn shared(a: &Cell, b: &Cell) -> usize {
    a.coordinates.iter().zip(&b.coordinates).take_while(|(a, b)| a == b).count()
}

fn read(words: &[u32]) -> Reading {
    let (d, c) = (words[0] as usize, words[2]);
    let standing = |x: &u32| cell_words(words, d, *x)[2] != 0;
    let mut cells: Vec<Cell> = (0..c).filter(standing).map(|x| read_cell(words, d, x)).collect();
    cells.sort_by_key(|cell| cell.key);
    for i in 1..cells.len() {
        cells[i].dimension = shared(&cells[i - 1], &cells[i]);
    }
    let next = |x: &u32| Some(cell_words(words, d, *x)[0]).filter(|x| *x != 0);
    let free = std::iter::successors(Some(words[4]).filter(|x| *x != 0), next).collect();
    Reading { d, k: words[1], c, b: words[3], cells, free }
}

impl Reading {
    fn column(&self, cell: u32) -> usize {
        self.cells.iter().position(|x| x.number == cell).expect("a link of a list leads to a standing cell")
    }

    /// The cells that owe, each with the one that it owes from.
    fn debts(&self) -> impl Iterator<Item = (&Cell, &Cell)> {
        self.cells.iter().filter(|n| n.owed != 0).map(|n| (n, &self.cells[self.column(n.owed)]))
    }
}

/// The numbers from `first` to `last`, as a reader writes them.
fn span(first: usize, last: usize) -> String {
    match last - first {
        0 => format!("{first}"),
        _ => format!("{first}–{last}"),
    }
}

const LEFT: i32 = 100;
const TOP: i32 = 24;
const LINE: i32 = 18;
const CELL_HEIGHT: i32 = 66;
const STRIP: i32 = 16;
const GAP: i32 = 40;
const ROW: i32 = CELL_HEIGHT + 2 * STRIP + 34;
/// A drawing is at least so wide, for its legend.
const NARROWEST: i32 = 860;

const STYLE: &str = "
  text { font-family: 'DejaVu Sans', Verdana, Arial, sans-serif; font-size: 12px; fill: #222 }
  .title { font-size: 15px; font-weight: bold }
  .key { font-size: 19px; font-weight: bold }
  .small { font-size: 10px; fill: #555 }
  .row { font-size: 11px; fill: #667 }
  .red { fill: #c00018; font-weight: bold }
  .tag { font-size: 11px; fill: #fff; font-weight: bold }
  .band { fill: #f4f6fa }
  .live { fill: #fff; stroke: #222; stroke-width: 1.5 }
  .dead { fill: #cfcfcf; stroke: #8a8a8a; stroke-width: 1.5 }
  .free { fill: #fff; stroke: #999; stroke-dasharray: 2 2 }
  .path { fill: #6d9fdd }
  .position { fill: #15489b }
  .here { fill: none; stroke: #15489b; stroke-width: 3 }
  .link { fill: none; stroke: #222; stroke-width: 1.5; marker-end: url(#head) }
  .owed { fill: none; stroke: #c00018; stroke-width: 1.5; stroke-dasharray: 3 3; marker-end: url(#red) }
  .nowhere { marker-end: url(#bar) }
  .debt { fill: none; stroke: #c00018; stroke-width: 3; stroke-dasharray: 9 5; marker-end: url(#red) }
";

const MARKERS: &str = r##"<defs>
<marker id="head" markerUnits="userSpaceOnUse" markerWidth="12" markerHeight="12" refX="10" refY="6" orient="auto"><path d="M0 1 L10 6 L0 11 Z" fill="#222"/></marker>
<marker id="red" markerUnits="userSpaceOnUse" markerWidth="14" markerHeight="14" refX="11" refY="7" orient="auto"><path d="M0 1 L11 7 L0 13 Z" fill="#c00018"/></marker>
<marker id="bar" markerUnits="userSpaceOnUse" markerWidth="4" markerHeight="16" refX="2" refY="8" orient="auto"><path d="M2 1 V15" stroke="#c00018" stroke-width="2.5"/></marker>
</defs>
"##;

/// A drawing under way.
struct Drawing {
    body: String,
    width: i32,
}

impl Drawing {
    fn put(&mut self, line: std::fmt::Arguments) {
        self.body.write_fmt(line).expect("a string takes all");
        self.body.push('\n');
    }

    fn text(&mut self, (x, y): (i32, i32), class: &str, anchor: &str, text: &str) {
        self.put(format_args!(r#"<text x="{x}" y="{y}" class="{class}" text-anchor="{anchor}">{text}</text>"#));
    }

    fn path(&mut self, class: &str, d: &str) {
        self.put(format_args!(r#"<path class="{class}" d="{d}"/>"#));
    }

    fn area(&mut self, class: &str, (x, y): (i32, i32), (width, height): (i32, i32), round: i32) {
        self.put(format_args!(r#"<rect class="{class}" x="{x}" y="{y}" width="{width}" height="{height}" rx="{round}"/>"#));
    }

    /// The places of pieces of such widths set one after the other in lines from `top` on, and where the lines end.
    fn flow(&self, top: i32, line: i32, widths: impl Iterator<Item = i32>) -> (Vec<(i32, i32)>, i32) {
        let (mut x, mut y) = (LEFT, top);
        let mut places = Vec::new();
        for width in widths {
            if x + width > self.width - 20 && x > LEFT {
                (x, y) = (LEFT, y + line);
            }
            places.push((x, y));
            x += width;
        }
        (places, y + line)
    }
}

/// About how wide a text is in the font of a drawing.
fn text_width(text: &str) -> i32 {
    7 * text.chars().count() as i32
}

impl Cell {
    /// How wide the cell is drawn for its texts: the key in large letters, the value in small ones.
    fn width(&self) -> i32 {
        let key = 2 * text_width(&self.key.to_string());
        let value = text_width(&format!("value {}", self.value));
        12 + key.max(value).max(text_width(&coordinates(self)))
    }
}

/// Where the cells of a list are drawn.
struct Plan {
    top: i32,
    cell_width: i32,
    lefts: Vec<i32>,
}

impl Plan {
    fn new(cells: &[Cell]) -> Plan {
        let cell_width = cells.iter().map(Cell::width).fold(80, i32::max);
        let mut plan = Plan { top: 0, cell_width, lefts: Vec::new() };
        for column in 0..cells.len() {
            plan.lefts.push(plan.next_left(&cells[..=column]));
        }
        plan
    }

    /// Where the last of these cells begins: right of where the one before begins, and beside every earlier one that is as deep, so that
    /// its lines go down beside them. A cell that is owed from has lines that go up: it stands beside the cell that owes.
    fn next_left(&self, cells: &[Cell]) -> i32 {
        let (cell, earlier) = cells.split_last().expect("at least the head stands");
        let beside = |x: &Cell| x.dimension >= cell.dimension || x.owed == cell.number;
        let clear = (0..earlier.len()).filter(|i| beside(&earlier[*i])).map(|i| self.right(i) + GAP);
        let below = self.lefts.last().map_or(LEFT, |left| left + self.cell_width / 2 + 32);
        clear.fold(below, i32::max)
    }

    fn left(&self, column: usize) -> i32 {
        self.lefts[column]
    }

    fn right(&self, column: usize) -> i32 {
        self.left(column) + self.cell_width
    }

    fn row(&self, dimension: usize) -> i32 {
        self.top + dimension as i32 * ROW
    }

    /// The height at which arrows reach the cells of a row.
    fn middle(&self, dimension: usize) -> i32 {
        self.row(dimension) + CELL_HEIGHT / 2
    }

    fn bottom(&self, cell: &Cell) -> i32 {
        self.row(cell.dimension) + CELL_HEIGHT + STRIP * (i32::from(cell.path.is_some()) + i32::from(cell.position))
    }
}

/// Place `i` of `n` side by side from `start` to `end`.
fn slot(start: i32, end: i32, i: usize, n: usize) -> i32 {
    start + (2 * i as i32 + 1) * (end - start) / (2 * n as i32)
}

fn coordinates(cell: &Cell) -> String {
    let texts: Vec<String> = cell.coordinates.iter().map(u32::to_string).collect();
    format!("({})", texts.join(","))
}

fn draw_cell(drawing: &mut Drawing, plan: &Plan, column: usize, cell: &Cell) {
    let (x, y) = (plan.left(column), plan.row(cell.dimension));
    let (width, height) = (plan.cell_width, plan.bottom(cell) - y);
    drawing.area(if cell.live { "live" } else { "dead" }, (x, y), (width, height), 5);
    let middle = x + width / 2;
    let head = cell.number == 0;
    drawing.text((x + 6, y + 13), "small", "start", &format!("cell {}", cell.number));
    if !cell.live && !head {
        drawing.text((x + width - 6, y + 13), "small", "end", "dead");
    }
    drawing.text((middle, y + 33), "key", "middle", &if head { "head".into() } else { cell.key.to_string() });
    drawing.text((middle, y + 47), "", "middle", &coordinates(cell));
    if cell.live {
        drawing.text((middle, y + 60), "small", "middle", &format!("value {}", cell.value));
    }
    let mut strip = y + CELL_HEIGHT;
    if let Some((first, last)) = cell.path {
        draw_strip(drawing, "path", (x, strip), width, &format!("path {}", span(first, last)));
        strip += STRIP;
    }
    if cell.position {
        draw_strip(drawing, "position", (x, strip), width, "position");
        drawing.area("here", (x - 2, y - 2), (width + 4, height + 4), 6);
    }
}

fn draw_strip(drawing: &mut Drawing, class: &str, (x, y): (i32, i32), width: i32, text: &str) {
    drawing.area(class, (x + 1, y), (width - 2, STRIP - 1), 3);
    drawing.text((x + width / 2, y + STRIP - 4), "tag", "middle", text);
}

/// The links of a cell from its own dimension on, which are its own.
fn draw_links(drawing: &mut Drawing, plan: &Plan, list: &Reading, column: usize) {
    let cell = &list.cells[column];
    let down: Vec<usize> = (cell.dimension + 1..list.d).rev().filter(|d| cell.links[*d] != 0).collect();
    // the right half of a cell may be above a later one
    let (left, half) = (plan.left(column), plan.left(column) + plan.cell_width / 2);
    for (i, d) in down.iter().enumerate() {
        let start = format!("M{} {} V{}", slot(left, half, i, down.len()), plan.bottom(cell), plan.middle(*d));
        draw_arrow(drawing, plan, list, "link", &start, *d, cell.links[*d]);
    }
    if cell.dimension < list.d && cell.links[cell.dimension] != 0 {
        let start = format!("M{} {}", plan.right(column), plan.middle(cell.dimension));
        draw_arrow(drawing, plan, list, "link", &start, cell.dimension, cell.links[cell.dimension]);
    }
}

/// A link's line from its start on along row d to the cell that it leads to, with the link's number.
fn draw_arrow(drawing: &mut Drawing, plan: &Plan, list: &Reading, class: &str, start: &str, d: usize, target: u32) {
    let end = plan.left(list.column(target));
    drawing.path(class, &format!("{start} H{end}"));
    drawing.text((end - 18, plan.middle(d) - 6), if class == "link" { "" } else { "red" }, "middle", &d.to_string());
}

/// What a cell owes: the debt, and the links that still stand in the cell after it.
fn draw_debt(drawing: &mut Drawing, plan: &Plan, list: &Reading, column: usize) {
    let cell = &list.cells[column];
    let after = column + 1;
    let (owed, top) = (&list.cells[after], plan.row(cell.high));
    drawing.path("debt", &format!("M{} {} H{} V{}", plan.right(column), plan.middle(cell.low), plan.left(after) + 12, top));
    let label = (plan.right(column) + 5, plan.middle(cell.low) - 8);
    drawing.text(label, "red", "start", &format!("owes {}", span(cell.low, cell.high - 1)));
    for d in cell.low..cell.high {
        let slot = slot(plan.left(after) + 24, plan.right(after), d - cell.low, cell.high - cell.low);
        let start = format!("M{slot} {top} V{}", plan.middle(d));
        if owed.links[d] != 0 {
            draw_arrow(drawing, plan, list, "owed", &start, d, owed.links[d]);
        } else {
            let end = plan.right(after) + 4;
            drawing.path("owed nowhere", &format!("{start} H{end}"));
            drawing.text((end + 8, plan.middle(d) + 4), "red", "start", &d.to_string());
        }
    }
}

/// A debt in words.
fn debt_text(debtor: &Cell, owed: &Cell) -> String {
    let numbers = span(debtor.low, debtor.high - 1);
    match debtor.high - debtor.low {
        1 => format!("key {} owes link {numbers} that still stands in key {}", debtor.key, owed.key),
        _ => format!("key {} owes links {numbers} that still stand in key {}", debtor.key, owed.key),
    }
}

/// What is owed, a line for each debt; where the lines end.
fn draw_summary(drawing: &mut Drawing, list: &Reading, top: i32) -> i32 {
    let texts: Vec<String> = list.debts().map(|(debtor, owed)| debt_text(debtor, owed)).collect();
    if texts.is_empty() {
        drawing.text((LEFT, top), "", "start", "Nothing is owed.");
        return top + LINE;
    }
    drawing.text((LEFT - 10, top), "red", "end", "Owed:");
    let (places, end) = drawing.flow(top, LINE, texts.iter().map(|text| text_width(text) + 50));
    for (place, text) in places.into_iter().zip(&texts) {
        drawing.text(place, "red", "start", text);
    }
    end
}

fn draw_rows(drawing: &mut Drawing, plan: &Plan, rows: usize) {
    for dimension in 0..rows {
        let y = plan.row(dimension);
        let width = drawing.width;
        drawing.area("band", (0, y - 12), (width, ROW - 8), 0);
        drawing.text((10, plan.middle(dimension) + 4), "row", "start", &format!("dimension {dimension}"));
    }
}

/// The free chain from word 4 on; where it ends.
fn draw_free(drawing: &mut Drawing, free: &[u32], top: i32) -> i32 {
    let (side, pitch, line) = (34, 60, 40);
    drawing.text((10, top + 21), "row", "start", "free chain");
    if free.is_empty() {
        drawing.text((LEFT, top + 21), "", "start", "no cell is free");
        return top + line;
    }
    let (places, end) = drawing.flow(top, line, free.iter().map(|_| pitch));
    for (i, ((x, y), cell)) in places.into_iter().zip(free).enumerate() {
        drawing.area("free", (x, y), (side, side - 4), 3);
        drawing.text((x + side / 2, y + 20), "", "middle", &cell.to_string());
        if i + 1 < free.len() {
            drawing.path("link", &format!("M{} {} H{}", x + side, y + 15, x + pitch));
        }
    }
    end
}

/// The signs of the legend: a shape of a cell or a line, its class, and what it says.
const LEGEND: [(Shape, &str, &str); 9] = [
    (Shape::Cell, "live", "live cell"),
    (Shape::Cell, "dead", "dead cell, and the head"),
    (Shape::Cell, "position", "the position"),
    (Shape::Cell, "path", "named by these path words"),
    (Shape::Cell, "free", "free cell"),
    (Shape::Line, "link", "link with its number"),
    (Shape::Line, "debt", "debt: links of this cell that still stand in the next"),
    (Shape::Line, "owed", "owed link, where it still stands"),
    (Shape::Line, "owed nowhere", "owed link that leads nowhere"),
];

enum Shape {
    Cell,
    Line,
}

fn draw_legend(drawing: &mut Drawing, top: i32) -> i32 {
    drawing.text((10, top), "row", "start", "legend");
    let (places, end) = drawing.flow(top, 24, LEGEND.iter().map(|(.., text)| text_width(text) + 50));
    for ((x, y), (shape, class, text)) in places.into_iter().zip(LEGEND) {
        match shape {
            Shape::Cell => drawing.area(class, (x, y - 12), (26, 16), 3),
            Shape::Line => drawing.path(class, &format!("M{} {} H{}", x - 6, y - 4, x + 26)),
        }
        drawing.text((x + 34, y), "", "start", text);
    }
    end
}

/// The list as SVG, under a title.
fn draw(list: &Reading, said: &str) -> String {
    let mut plan = Plan::new(&list.cells);
    let width = (0..list.cells.len()).map(|column| plan.right(column) + GAP).fold(NARROWEST, i32::max);
    let mut drawing = Drawing { body: String::new(), width };
    let settings = format!("D = {}, K = {}, C = {}, b = {}", list.d, list.k, list.c, list.b);
    drawing.text((LEFT, TOP), "title", "start", &settings);
    drawing.text((LEFT, TOP + LINE + 4), "", "start", said);
    plan.top = draw_summary(&mut drawing, list, TOP + 2 * LINE + 6) + 14;
    let rows = 1 + list.cells.iter().map(|cell| cell.dimension).max().unwrap_or(0);
    draw_rows(&mut drawing, &plan, rows);
    for column in 0..list.cells.len() {
        draw_links(&mut drawing, &plan, list, column);
        if list.cells[column].owed != 0 {
            draw_debt(&mut drawing, &plan, list, column);
        }
    }
    for (column, cell) in list.cells.iter().enumerate() {
        draw_cell(&mut drawing, &plan, column, cell);
    }
    let end = draw_free(&mut drawing, &list.free, plan.row(rows));
    let height = draw_legend(&mut drawing, end + 22);
    let body = drawing.body;
    format!(
        "<svg xmlns=\"http://www.w3.org/2000/svg\" width=\"{width}\" height=\"{height}\" viewBox=\"0 0 {width} {height}\">\n\
         <style>{STYLE}</style>\n{MARKERS}<rect width=\"100%\" height=\"100%\" fill=\"#fff\"/>\n{body}</svg>\n"
    )
}

/// Makes the calls of a trace; the words that they leave, and what the drawing says of the last one.
fn run(trace: &str) -> Result<(Vec<u32>, String), String> {
    let mut words = Vec::new();
    let (mut calls, mut said) = (0, String::new());
    for (i, line) in trace.lines().enumerate() {
        let call = call(line).ok_or_else(|| format!("line {} is not readable: {line}", i + 1))?;
        let answered = make(&call, &mut words).unwrap_or_else(|refusal| refusal.to_string());
        calls = if matches!(call, Call::SetUp { .. }) { 0 } else { calls + 1 };
        said = format!("calls since set up: {calls}; the last, {line}: {answered}");
    }
    // the drawing trusts the words: a call on them says whether they are a list
    match find(&words, 1) {
        Err(Refusal::NotAList) => Err("no list was set up".into()),
        _ => Ok((words, said)),
    }
}

fn main() -> ExitCode {
    let mut trace = String::new();
    let drawn = std::io::stdin().read_to_string(&mut trace).map_err(|error| error.to_string()).and_then(|_| run(&trace));
    match drawn {
        Ok((words, said)) => {
            debug_assert_eq!(words.len(), words_needed(words[0], words[2]));
            print!("{}", draw(&read(&words), &said));
            ExitCode::SUCCESS
        }
        Err(why) => {
            eprintln!("draw: {why}");
            ExitCode::from(2)
        }
    }
}
