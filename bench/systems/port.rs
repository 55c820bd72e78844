//! The solver of crn_simplex in plain Rust, to measure the built program against. `make VARIABLES SIZE SEED` prints the systems by which ten random forms, of which the
//! greatest counts, are checked as pieces; `time FILE` decides those of a file and prints the nanoseconds.
use std::hint::black_box;
use std::time::Instant;

const LIMIT: u128 = 1 << 59;
const SHORT: i128 = 1 << 62;
const LARGE: u128 = 1 << 126;
const TURNS: usize = 256;
const MOST_SYSTEMS: usize = 4000;

type Numbers = [i128; 9];

#[derive(Clone, Copy, PartialEq)]
struct Row {
    entries: [i64; 9],
    len: usize,
    strict: bool,
}

#[derive(Clone, Copy)]
struct Point {
    entries: [i64; 9],
    len: usize,
}

#[derive(Clone)]
struct System {
    columns: usize,
    rows: Vec<Row>,
}

// Nothing reads what an answer holds; it goes into a black box.
#[allow(dead_code)]
enum Verdict {
    Found(Point),
    Refuted(Vec<i64>),
}

#[derive(Clone, Copy)]
struct Multiple {
    row: usize,
    number: i128,
}

enum Outcome {
    Point(Point),
    Multiples([Multiple; 10]),
    GaveUp,
}

// ---- numbers
fn gcd(mut a: u64, mut b: u64) -> u64 {
    while b != 0 {
        (a, b) = (b, a % b);
    }
    a
}

fn wide_gcd(mut a: u128, mut b: u128) -> u128 {
    while b != 0 {
        if (a | b) >> 64 == 0 {
            return gcd(a as u64, b as u64) as u128;
        }
        (a, b) = (b, a % b);
    }
    a
}

fn common_of(numbers: &[i128]) -> u128 {
    let mut common = 0;
    for number in numbers {
        if common == 1 {
            return 1;
        }
        common = wide_gcd(common, number.unsigned_abs());
    }
    common
}

fn over(number: i128, divisor: u128) -> Option<i64> {
    let size = number.unsigned_abs();
    let part = if divisor <= 1 {
        size
    } else if (size | divisor) >> 64 == 0 {
        (size as u64 / divisor as u64) as u128
    } else {
        size / divisor
    };
    if part > LIMIT {
        return None;
    }
    let small = part as i64;
    Some(if number < 0 { -small } else { small })
}

fn short(number: i128) -> Option<i64> {
    (-SHORT..=SHORT).contains(&number).then_some(number as i64)
}

#[derive(Clone, Copy)]
struct Divisor {
    shift: u32,
    inverse: u128,
    bound: u128,
}

impl Divisor {
    fn of(den: i128) -> Divisor {
        let bits = den as u128;
        let shift = bits.trailing_zeros().min(127);
        let odd = bits >> shift;
        let mut inverse = odd.wrapping_mul(3) ^ 2;
        for _ in 0..5 {
            inverse = inverse.wrapping_mul(2u128.wrapping_sub(odd.wrapping_mul(inverse)));
        }
        let bound = if short(den).is_some() { bits << 62 } else { 0 };
        Divisor { shift, inverse, bound }
    }

    fn quotient(self, number: i128) -> i128 {
        let low = ((number >> self.shift) as u128).wrapping_mul(self.inverse);
        ((low << self.shift) as i128) >> self.shift
    }

    fn short_quotient(self, number: i128) -> Option<i128> {
        let size = number.unsigned_abs();
        if size >= self.bound {
            return None;
        }
        let low = ((size >> self.shift) as u64).wrapping_mul(self.inverse as u64);
        if low > u64::MAX >> 2 {
            return None;
        }
        Some(if number < 0 { -(low as i128) } else { low as i128 })
    }
}

// ---- systems
fn sum_at(row: &Row, point: &Point) -> i128 {
    (0..point.len)
        .map(|i| row.entries[i] as i128 * point.entries[i] as i128)
        .sum()
}

fn meets(row: &Row, point: &Point) -> bool {
    let sum = sum_at(row, point);
    if row.strict { sum > 0 } else { sum >= 0 }
}

fn holds(system: &System, point: &Point) -> bool {
    system.rows.iter().all(|row| meets(row, point))
}

fn check(system: &System, multipliers: &[i64]) -> bool {
    let rows = &system.rows;
    let column_is_zero = |column: usize| {
        let mut sum = 0i128;
        for i in 0..rows.len() {
            if multipliers[i] != 0 {
                sum += multipliers[i] as i128 * rows[i].entries[column] as i128;
            }
        }
        sum == 0
    };
    multipliers.len() == rows.len()
        && multipliers.iter().all(|multiplier| *multiplier >= 0)
        && rows
            .iter()
            .zip(multipliers)
            .any(|(row, multiplier)| row.strict && *multiplier > 0)
        && (0..system.columns).all(column_is_zero)
}

fn refutes(system: &System, multiples: &[Multiple; 10]) -> bool {
    let rows = &system.rows;
    let column_is_zero = |column: usize| {
        let mut sum = 0i128;
        for multiple in multiples {
            let Some(product) = multiple.number.checked_mul(rows[multiple.row].entries[column] as i128) else {
                return false;
            };
            let Some(next) = sum.checked_add(product) else {
                return false;
            };
            if next.unsigned_abs() > LARGE {
                return false;
            }
            sum = next;
        }
        sum == 0
    };
    multiples
        .iter()
        .all(|multiple| multiple.row < rows.len() && multiple.number >= 0)
        && multiples
            .iter()
            .any(|multiple| rows[multiple.row].strict && multiple.number > 0)
        && (0..system.columns).all(column_is_zero)
}

// ---- the walk
struct ActiveSet {
    columns: usize,
    rays: [Numbers; 9],
    places: [Option<usize>; 9],
    rows: [Row; 9],
    vertex: Numbers,
    den: i128,
}

fn value(row: &Row, numbers: &Numbers) -> i128 {
    let mut sum = 0i128;
    for i in 0..row.len {
        sum = sum.wrapping_add((row.entries[i] as i128).wrapping_mul(numbers[i]));
    }
    sum
}

fn negated(numbers: &Numbers) -> Numbers {
    let mut out = [0; 9];
    for i in 0..9 {
        out[i] = numbers[i].wrapping_neg();
    }
    out
}

fn sum_of(a: &Numbers, b: &Numbers) -> Numbers {
    let mut out = [0; 9];
    for i in 0..9 {
        out[i] = a[i].wrapping_add(b[i]);
    }
    out
}

fn point_over(numbers: &[i128], divisor: u128) -> Option<Point> {
    let mut entries = [0; 9];
    for i in 0..numbers.len() {
        entries[i] = over(numbers[i], divisor)?;
    }
    Some(Point {
        entries,
        len: numbers.len(),
    })
}

fn opposite(row: &Row, strict: bool) -> Row {
    let mut entries = [0; 9];
    for i in 0..row.len {
        entries[i] = -row.entries[i];
    }
    Row {
        entries,
        len: row.len,
        strict,
    }
}

struct Step {
    ray: Numbers,
    pivot: i128,
    divisor: Divisor,
    columns: usize,
}

impl Step {
    fn moved(&self, numbers: &Numbers, by: i128) -> Numbers {
        if let Some(out) = self.moved_short(numbers, by) {
            return out;
        }
        let mut out = [0; 9];
        for i in 0..self.columns {
            let number = self
                .pivot
                .wrapping_mul(numbers[i])
                .wrapping_sub(by.wrapping_mul(self.ray[i]));
            out[i] = self.divisor.quotient(number);
        }
        out
    }

    fn moved_short(&self, numbers: &Numbers, by: i128) -> Option<Numbers> {
        let (pivot, by) = (short(self.pivot)? as i128, short(by)? as i128);
        let mut out = [0; 9];
        for i in 0..self.columns {
            let left = pivot.wrapping_mul(short(numbers[i])? as i128);
            let number = left.wrapping_sub(by.wrapping_mul(short(self.ray[i])? as i128));
            out[i] = self.divisor.short_quotient(number)?;
        }
        Some(out)
    }
}

impl ActiveSet {
    fn start(columns: usize) -> ActiveSet {
        let mut rays = [[0; 9]; 9];
        for i in 0..9 {
            rays[i][i] = 1;
        }
        let no_row = Row {
            entries: [0; 9],
            len: 1,
            strict: false,
        };
        ActiveSet {
            columns,
            rays,
            places: [None; 9],
            rows: [no_row; 9],
            vertex: [0; 9],
            den: 1,
        }
    }

    fn adapt(&mut self, rows: &[Row]) {
        for column in 0..9 {
            if let Some(place) = self.places[column] {
                if place >= rows.len() {
                    self.places[column] = None;
                } else if rows[place] != self.rows[column] {
                    self.turn(column, rows[place]);
                }
            }
        }
    }

    fn turn(&mut self, column: usize, row: Row) {
        let old = self.rows[column];
        if opposite(&old, row.strict) != row {
            self.places[column] = None;
            return;
        }
        let ray = negated(&self.rays[column]);
        if old.strict {
            self.vertex = sum_of(&self.vertex, &ray);
        }
        if row.strict {
            self.vertex = sum_of(&self.vertex, &ray);
        }
        self.rays[column] = ray;
        self.rows[column] = row;
    }

    fn walk(&mut self, system: &System) -> Outcome {
        let columns = system.columns;
        if self.columns != columns {
            *self = ActiveSet::start(columns);
        }
        self.adapt(&system.rows);
        for _ in 0..TURNS {
            let numbers = &self.vertex[..columns];
            let small = point_over(numbers, 1).or_else(|| point_over(numbers, common_of(numbers)));
            let missed = match small {
                Some(point) => match system.rows.iter().position(|row| !meets(row, &point)) {
                    Some(place) => place,
                    None => return Outcome::Point(point),
                },
                None => match system.rows.iter().position(|row| !self.is_met(row)) {
                    Some(place) => place,
                    None => return Outcome::GaveUp,
                },
            };
            let row = &system.rows[missed];
            let mut values = [0; 9];
            for column in 0..columns {
                values[column] = value(row, &self.rays[column]);
            }
            let Some(column) = self.leaving(&values) else {
                return Outcome::Multiples(self.multiples_of(missed, &values));
            };
            self.pivot(missed, row, column, &values);
        }
        Outcome::GaveUp
    }

    fn is_met(&self, row: &Row) -> bool {
        let sum = value(row, &self.vertex);
        if row.strict { sum > 0 } else { sum >= 0 }
    }

    fn leaving(&self, values: &Numbers) -> Option<usize> {
        let mut least = usize::MAX;
        let mut best = None;
        for column in 0..self.columns {
            match self.places[column] {
                None => {
                    if values[column] != 0 {
                        return Some(column);
                    }
                }
                Some(place) => {
                    if values[column] > 0 && place < least {
                        least = place;
                        best = Some(column);
                    }
                }
            }
        }
        best
    }

    fn multiples_of(&self, missed: usize, values: &Numbers) -> [Multiple; 10] {
        let mut multiples = [Multiple {
            row: missed,
            number: self.den,
        }; 10];
        for column in 0..9 {
            multiples[column] = match self.places[column] {
                Some(row) => Multiple {
                    row,
                    number: values[column].wrapping_neg(),
                },
                None => Multiple { row: missed, number: 0 },
            };
        }
        multiples
    }

    fn pivot(&mut self, place: usize, row: &Row, column: usize, values: &Numbers) {
        let sum = value(row, &self.vertex);
        let by = if row.strict { sum.wrapping_sub(self.den) } else { sum };
        let mut ray = self.rays[column];
        let mut pivot = values[column];
        if pivot < 0 {
            ray = negated(&ray);
            pivot = pivot.wrapping_neg();
        }
        let step = Step {
            ray,
            pivot,
            divisor: Divisor::of(self.den),
            columns: self.columns,
        };
        for other in 0..self.columns {
            if other != column && (values[other] != 0 || pivot != self.den) {
                self.rays[other] = step.moved(&self.rays[other], values[other]);
            }
        }
        self.rays[column] = ray;
        self.vertex = step.moved(&self.vertex, by);
        self.den = pivot;
        self.places[column] = Some(place);
        self.rows[column] = *row;
    }
}

// ---- the solver
fn in_lowest_terms(system: &System, point: Point) -> Point {
    let mut numbers = [0i128; 9];
    for i in 0..point.len {
        numbers[i] = point.entries[i] as i128;
    }
    let common = common_of(&numbers);
    if common <= 1 {
        return point;
    }
    match point_over(&numbers[..point.len], common) {
        Some(least) if holds(system, &least) => least,
        _ => point,
    }
}

fn certificate_of(system: &System, multiples: &[Multiple; 10]) -> Option<Vec<i64>> {
    let mut multipliers = vec![0i64; system.rows.len()];
    let mut write_over = |divisor: u128| {
        for multiple in multiples {
            let Some(multiplier) = over(multiple.number, divisor) else {
                return false;
            };
            if multiplier != 0 && multiple.row < multipliers.len() {
                multipliers[multiple.row] = multiplier;
            }
        }
        true
    };
    let common = || common_of(&multiples.map(|multiple| multiple.number));
    if !write_over(1) && !write_over(common()) {
        return None;
    }
    check(system, &multipliers).then_some(multipliers)
}

fn solve(active: &mut ActiveSet, system: &System) -> Option<Verdict> {
    for _ in 0..2 {
        match active.walk(system) {
            Outcome::Point(point) => return Some(Verdict::Found(in_lowest_terms(system, point))),
            Outcome::Multiples(multiples) => {
                if let Some(certificate) = certificate_of(system, &multiples) {
                    return Some(Verdict::Refuted(certificate));
                }
            }
            Outcome::GaveUp => {}
        }
        *active = ActiveSet::start(system.columns);
    }
    None
}

fn decide(active: &mut ActiveSet, system: &System) -> Option<Option<Point>> {
    for _ in 0..2 {
        match active.walk(system) {
            Outcome::Point(point) => return Some(Some(in_lowest_terms(system, point))),
            Outcome::Multiples(multiples) if refutes(system, &multiples) => return Some(None),
            _ => {}
        }
        *active = ActiveSet::start(system.columns);
    }
    None
}

// ---- the systems of a maximum
struct Spread(u64);

impl Spread {
    fn number(&mut self, size: i64) -> i64 {
        self.0 ^= self.0 << 13;
        self.0 ^= self.0 >> 7;
        self.0 ^= self.0 << 17;
        (self.0 % (2 * size as u64 + 1)) as i64 - size
    }
}

fn difference(a: &[i64; 9], b: &[i64; 9], len: usize, strict: bool) -> Row {
    let mut entries = [0; 9];
    let mut common = 0;
    for i in 0..len {
        entries[i] = a[i] - b[i];
        common = gcd(common, entries[i].unsigned_abs());
    }
    for entry in &mut entries {
        *entry /= common.max(1) as i64;
    }
    Row { entries, len, strict }
}

struct Asking {
    active: ActiveSet,
    pieces: Vec<Vec<Row>>,
    asked: Vec<System>,
}

impl Asking {
    fn ask(&mut self, system: &System) -> Option<Point> {
        self.asked.push(system.clone());
        decide(&mut self.active, system).flatten()
    }

    // Takes the piece that holds at the point away from the region, and goes on with each part that is left.
    fn cover(&mut self, region: &mut System, point: Point) {
        let Some(index) = self
            .pieces
            .iter()
            .position(|rows| rows.iter().all(|row| meets(row, &point)))
        else {
            return;
        };
        let start = region.rows.len();
        for row in self.pieces[index].clone() {
            if self.asked.len() >= MOST_SYSTEMS {
                break;
            }
            region.rows.push(opposite(&row, true));
            if let Some(point) = self.ask(region) {
                self.cover(region, point);
            }
            region.rows.pop();
            region.rows.push(row);
        }
        region.rows.truncate(start);
    }
}

fn systems_of_maximum(columns: usize, size: i64, seed: u64) -> Vec<System> {
    let mut spread = Spread(seed);
    let mut forms: Vec<[i64; 9]> = Vec::new();
    while forms.len() < 10 {
        let mut form = [0; 9];
        for entry in &mut form[..columns] {
            *entry = spread.number(size);
        }
        if !forms.contains(&form) {
            forms.push(form);
        }
    }
    let above = |i: usize, j: usize, strict: bool| difference(&forms[i], &forms[j], columns, strict);
    let piece = |i: usize| (0..10).filter(|j| *j != i).map(|j| above(i, j, false)).collect();
    let pieces: Vec<Vec<Row>> = (0..10).map(piece).collect();
    let mut asking = Asking {
        active: ActiveSet::start(columns),
        pieces: pieces.clone(),
        asked: Vec::new(),
    };
    for i in 0..10 {
        for j in i + 1..10 {
            for last in [above(i, j, true), above(j, i, true)] {
                let rows = [&pieces[i][..], &pieces[j][..], &[last]].concat();
                asking.ask(&System { columns, rows });
            }
        }
    }
    let origin = Point {
        entries: [0; 9],
        len: columns,
    };
    asking.cover(
        &mut System {
            columns,
            rows: Vec::new(),
        },
        origin,
    );
    asking.asked
}

fn print(systems: &[System]) {
    for system in systems {
        let mut line = format!("{} {}", system.columns, system.rows.len());
        for row in &system.rows {
            line += if row.strict { " 1" } else { " 0" };
            for entry in &row.entries[..system.columns] {
                line += &format!(" {entry}");
            }
        }
        println!("{line}");
    }
}

// ---- the time
fn read(line: &str) -> System {
    let mut words = line.split(' ').map(|word| word.parse::<i64>().unwrap());
    let columns = words.next().unwrap() as usize;
    let count = words.next().unwrap();
    let mut rows = Vec::new();
    for _ in 0..count {
        let strict = words.next().unwrap() == 1;
        let mut entries = [0; 9];
        for entry in &mut entries[..columns] {
            *entry = words.next().unwrap();
        }
        rows.push(Row {
            entries,
            len: columns,
            strict,
        });
    }
    System { columns, rows }
}

// The nanoseconds of each system, the least of some rounds.
fn time(name: &str, systems: &[System], rounds: usize, answer: fn(&mut ActiveSet, &System) -> usize) {
    let mut best = u128::MAX;
    let mut counts = [0; 3];
    for _ in 0..rounds {
        counts = [0; 3];
        let mut active = ActiveSet::start(1);
        let from = Instant::now();
        for system in systems {
            counts[answer(&mut active, system)] += 1;
        }
        best = best.min(from.elapsed().as_nanos() / systems.len() as u128);
    }
    let [found, refuted, none] = counts;
    println!("{name}: found {found}, refuted {refuted}, no answer {none}, {best} nanoseconds each");
}

fn main() {
    let words: Vec<String> = std::env::args().skip(1).collect();
    if words[0] == "make" {
        let number = |i: usize| words[i].parse::<u64>().unwrap();
        print(&systems_of_maximum(number(1) as usize, number(2) as i64, number(3)));
        return;
    }
    let text = std::fs::read_to_string(&words[1]).unwrap();
    let systems: Vec<System> = text.lines().map(read).collect();
    let rounds = words.get(2).map_or(9, |word| word.parse().unwrap());
    time("solve", &systems, rounds, |active, system| {
        match black_box(solve(active, system)) {
            Some(Verdict::Found(_)) => 0,
            Some(Verdict::Refuted(_)) => 1,
            None => 2,
        }
    });
    time("decide", &systems, rounds, |active, system| {
        match black_box(decide(active, system)) {
            Some(Some(_)) => 0,
            Some(None) => 1,
            None => 2,
        }
    });
}
