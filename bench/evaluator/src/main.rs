// A plain interpreter of the node table, written as one would by hand: a recursive function over the
// rows, with vectors for bindings and cells. It makes the runs of crates/evaluator_speed.
mod table;

#[derive(Clone, Copy)]
pub struct Row {
    pub letter: char,
    pub a: i64,
    pub b: i64,
    pub c: i64,
    pub d: i64,
    pub e: i64,
}

#[derive(Clone, Copy)]
enum Value {
    Number(i32),
    Closure { node: usize, scope: usize },
    Reference(usize),
}

#[derive(Clone, Copy)]
struct Binding {
    function: usize,
    value: Value,
    outer: usize,
}

#[derive(Clone, Copy)]
struct Cell {
    #[allow(dead_code)]
    site: usize,
    value: Value,
}

#[derive(Debug)]
#[allow(dead_code)]
enum Stop {
    Fuel,
    Pending,
    Bindings,
    Cells,
    Stuck(usize),
}

struct Run<'a> {
    nodes: &'a [Row],
    fuel: usize,
    steps: usize,
    most_cells: usize,
    bindings: Vec<Binding>,
    cells: Vec<Cell>,
}

impl Run<'_> {
    fn before(&self, part: usize) -> usize {
        part - self.nodes[part].b as usize
    }

    fn look_up(&self, function: usize, mut scope: usize) -> Option<Value> {
        while scope > 0 {
            let b = self.bindings[scope - 1];
            if b.function == function {
                return Some(b.value);
            }
            scope = b.outer;
        }
        None
    }

    fn eval(&mut self, i: usize, scope: usize, places: usize) -> Result<Value, Stop> {
        if self.steps == self.fuel {
            return Err(Stop::Fuel);
        }
        if places == 0 {
            return Err(Stop::Pending);
        }
        self.steps += 1;
        let row = self.nodes[i];
        let argument = row.e as usize;
        match row.a {
            0 => Ok(Value::Number(row.e as i32)),
            1 => self.look_up(argument, scope).ok_or(Stop::Stuck(i)),
            2 => Ok(Value::Closure { node: i, scope }),
            3 => {
                let f = self.eval(self.before(i - 1), scope, places - 1)?;
                let value = self.eval(i - 1, scope, places - 1)?;
                let Value::Closure { node, scope: outer } = f else {
                    return Err(Stop::Stuck(i));
                };
                if self.bindings.len() == 1024 {
                    return Err(Stop::Bindings);
                }
                self.bindings.push(Binding { function: node, value, outer });
                let inner = self.bindings.len();
                self.eval(node - 1, inner, places - 1)
            }
            4 => {
                let value = self.eval(i - 1, scope, places - 1)?;
                if self.cells.len() == self.most_cells {
                    return Err(Stop::Cells);
                }
                self.cells.push(Cell { site: argument, value });
                Ok(Value::Reference(self.cells.len() - 1))
            }
            5 => Ok(Value::Reference(argument)),
            6 => match self.eval(i - 1, scope, places - 1)? {
                Value::Reference(a) if a < self.cells.len() => Ok(self.cells[a].value),
                _ => Err(Stop::Stuck(i)),
            },
            7 => {
                let target = self.eval(self.before(i - 1), scope, places - 1)?;
                let value = self.eval(i - 1, scope, places - 1)?;
                match target {
                    Value::Reference(a) if a < self.cells.len() => {
                        self.cells[a].value = value;
                        Ok(value)
                    }
                    _ => Err(Stop::Stuck(i)),
                }
            }
            8 => {
                let middle = self.before(i - 1);
                match self.eval(self.before(middle), scope, places - 1)? {
                    Value::Number(0) => self.eval(i - 1, scope, places - 1),
                    Value::Number(_) => self.eval(middle, scope, places - 1),
                    _ => Err(Stop::Stuck(i)),
                }
            }
            9 => {
                let a = self.eval(self.before(i - 1), scope, places - 1)?;
                let b = self.eval(i - 1, scope, places - 1)?;
                match (a, b) {
                    (Value::Number(a), Value::Number(b)) => Ok(Value::Number(operate(argument, a, b))),
                    _ => Err(Stop::Stuck(i)),
                }
            }
            _ => Err(Stop::Stuck(i)),
        }
    }
}

fn operate(argument: usize, a: i32, b: i32) -> i32 {
    match argument {
        0 => a.saturating_add(b),
        1 => a.saturating_sub(b),
        2 => a.saturating_mul(b),
        3 => {
            if b == 0 {
                0
            } else {
                a.checked_div(b).unwrap_or(i32::MAX)
            }
        }
        4 => (a < b) as i32,
        _ => (a == b) as i32,
    }
}

// The places for bindings and cells, made once, outside the clock, as the machine's work areas are.
struct Areas {
    bindings: Vec<Binding>,
    cells: Vec<Cell>,
}

fn trial(rows: &[Row], entry: usize, fuel: usize, areas: Areas) -> (Result<Value, Stop>, usize, Areas) {
    let count = |letter| rows.iter().filter(|r| r.letter == letter).count();
    let (types, sites, nodes) = (count('T'), count('S'), count('N'));
    let first = types + sites;
    let root = rows[first + nodes + entry].b as usize;
    let mut run = Run {
        nodes: &rows[first..first + nodes],
        fuel,
        steps: 0,
        most_cells: sites + 512,
        bindings: areas.bindings,
        cells: areas.cells,
    };
    run.bindings.clear();
    run.cells.clear();
    for site in 0..sites {
        run.cells.push(Cell { site, value: Value::Number(0) });
    }
    let outcome = run.eval(root, 0, 1024);
    let steps = run.steps;
    (outcome, steps, Areas { bindings: run.bindings, cells: run.cells })
}

fn main() {
    let rows = std::hint::black_box(table::ROWS);
    let (mut steps, mut shortest) = (0, u128::MAX);
    let mut areas = Areas { bindings: Vec::with_capacity(1024), cells: Vec::with_capacity(544) };
    for _ in 0..100 {
        let start = std::time::Instant::now();
        let (outcome, made, back) = std::hint::black_box(trial(&rows, 0, 1_000_000, areas));
        areas = back;
        shortest = shortest.min(start.elapsed().as_nanos());
        if outcome.is_ok() {
            steps += made;
        }
    }
    println!("{steps} steps");
    eprintln!("one trial: {shortest} ns");
}
