//! Where everything in the picture stands: heights above the rows, columns to the left of the bars, and the axis under them.

use super::axis::{Axis, Labels};
use super::svg::{visible, width, Point};
use crate::words;
use minnow::{Head, State};

pub const MARGIN: f64 = 20.0;
const MAX_WIDTH: f64 = 1400.0;
/// Between two columns.
const GAP: f64 = 14.0;
pub const FILE_ROOM: f64 = 200.0;
/// Beside the bars, for the numbers of the plan and the names of the state's gids.
const LEFT_ROOM: f64 = 56.0;
const RIGHT_ROOM: f64 = 76.0;
/// The bars' room: at least, and for each step of the axis if there is so much.
const MIN_BARS: f64 = 520.0;
const STEP: f64 = 44.0;

/// Baselines and middles of what stands above the rows.
pub const TITLE_Y: f64 = 32.0;
pub const PLAN_Y: f64 = 56.0;
pub const LEGEND_Y: f64 = 82.0;
pub const COLUMNS_Y: f64 = 118.0;
pub const STATE_Y: f64 = 150.0;
pub const ROWS_Y: f64 = 170.0;

/// Heights of letters.
pub const TITLE_SIZE: f64 = 16.0;
pub const PLAN_SIZE: f64 = 14.0;
pub const LABEL_SIZE: f64 = 11.0;
/// How much wider bold letters are.
pub const BOLD: f64 = 1.12;

/// The columns of the table.
pub struct Columns {
    /// Right edge.
    pub place: f64,
    /// Left edges.
    pub file: f64,
    pub kind: f64,
    /// Middle; p ends before it, q starts behind it.
    pub arrow: f64,
    /// Right edge.
    pub blocks: f64,
    /// Where the table ends, and with it the words about the state.
    end: f64,
}

impl Columns {
    fn new(shelf: &[Head], names: &[String], state: State, size: f64) -> Columns {
        let column = |heading, size, cell: &dyn Fn(usize) -> String| {
            let cells = (0..shelf.len()).map(|place| width(&cell(place), size));
            cells.fold(width(heading, LABEL_SIZE), f64::max)
        };
        let bold = size * BOLD;
        let places = column("place", bold, &|place| place.to_string());
        let files = column("file", bold, &|place| names[place].clone());
        let kinds = column("kind", size, &|place| {
            words::kind(&shelf[place]).to_string()
        });
        let p = column("p", size, &|place| shelf[place].p.to_string());
        let q = column("q", size, &|place| shelf[place].q.to_string());
        let blocks = column("blocks", size, &|place| shelf[place].n.to_string());

        let place = MARGIN + places;
        let file = place + GAP;
        let kind = file + files.min(FILE_ROOM) + GAP;
        let arrow = kind + kinds + GAP + p + size;
        let blocks = arrow + size + q + GAP + blocks;
        let stated = MARGIN + width(&said_state(state), bold);
        Columns {
            place,
            file,
            kind,
            arrow,
            blocks,
            end: blocks.max(stated),
        }
    }
}

pub fn said_state(state: State) -> String {
    format!("volume: {state}")
}

/// What is drawn, and where it goes.
pub struct Layout<'a> {
    pub shelf: &'a [Head],
    /// As they are shown, one for each place.
    pub names: Vec<String>,
    pub state: State,
    pub target: u64,
    /// Places of the shelf.
    pub plan: Option<Vec<usize>>,
    pub title: String,
    pub columns: Columns,
    pub axis: Axis,
    pub labels: Labels,
    pub width: f64,
    /// Heights of a row and of its letters.
    pub row: f64,
    pub size: f64,
}

impl<'a> Layout<'a> {
    pub fn new(
        shelf: &'a [Head],
        names: &[String],
        state: State,
        target: u64,
        plan: Option<&[usize]>,
    ) -> Layout<'a> {
        let (row, size) = row_and_size(shelf.len());
        let name = |place: usize| visible(names.get(place).map_or("", String::as_str));
        let names: Vec<String> = (0..shelf.len()).map(name).collect();
        let there = |places: &[usize]| -> Vec<usize> {
            let places = places.iter().copied();
            places.filter(|place| *place < shelf.len()).collect()
        };
        let title = title(shelf.len(), state, target);
        let columns = Columns::new(shelf, &names, state, size);
        let gids = gids(shelf, state, target);
        let left = columns.end + LEFT_ROOM;
        let width = whole_width(left, gids.len(), &title);
        let axis = Axis::new(gids, left, width - RIGHT_ROOM - MARGIN);
        let first = [target, state.b, state.e, state.t];
        Layout {
            shelf,
            names,
            state,
            target,
            plan: plan.map(there),
            title,
            columns,
            labels: axis.labels(&first, LABEL_SIZE),
            axis,
            width,
            row,
            size,
        }
    }

    /// The middle of a place's row.
    pub fn y(&self, place: usize) -> f64 {
        ROWS_Y + self.row * (place as f64 + 0.5)
    }

    /// The lower end of the rows; an empty shelf has room for a sentence.
    pub fn bottom(&self) -> f64 {
        ROWS_Y + self.row * self.shelf.len().max(1) as f64
    }

    /// Left and right edge of the bars' room.
    pub fn bars(&self) -> (f64, f64) {
        (self.columns.end + GAP, self.width - MARGIN)
    }

    /// The baseline of the axis' title.
    pub fn axis_title_y(&self) -> f64 {
        let labels = match self.labels.turned {
            true => self.labels.widest * std::f64::consts::FRAC_1_SQRT_2 + LABEL_SIZE,
            false => LABEL_SIZE,
        };
        self.bottom() + 8.0 + labels + 22.0
    }

    pub fn height(&self) -> f64 {
        self.axis_title_y() + MARGIN
    }

    /// The way of the volume's b: from where it stands down to the first diff, along it to its q, and so on.
    pub fn way(&self) -> Vec<Point> {
        let mut x = self.axis.x(self.state.b);
        let mut points = vec![(x, STATE_Y)];
        for place in self.plan.iter().flatten() {
            let y = self.y(*place);
            points.push((x, y));
            x = self.axis.x(self.shelf[*place].q);
            points.push((x, y));
        }
        points
    }

    /// Which diff of the plan a place is, from 1.
    pub fn order(&self, place: usize) -> Option<usize> {
        let at = self.plan.as_ref()?.iter().position(|used| *used == place)?;
        Some(at + 1)
    }
}

/// Smaller where there are many.
fn row_and_size(count: usize) -> (f64, f64) {
    match count {
        0..=12 => (28.0, 13.0),
        13..=40 => (22.0, 12.0),
        _ => (17.0, 11.0),
    }
}

fn title(count: usize, state: State, target: u64) -> String {
    let diffs = words::count(count as u64, "diff");
    format!("Shelf of {diffs}, volume {state}, target gid {target}")
}

fn gids(shelf: &[Head], state: State, target: u64) -> Vec<u64> {
    let ends = shelf.iter().flat_map(|head| [head.p, head.q]);
    ends.chain([state.b, state.t, state.e, target]).collect()
}

/// As wide as the bars and the title need, up to a limit.
fn whole_width(left: f64, gids: usize, title: &str) -> f64 {
    let bars = (STEP * gids as f64).max(MIN_BARS);
    let needed = left + bars + RIGHT_ROOM + MARGIN;
    let titled = width(title, TITLE_SIZE * BOLD) + 2.0 * MARGIN;
    needed.max(titled).min(MAX_WIDTH)
}
