//! The picture of a shelf and a plan as SVG: a row for each place, the diffs as bars over the gids, the volume's state, the
//! target, and the way that the plan takes from the one to the other.

mod axis;
mod layout;
mod svg;

use crate::words;
use layout::*;
use minnow::{DiffKind, Head, State, StateKind};
use svg::{circle, group, line, polygon, polyline, rect, shortened, text, titled, width, Point};

/// Log diffs are plain boxes, compared ones hatched with round ends; those of the plan are darker and framed.
const LOG_USED: &str = "fill=\"#2a6ab3\" stroke=\"#0b2f5b\" stroke-width=\"2\"";
const LOG: &str = "fill=\"#c5d8ee\" stroke=\"#6b8fb8\"";
const COMPARED_USED: &str = "fill=\"url(#used)\" stroke=\"#7a3d00\" stroke-width=\"2\"";
const COMPARED: &str = "fill=\"url(#unused)\" stroke=\"#c08a4a\"";

const INK: &str = "#1a1a1a";
const GREY: &str = "#595959";
const STATE_COLOUR: &str = "#00695c";
const STATE_LINE: &str = "stroke=\"#00695c\" stroke-dasharray=\"2 3\"";
const TARGET_COLOUR: &str = "#b00020";
const TARGET_LINE: &str = "stroke=\"#b00020\" stroke-width=\"1.5\" stroke-dasharray=\"7 3\"";
/// The way has a white rim, since it crosses bars and lines.
const WAY: &str = "stroke=\"#1a1a1a\" stroke-width=\"1.8\" stroke-linejoin=\"round\"";
const RIM: &str = "stroke=\"#ffffff\" stroke-width=\"3.8\" stroke-linejoin=\"round\"";

/// Pixels of a step of the axis that are few for a bar.
const SHORT: f64 = 14.0;

const HATCHING: &str = "<defs>\n\
    <pattern id=\"used\" width=\"5\" height=\"5\" patternUnits=\"userSpaceOnUse\" patternTransform=\"rotate(45)\">\
    <rect width=\"5\" height=\"5\" fill=\"#ffe0b8\"/><rect width=\"2.2\" height=\"5\" fill=\"#c05f00\"/></pattern>\n\
    <pattern id=\"unused\" width=\"5\" height=\"5\" patternUnits=\"userSpaceOnUse\" patternTransform=\"rotate(45)\">\
    <rect width=\"5\" height=\"5\" fill=\"#fffaf3\"/><rect width=\"1.3\" height=\"5\" fill=\"#dcae7a\"/></pattern>\n\
    </defs>\n";

/// Draws a shelf, and the plan over it if there is one. A missing name is left blank; a place that the shelf has not is left
/// out of the plan.
pub fn draw(
    shelf: &[Head],
    names: &[String],
    state: State,
    target: u64,
    plan: Option<&[usize]>,
) -> String {
    let layout = Layout::new(shelf, names, state, target, plan);
    let parts = [
        opening(&layout),
        stripes(&layout),
        grid(&layout),
        state_over_rows(&layout),
        bars(&layout, false),
        target_line(&layout),
        plan_over_bars(&layout),
        state_row(&layout),
        order(&layout),
        headings(&layout),
        legend(&layout),
        table(&layout),
        axis_labels(&layout),
    ];
    format!("{}</svg>\n", parts.concat())
}

fn opening(layout: &Layout) -> String {
    let (w, h) = (layout.width, layout.height());
    let size = format!("width=\"{w:.0}\" height=\"{h:.0}\" viewBox=\"0 0 {w:.0} {h:.0}\"");
    let xmlns = "xmlns=\"http://www.w3.org/2000/svg\"";
    let white = rect((0.0, 0.0), (w, h), "fill=\"#ffffff\"");
    let title = svg::title(&layout.title);
    format!("<svg {xmlns} {size} font-family=\"sans-serif\">\n{title}{HATCHING}{white}")
}

/// Every other row on grey, so that the eye stays in its row.
fn stripes(layout: &Layout) -> String {
    let grey = |place: usize| {
        let at = (MARGIN / 2.0, layout.y(place) - layout.row / 2.0);
        rect(at, (layout.width - MARGIN, layout.row), "fill=\"#f4f5f7\"")
    };
    (0..layout.shelf.len()).step_by(2).map(grey).collect()
}

/// The axis, a tick for each gid, and a line over the rows for those with a label.
fn grid(layout: &Layout) -> String {
    let (bottom, (left, right)) = (layout.bottom(), layout.bars());
    let mut lines = line((left, bottom), (right, bottom), "stroke=\"#1a1a1a\"");
    for gid in layout.axis.gids() {
        let x = layout.axis.x(*gid);
        let labelled = layout.labels.shown.contains(gid);
        let tick = if labelled { 6.0 } else { 3.0 };
        lines += &line((x, bottom), (x, bottom + tick), "stroke=\"#1a1a1a\"");
        if labelled {
            lines += &line((x, ROWS_Y), (x, bottom), "stroke=\"#dcdfe4\"");
        }
    }
    lines
}

/// The state's gids over the rows: a band where the bytes may be of any gid in it, its ends alone where it is a pair.
fn state_over_rows(layout: &Layout) -> String {
    let (b, e) = (layout.axis.x(layout.state.b), layout.axis.x(layout.state.e));
    let (top, height) = (ROWS_Y, layout.bottom() - ROWS_Y);
    let mut band = String::new();
    if layout.state.kind != StateKind::Pair {
        let style = format!("fill=\"{STATE_COLOUR}\" fill-opacity=\"0.10\"");
        band += &rect((b, top), ((e - b).max(0.0), height), &style);
    }
    for x in [b, e] {
        band += &line((x, STATE_Y), (x, top + height), STATE_LINE);
    }
    band
}

fn target_line(layout: &Layout) -> String {
    let x = layout.axis.x(layout.target);
    let top = COLUMNS_Y + 5.0;
    let said = format!("target {}", layout.target);
    let half = width(&said, LABEL_SIZE * BOLD) / 2.0;
    let (left, right) = layout.bars();
    let middle = x.min(right - half).max(left + half);
    let style = format!(
        "font-size=\"{LABEL_SIZE}\" font-weight=\"bold\" text-anchor=\"middle\" fill=\"{TARGET_COLOUR}\""
    );
    let points = [(x - 5.0, top), (x + 5.0, top), (x, top + 8.0)];
    let content = [
        line((x, top), (x, layout.bottom()), TARGET_LINE),
        polygon(&points, &format!("fill=\"{TARGET_COLOUR}\"")),
        text((middle, COLUMNS_Y), &style, &said),
    ];
    titled(&format!("target gid {}", layout.target), &content.concat())
}

/// A bar with its upper left corner at `at`.
fn bar(kind: DiffKind, used: bool, at: Point, size: Point) -> String {
    let style = match (kind, used) {
        (DiffKind::Log, false) => LOG,
        (DiffKind::Log, true) => LOG_USED,
        (DiffKind::Compared, false) => COMPARED,
        (DiffKind::Compared, true) => COMPARED_USED,
    };
    match kind {
        DiffKind::Log => rect(at, size, style),
        DiffKind::Compared => rect(at, size, &format!("rx=\"{:.1}\" {style}", size.1 / 2.0)),
    }
}

/// The bars that the plan uses, or those that it does not.
fn bars(layout: &Layout, used: bool) -> String {
    let height = layout.row * if used { 0.7 } else { 0.5 };
    let mut bars = String::new();
    for (place, head) in layout.shelf.iter().enumerate() {
        if layout.order(place).is_some() != used {
            continue;
        }
        let (from, to) = (layout.axis.x(head.p), layout.axis.x(head.q));
        let at = (from, layout.y(place) - height / 2.0);
        let drawn = bar(head.kind, used, at, ((to - from).max(1.0), height));
        bars += &titled(&about(layout, place), &drawn);
    }
    bars
}

/// The plan's bars with the way along them; it goes behind bars that are so short that it would hide them.
fn plan_over_bars(layout: &Layout) -> String {
    match layout.axis.step() < SHORT {
        true => way(layout) + &bars(layout, true),
        false => bars(layout, true) + &way(layout),
    }
}

/// A place in full, as a bar and its row say it when they are pointed at.
fn about(layout: &Layout, place: usize) -> String {
    let (name, head) = (&layout.names[place], words::head(&layout.shelf[place]));
    match layout.order(place) {
        Some(order) => format!("{place}: {name}: {head}; number {order} of the plan"),
        None => format!("{place}: {name}: {head}"),
    }
}

fn way(layout: &Layout) -> String {
    let points = layout.way();
    let end = match points.as_slice() {
        [_, .., end] => end,
        _ => return String::new(),
    };
    let ends = format!("fill=\"{INK}\" stroke=\"#ffffff\" stroke-width=\"1.5\"");
    let content = polyline(&points, RIM) + &polyline(&points, WAY) + &circle(*end, 5.0, &ends);
    titled("the way of the volume along the plan", &content)
}

fn diamond(x: f64, y: f64) -> String {
    let points = [(x - 6.0, y), (x, y - 6.0), (x + 6.0, y), (x, y + 6.0)];
    let style = format!("fill=\"{STATE_COLOUR}\" stroke=\"#ffffff\"");
    polygon(&points, &style)
}

/// From b to e: a band, or for a pair a broken line since nothing lies between its ends.
fn state_band(kind: StateKind, b: f64, e: f64, y: f64) -> String {
    match kind {
        StateKind::Pair => {
            let style =
                format!("stroke=\"{STATE_COLOUR}\" stroke-width=\"2\" stroke-dasharray=\"4 4\"");
            line((b, y), (e, y), &style)
        }
        StateKind::Settled | StateKind::Span => {
            let style = format!("fill=\"{STATE_COLOUR}\" fill-opacity=\"0.45\"");
            rect((b, y - 3.0), ((e - b).max(0.0), 6.0), &style)
        }
    }
}

/// Which of b, t and e stand together: names and where they stand beside their mark.
fn state_names(state: State) -> Vec<(&'static str, u64, &'static str)> {
    let State { b, t, e, .. } = state;
    match (b == t, t == e) {
        (true, true) => vec![("b = t = e", e, "start")],
        (true, false) => vec![("b = t", b, "end"), ("e", e, "start")],
        (false, true) => vec![("b", b, "end"), ("t = e", e, "start")],
        (false, false) => vec![("b", b, "end"), ("t", t, "middle"), ("e", e, "start")],
    }
}

fn state_row(layout: &Layout) -> String {
    let state = layout.state;
    let (b, e) = (layout.axis.x(state.b), layout.axis.x(state.e));
    let mut content = state_band(state.kind, b, e, STATE_Y);
    for (name, gid, anchor) in state_names(state) {
        let x = layout.axis.x(gid);
        let at = match anchor {
            "end" => (x - 10.0, STATE_Y + 4.0),
            "start" => (x + 10.0, STATE_Y + 4.0),
            _ => (x, STATE_Y - 9.0),
        };
        let style =
            format!("text-anchor=\"{anchor}\" font-size=\"{LABEL_SIZE}\" fill=\"{STATE_COLOUR}\"");
        content += &diamond(x, STATE_Y);
        content += &on_white(at, &style, name);
    }
    let size = layout.size;
    let style = format!("font-size=\"{size}\" font-weight=\"bold\" fill=\"{STATE_COLOUR}\"");
    content += &text((MARGIN, STATE_Y + size * 0.35), &style, &said_state(state));
    titled(&said_state(state), &content)
}

/// A text with a white rim, for where lines may pass.
fn on_white(at: Point, style: &str, words: &str) -> String {
    let rim = "stroke=\"#ffffff\" stroke-width=\"4\" stroke-linejoin=\"round\"";
    text(at, &format!("{rim} {style}"), words) + &text(at, style, words)
}

/// A number on black with its right end at `right`.
fn badge(right: f64, y: f64, number: usize, height: f64) -> String {
    let (number, size) = (number.to_string(), height * 0.75);
    let wide = (width(&number, size * BOLD) + 4.0).max(height);
    let style = format!(
        "rx=\"{:.1}\" fill=\"{INK}\" stroke=\"#ffffff\"",
        height / 2.0
    );
    let words = format!(
        "text-anchor=\"middle\" font-size=\"{size:.1}\" font-weight=\"bold\" fill=\"#ffffff\""
    );
    let at = (right - wide, y - height / 2.0);
    rect(at, (wide, height), &style) + &text((right - wide / 2.0, y + size * 0.36), &words, &number)
}

/// The numbers of the plan, before their bars.
fn order(layout: &Layout) -> String {
    let height = (layout.row - 4.0).min(17.0);
    let number = |(at, place): (usize, &usize)| {
        let right = layout.axis.x(layout.shelf[*place].p) - 4.0;
        badge(right, layout.y(*place), at + 1, height)
    };
    layout
        .plan
        .iter()
        .flatten()
        .enumerate()
        .map(number)
        .collect()
}

fn headings(layout: &Layout) -> String {
    let title = format!("font-size=\"{TITLE_SIZE}\" font-weight=\"bold\" fill=\"{INK}\"");
    let colour = match layout.plan {
        Some(_) => INK,
        None => TARGET_COLOUR,
    };
    let plan = format!("font-size=\"{PLAN_SIZE}\" font-weight=\"bold\" fill=\"{colour}\"");
    text((MARGIN, TITLE_Y), &title, &layout.title)
        + &text((MARGIN, PLAN_Y), &plan, &said_plan(layout))
}

fn said_plan(layout: &Layout) -> String {
    let target = layout.target;
    match layout.plan.as_deref() {
        None => format!("no plan reaches gid {target}"),
        Some([]) => format!("plan: nothing to do, clean at {target} already"),
        Some(places) => {
            let list: Vec<String> = places.iter().map(usize::to_string).collect();
            let whole = format!("plan: {}", list.join(", "));
            let room = layout.width - 2.0 * MARGIN;
            match width(&whole, PLAN_SIZE * BOLD) <= room {
                true => whole,
                false => format!(
                    "plan: {} diffs, in the order of their numbers",
                    places.len()
                ),
            }
        }
    }
}

/// What a sign means, how wide it is, and how it is drawn from its left end on.
type Sign = (&'static str, f64, fn(f64) -> String);

fn signs(plan: Option<&[usize]>) -> Vec<Sign> {
    let mut signs: Vec<Sign> = vec![
        ("log diff", 30.0, |x| {
            bar(DiffKind::Log, false, (x, LEGEND_Y - 7.0), (30.0, 14.0))
        }),
        ("compared diff", 30.0, |x| {
            bar(DiffKind::Compared, false, (x, LEGEND_Y - 7.0), (30.0, 14.0))
        }),
    ];
    if plan.map_or(false, |plan| !plan.is_empty()) {
        signs.push(("in the plan, with its turn", 90.0, sign_of_plan));
        signs.push(("way of the volume", 30.0, sign_of_way));
    }
    signs.push(("volume's state", 40.0, sign_of_state));
    signs.push(("target", 30.0, |x| {
        line((x, LEGEND_Y), (x + 30.0, LEGEND_Y), TARGET_LINE)
    }));
    signs
}

/// The signs, one behind the other.
fn legend(layout: &Layout) -> String {
    let (mut x, mut content) = (MARGIN, String::new());
    for (words, wide, sign) in signs(layout.plan.as_deref()) {
        content += &sign(x);
        content += &text((x + wide + 6.0, LEGEND_Y + 4.0), "", words);
        x += wide + 6.0 + width(words, LABEL_SIZE) + 20.0;
    }
    group(
        &format!("font-size=\"{LABEL_SIZE}\" fill=\"{INK}\""),
        &content,
    )
}

fn sign_of_state(x: f64) -> String {
    let (b, e) = (x + 6.0, x + 34.0);
    state_band(StateKind::Span, b, e, LEGEND_Y) + &diamond(b, LEGEND_Y) + &diamond(e, LEGEND_Y)
}

fn sign_of_plan(x: f64) -> String {
    let top = LEGEND_Y - 8.0;
    badge(x + 16.0, LEGEND_Y, 1, 15.0)
        + &bar(DiffKind::Log, true, (x + 20.0, top), (32.0, 16.0))
        + &bar(DiffKind::Compared, true, (x + 58.0, top), (32.0, 16.0))
}

fn sign_of_way(x: f64) -> String {
    let points = [
        (x, LEGEND_Y - 6.0),
        (x + 15.0, LEGEND_Y - 6.0),
        (x + 15.0, LEGEND_Y + 6.0),
        (x + 30.0, LEGEND_Y + 6.0),
    ];
    polyline(&points, WAY)
}

/// Place, file, kind, gids and blocks to the left of each bar.
fn table(layout: &Layout) -> String {
    let columns = &layout.columns;
    let headings = [
        cell(columns.place, COLUMNS_Y, "end", "place"),
        cell(columns.file, COLUMNS_Y, "start", "file"),
        cell(columns.kind, COLUMNS_Y, "start", "kind"),
        cell(columns.arrow, COLUMNS_Y, "middle", "p → q"),
        cell(columns.blocks, COLUMNS_Y, "end", "blocks"),
    ];
    let rows: String = (0..layout.shelf.len())
        .map(|place| table_row(layout, place))
        .collect();
    let size = layout.size;
    let mut content = group(
        &format!("font-size=\"{LABEL_SIZE}\" fill=\"{GREY}\""),
        &headings.concat(),
    );
    content += &group(&format!("font-size=\"{size}\" fill=\"{INK}\""), &rows);
    if layout.shelf.is_empty() {
        let y = ROWS_Y + layout.row * 0.65;
        let style = format!("font-size=\"{size}\" fill=\"{GREY}\"");
        content += &text((MARGIN, y), &style, "the shelf is empty");
    }
    content
}

fn cell(x: f64, y: f64, anchor: &str, words: &str) -> String {
    text((x, y), &format!("text-anchor=\"{anchor}\""), words)
}

fn table_row(layout: &Layout, place: usize) -> String {
    let (columns, head) = (&layout.columns, &layout.shelf[place]);
    let y = layout.y(place) + layout.size * 0.35;
    let name = shortened(&layout.names[place], layout.size * BOLD, FILE_ROOM);
    let weight = match layout.order(place) {
        Some(_) => "font-weight=\"bold\"",
        None => "font-weight=\"normal\"",
    };
    let named = [
        cell(columns.place, y, "end", &place.to_string()),
        cell(columns.file, y, "start", &name),
    ];
    let cells = [
        group(weight, &named.concat()),
        cell(columns.kind, y, "start", words::kind(head)),
        cell(columns.arrow - layout.size, y, "end", &head.p.to_string()),
        cell(columns.arrow, y, "middle", "→"),
        cell(columns.arrow + layout.size, y, "start", &head.q.to_string()),
        cell(columns.blocks, y, "end", &head.n.to_string()),
    ];
    titled(&about(layout, place), &cells.concat())
}

fn axis_labels(layout: &Layout) -> String {
    let y = layout.bottom() + 8.0 + LABEL_SIZE;
    let mut content = String::new();
    for gid in &layout.labels.shown {
        let x = layout.axis.x(*gid);
        let turn = match layout.labels.turned {
            true => format!(
                "text-anchor=\"end\" transform=\"rotate(-45 {:.1} {y:.1})\"",
                x + 4.0
            ),
            false => "text-anchor=\"middle\"".to_string(),
        };
        let at = if layout.labels.turned {
            (x + 4.0, y)
        } else {
            (x, y)
        };
        let weight = match *gid == layout.target {
            true => format!("font-weight=\"bold\" fill=\"{TARGET_COLOUR}\""),
            false => String::new(),
        };
        content += &text(at, &format!("{turn} {weight}"), &gid.to_string());
    }
    let style = format!("text-anchor=\"end\" fill=\"{GREY}\"");
    let at = (layout.width - MARGIN, layout.axis_title_y());
    content += &text(at, &style, axis_title(layout));
    group(
        &format!("font-size=\"{LABEL_SIZE}\" fill=\"{INK}\""),
        &content,
    )
}

fn axis_title(layout: &Layout) -> &'static str {
    match layout.labels.shown.len() == layout.axis.gids().len() {
        true => "gid by rank: an equal step for each gid that occurs, not to scale",
        false => "gid by rank: an equal step for each gid that occurs, not to scale; some labels left out",
    }
}

#[cfg(test)]
mod tests {
    use super::*;
    use minnow::{MAX_GID, PLACES};

    fn diff(kind: DiffKind, p: u64, q: u64) -> Head {
        Head { kind, p, q, n: 1 }
    }

    /// The paper's shelf.
    fn shelf() -> Vec<Head> {
        vec![
            diff(DiffKind::Log, 0, 4),
            diff(DiffKind::Compared, 4, 9),
            diff(DiffKind::Log, 4, 6),
            diff(DiffKind::Log, 6, 9),
        ]
    }

    fn names(count: usize) -> Vec<String> {
        (0..count).map(|place| format!("s{place}")).collect()
    }

    /// As many gids as can be, the last of them the largest, each diff with two of its own.
    fn full_shelf() -> Vec<Head> {
        let gid = |rank: u64| MAX_GID - (2 * PLACES as u64 - 1 - rank) * 1_000_003;
        let head = |place: u64| diff(DiffKind::Log, gid(2 * place), gid(2 * place + 1));
        (0..PLACES as u64).map(head).collect()
    }

    /// Elements that are opened and not closed, innermost last; text and attributes hold no markup.
    #[track_caller]
    fn assert_well_formed(svg: &str) {
        let mut open: Vec<&str> = Vec::new();
        for part in svg.split('<').skip(1) {
            let (tag, text) = part.split_once('>').expect("an end of the tag");
            assert!(
                !text.contains('>') && tag.matches('"').count() % 2 == 0,
                "{part}"
            );
            let name = tag.split_whitespace().next().expect("a name");
            match name.strip_prefix('/') {
                Some(closed) => assert_eq!(open.pop(), Some(closed)),
                None if !tag.ends_with('/') => open.push(name),
                None => {}
            }
        }
        assert!(open.is_empty(), "{open:?}");
    }

    /// The values of an attribute, in order.
    fn values<'a>(svg: &'a str, attribute: &str) -> Vec<&'a str> {
        let before = format!(" {attribute}=\"");
        let values = svg.split(&before).skip(1);
        values.filter_map(|rest| rest.split('"').next()).collect()
    }

    #[test]
    fn every_size_of_shelf_has_numbers_within_the_picture() {
        let full = full_shelf();
        let states = [
            State::clean(0),
            State::settled(0, MAX_GID),
            State::span(1, 5, MAX_GID),
            State::pair(3, 4),
            State::clean(MAX_GID),
        ];
        for count in [0, 1, 3, 13, 41, PLACES] {
            for state in states {
                for target in [0, 9, MAX_GID] {
                    let plan: Vec<usize> = (0..count).collect();
                    let svg = draw(&full[..count], &names(count), state, target, Some(&plan));
                    assert_well_formed(&svg);
                    assert!(!svg.contains("NaN") && !svg.contains("inf"), "{svg}");
                    let wide: f64 = values(&svg, "width")[0].parse().expect("a width");
                    assert!(wide <= 1400.0);
                    for x in values(&svg, "x").iter().chain(&values(&svg, "x2")) {
                        let x: f64 = x.parse().expect("a number");
                        assert!((0.0..=wide).contains(&x), "{x} of {wide}");
                    }
                    assert!(values(&svg, "height")
                        .iter()
                        .all(|height| !height.starts_with('-')));
                }
            }
        }
    }

    #[test]
    fn one_gid_in_all_is_drawn() {
        let svg = draw(&[], &[], State::clean(7), 7, Some(&[]));
        assert_well_formed(&svg);
        assert!(svg.contains("plan: nothing to do, clean at 7 already"));
        assert!(svg.contains("the shelf is empty"));
        assert!(!svg.contains("NaN") && !svg.contains("<polyline"));
    }

    /// The paper's plan from dirty 0,0,5: the way leaves the state's b and turns at each q.
    #[test]
    fn the_way_goes_from_the_state_along_each_diff_to_the_target() {
        let (shelf, state) = (shelf(), State::settled(0, 5));
        let plan = [0, 2, 3];
        let layout = Layout::new(&shelf, &names(4), state, 9, Some(&plan));
        let x = |gid| layout.axis.x(gid);
        let points = [
            (x(0), STATE_Y),
            (x(0), layout.y(0)),
            (x(4), layout.y(0)),
            (x(4), layout.y(2)),
            (x(6), layout.y(2)),
            (x(6), layout.y(3)),
            (x(9), layout.y(3)),
        ];
        let svg = draw(&shelf, &names(4), state, 9, Some(&plan));
        assert!(svg.contains(&polyline(&points, WAY)), "{svg}");
        assert_eq!(
            svg.matches(LOG_USED).count(),
            3 + 1,
            "three and the legend's"
        );
        assert!(svg.contains("2: s2: log 4 to 6, 1 block; number 2 of the plan"));
        assert!(svg.contains("plan: 0, 2, 3"));
    }

    #[test]
    fn without_a_plan_the_picture_says_so() {
        let svg = draw(&shelf(), &names(4), State::clean(0), 5, None);
        assert!(svg.contains("no plan reaches gid 5"));
        assert!(
            !svg.contains("<polyline") && !svg.contains(LOG_USED) && !svg.contains(COMPARED_USED)
        );
        assert_eq!(svg.matches(LOG).count(), 3 + 1, "three and the legend's");
        assert_eq!(svg.matches(COMPARED).count(), 1 + 1, "one and the legend's");
    }

    #[test]
    fn the_state_is_named_and_its_gids_are_marked() {
        let rows = [
            (State::clean(4), "volume: clean 4", vec!["b = t = e"]),
            (
                State::settled(4, 10),
                "volume: dirty 4,4,10",
                vec!["b = t", "e"],
            ),
            (
                State::span(4, 8, 10),
                "volume: span 4,8,10",
                vec!["b", "t", "e"],
            ),
            (State::pair(7, 9), "volume: pair 7,9,9", vec!["b", "t = e"]),
        ];
        for (state, said, marks) in rows {
            let svg = draw(&shelf(), &names(4), state, 12, None);
            assert!(svg.contains(&format!(">{said}</text>")), "{said}");
            for mark in marks {
                assert!(svg.contains(&format!(">{mark}</text>")), "{said}: {mark}");
            }
        }
    }

    #[test]
    fn names_can_hold_anything() {
        let name = "<svg onload=\"x\">&amp;\u{1b}\u{ffff}\0.diff".to_string();
        let svg = draw(&shelf(), &[name], State::clean(0), 9, Some(&[0, 1, 99]));
        assert_well_formed(&svg);
        assert!(
            svg.contains("&lt;svg onload=&quot;x&quot;&gt;&amp;amp;\\u{1b}\\u{ffff}\\u{0}.diff")
        );
        assert!(svg.chars().all(|c| c == '\n' || !c.is_control()));
        assert_eq!(
            svg,
            draw(
                &shelf(),
                &["<svg onload=\"x\">&amp;\u{1b}\u{ffff}\0.diff".to_string()],
                State::clean(0),
                9,
                Some(&[0, 1])
            )
        );
    }

    #[test]
    fn a_long_plan_is_counted_and_a_crowded_axis_says_that_labels_are_missing() {
        let plan: Vec<usize> = (0..PLACES).collect();
        let svg = draw(
            &full_shelf(),
            &names(PLACES),
            State::clean(0),
            MAX_GID,
            Some(&plan),
        );
        assert!(svg.contains("plan: 96 diffs, in the order of their numbers"));
        assert!(svg.contains("some labels left out"));
        assert!(svg.contains(">96</text>"));
        let few = draw(&shelf(), &names(4), State::clean(0), 9, None);
        assert!(few.contains("gid by rank") && !few.contains("left out"));
    }
}
