//! A word graph drawn as SVG: places along a line, and above it each word in a lane of its own between its places.
//!
//! A drawing that is too wide goes on in another row, at the same place; a word over that place is drawn in both rows.

use super::escaped;
use crate::commands::list::Listed;
use spireyerba::text::NamedGrammar;
use spireyerba::{Edge, Graph};
use std::fmt::Write;

/// Lengths in units of the drawing, of which a character is about `CHARACTER` wide.
const CHARACTER: f64 = 7.6;
/// What a word's label takes beside its characters.
const LABEL_PADDING: f64 = 12.0;
/// What a word's lane takes beside its label: the bends up to it and down from it.
const BENDS: f64 = 26.0;
/// From one place to the next at least.
const LEAST_STEP: f64 = 34.0;
/// From one lane to the next, and from the line to the first.
const LANE: f64 = 24.0;
const FIRST_LANE: f64 = 30.0;
/// A row is at most so wide between its first and its last place, but for one with two places.
const ROW_WIDTH: f64 = 880.0;
/// A row has a part of that at least, so that there is a choice of where it ends.
const LEAST_ROW: f64 = 0.6 * ROW_WIDTH;
/// How far a word goes on behind the last place of a row, and what stands beside a row.
const OVERHANG: f64 = 30.0;
const MARGIN: f64 = 44.0;
const RADIUS: f64 = 11.0;
/// From the line down to the times.
const TIME_LINE: f64 = 28.0;
/// Between words in a lane.
const GAP: f64 = 4.0;
/// What a label hides of lines behind it.
const LABEL_HEIGHT: f64 = 17.0;
/// From the middle of a label to its baseline.
const BASELINE: f64 = 4.5;

/// The drawing of a word graph, in which the first reading's path is marked.
pub fn svg(listed: &Listed, graph: &Graph) -> String {
    let path = listed.readings.first().map_or(&[][..], |first| first.edges());
    let drawing = Drawing { named: &listed.grammar.named, graph, path, times: listed.times.as_deref() };
    let xs = drawing.positions();
    let rows = drawing.rows(&xs);
    let mut svg = String::new();
    let (mut top, mut width) = (0.0_f64, 0.0_f64);
    for row in rows {
        let segments = drawing.segments(&xs, row);
        let lanes = segments.iter().map(|segment| segment.lane + 1).max().unwrap_or(1);
        let line = top + FIRST_LANE + lanes as f64 * LANE;
        drawing.draw(&mut svg, &segments, (row, &xs), line);
        top = line + if drawing.times.is_some() { TIME_LINE + RADIUS } else { 2.0 * RADIUS };
        width = width.max(xs[row.1] - xs[row.0] + 2.0 * MARGIN);
    }
    format!(
        "<svg class=\"lattice\" viewBox=\"0 0 {width:.0} {top:.0}\" width=\"{width:.0}\" height=\"{top:.0}\" role=\"img\" \
         aria-label=\"word graph\">\n{svg}</svg>\n"
    )
}

struct Drawing<'a> {
    named: &'a NamedGrammar,
    graph: &'a Graph,
    /// The edges of the first reading.
    path: &'a [u32],
    /// When each place was reached, if that is known.
    times: Option<&'a [f64]>,
}

/// The part of an edge that stands in a row.
struct Segment {
    number: u32,
    edge: Edge,
    /// From where to where it goes, and the middle of its label, if it has one in this row.
    ends: [f64; 2],
    label: Option<f64>,
    /// Lanes are counted upwards from the line.
    lane: usize,
}

/// The first and the last place of a row.
type Row = (usize, usize);

impl Drawing<'_> {
    fn label(&self, edge: Edge) -> String {
        match edge.is_offered() {
            true => format!("{} {}", self.named.word(edge.word), edge.cost),
            false => self.named.word(edge.word).to_owned(),
        }
    }

    fn label_width(&self, edge: Edge) -> f64 {
        self.label(edge).chars().count() as f64 * CHARACTER + LABEL_PADDING
    }

    /// Where each place stands on the line: as far apart as the words between them need, and where times are known no less than
    /// in proportion to them.
    fn positions(&self) -> Vec<f64> {
        let narrow = self.stretched(|_| 0.0);
        let (Some(times), Some(width)) = (self.times, narrow.last()) else { return narrow };
        let (first, last) = (times[0], times[times.len() - 1]);
        let scale = if last > first { width / (last - first) } else { 0.0 };
        self.stretched(|place| (times[place] - first) * scale)
    }

    fn stretched(&self, least: impl Fn(usize) -> f64) -> Vec<f64> {
        let mut xs: Vec<f64> = vec![0.0];
        for place in 1..self.graph.places as usize {
            let ending = self.graph.edges.iter().filter(|edge| edge.to as usize == place);
            let needed = ending.map(|edge| xs[edge.from as usize] + self.label_width(*edge) + BENDS);
            xs.push(needed.fold((xs[place - 1] + LEAST_STEP).max(least(place)), f64::max));
        }
        xs
    }

    /// The rows, each of which ends where few words go on.
    fn rows(&self, xs: &[f64]) -> Vec<Row> {
        let (mut rows, mut first, last) = (Vec::new(), 0, xs.len() - 1);
        while xs[last] - xs[first] > ROW_WIDTH {
            let width = |place: &usize| xs[*place] - xs[first];
            let ends = (first + 1..last).take_while(|place| width(place) <= ROW_WIDTH);
            let (near, far): (Vec<usize>, Vec<usize>) = ends.partition(|place| width(place) < LEAST_ROW);
            let end = far.into_iter().rev().min_by_key(|place| self.over(*place));
            let Some(end) = end.or(near.last().copied()).or((first + 1 < last).then_some(first + 1)) else { break };
            rows.push((first, end));
            first = end;
        }
        rows.push((first, last));
        rows
    }

    /// How many words go over a place.
    fn over(&self, place: usize) -> usize {
        let goes_over = |edge: &&Edge| (edge.from as usize) < place && place < edge.to as usize;
        self.graph.edges.iter().filter(goes_over).count()
    }

    /// The parts of edges in a row, each in a lane where nothing else stands: those of the first reading next to the line, then
    /// the shorter ones first.
    fn segments(&self, xs: &[f64], row: Row) -> Vec<Segment> {
        let is_in_row = |edge: &Edge| (edge.to as usize) > row.0 && (edge.from as usize) < row.1;
        let edges = (0..).zip(self.graph.edges.iter().copied()).filter(|(_, edge)| is_in_row(edge));
        let mut segments: Vec<Segment> = edges.map(|(number, edge)| self.segment(xs, row, number, edge)).collect();
        let length = |segment: &Segment| (segment.ends[1] - segment.ends[0]) as u64;
        segments.sort_by_key(|segment| (!self.path.contains(&segment.number), length(segment), segment.edge.cost));
        let mut lanes: Vec<Vec<[f64; 2]>> = Vec::new();
        for segment in &mut segments {
            let needed = segment.extent(self.label_width(segment.edge));
            let is_free =
                |lane: &Vec<[f64; 2]>| lane.iter().all(|taken| needed[1] <= taken[0] || taken[1] <= needed[0]);
            segment.lane = lanes.iter().position(is_free).unwrap_or(lanes.len());
            match lanes.get_mut(segment.lane) {
                Some(lane) => lane.push(needed),
                None => lanes.push(vec![needed]),
            }
        }
        segments
    }

    /// The part of an edge in a row. It has its label there if there is room, or in no other row more of it.
    fn segment(&self, xs: &[f64], row: Row, number: u32, edge: Edge) -> Segment {
        let [from, to] = [edge.from as usize, edge.to as usize];
        let ends = [xs[from].max(xs[row.0] - OVERHANG), xs[to].min(xs[row.1] + OVERHANG)];
        let has_room = ends[1] - ends[0] >= self.label_width(edge);
        let is_longest = (ends[1] - ends[0]) * 2.0 >= xs[to] - xs[from];
        let half = self.label_width(edge) / 2.0;
        let middle =
            ((ends[0] + ends[1]) / 2.0).clamp(xs[row.0] - MARGIN + half, (xs[row.1] + MARGIN - half).max(xs[row.0]));
        Segment { number, edge, ends, label: (has_room || is_longest).then_some(middle), lane: 0 }
    }

    fn draw(&self, svg: &mut String, segments: &[Segment], (row, xs): (Row, &[f64]), line: f64) {
        let x = |at: f64| at - xs[row.0] + MARGIN;
        let [begin, end] = [row.0, row.1].map(|place| x(xs[place]));
        put(
            svg,
            format_args!("<line x1=\"{begin:.1}\" y1=\"{line:.1}\" x2=\"{end:.1}\" y2=\"{line:.1}\" class=\"leaf\"/>"),
        );
        // what is marked stands over the rest
        for segment in segments.iter().rev() {
            let y = line - FIRST_LANE - segment.lane as f64 * LANE;
            let is_open = [(segment.edge.from as usize) < row.0, segment.edge.to as usize > row.1];
            let class = self.class(segment);
            put(svg, format_args!("<path{class} d=\"{}\"/>", curve(segment.ends.map(x), is_open, y, line)));
        }
        for segment in segments {
            if let Some(label) = segment.label {
                self.draw_label(svg, segment, x(label), line - FIRST_LANE - segment.lane as f64 * LANE);
            }
        }
        (row.0..=row.1).for_each(|place| self.draw_place(svg, place, x(xs[place]), line));
    }

    fn class(&self, segment: &Segment) -> &'static str {
        match (self.path.contains(&segment.number), segment.edge.is_offered()) {
            (true, _) => " class=\"taken\"",
            (false, true) => "",
            (false, false) => " class=\"unheard\"",
        }
    }

    fn draw_label(&self, svg: &mut String, segment: &Segment, x: f64, y: f64) {
        let Edge { from, to, word, cost } = segment.edge;
        let (name, class) = (escaped(self.named.word(word)), self.class(segment));
        let cost = match segment.edge.is_offered() {
            true => format!("<tspan class=\"small\" dx=\"4\">{cost}</tspan>"),
            false => String::new(),
        };
        let (width, top) = (self.label_width(segment.edge), y - LABEL_HEIGHT / 2.0);
        let left = x - width / 2.0;
        put(svg, format_args!("<rect x=\"{left:.1}\" y=\"{top:.1}\" width=\"{width:.1}\" height=\"{LABEL_HEIGHT}\"/>"));
        let (y, number) = (y + BASELINE, segment.number);
        let title = format!("edge {number}: {from} to {to}");
        put(svg, format_args!("<text{class} x=\"{x:.1}\" y=\"{y:.1}\"><title>{title}</title>{name}{cost}</text>"));
    }

    fn draw_place(&self, svg: &mut String, place: usize, x: f64, line: f64) {
        put(svg, format_args!("<circle cx=\"{x:.1}\" cy=\"{line:.1}\" r=\"{RADIUS}\"/>"));
        put(svg, format_args!("<text class=\"place\" x=\"{x:.1}\" y=\"{:.1}\">{place}</text>", line + BASELINE));
        if let Some(times) = self.times {
            let (time, y) = (times[place], line + TIME_LINE);
            put(svg, format_args!("<text class=\"small\" x=\"{x:.1}\" y=\"{y:.1}\">{time:.2}</text>"));
        }
    }
}

impl Segment {
    /// What it takes of its lane, with a label of this width.
    fn extent(&self, label_width: f64) -> [f64; 2] {
        let [from, to] = self.ends;
        let half = self.label.map_or(0.0, |_| label_width / 2.0 + GAP);
        let middle = self.label.unwrap_or(from);
        [from.min(middle - half), to.max(middle + half)]
    }
}

/// From the line up to a lane, along it, and down to the line; an open end stays in its lane.
fn curve([from, to]: [f64; 2], [is_open_left, is_open_right]: [bool; 2], y: f64, line: f64) -> String {
    let bend = BENDS / 2.0;
    let mut curve = match is_open_left {
        true => format!("M{from:.1} {y:.1}"),
        false => format!("M{from:.1} {line:.1}C{from:.1} {y:.1} {from:.1} {y:.1} {:.1} {y:.1}", from + bend),
    };
    curve += &match is_open_right {
        true => format!("H{to:.1}"),
        false => format!("H{:.1}C{to:.1} {y:.1} {to:.1} {y:.1} {to:.1} {line:.1}", to - bend),
    };
    curve
}

fn put(svg: &mut String, element: std::fmt::Arguments) {
    writeln!(svg, "{element}").expect("a string takes all");
}
