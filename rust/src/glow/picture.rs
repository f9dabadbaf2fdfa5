//! The picture: falloff curves, and under them on the same axis the glow beside a lit edge.

use super::colour::{relative, srgb, strongest};
use super::light::Light;
use super::recipe::Recipe;
use super::scale::{power_of_ten, Decades, Ticks};
use super::svg::Svg;
use super::words::{self, CHANNELS, FAINT};
use gauzespar::Refusal;

const WIDTH: f64 = 900.0;
/// The edge: distance 0 of both panels.
const EDGE: f64 = 160.0;
const RIGHT: f64 = 860.0;
/// Where the strips begin, on the lit side.
const LEFT: f64 = 40.0;

const CURVES_TOP: f64 = 104.0;
const CURVES_BOTTOM: f64 = 374.0;
const SEEN_TOP: f64 = 474.0;
const SEEN_HEIGHT: f64 = 64.0;
const BARS_TOP: f64 = 572.0;
const BAR_PITCH: f64 = 20.0;
const TINT_TOP: f64 = 666.0;
const TINT_HEIGHT: f64 = 34.0;
const FOOTER_TOP: f64 = 766.0;
const FOOTER_PITCH: f64 = 18.0;

const INK: &str = "#222222";
const GREY: &str = "#595959";
const GRID: &str = "#e2e2e2";
/// Keeps near-white colours apart from the page.
const BORDER: &str = r##"stroke="#bbbbbb" stroke-width="1""##;
/// Colours of the curves, and dashes that tell them apart without colour.
const LINES: [(&str, &str); 3] = [("#c4161c", "none"), ("#14803c", "11 5"), ("#1c4fc4", "2.5 4.5")];

/// Pixels between the colours of a strip; between them the renderer blends.
const STOP_PITCH: f64 = 5.0;
const CURVE_POINTS: usize = 160;
/// About how many tick marks stand along the radius.
const TICKS: usize = 8;

pub fn draw(recipe: &Recipe, light: &Light) -> Result<String, Refusal> {
    let stands = format!("{}; {}.", words::record(light.record()), words::stood_on(light));
    let footer = [vec![stands], words::cautions(recipe, light)].concat();
    let height = FOOTER_TOP + FOOTER_PITCH * footer.len() as f64;
    let mut picture = Picture { svg: Svg::new(WIDTH, height, &recipe.name), recipe, light };
    picture.heading();
    picture.curves()?;
    picture.glow();
    for (line, text) in footer.iter().enumerate() {
        picture.text(LEFT, FOOTER_TOP + FOOTER_PITCH * line as f64, &small(GREY, "start"), text);
    }
    Ok(picture.svg.finish())
}

struct Picture<'a> {
    svg: Svg,
    recipe: &'a Recipe,
    light: &'a Light,
}

impl Picture<'_> {
    fn x(&self, distance: f64) -> f64 {
        EDGE + distance / self.recipe.range.to * (RIGHT - EDGE)
    }

    fn distance(&self, x: f64) -> f64 {
        (x - EDGE) / (RIGHT - EDGE) * self.recipe.range.to
    }

    fn text(&mut self, x: f64, y: f64, style: &str, text: &str) {
        self.svg.with_text("text", &format!(r#"x="{x:.1}" y="{y:.1}" {style}"#), text);
    }

    fn line(&mut self, from: (f64, f64), to: (f64, f64), style: &str) {
        let ((x1, y1), (x2, y2)) = (from, to);
        self.svg.empty("line", &format!(r#"x1="{x1:.1}" y1="{y1:.1}" x2="{x2:.1}" y2="{y2:.1}" {style}"#));
    }

    fn heading(&mut self) {
        let size = title_size(&self.recipe.name);
        self.text(LEFT, 38.0, &format!(r#"font-size="{size:.1}" font-weight="bold" fill="{INK}""#), &self.recipe.name);
        self.text(LEFT, 62.0, &small(GREY, "start"), "How far light spreads below the surface before it leaves again");
        for channel in 0..CHANNELS.len() {
            self.legend(channel, EDGE + 190.0 * channel as f64, 88.0);
        }
        self.swatch();
    }

    /// The colour of the silicone far from any edge, where the white of the page stands for a surface that gives back all light.
    fn swatch(&mut self) {
        let colour = srgb(self.totals());
        let (width, height) = (120.0, 40.0);
        let x = RIGHT - width;
        self.svg.empty("rect", &format!(r#"x="{x}" y="20" width="{width}" height="{height}" fill="{colour}" {BORDER}"#));
        self.text(x - 10.0, 37.0, &small(GREY, "end"), "in even light,");
        self.text(x - 10.0, 53.0, &small(GREY, "end"), "against white");
    }

    fn legend(&mut self, channel: usize, x: f64, y: f64) {
        let albedo = self.light.coefficients().rho()[channel];
        self.line((x, y - 4.0), (x + 34.0, y - 4.0), &stroke(channel));
        self.text(x + 42.0, y, &small(INK, "start"), &format!("{}, albedo {albedo:.3}", CHANNELS[channel]));
    }
}

/// The upper panel.
impl Picture<'_> {
    fn curves(&mut self) -> Result<(), Refusal> {
        let to = self.recipe.range.to;
        let radii: Vec<f32> = (1..=CURVE_POINTS).map(|i| (to * (i as f64 / CURVE_POINTS as f64).powi(2)) as f32).collect();
        let falloff = self.light.falloff(&radii)?;
        let decades = self.decades()?;
        self.value_axis(decades);
        self.distance_axis(0.0, CURVES_BOTTOM, CURVES_TOP, "radius");
        self.svg.open("clipPath", r#"id="panel""#);
        let (width, height) = (RIGHT - EDGE, CURVES_BOTTOM - CURVES_TOP);
        self.svg.empty("rect", &format!(r#"x="{EDGE}" y="{CURVES_TOP}" width="{width}" height="{height}""#));
        self.svg.close("clipPath");
        self.svg.open("g", r#"clip-path="url(#panel)" fill="none""#);
        for channel in 0..CHANNELS.len() {
            let points = radii.iter().zip(&falloff).map(|(&r, value)| (f64::from(r), f64::from(value[channel])));
            let path = self.path(points, decades);
            self.svg.empty("path", &format!(r#"d="{path}" {}"#, stroke(channel)));
        }
        self.svg.close("g");
        Ok(())
    }

    /// The decades of the radiance, from a little way off radius 0, near which it is far larger, to the last radius.
    fn decades(&self) -> Result<Decades, Refusal> {
        let to = self.recipe.range.to;
        let near = self.light.at((to / 50.0) as f32)?.map(f64::from);
        let far = self.light.at(to as f32)?.map(f64::from);
        Ok(Decades::around(strongest(near), far.into_iter().fold(f64::INFINITY, f64::min)))
    }

    fn value_axis(&mut self, decades: Decades) {
        for power in decades.low..=decades.high {
            let y = height(decades, 10f64.powi(power));
            self.line((EDGE, y), (RIGHT, y), &format!(r#"stroke="{GRID}""#));
            self.line((EDGE - 5.0, y), (EDGE, y), &format!(r#"stroke="{INK}""#));
            self.text(EDGE - 10.0, y + 4.0, &small(INK, "end"), &power_of_ten(power));
        }
        let middle = (CURVES_TOP + CURVES_BOTTOM) / 2.0;
        let turned = format!(r#"transform="rotate(-90 {} {middle})" {}"#, EDGE - 74.0, small(INK, "middle"));
        let unit = self.recipe.unit.name;
        self.text(EDGE - 74.0, middle, &turned, &format!("radiance (1/{unit}²)"));
        self.line((EDGE, CURVES_TOP), (EDGE, CURVES_BOTTOM), &format!(r#"stroke="{INK}""#));
    }

    /// A line with ticks from a distance to the right end, light lines up to `top`, and a title.
    fn distance_axis(&mut self, from: f64, y: f64, top: f64, title: &str) {
        let to = self.recipe.range.to;
        let ticks = Ticks::along(to, TICKS);
        let decimals = ticks.decimals;
        for place in ticks.places(from, to) {
            let x = self.x(place);
            self.line((x, top), (x, y), &format!(r#"stroke="{GRID}""#));
            self.line((x, y), (x, y + 5.0), &format!(r#"stroke="{INK}""#));
            self.text(x, y + 20.0, &small(INK, "middle"), &format!("{place:.decimals$}"));
        }
        self.line((self.x(from), y), (RIGHT, y), &format!(r#"stroke="{INK}""#));
        let unit = self.recipe.unit.name;
        self.text((EDGE + RIGHT) / 2.0, y + 40.0, &small(INK, "middle"), &format!("{title} ({unit})"));
    }

    /// The points as a path, which breaks off where there is no light.
    fn path(&self, points: impl Iterator<Item = (f64, f64)>, decades: Decades) -> String {
        let mut path = String::new();
        let mut command = 'M';
        for (radius, value) in points {
            if value > 0.0 {
                path += &format!("{command}{:.1} {:.1}", self.x(radius), height(decades, value));
                command = 'L';
            } else {
                command = 'M';
            }
        }
        path
    }
}

/// The lower panel.
impl Picture<'_> {
    fn glow(&mut self) {
        let white = strongest(self.totals());
        self.text(
            LEFT,
            440.0,
            &format!(r#"font-size="15" font-weight="bold" fill="{INK}""#),
            "The glow beside a straight lit edge",
        );
        self.text(LEFT, SEEN_TOP - 10.0, &small(GREY, "start"), "lit side");
        self.text(EDGE + 8.0, SEEN_TOP - 10.0, &small(GREY, "start"), &exposure(white));
        self.strip("seen", SEEN_TOP, SEEN_HEIGHT, |light| relative(light, white));
        let reach = format!("where each colour has fallen to {} % of the lit side's", FAINT * 100.0);
        self.text(EDGE + 8.0, BARS_TOP - 10.0, &small(GREY, "start"), &reach);
        for channel in 0..CHANNELS.len() {
            self.bar(channel);
        }
        self.text(
            EDGE + 8.0,
            TINT_TOP - 10.0,
            &small(GREY, "start"),
            "its tint alone, each place brightened until one channel is full",
        );
        self.strip("tint", TINT_TOP, TINT_HEIGHT, |light| relative(light, strongest(light)));
        let bottom = TINT_TOP + TINT_HEIGHT;
        self.distance_axis(self.distance(LEFT), bottom, bottom, "distance from the edge");
        self.line((EDGE, SEEN_TOP - 22.0), (EDGE, bottom), &format!(r#"stroke="{INK}" stroke-dasharray="3 3""#));
    }

    fn totals(&self) -> [f64; 3] {
        std::array::from_fn(|channel| self.light.profiles()[channel].total())
    }

    fn edge_glow(&self, distance: f64) -> [f64; 3] {
        std::array::from_fn(|channel| self.light.profiles()[channel].edge_glow(distance))
    }

    fn strip(&mut self, id: &str, top: f64, height: f64, shown: impl Fn([f64; 3]) -> [f64; 3]) {
        let width = RIGHT - LEFT;
        let stops = (width / STOP_PITCH) as usize;
        self.svg.open("linearGradient", &format!(r#"id="{id}""#));
        for i in 0..=stops {
            let share = i as f64 / stops as f64;
            let colour = srgb(shown(self.edge_glow(self.distance(LEFT + width * share))));
            self.svg.empty("stop", &format!(r#"offset="{share:.4}" stop-color="{colour}""#));
        }
        self.svg.close("linearGradient");
        self.svg.empty("rect", &format!(r#"x="{LEFT}" y="{top}" width="{width}" height="{height}" fill="url(#{id})" {BORDER}"#));
    }

    /// How far one channel goes until it is faint; a point where that is beyond the axis.
    fn bar(&mut self, channel: usize) {
        let y = BARS_TOP + BAR_PITCH * channel as f64;
        let distance = self.light.profiles()[channel].distance_of(FAINT);
        let shown = words::distance(distance, self.recipe.unit);
        self.text(EDGE - 8.0, y + 11.0, &small(INK, "end"), &format!("{} {shown}", CHANNELS[channel]));
        let end = self.x(distance.unwrap_or(0.0));
        let width = end.min(RIGHT) - EDGE;
        let colour = LINES[channel].0;
        self.svg.empty("rect", &format!(r#"x="{EDGE}" y="{y}" width="{width:.1}" height="13" fill="{colour}""#));
        if end > RIGHT {
            self.svg.empty("path", &format!(r#"d="M{RIGHT} {y}l12 6.5l-12 6.5z" fill="{colour}""#));
        }
    }
}

/// Letters as large as a title's should be, or smaller where the name would reach the swatch.
fn title_size(name: &str) -> f64 {
    let room = 550.0;
    let letter = 0.72;
    (room / (letter * name.len() as f64)).min(22.0)
}

fn exposure(white: f64) -> String {
    if white > 0.0 {
        format!("dark side, as it looks when exposed for the lit side ({} times brighter)", words::significant(1.0 / white))
    } else {
        String::from("dark side: no light comes back")
    }
}

fn small(colour: &str, anchor: &str) -> String {
    format!(r#"font-size="13" fill="{colour}" text-anchor="{anchor}""#)
}

fn stroke(channel: usize) -> String {
    let (colour, dashes) = LINES[channel];
    format!(r#"stroke="{colour}" stroke-width="2.5" stroke-dasharray="{dashes}""#)
}

fn height(decades: Decades, value: f64) -> f64 {
    CURVES_BOTTOM - decades.share(value) * (CURVES_BOTTOM - CURVES_TOP)
}
