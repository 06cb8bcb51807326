//! A scene on an axis, as the text of an SVG.

use crate::axis::{Axis, LEFT, ROOM};
use crate::element::{line, plain_box, titled_box, words};
use crate::scene::{Mark, Scene, Window, Work};
use timed_network::Verdict;

const WIDTH: f64 = 1000.0;
/// The first row's top, a row's height, the height of its boxes.
const TOP: f64 = 66.0;
const ROW: f64 = 56.0;
const BOX: f64 = 30.0;
/// Words that are to be read on any ground.
const HALO: &str = "paint-order=\"stroke\" stroke=\"#fff\" stroke-width=\"3\"";
/// The colour of what is at fault.
const RED: &str = "#b00020";

/// The fills, which differ without colour too: sends dark, receives hatched,
/// internal work pale; and the head of an arrow.
const DEFINITIONS: &str = "<defs>
<pattern id=\"receive\" width=\"7\" height=\"7\" patternUnits=\"userSpaceOnUse\" \
    patternTransform=\"rotate(45)\"><rect width=\"7\" height=\"7\" fill=\"#fff\"/>\
    <rect width=\"2.5\" height=\"7\" fill=\"#c77700\"/></pattern>
<marker id=\"head\" viewBox=\"0 0 8 8\" refX=\"7\" refY=\"4\" \
    markerWidth=\"7\" markerHeight=\"7\" orient=\"auto\"><path d=\"M0 0L8 4L0 8z\"/></marker>
</defs>
";

/// The whole drawing.
pub fn whole(scene: &Scene, axis: &Axis) -> String {
    let height = TOP + ROW * f64::from(scene.components) + 36.0;
    let mut text = format!(
        "<svg xmlns=\"http://www.w3.org/2000/svg\" width=\"{WIDTH}\" height=\"{height}\" viewBox=\"0 0 {WIDTH} {height}\" \
        font-family=\"sans-serif\" font-size=\"12\">\n"
    );
    text += DEFINITIONS;
    text += &plain_box([0.0, 0.0, WIDTH, height], "fill=\"#fff\"");
    text += &words((12.0, 22.0), "font-size=\"15\"", &heading(scene, axis));
    text += &legend(scene);
    text += &ticks(scene, axis);
    text += &rows(scene);
    text += &shared(scene, axis);
    text.extend(scene.windows.iter().map(|window| window_box(window, axis)));
    text.extend(
        scene
            .messages()
            .into_iter()
            .map(|(send, taken)| arrow(send, taken, axis)),
    );
    text.extend(
        scene
            .windows
            .iter()
            .map(|window| remark(scene, window, axis)),
    );
    text + "</svg>\n"
}

fn heading(scene: &Scene, axis: &Axis) -> String {
    let shown = format!(
        "ticks {} to {}, horizon {}",
        axis.from, axis.to, scene.horizon
    );
    match scene.verdict {
        Verdict::Accepted => format!("Schedule, {shown}"),
        Verdict::Refused { number, component } => {
            format!("Refused: {number}, component {component}. The windows that met, {shown}")
        }
    }
}

/// Which fill means what.
fn legend(scene: &Scene) -> String {
    let mut text = String::new();
    for (place, work) in [Work::Send, Work::Receive, Work::Internal]
        .into_iter()
        .enumerate()
    {
        let x = LEFT + 100.0 * place as f64;
        text += &plain_box([x, 34.0, 22.0, 13.0], &looks(work, Mark::Plain));
        text += &words((x + 28.0, 45.0), "", work.name());
    }
    let x = LEFT + 300.0;
    if scene.verdict == Verdict::Accepted {
        text += &line(
            (x, 41.0),
            (x + 22.0, 41.0),
            "stroke=\"#000\" marker-end=\"url(#head)\"",
        );
        text += &words((x + 28.0, 45.0), "", "message");
    } else {
        text += &plain_box(
            [x, 34.0, 22.0, 13.0],
            &format!("fill=\"{RED}\" fill-opacity=\"0.2\""),
        );
        text += &words((x + 28.0, 45.0), "", "ticks that they share");
    }
    text + &words((LEFT + 480.0, 45.0), "", "e: edge, c: channel")
}

/// The top and the middle of a component's boxes.
fn top(component: u32) -> f64 {
    TOP + ROW * f64::from(component) + (ROW - BOX) / 2.0
}

fn middle(component: u32) -> f64 {
    top(component) + BOX / 2.0
}

/// Lines and numbers at the axis, and the horizon.
fn ticks(scene: &Scene, axis: &Axis) -> String {
    let bottom = TOP + ROW * f64::from(scene.components);
    let mut text = String::new();
    for tick in axis.numbered() {
        let x = axis.start(tick);
        text += &line((x, TOP), (x, bottom), "stroke=\"#ddd\"");
        let centre = x + if axis.unit() > 14.0 {
            axis.unit() / 2.0
        } else {
            0.0
        };
        text += &words(
            (centre, bottom + 16.0),
            "text-anchor=\"middle\"",
            &tick.to_string(),
        );
    }
    text += &line((LEFT, bottom), (LEFT + ROOM, bottom), "stroke=\"#000\"");
    text += &words((LEFT - 8.0, bottom + 16.0), "text-anchor=\"end\"", "tick");
    if (axis.from..=axis.to).contains(&scene.horizon) {
        let x = axis.start(scene.horizon);
        text += &line(
            (x, TOP - 4.0),
            (x, bottom),
            "stroke=\"#000\" stroke-dasharray=\"2 3\"",
        );
        text += &words((x, TOP - 8.0), "text-anchor=\"middle\"", "horizon");
    }
    text
}

fn rows(scene: &Scene) -> String {
    let row = |component: u32| {
        let y = middle(component);
        let name = words(
            (12.0, y + 5.0),
            "font-size=\"15\" font-weight=\"bold\"",
            &format!("C{component}"),
        );
        name + &line((LEFT, y), (LEFT + ROOM, y), "stroke=\"#888\"")
    };
    (0..scene.components).map(row).collect()
}

/// How a box of some work looks.
fn looks(work: Work, mark: Mark) -> String {
    let fill = match work {
        Work::Send => "#123f66",
        Work::Receive => "url(#receive)",
        Work::Internal => "#eee",
    };
    let stroke = match mark {
        Mark::Plain => "stroke=\"#222\"".to_string(),
        Mark::Fault => format!("stroke=\"{RED}\" stroke-width=\"4\""),
        Mark::Met => format!("stroke=\"{RED}\" stroke-width=\"3\" stroke-dasharray=\"7 4\""),
    };
    format!("fill=\"{fill}\" {stroke}")
}

/// All that is known of a window, in words.
fn title(window: &Window) -> String {
    let channel = match window.message {
        Some(channel) => format!(", channel {channel}"),
        None => String::new(),
    };
    format!(
        "component {}, edge {}, from location {}: {}{channel}, ticks {} to {}, entered at {}",
        window.component,
        window.edge,
        window.location,
        window.work.name(),
        window.ready,
        window.end,
        window.entry
    )
}

fn window_box(window: &Window, axis: &Axis) -> String {
    let Some((x, width)) = axis.window(window) else {
        return String::new();
    };
    let place = [x, top(window.component), width, BOX];
    // Of a narrow box the frame would be all that is seen.
    let narrow = window.mark == Mark::Plain && width < 6.0;
    let thin = if narrow { " stroke-width=\"0.2\"" } else { "" };
    let drawn = titled_box(
        place,
        &(looks(window.work, window.mark) + thin),
        &title(window),
    );
    drawn + &label(window, x + width / 2.0, width)
}

/// Edge and channel, where they have room.
fn label(window: &Window, centre: f64, width: f64) -> String {
    let said = match window.message {
        Some(channel) => format!("e{} c{channel}", window.edge),
        None => format!("e{}", window.edge),
    };
    if width < 7.0 * said.len() as f64 + 4.0 {
        return String::new();
    }
    let ground = match window.work {
        Work::Send => "fill=\"#fff\"".to_string(),
        _ => HALO.to_string(),
    };
    let looks = format!("text-anchor=\"middle\" {ground}");
    words((centre, middle(window.component) + 4.5), &looks, &said)
}

/// From the middle of the send window down or up to the listener's box.
fn arrow(send: &Window, taken: &Window, axis: &Axis) -> String {
    let Some((x, width)) = axis.window(send) else {
        return String::new();
    };
    let (from, to) = if send.component < taken.component {
        (top(send.component) + BOX, top(taken.component))
    } else {
        (top(send.component), top(taken.component) + BOX)
    };
    let x = x + width / 2.0;
    line(
        (x, from),
        (x, to),
        "stroke=\"#000\" stroke-width=\"1.5\" marker-end=\"url(#head)\"",
    )
}

/// The ticks that the window at fault shares with each that it meets.
fn shared(scene: &Scene, axis: &Axis) -> String {
    let Some(fault) = scene.fault() else {
        return String::new();
    };
    let met = scene
        .windows
        .iter()
        .filter(|window| window.mark == Mark::Met);
    let column = |met: &Window| {
        let (first, last) = fault.shared(met)?;
        let (x, width) = axis.part(first, last)?;
        let upper = fault.component.min(met.component);
        let lower = fault.component.max(met.component);
        let place = [
            x,
            top(upper) - 6.0,
            width,
            top(lower) - top(upper) + BOX + 12.0,
        ];
        Some(plain_box(
            place,
            &format!("fill=\"{RED}\" fill-opacity=\"0.2\""),
        ))
    };
    met.filter_map(column).collect()
}

/// What is said over a marked window.
fn remark(scene: &Scene, window: &Window, axis: &Axis) -> String {
    let said = match (window.mark, scene.fault()) {
        (Mark::Fault, _) if scene.windows.len() == 1 => "at fault, meets none".to_string(),
        (Mark::Fault, _) => "at fault".to_string(),
        (Mark::Met, Some(fault)) => meets(fault.shared(window)),
        _ => return String::new(),
    };
    match axis.window(window) {
        Some((x, _)) => words((x, top(window.component) - 5.0), HALO, &said),
        None => String::new(),
    }
}

fn meets(shared: Option<(u32, u32)>) -> String {
    match shared {
        Some((first, last)) if first == last => format!("meets it at tick {first}"),
        Some((first, last)) => format!("meets it at ticks {first} to {last}"),
        None => "meets it".to_string(),
    }
}
