//! Elements of an SVG, a line each.

/// A rectangle with a title, which is shown where a pointer rests on it.
pub fn titled_box(place: [f64; 4], looks: &str, title: &str) -> String {
    let [x, y, width, height] = place;
    format!("<rect x=\"{x:.1}\" y=\"{y:.1}\" width=\"{width:.1}\" height=\"{height:.1}\" {looks}><title>{title}</title></rect>\n")
}

/// A rectangle.
pub fn plain_box(place: [f64; 4], looks: &str) -> String {
    let [x, y, width, height] = place;
    format!(
        "<rect x=\"{x:.1}\" y=\"{y:.1}\" width=\"{width:.1}\" height=\"{height:.1}\" {looks}/>\n"
    )
}

/// A line from one point to another.
pub fn line(from: (f64, f64), to: (f64, f64), looks: &str) -> String {
    let ((x1, y1), (x2, y2)) = (from, to);
    format!("<line x1=\"{x1:.1}\" y1=\"{y1:.1}\" x2=\"{x2:.1}\" y2=\"{y2:.1}\" {looks}/>\n")
}

/// Words at a point.
pub fn words(place: (f64, f64), looks: &str, said: &str) -> String {
    let (x, y) = place;
    format!("<text x=\"{x:.1}\" y=\"{y:.1}\" {looks}>{said}</text>\n")
}
