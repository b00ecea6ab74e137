//! What the signs mean.

use super::canvas::{Canvas, wide};
use super::{LEFT, MARGIN, Picture, RIGHT, WIDE};

pub const PATTERNS: &str = "\
<pattern id='hatch' width='6' height='6' patternUnits='userSpaceOnUse' patternTransform='rotate(45)'>\
<rect width='6' height='6' fill='#eceef1'/><path d='M0 0V6' stroke='#c3c8cf' stroke-width='2'/></pattern>
<pattern id='green' width='8' height='8' patternUnits='userSpaceOnUse' patternTransform='rotate(-45)'>\
<rect width='8' height='8' fill='#eef6ee'/><path d='M0 0V8' stroke='#b9dcbd' stroke-width='3'/></pattern>
";

const WAVE: &str = "<path class='wave' d='M0 6L3 2L6 8L9 1L12 9L15 3L18 7L20 6L18 8L12 11L6 10Z'/>";
const LEVEL: &str = "<path class='level' d='M0 10L8 10L14 3L20 3'/>";
const STILL: &str = "<rect class='still' width='20' height='12'/>";
const UNHEARD: &str = "<rect class='unheard' width='20' height='12'/>";
const PROVED: &str = "<rect class='proved' width='20' height='12'/>";
const VOLUME: &str = "<g class='volume'><rect class='span' width='20' height='12'/><path class='mark' d='M7 1.5l4.5 4.5l-4.5 4.5l-4.5 -4.5z'/></g>";
const PAUSE: &str = "<g class='pause'><path class='mark' d='M6 1.5h3v9h-3zm5.5 0h3v9h-3z'/></g>";
const RESUME: &str = "<g class='resume'><path class='mark' d='M6 1.5l8 4.5l-8 4.5z'/></g>";
const WAIT: &str =
    "<g class='volume'><path class='wait' d='M0 6H20'/><path class='dot' d='M0 4v4'/></g>";

impl Picture<'_> {
    /// Draws the legend and gives the picture's height.
    pub fn legend(&self, canvas: &mut Canvas, y: f64) -> f64 {
        let scale = self.wave_scale();
        let drawn = if (0.95..1.05).contains(&scale) {
            String::new()
        } else {
            format!(" (drawn {scale:.1} times as high)")
        };
        let items = [
            (WAVE, format!("what its own sounds add to the output{drawn}")),
            (LEVEL, "its level: volume and fades".into()),
            (VOLUME, "a volume's change".into()),
            (WAIT, "a wait".into()),
            (PAUSE, "pause".into()),
            (RESUME, "resume".into()),
            (STILL, "stands still".into()),
            (UNHEARD, "runs unheard".into()),
            (PROVED, "proved silent".into()),
        ];
        let (mut x, mut y) = (MARGIN, y);
        for (mark, label) in items {
            let width = 26.0 + wide(&label, 10.5) + 18.0;
            if x + width > LEFT + WIDE + RIGHT {
                (x, y) = (MARGIN, y + 20.0);
            }
            canvas.raw(&format!("<g transform='translate({x:.1} {:.1})'>{mark}</g>", y - 10.0));
            canvas.text(x + 26.0, y, "legend", &label);
            x += width;
        }
        self.foot(canvas, y + 22.0)
    }

    fn foot(&self, canvas: &mut Canvas, y: f64) -> f64 {
        let renders = self.probes.renders;
        let said = format!("Every curve is measured on {renders} renders by the proved routine. ");
        let silence = "Green lanes are tracks that the proved routine calls silent: no change inside them is heard.";
        canvas.text(MARGIN, y, "foot", &(said + silence));
        y + 20.0
    }
}
