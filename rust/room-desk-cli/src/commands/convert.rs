//! `convert`: AIFF to WAVE and back, by the proved converter.

use room_desk::convert::{aiff_to_wave, wave_to_aiff};

use crate::args::Args;
use crate::files;
use crate::recordings::{Form, Refused, form};
use crate::stop::{Done, Stop};

pub fn run(args: &Args) -> Done {
    let [from, to] = &args.files[..] else {
        return Err(Stop::Usage("convert takes two files: IN and OUT".into()));
    };
    let bytes = files::read(from)?;
    let made = match (form(from, &bytes), ending(to)) {
        (Form::Wave, Form::Aiff) => wave_to_aiff(&bytes),
        (Form::Aiff, Form::Wave) => aiff_to_wave(&bytes),
        (Form::Raw, _) => {
            return Err(Stop::Usage(format!("{from} is neither a WAVE nor an AIFF file")));
        }
        (_, Form::Raw) => {
            return Err(Stop::Usage(format!("{to}: name the output .wav or .aiff")));
        }
        (same, _) => {
            let kind = if same == Form::Wave { "WAVE" } else { "AIFF" };
            return Err(Stop::Usage(format!("{from} is {kind} already, as {to} would be")));
        }
    };
    match made {
        Ok(file) => files::write(to, &file),
        Err(refusal) => Err(Stop::Refused(Refused::of(from, &bytes, refusal).text())),
    }
}

fn ending(path: &str) -> Form {
    form(path, &[])
}
