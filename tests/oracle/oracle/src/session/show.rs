//! A session in words.

use super::Session;
use super::Setting;
use super::Stage;
use super::Window;
use super::parameter::Parameter;
use crate::pools::Buffer;
use crate::show;

pub fn show(session: &Session) -> String {
    let mut text = show::pools(&session.pools);
    for (told, what) in [(session.with_states, "states and rings"), (session.with_reaches, "what stages reach")] {
        if told {
            text += &format!("  with {what}\n");
        }
    }
    text += &format!("  rings {}, stage count {}\n", show::numbers(&session.rings), session.stage_count);
    for (number, stage) in session.stages.iter().enumerate() {
        text += &format!("  stage {number}: {}\n", show_stage(stage));
    }
    for (number, state) in session.states.iter().enumerate().filter(|(_, state)| **state != Default::default()) {
        text += &format!("  state {number}: {state:?}\n");
    }
    for (number, window) in session.windows.iter().enumerate() {
        text += &format!("  window {number}: {}\n", show_window(window));
    }
    text
}

fn show_buffer(buffer: &Buffer) -> String {
    format!("{} {}", if buffer.external { "external" } else { "internal" }, buffer.index)
}

pub fn show_stage(stage: &Stage) -> String {
    let [inputs, outputs] =
        [&stage.inputs, &stage.outputs].map(|buffers| buffers.iter().map(show_buffer).collect::<Vec<_>>());
    let size = stage.kind.buffer_size().map_or(String::new(), |size| format!(" of {size}"));
    let parameters = stage.kind.roles().iter().zip(&stage.parameters).map(|(role, parameter)| match parameter {
        Parameter::Fixed(number) => format!("{role:?} {number:?}"),
        _ => format!("{role:?} {parameter:?}"),
    });
    let parameters: Vec<_> = parameters.collect();
    let (inputs, outputs) = (inputs.join(", "), outputs.join(" and "));
    format!("{}{size} from [{inputs}] to {outputs}, {}", stage.kind.name(), parameters.join(", "))
}

fn show_window(window: &Window) -> String {
    let settings = window.settings.iter().map(|setting| match setting {
        Setting::Stored(samples) => format!("Stored {}", show::numbers(samples)),
        _ => format!("{setting:?}"),
    });
    let settings: Vec<_> = settings.collect();
    let set = if settings.is_empty() { String::new() } else { format!("external [{}], ", settings.join(", ")) };
    let prepare = if window.prepare { "prepare, " } else { "" };
    let values = show::numbers(&window.values);
    format!("{set}{prepare}n {}, width {:?}, values {values}, order {:?}", window.n, window.width, window.order)
}
