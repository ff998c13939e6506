//! `gablemadder obj`: a part file from OBJ text, or its report.
use crate::arguments::Obj;
use crate::check::Answer;
use crate::{complain, input, is_for_a_part_file, obj_place, output, Status};
use gablemadder::Checker;

/// Makes the part file, writes it where it is to go, and prints its report where that is asked for.
pub fn run(order: &Obj) -> Result<Status, String> {
    let is_printed = !order.is_checked && order.to.is_none();
    if is_printed {
        is_for_a_part_file("obj --process CNC part.obj")?;
    }
    let name = input::name(&order.text);
    let mut text = Vec::new();
    let mut checker = Checker::new();
    let read = input::read(&order.text, input::MOST_OBJ, &mut text);
    let made = read.map(|()| gablemadder::obj_to_part(&text, &order.job.bytes()));
    let answer = match &made {
        Err(why) => Answer::Unread(why.clone()),
        Ok(Err(refusal)) => Answer::Refused(obj_place::tell(&text, *refusal)),
        Ok(Ok(file)) => {
            if let Some(to) = &order.to {
                output::put_file(to, file)?;
            }
            if !order.is_checked {
                return if is_printed { output::put(file) } else { Ok(()) }.map(|()| Status::Good);
            }
            match Answer::of(&mut checker, file) {
                Answer::Refused(told) => Answer::Refused(obj_place::with_line(told, &text)),
                answer => answer,
            }
        }
    };
    if let Some(why) = answer.complaint() {
        complain(&format!("{name}: {why}"));
    }
    if order.as_json {
        output::put(answer.json(&order.text.to_string_lossy()).as_bytes())?;
    } else {
        output::put(answer.text(&name, false).as_bytes())?;
    }
    Ok(answer.status())
}
