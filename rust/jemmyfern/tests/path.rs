//! The larger of u+a and 0 and of u−a and 0 (document 02, point 5), in the library as it is delivered, where they are compiled into the step.

mod cc;

/// tests/path.c fails where a step on one side of u = a or u = −a runs other instructions than on the other.
#[test]
fn a_step_takes_one_path_about_the_wave_speed() {
    let text = cc::printed("path");
    assert_eq!(text.matches("one path of").count(), 4, "{text}");
}
