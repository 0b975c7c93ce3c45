//! The files that single steps are timed on are what their names say.

use checker::listing::run;
use compare::steps::all;

#[test]
fn files_differ_by_steps_of_the_rule_on_a_trail_of_that_length() {
    for near in all() {
        let rule = near.name.split(',').next().expect("a rule");
        let entries: usize = near.name.rsplit(' ').nth(1).expect("a length").parse().unwrap();
        let tried = |file: &[u8]| run(file).expect("a file in order").tried;
        let (less, more) = (tried(&near.without), tried(&near.with));
        let of_rule = |steps: &[checker::listing::Tried]| {
            steps.iter().filter(|step| step.rule_name == rule).count()
        };
        assert_eq!(more.len() - less.len(), near.count, "{}", near.name);
        assert_eq!(of_rule(&more) - of_rule(&less), near.count, "{}", near.name);
        let lengths = more.iter().map(|step| step.answer.expect("an accepted step").0);
        assert_eq!(lengths.max(), Some(entries), "{}", near.name);
    }
}
