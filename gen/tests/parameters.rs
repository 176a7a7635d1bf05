//! The list of parameters is the function's.

const SOURCE: &str = include_str!("../../crates/grain/src/lib.rt");

#[test]
fn grain_verify_has_the_parameters_listed() {
    let (_, behind) = SOURCE.split_once("fn grain_verify(").expect("no grain_verify");
    let (parameters, _) = behind.split_once(')').expect("no end of its parameters");
    let parameters: Vec<&str> = parameters.split(',').map(str::trim).filter(|one| !one.is_empty()).collect();
    assert_eq!(parameters, gen::grain_verify::signature());
}
