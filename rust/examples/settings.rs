//! Prints the settings that an end has by default, a line for each.

fn main() {
    let settings = format!("{:#?}", gotsavena::Settings::default());
    for line in settings.lines().filter(|line| line.contains(": ")) {
        println!("{}", line.trim().trim_end_matches(','));
    }
}
