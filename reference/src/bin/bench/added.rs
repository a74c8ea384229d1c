//! What a spread adds to the build of the tables, which it contains and which
//! takes most of its time: the difference of the two, make by make.

use crate::operations::Operation;

/// What one operation of one instance takes, in nanoseconds or instructions.
pub struct Figures {
    pub instance: String,
    pub operation: Operation,
    pub theirs: f64,
    pub ours: Option<f64>,
}

impl Figures {
    /// A line of a table.
    pub fn line(&self, told: fn(f64) -> String) -> String {
        let ratio = |ours: f64| format!("{:.2}", ours / self.theirs);
        let [own, ratio] = match self.ours {
            Some(ours) => [told(ours), ratio(ours)],
            None => ["–"; 2].map(str::to_owned),
        };
        let (name, operation, theirs) = (&self.instance, self.operation.name(), told(self.theirs));
        format!("| {name} | {operation} | {own} | {theirs} | {ratio} |")
    }

    /// What is left of a spread after the build of the same instance.
    fn beyond(&self, build: &Figures) -> Figures {
        let ours = self.ours.zip(build.ours).map(|(spread, build)| spread - build);
        let theirs = self.theirs - build.theirs;
        Figures { instance: self.instance.clone(), operation: self.operation, theirs, ours }
    }
}

/// The differences of the instances that have both operations. Those of long
/// builds are smaller than the noise of their times.
pub fn report(all: &[Figures], measure: &str, told: fn(f64) -> String) {
    let of = |operation| all.iter().filter(move |figures| figures.operation == operation);
    let build = |spread: &Figures| {
        of(Operation::BuildTables).find(|build| build.instance == spread.instance)
    };
    let pairs = of(Operation::Spread).filter_map(|spread| Some((spread, build(spread)?)));
    let added: Vec<Figures> = pairs.map(|(spread, build)| spread.beyond(build)).collect();
    if added.is_empty() {
        return;
    }
    println!("\nWhat a spread adds to the build, {measure}:\n");
    println!("| instance | operation | ours | theirs | ratio |");
    println!("|---|---|---|---|---|");
    added.iter().for_each(|figures| println!("{}", figures.line(told)));
    println!();
}
