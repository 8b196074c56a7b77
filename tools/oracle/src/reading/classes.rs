//! Differences sorted into classes, each with its count and one example.

use std::collections::BTreeMap;

/// Unexplained differences shown.
const SHOWN: usize = 20;

struct Class {
    count: usize,
    example: String,
}

/// How an answer stands to what it is compared with.
pub enum Verdict {
    Same,
    /// The difference has a rule of this name.
    Class(String),
    Unexplained,
}

impl Verdict {
    /// That of a difference, by its class.
    pub fn different(class: Option<String>) -> Verdict {
        class.map_or(Verdict::Unexplained, Verdict::Class)
    }
}

#[derive(Default)]
pub struct Classes {
    same: usize,
    classes: BTreeMap<String, Class>,
    pub unexplained: usize,
}

impl Classes {
    pub fn count(&mut self, verdict: Verdict, example: impl FnOnce() -> String) {
        match verdict {
            Verdict::Same => self.same += 1,
            Verdict::Class(name) => {
                let class = self.classes.entry(name).or_insert_with(|| Class {
                    count: 0,
                    example: example(),
                });
                class.count += 1;
            }
            Verdict::Unexplained => {
                self.unexplained += 1;
                if self.unexplained <= SHOWN {
                    println!("unexplained: {}", example());
                }
            }
        }
    }

    pub fn report(&self) {
        let classed: usize = self.classes.values().map(|class| class.count).sum();
        let compared = self.same + classed + self.unexplained;
        println!(
            "{compared} compared, {} the same, {} unexplained, {} classes",
            self.same,
            self.unexplained,
            self.classes.len()
        );
        for (name, class) in &self.classes {
            println!("{:>9}  {name}\n           {}", class.count, class.example);
        }
    }
}
