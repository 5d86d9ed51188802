//! Pipelines: the stages that keep, change or drop the tokens of a text.

use serde::de::{Deserialize, Deserializer, IgnoredAny};
use serde::ser::{Serialize, Serializer};

/// One stage of a [`Pipeline`].
pub trait PipelineFn {
    /// The name that a printed index has for the stage. A script that searches has a function of
    /// this name.
    fn name(&self) -> String;

    /// What the stage makes of a token, or `None` where it drops it.
    fn filter(&self, token: String) -> Option<String>;
}

/// A name and a function, which are a stage together.
#[derive(Clone)]
pub struct FnWrapper(pub String, pub fn(String) -> Option<String>);

impl PipelineFn for FnWrapper {
    fn name(&self) -> String {
        self.0.clone()
    }

    fn filter(&self, token: String) -> Option<String> {
        self.1(token)
    }
}

/// The stages of an index, in order. It is serialized as the list of their names, and read back
/// without a stage.
pub struct Pipeline {
    /// The stages.
    pub queue: Vec<Box<dyn PipelineFn>>,
}

impl Pipeline {
    /// Hands each token to the stages one after the other, up to the one that drops it, and returns
    /// what is left.
    pub fn run(&self, tokens: Vec<String>) -> Vec<String> {
        let left = |token| {
            self.queue
                .iter()
                .try_fold(token, |token, stage| stage.filter(token))
        };
        tokens.into_iter().filter_map(left).collect()
    }
}

impl Serialize for Pipeline {
    fn serialize<S: Serializer>(&self, serializer: S) -> Result<S::Ok, S::Error> {
        serializer.collect_seq(self.queue.iter().map(|stage| stage.name()))
    }
}

impl<'de> Deserialize<'de> for Pipeline {
    fn deserialize<D: Deserializer<'de>>(deserializer: D) -> Result<Self, D::Error> {
        IgnoredAny::deserialize(deserializer)?;
        Ok(Pipeline { queue: Vec::new() })
    }
}
