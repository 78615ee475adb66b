//! A component, and the JSON that describes it to the library.

use crate::types::{Function, Import, ResourceType, Type};
use std::fmt::Write;

/// What a store is made for, and what it may take.
#[derive(Clone, Debug, PartialEq, Eq)]
pub struct Component {
    pub resources: Vec<ResourceType>,
    /// The exports, by their numbers, which are those of their core functions.
    pub exports: Vec<Function>,
    /// What core code may ask for, by its number.
    pub imports: Vec<Import>,
    /// How many bytes memory has at first.
    pub memory: u64,
    /// What lifting the results of one call, or the parameters of one ask, may cost.
    pub fuel: u64,
    /// How many asks of one call are served.
    pub turns: u64,
    /// How many handles may live.
    pub handles: u64,
    /// Whether answers of `realloc` are tested against all of memory, which takes time (`docs/GUEST.md`).
    pub watched: bool,
    /// Whether events are kept for `Store::events`: each start, ask, resume and return takes a copy of memory.
    pub keeps_events: bool,
}

impl Default for Component {
    fn default() -> Self {
        Component {
            resources: Vec::new(),
            exports: Vec::new(),
            imports: Vec::new(),
            memory: 65_536,
            fuel: 1_000_000_000,
            turns: 1_000_000,
            handles: 1_000_000,
            watched: false,
            keeps_events: false,
        }
    }
}

/// The entries of the list `types`, and the text that is made of them.
#[derive(Default)]
struct Entries {
    known: Vec<Type>,
    text: Vec<String>,
}

/// A text in quotes.
fn quoted(text: &str) -> String {
    let mut to = String::from("\"");
    for it in text.chars() {
        match it {
            '"' | '\\' => to.extend(['\\', it]),
            '\0'..='\x1f' => write!(to, "\\u{:04x}", u32::from(it)).expect("a string takes it"),
            _ => to.push(it),
        }
    }
    to.push('"');
    to
}

fn joined(of: impl IntoIterator<Item = String>) -> String {
    format!("[{}]", of.into_iter().collect::<Vec<_>>().join(", "))
}

impl Entries {
    /// The name of a type, or the number of its entry.
    fn reference(&mut self, ty: &Type) -> String {
        let name = match ty {
            Type::Bool => "bool",
            Type::S8 => "s8",
            Type::U8 => "u8",
            Type::S16 => "s16",
            Type::U16 => "u16",
            Type::S32 => "s32",
            Type::U32 => "u32",
            Type::S64 => "s64",
            Type::U64 => "u64",
            Type::Float32 => "f32",
            Type::Float64 => "f64",
            Type::Char => "char",
            Type::String => "string",
            _ => return self.entry(ty).to_string(),
        };
        quoted(name)
    }

    fn entry(&mut self, ty: &Type) -> usize {
        if let Some(place) = self.known.iter().position(|it| it == ty) {
            return place;
        }
        let text = self.form(ty);
        self.known.push(ty.clone());
        self.text.push(text);
        self.known.len() - 1
    }

    fn or_null(&mut self, ty: Option<&Type>) -> String {
        ty.map_or("null".into(), |ty| self.reference(ty))
    }

    fn all(&mut self, types: &[Type]) -> String {
        joined(types.iter().map(|ty| self.reference(ty)))
    }

    /// An entry of the list.
    fn form(&mut self, ty: &Type) -> String {
        let (kind, of) = match ty {
            Type::List(of) => ("list", self.reference(of)),
            Type::FixedLengthList(of, len) => ("fixed", format!("[{}, {len}]", self.reference(of))),
            Type::Map(keys, values) => (
                "map",
                format!("[{}, {}]", self.reference(keys), self.reference(values)),
            ),
            Type::Record(fields) => {
                let fields = fields
                    .iter()
                    .map(|(name, ty)| format!("[{}, {}]", quoted(name), self.reference(ty)));
                ("record", joined(fields))
            }
            Type::Tuple(types) => ("tuple", self.all(types)),
            Type::Variant(cases) => {
                let cases = cases.iter().map(|(name, ty)| match ty {
                    Some(ty) => format!("[{}, {}]", quoted(name), self.reference(ty)),
                    None => format!("[{}]", quoted(name)),
                });
                ("variant", joined(cases))
            }
            Type::Enum(names) => ("enum", joined(names.iter().map(|it| quoted(it)))),
            Type::Option(of) => ("option", self.reference(of)),
            Type::Result(ok, err) => (
                "result",
                format!(
                    "[{}, {}]",
                    self.or_null(ok.as_deref()),
                    self.or_null(err.as_deref())
                ),
            ),
            Type::Flags(names) => ("flags", joined(names.iter().map(|it| quoted(it)))),
            Type::Own(resource) => ("own", resource.to_string()),
            Type::Borrow(resource) => ("borrow", resource.to_string()),
            _ => unreachable!("a scalar or a text has a name"),
        };
        format!("{{\"{kind}\": {of}}}")
    }

    fn signature(&mut self, func: &Function) -> String {
        format!(
            "\"params\": {}, \"results\": {}",
            self.all(&func.params),
            self.all(&func.results)
        )
    }
}

impl Component {
    /// What the library reads.
    pub(crate) fn json(&self) -> String {
        let mut entries = Entries::default();
        let funcs = self.exports.iter().map(|func| {
            format!(
                "{{{}, \"post\": {}}}",
                entries.signature(func),
                func.post_return
            )
        });
        let funcs = joined(funcs);
        let imports = self.imports.iter().map(|import| match import {
            Import::Function(func) => format!("{{{}, \"answers\": []}}", entries.signature(func)),
            Import::ResourceNew(resource) => {
                format!("{{\"builtin\": \"new\", \"resource\": {resource}}}")
            }
            Import::ResourceRep(resource) => {
                format!("{{\"builtin\": \"rep\", \"resource\": {resource}}}")
            }
            Import::ResourceDrop(resource) => {
                format!("{{\"builtin\": \"drop\", \"resource\": {resource}}}")
            }
        });
        let imports = joined(imports);
        let resources = joined(self.resources.iter().map(|resource| match resource {
            ResourceType::Host { id } => format!("{{\"kind\": \"dynamic\", \"id\": {id}}}"),
            ResourceType::Guest { id, dtor: None } => {
                format!("{{\"kind\": \"guest\", \"id\": {id}}}")
            }
            ResourceType::Guest {
                id,
                dtor: Some(dtor),
            } => {
                format!("{{\"kind\": \"guest\", \"id\": {id}, \"dtor\": {dtor}}}")
            }
        }));
        format!(
            "{{\"memory\": {}, \"fuel\": {}, \"turns\": {}, \"handles\": {}, \"resources\": {resources}, \"types\": {}, \"funcs\": {funcs}, \"imports\": {imports}}}",
            self.memory,
            self.fuel,
            self.turns,
            self.handles,
            joined(entries.text)
        )
    }
}

#[cfg(test)]
mod tests {
    use super::*;

    #[test]
    fn spells_types_by_their_entries() {
        let text = Type::record([("a", Type::list(Type::U8)), ("b\"", Type::Own(0))]);
        let component = Component {
            resources: vec![ResourceType::Guest {
                id: 1,
                dtor: Some(3),
            }],
            exports: vec![Function::new([text.clone(), text], [Type::Bool]).with_post_return()],
            imports: vec![
                Import::ResourceNew(0),
                Import::Function(Function::new([], [Type::String])),
            ],
            memory: 1,
            fuel: 2,
            turns: 3,
            handles: 4,
            watched: false,
            keeps_events: false,
        };
        // The forms are those of examples/README.md, "Types".
        assert_eq!(
            component.json(),
            "{\"memory\": 1, \"fuel\": 2, \"turns\": 3, \"handles\": 4, \
             \"resources\": [{\"kind\": \"guest\", \"id\": 1, \"dtor\": 3}], \
             \"types\": [{\"list\": \"u8\"}, {\"own\": 0}, {\"record\": [[\"a\", 0], [\"b\\\"\", 1]]}], \
             \"funcs\": [{\"params\": [2, 2], \"results\": [\"bool\"], \"post\": true}], \
             \"imports\": [{\"builtin\": \"new\", \"resource\": 0}, \
             {\"params\": [], \"results\": [\"string\"], \"answers\": []}]}"
        );
    }
}
