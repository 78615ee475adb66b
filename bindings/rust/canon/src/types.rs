//! What a component is made of: types, functions, resources and imports, and the JSON that spells them.

/// The type of a value.
#[derive(Clone, Debug, PartialEq, Eq)]
pub enum Type {
    Bool,
    S8,
    U8,
    S16,
    U16,
    S32,
    U32,
    S64,
    U64,
    Float32,
    Float64,
    Char,
    String,
    List(Box<Type>),
    /// A list of fixed length.
    FixedLengthList(Box<Type>, u32),
    /// The types of keys and of values.
    Map(Box<Type>, Box<Type>),
    /// The names and types of fields.
    Record(Vec<(String, Type)>),
    Tuple(Vec<Type>),
    /// The names of cases, and the types of their payloads.
    Variant(Vec<(String, Option<Type>)>),
    Enum(Vec<String>),
    Option(Box<Type>),
    Result(Option<Box<Type>>, Option<Box<Type>>),
    Flags(Vec<String>),
    /// An own handle of the resource type of this number in `Component::resources`.
    Own(u32),
    /// A borrow handle of it.
    Borrow(u32),
}

impl Type {
    /// A list of these.
    pub fn list(of: Type) -> Type {
        Type::List(Box::new(of))
    }

    /// A record of these fields.
    pub fn record<const N: usize>(fields: [(&str, Type); N]) -> Type {
        Type::Record(
            fields
                .into_iter()
                .map(|(name, ty)| (name.into(), ty))
                .collect(),
        )
    }
}

/// A resource type.
#[derive(Clone, Debug, PartialEq, Eq)]
pub enum ResourceType {
    /// One of the host's, which has this number.
    Host { id: u32 },
    /// One that the component defines, with the number of the core function that is its destructor.
    Guest { id: u32, dtor: Option<u32> },
}

/// The type of a function.
#[derive(Clone, Debug, Default, PartialEq, Eq)]
pub struct Function {
    pub params: Vec<Type>,
    pub results: Vec<Type>,
    /// Whether it has a post-return function.
    pub post_return: bool,
}

impl Function {
    /// A function without a post-return function.
    pub fn new<const P: usize, const R: usize>(params: [Type; P], results: [Type; R]) -> Function {
        Function {
            params: params.into(),
            results: results.into(),
            post_return: false,
        }
    }

    /// The same with one.
    pub fn with_post_return(self) -> Function {
        Function {
            post_return: true,
            ..self
        }
    }
}

/// What core code may ask for.
#[derive(Clone, Debug, PartialEq, Eq)]
pub enum Import {
    /// A function of the host.
    Function(Function),
    /// "canon resource.new" of a resource type.
    ResourceNew(u32),
    /// "canon resource.rep" of it.
    ResourceRep(u32),
    /// "canon resource.drop" of it.
    ResourceDrop(u32),
}
