//! Values, and their canonical images (`docs/IMAGES.md`).

use crate::types::Type;
use std::fmt;

/// A value that is passed or returned.
#[derive(Clone, Debug, PartialEq)]
pub enum Value {
    Bool(bool),
    S8(i8),
    U8(u8),
    S16(i16),
    U16(u16),
    S32(i32),
    U32(u32),
    S64(i64),
    U64(u64),
    Float32(f32),
    Float64(f64),
    Char(char),
    String(String),
    List(Vec<Value>),
    FixedLengthList(Vec<Value>),
    Map(Vec<(Value, Value)>),
    /// The fields in the order of the type, with their names.
    Record(Vec<(String, Value)>),
    Tuple(Vec<Value>),
    /// The name of the case, and its payload.
    Variant(String, Option<Box<Value>>),
    Enum(String),
    Option(Option<Box<Value>>),
    Result(Result<Option<Box<Value>>, Option<Box<Value>>>),
    /// The names that are set.
    Flags(Vec<String>),
    /// A resource of the store.
    Resource(Resource),
}

/// A resource that a store gave, by its number there.
#[derive(Clone, Copy, Debug, PartialEq, Eq, Hash)]
pub struct Resource(pub(crate) u32);

impl Value {
    /// A text.
    pub fn string(text: &str) -> Value {
        Value::String(text.into())
    }

    /// A record of these fields.
    pub fn record<const N: usize>(fields: [(&str, Value); N]) -> Value {
        Value::Record(
            fields
                .into_iter()
                .map(|(name, value)| (name.into(), value))
                .collect(),
        )
    }
}

/// Why a value has no image, or bytes no value.
#[derive(Clone, Copy, Debug, PartialEq, Eq)]
pub enum ImageError {
    /// The value isn't of the type.
    NotOfType,
    /// The bytes end before the value does.
    Truncated,
    /// The bytes at this place spell no value of the type.
    Malformed(usize),
    /// More bytes follow at this place.
    Trailing(usize),
}

impl fmt::Display for ImageError {
    fn fmt(&self, f: &mut fmt::Formatter<'_>) -> fmt::Result {
        match self {
            ImageError::NotOfType => f.write_str("the value isn't of its type"),
            ImageError::Truncated => f.write_str("the image ends too early"),
            ImageError::Malformed(at) => write!(f, "the image spells nothing at byte {at}"),
            ImageError::Trailing(at) => write!(f, "more follows the image at byte {at}"),
        }
    }
}

impl std::error::Error for ImageError {}

/// The images of values of these types, one behind the other.
pub fn image(types: &[Type], values: &[Value]) -> Result<Vec<u8>, ImageError> {
    let mut bytes = Vec::new();
    write_all(types, values.iter(), &mut bytes)?;
    Ok(bytes)
}

/// The values of these types whose images stand one behind the other.
pub fn read_image(types: &[Type], bytes: &[u8]) -> Result<Vec<Value>, ImageError> {
    let mut reader = Reader { bytes, at: 0 };
    let values = types
        .iter()
        .map(|ty| reader.value(ty))
        .collect::<Result<_, _>>()?;
    if reader.at < bytes.len() {
        return Err(ImageError::Trailing(reader.at));
    }
    Ok(values)
}

/// How many bytes the number of a case has.
fn tag_len(cases: usize) -> usize {
    match cases {
        0..=0x100 => 1,
        0x101..=0x1_0000 => 2,
        _ => 4,
    }
}

/// How many bytes flags of so many names have.
fn flags_len(names: usize) -> usize {
    match names {
        0..=8 => 1,
        9..=16 => 2,
        _ => names.div_ceil(32) * 4,
    }
}

fn write_all<'a>(
    types: &[Type],
    values: impl ExactSizeIterator<Item = &'a Value>,
    to: &mut Vec<u8>,
) -> Result<(), ImageError> {
    if types.len() != values.len() {
        return Err(ImageError::NotOfType);
    }
    types
        .iter()
        .zip(values)
        .try_for_each(|(ty, value)| write(ty, value, to))
}

fn write_each(of: &Type, values: &[Value], to: &mut Vec<u8>) -> Result<(), ImageError> {
    values.iter().try_for_each(|value| write(of, value, to))
}

fn write_count(count: usize, to: &mut Vec<u8>) {
    to.extend((count as u64).to_le_bytes());
}

fn write_tag(case: usize, cases: usize, to: &mut Vec<u8>) {
    to.extend(&(case as u32).to_le_bytes()[..tag_len(cases)]);
}

/// A case has a payload exactly if its type has one.
fn write_case(
    case: usize,
    cases: usize,
    ty: Option<&Type>,
    payload: Option<&Value>,
    to: &mut Vec<u8>,
) -> Result<(), ImageError> {
    write_tag(case, cases, to);
    match (ty, payload) {
        (Some(ty), Some(value)) => write(ty, value, to),
        (None, None) => Ok(()),
        _ => Err(ImageError::NotOfType),
    }
}

fn place_of<'a>(
    mut names: impl Iterator<Item = &'a String>,
    name: &str,
) -> Result<usize, ImageError> {
    names.position(|it| it == name).ok_or(ImageError::NotOfType)
}

fn write_flags(names: &[String], set: &[String], to: &mut Vec<u8>) -> Result<(), ImageError> {
    let mut bits = vec![0u8; flags_len(names.len())];
    for name in set {
        let place = place_of(names.iter(), name)?;
        bits[place / 8] |= 1 << (place % 8);
    }
    to.extend(bits);
    Ok(())
}

fn write(ty: &Type, value: &Value, to: &mut Vec<u8>) -> Result<(), ImageError> {
    match (ty, value) {
        (Type::Bool, Value::Bool(it)) => to.push(u8::from(*it)),
        (Type::S8, Value::S8(it)) => to.extend(it.to_le_bytes()),
        (Type::U8, Value::U8(it)) => to.push(*it),
        (Type::S16, Value::S16(it)) => to.extend(it.to_le_bytes()),
        (Type::U16, Value::U16(it)) => to.extend(it.to_le_bytes()),
        (Type::S32, Value::S32(it)) => to.extend(it.to_le_bytes()),
        (Type::U32, Value::U32(it)) => to.extend(it.to_le_bytes()),
        (Type::S64, Value::S64(it)) => to.extend(it.to_le_bytes()),
        (Type::U64, Value::U64(it)) => to.extend(it.to_le_bytes()),
        (Type::Float32, Value::Float32(it)) => to.extend(it.to_bits().to_le_bytes()),
        (Type::Float64, Value::Float64(it)) => to.extend(it.to_bits().to_le_bytes()),
        (Type::Char, Value::Char(it)) => to.extend(u32::from(*it).to_le_bytes()),
        (Type::String, Value::String(it)) => {
            write_count(it.len(), to);
            to.extend(it.as_bytes());
        }
        (Type::List(of), Value::List(items)) => {
            write_count(items.len(), to);
            write_each(of, items, to)?;
        }
        (Type::FixedLengthList(of, len), Value::FixedLengthList(items))
            if items.len() == *len as usize =>
        {
            write_each(of, items, to)?;
        }
        (Type::Map(keys, values), Value::Map(pairs)) => {
            write_count(pairs.len(), to);
            for (key, value) in pairs {
                write(keys, key, to)?;
                write(values, value, to)?;
            }
        }
        (Type::Record(fields), Value::Record(values)) => {
            if fields.len() != values.len() {
                return Err(ImageError::NotOfType);
            }
            for ((name, ty), (given, value)) in fields.iter().zip(values) {
                if name != given {
                    return Err(ImageError::NotOfType);
                }
                write(ty, value, to)?;
            }
        }
        (Type::Tuple(types), Value::Tuple(values)) => write_all(types, values.iter(), to)?,
        (Type::Variant(cases), Value::Variant(name, payload)) => {
            let case = place_of(cases.iter().map(|it| &it.0), name)?;
            write_case(
                case,
                cases.len(),
                cases[case].1.as_ref(),
                payload.as_deref(),
                to,
            )?;
        }
        (Type::Enum(names), Value::Enum(name)) => {
            write_tag(place_of(names.iter(), name)?, names.len(), to)
        }
        (Type::Option(_), Value::Option(None)) => write_tag(0, 2, to),
        (Type::Option(of), Value::Option(Some(it))) => write_case(1, 2, Some(of), Some(it), to)?,
        (Type::Result(ok, _), Value::Result(Ok(it))) => {
            write_case(0, 2, ok.as_deref(), it.as_deref(), to)?
        }
        (Type::Result(_, err), Value::Result(Err(it))) => {
            write_case(1, 2, err.as_deref(), it.as_deref(), to)?
        }
        (Type::Flags(names), Value::Flags(set)) => write_flags(names, set, to)?,
        (Type::Own(_) | Type::Borrow(_), Value::Resource(it)) => to.extend(it.0.to_le_bytes()),
        _ => return Err(ImageError::NotOfType),
    }
    Ok(())
}

struct Reader<'a> {
    bytes: &'a [u8],
    at: usize,
}

impl<'a> Reader<'a> {
    fn take(&mut self, len: usize) -> Result<&'a [u8], ImageError> {
        let rest = &self.bytes[self.at..];
        if rest.len() < len {
            return Err(ImageError::Truncated);
        }
        self.at += len;
        Ok(&rest[..len])
    }

    fn array<const N: usize>(&mut self) -> Result<[u8; N], ImageError> {
        let mut array = [0; N];
        array.copy_from_slice(self.take(N)?);
        Ok(array)
    }

    fn count(&mut self) -> Result<usize, ImageError> {
        let at = self.at;
        usize::try_from(u64::from_le_bytes(self.array()?)).map_err(|_| ImageError::Malformed(at))
    }

    /// The number of a case, which is below `cases`.
    fn tag(&mut self, cases: usize) -> Result<usize, ImageError> {
        let at = self.at;
        let mut number = [0; 4];
        let len = tag_len(cases);
        number[..len].copy_from_slice(self.take(len)?);
        match u32::from_le_bytes(number) as usize {
            case if case < cases => Ok(case),
            _ => Err(ImageError::Malformed(at)),
        }
    }

    fn payload(&mut self, ty: Option<&Type>) -> Result<Option<Box<Value>>, ImageError> {
        ty.map(|ty| self.value(ty).map(Box::new)).transpose()
    }

    /// Room is made as values come, so a count alone takes none.
    fn values(&mut self, of: &Type, count: usize) -> Result<Vec<Value>, ImageError> {
        (0..count)
            .map(|_| self.value(of))
            .collect::<Result<Vec<_>, _>>()
    }

    fn string(&mut self) -> Result<Value, ImageError> {
        let len = self.count()?;
        let at = self.at;
        let text = std::str::from_utf8(self.take(len)?).map_err(|_| ImageError::Malformed(at))?;
        Ok(Value::String(text.into()))
    }

    fn flags(&mut self, names: &[String]) -> Result<Value, ImageError> {
        let at = self.at;
        let bits = self.take(flags_len(names.len()))?;
        let is_set = |place: usize| bits[place / 8] >> (place % 8) & 1 == 1;
        if (names.len()..bits.len() * 8).any(is_set) {
            return Err(ImageError::Malformed(at));
        }
        let set = names.iter().enumerate().filter(|(place, _)| is_set(*place));
        Ok(Value::Flags(set.map(|(_, name)| name.clone()).collect()))
    }

    fn value(&mut self, ty: &Type) -> Result<Value, ImageError> {
        let at = self.at;
        Ok(match ty {
            Type::Bool => match self.take(1)?[0] {
                bit @ 0..=1 => Value::Bool(bit == 1),
                _ => return Err(ImageError::Malformed(at)),
            },
            Type::S8 => Value::S8(i8::from_le_bytes(self.array()?)),
            Type::U8 => Value::U8(u8::from_le_bytes(self.array()?)),
            Type::S16 => Value::S16(i16::from_le_bytes(self.array()?)),
            Type::U16 => Value::U16(u16::from_le_bytes(self.array()?)),
            Type::S32 => Value::S32(i32::from_le_bytes(self.array()?)),
            Type::U32 => Value::U32(u32::from_le_bytes(self.array()?)),
            Type::S64 => Value::S64(i64::from_le_bytes(self.array()?)),
            Type::U64 => Value::U64(u64::from_le_bytes(self.array()?)),
            Type::Float32 => Value::Float32(f32::from_bits(u32::from_le_bytes(self.array()?))),
            Type::Float64 => Value::Float64(f64::from_bits(u64::from_le_bytes(self.array()?))),
            Type::Char => {
                let number = u32::from_le_bytes(self.array()?);
                Value::Char(char::from_u32(number).ok_or(ImageError::Malformed(at))?)
            }
            Type::String => self.string()?,
            Type::List(of) => {
                let count = self.count()?;
                Value::List(self.values(of, count)?)
            }
            Type::FixedLengthList(of, len) => {
                Value::FixedLengthList(self.values(of, *len as usize)?)
            }
            Type::Map(keys, values) => {
                let count = self.count()?;
                let pairs = (0..count).map(|_| Ok((self.value(keys)?, self.value(values)?)));
                Value::Map(pairs.collect::<Result<_, _>>()?)
            }
            Type::Record(fields) => {
                let fields = fields
                    .iter()
                    .map(|(name, ty)| Ok((name.clone(), self.value(ty)?)));
                Value::Record(fields.collect::<Result<_, _>>()?)
            }
            Type::Tuple(types) => Value::Tuple(
                types
                    .iter()
                    .map(|ty| self.value(ty))
                    .collect::<Result<_, _>>()?,
            ),
            Type::Variant(cases) => {
                let (name, ty) = &cases[self.tag(cases.len())?];
                Value::Variant(name.clone(), self.payload(ty.as_ref())?)
            }
            Type::Enum(names) => Value::Enum(names[self.tag(names.len())?].clone()),
            Type::Option(of) => match self.tag(2)? {
                0 => Value::Option(None),
                _ => Value::Option(self.payload(Some(of))?),
            },
            Type::Result(ok, err) => match self.tag(2)? {
                0 => Value::Result(Ok(self.payload(ok.as_deref())?)),
                _ => Value::Result(Err(self.payload(err.as_deref())?)),
            },
            Type::Flags(names) => self.flags(names)?,
            Type::Own(_) | Type::Borrow(_) => {
                Value::Resource(Resource(u32::from_le_bytes(self.array()?)))
            }
        })
    }
}

#[cfg(test)]
mod tests {
    use super::*;

    // The images are those of docs/IMAGES.md's table, written out by hand.
    fn stands_for(ty: Type, value: Value, bytes: &[u8]) {
        let (types, values) = ([ty], [value]);
        assert_eq!(image(&types, &values).unwrap(), bytes);
        assert_eq!(read_image(&types, bytes).unwrap(), values);
        for len in 0..bytes.len() {
            assert!(read_image(&types, &bytes[..len]).is_err());
        }
        let longer = [bytes, &[0]].concat();
        assert_eq!(
            read_image(&types, &longer),
            Err(ImageError::Trailing(bytes.len()))
        );
    }

    fn names(all: &[&str]) -> Vec<String> {
        all.iter().map(|it| it.to_string()).collect()
    }

    #[test]
    fn scalars() {
        stands_for(Type::Bool, Value::Bool(true), &[1]);
        stands_for(Type::S8, Value::S8(-2), &[0xfe]);
        stands_for(Type::U16, Value::U16(0x1234), &[0x34, 0x12]);
        stands_for(Type::S32, Value::S32(-1), &[0xff; 4]);
        stands_for(Type::U64, Value::U64(1), &[1, 0, 0, 0, 0, 0, 0, 0]);
        stands_for(Type::Float32, Value::Float32(1.0), &[0, 0, 0x80, 0x3f]);
        stands_for(Type::Char, Value::Char('é'), &[0xe9, 0, 0, 0]);
        assert_eq!(
            read_image(&[Type::Bool], &[2]),
            Err(ImageError::Malformed(0))
        );
        assert_eq!(
            read_image(&[Type::Char], &[0, 0xd8, 0, 0]),
            Err(ImageError::Malformed(0))
        );
    }

    #[test]
    fn texts_and_lists() {
        stands_for(
            Type::String,
            Value::string("é"),
            &[2, 0, 0, 0, 0, 0, 0, 0, 0xc3, 0xa9],
        );
        let list = Value::List(vec![Value::U16(1), Value::U16(2)]);
        stands_for(
            Type::list(Type::U16),
            list,
            &[2, 0, 0, 0, 0, 0, 0, 0, 1, 0, 2, 0],
        );
        let fixed = Value::FixedLengthList(vec![Value::U8(1), Value::U8(2)]);
        stands_for(Type::FixedLengthList(Box::new(Type::U8), 2), fixed, &[1, 2]);
        let map = Value::Map(vec![(Value::U8(1), Value::Bool(false))]);
        stands_for(
            Type::Map(Box::new(Type::U8), Box::new(Type::Bool)),
            map,
            &[1, 0, 0, 0, 0, 0, 0, 0, 1, 0],
        );
        assert_eq!(
            read_image(&[Type::String], &[1, 0, 0, 0, 0, 0, 0, 0, 0xff]),
            Err(ImageError::Malformed(8))
        );
        assert_eq!(
            read_image(&[Type::list(Type::U8)], &[0xff; 8]),
            Err(ImageError::Truncated)
        );
    }

    #[test]
    fn made_of_others() {
        let ty = Type::record([("a", Type::U8), ("b", Type::U16)]);
        stands_for(
            ty,
            Value::record([("a", Value::U8(1)), ("b", Value::U16(2))]),
            &[1, 2, 0],
        );
        stands_for(
            Type::Tuple(vec![Type::U8, Type::U8]),
            Value::Tuple(vec![Value::U8(3), Value::U8(4)]),
            &[3, 4],
        );
        let cases = vec![("x".into(), None), ("y".into(), Some(Type::U16))];
        stands_for(
            Type::Variant(cases),
            Value::Variant("y".into(), Some(Box::new(Value::U16(5)))),
            &[1, 5, 0],
        );
        stands_for(
            Type::Enum(names(&["a", "b", "c"])),
            Value::Enum("c".into()),
            &[2],
        );
        stands_for(
            Type::Option(Box::new(Type::U8)),
            Value::Option(Some(Box::new(Value::U8(7)))),
            &[1, 7],
        );
        stands_for(
            Type::Result(None, Some(Box::new(Type::U8))),
            Value::Result(Ok(None)),
            &[0],
        );
        let many: Vec<String> = (0..9).map(|it| it.to_string()).collect();
        stands_for(Type::Flags(many), Value::Flags(names(&["0", "8"])), &[1, 1]);
        assert_eq!(
            read_image(&[Type::Flags(names(&["a", "b", "c"]))], &[8]),
            Err(ImageError::Malformed(0))
        );
        assert_eq!(
            image(&[Type::U8], &[Value::U16(1)]),
            Err(ImageError::NotOfType)
        );
    }
}
